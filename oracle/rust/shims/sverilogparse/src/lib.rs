//! Stands in for `sverilogparse`: the one type that the cell library names.

pub struct SVerilogRange(pub isize, pub isize);
