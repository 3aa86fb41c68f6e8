//! Stands in for `netlistdb`: the fields, types and traits that the Rust reads, and nothing else.

use compact_str::CompactString;
use std::fmt::Display;
use sverilogparse::SVerilogRange;

#[derive(Debug, Clone, Copy, PartialEq, Eq)]
pub enum Direction {
    I,
    O,
}

/// The name of a cell: its number, or for messages of the cell library the name of its kind.
#[derive(Debug, Clone)]
pub enum HierName {
    Cell(usize),
    Kind(CompactString),
}

impl HierName {
    pub fn single(kind: CompactString) -> HierName {
        HierName::Kind(kind)
    }
}

pub trait GeneralHierName {
    fn dbg_fmt_hier(&self) -> String;
}

impl GeneralHierName for HierName {
    fn dbg_fmt_hier(&self) -> String {
        match self {
            HierName::Cell(cell) => format!("cell{cell}"),
            HierName::Kind(kind) => kind.to_string(),
        }
    }
}

pub trait GeneralPinName {
    fn dbg_fmt_pin(&self) -> String;
}

impl<Name: Display> GeneralPinName for (HierName, Name, Option<isize>) {
    fn dbg_fmt_pin(&self) -> String {
        let bit = self.2.map_or(String::new(), |bit| format!("[{bit}]"));
        format!("{}:{}{}", self.0.dbg_fmt_hier(), self.1, bit)
    }
}

pub trait LeafPinProvider {
    fn direction_of(
        &self,
        macro_name: &CompactString,
        pin_name: &CompactString,
        pin_idx: Option<isize>,
    ) -> Direction;

    fn width_of(
        &self,
        macro_name: &CompactString,
        pin_name: &CompactString,
    ) -> Option<SVerilogRange>;
}

/// Lists one after the other: list `i` is `items[start[i]..start[i + 1]]`.
#[derive(Debug)]
pub struct VecCSR {
    pub start: Vec<usize>,
    pub items: Vec<usize>,
}

impl VecCSR {
    pub fn iter_set(&self, set: usize) -> impl Iterator<Item = usize> + '_ {
        self.items[self.start[set]..self.start[set + 1]].iter().copied()
    }
}

#[derive(Debug)]
pub struct NetlistDB {
    pub num_cells: usize,
    pub num_pins: usize,
    pub cellnames: Vec<HierName>,
    pub celltypes: Vec<CompactString>,
    pub cell2pin: VecCSR,
    pub pinnames: Vec<(HierName, CompactString, Option<isize>)>,
    pub pindirect: Vec<Direction>,
    pub pin2cell: Vec<usize>,
    pub pin2net: Vec<usize>,
    /// The driver of each net stands first.
    pub net2pin: VecCSR,
    pub net_zero: Option<usize>,
    pub net_one: Option<usize>,
}
