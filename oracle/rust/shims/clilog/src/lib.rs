//! Stands in for `clilog`: the log macros that the Rust calls, doing nothing.

#[macro_export]
macro_rules! info {
    ($($part:tt)*) => {};
}

#[macro_export]
macro_rules! error {
    ($($part:tt)*) => {};
}
