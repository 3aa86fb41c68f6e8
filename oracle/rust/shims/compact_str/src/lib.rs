//! Stands in for `compact_str`: all names of the cell library are fixed, so a name is a static string.

use std::fmt;

#[derive(Debug, Clone, Copy, PartialEq, Eq)]
pub struct CompactString(pub &'static str);

impl CompactString {
    pub fn as_str(&self) -> &str {
        self.0
    }

    pub fn as_bytes(&self) -> &[u8] {
        self.0.as_bytes()
    }
}

impl fmt::Display for CompactString {
    fn fmt(&self, f: &mut fmt::Formatter) -> fmt::Result {
        f.write_str(self.0)
    }
}
