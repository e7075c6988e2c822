//! The programs over job files: each one's launcher, the ending of the files that hold what it must write, and what that is.
use crate::explained::explained;
use crate::jobs::Printed;
use crate::tables::tables;

pub struct Tool {
    pub launcher: &'static str,
    pub ending: &'static str,
    pub expected: fn(&[u8]) -> Printed,
}

pub const TOOLS: [Tool; 2] =
    [Tool { launcher: "tables", ending: "tables", expected: tables }, Tool { launcher: "explain", ending: "rows", expected: explained }];

impl Tool {
    pub fn named(launcher: &str) -> Option<&'static Tool> {
        TOOLS.iter().find(|tool| tool.launcher == launcher)
    }
}
