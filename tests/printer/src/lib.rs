//! An independent implementation of reading, folding, direct evaluation, the table printer and the row explainer, and random formulas and job
//! files to hold the proved ones against it. The program is in main.rs; the tests under rust/ use this library too.
pub mod cases;
pub mod compare;
#[cfg(test)]
mod documents;
mod explained;
mod files;
pub mod folding;
pub mod formula;
mod formulas;
mod grammar;
mod jobs;
pub mod random;
pub mod reasons;
mod tables;
pub mod tools;
