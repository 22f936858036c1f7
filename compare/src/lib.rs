//! A second implementation of the outline's rules, and what holds the static
//! library and the program against it.

pub mod cases;
pub mod door;
pub mod plain;
pub mod program;
pub mod rebuilt;
pub mod reference;
pub mod report;
pub mod rng;
pub mod rows;
pub mod search;
pub mod shapes;
pub mod shrink;
pub mod steps;
pub mod walks;

#[cfg(test)]
mod reference_tests;
#[cfg(test)]
mod shapes_tests;
