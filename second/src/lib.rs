//! A second program for paper 01, plain and apart from the proved one, to hold that one against.
pub mod coding;
pub mod grid;
