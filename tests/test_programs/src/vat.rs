//! Memory of a vat: allocation failures, and what is counted.

mod contents;
mod in_place;
mod memory;
