//! A second implementation of what the static library does, written from the pages in docs, and what both are tried on.
//! It follows the definitions and is not made for speed.

pub mod components;
pub mod dice;
pub mod formulas;
pub mod generate;
pub mod lent;
pub mod library;
pub mod listing;
pub mod plain;
pub mod reading;
pub mod reducing;
pub mod relation;
pub mod survey;
