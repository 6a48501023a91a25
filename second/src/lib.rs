//! A second implementation of document 01, written from the papers without sight of the first.
//!
//! `operations` holds the four operations. Beneath it lie the scanner, the grammar reader,
//! the steps compiler, the two layouts, the store, and two evaluators: `evaluate` over
//! statements, after document 002, and `run` over steps. `generate` makes seeded test cases,
//! `compare` calls of the operations for a program of the proved code, `trial` those of run by name,
//! `wave` descriptions to measure with; `dump` and `json` show a table.

pub mod act;
pub mod checks;
pub mod compare;
pub mod dump;
pub mod evaluate;
pub mod generate;
pub mod grammar;
pub mod json;
pub mod layout;
pub mod layout_steps;
pub mod layout_table;
pub mod limits;
pub mod operations;
pub mod refusal;
pub mod run;
pub mod scan;
pub mod steps;
pub mod store;
pub mod trial;
pub mod wave;
