//! A second fuel-sequence planner, written from paper 01 and orders 1 to 6 of paper 02
//! alone, and the random books, vectors and comparisons that hold another planner against it.
//!
//! The planner: `book`, `changeovers`, `dates`, `binding`, `check`, `plan`, `board`,
//! `passes`, `trials`, `writing`, `text`, `programs`, `calls`, `tables`, `lists` and
//! `contents`. Its own check: `exhaustive`. What feeds tests: `random`, `draft`, which also
//! lays out what `writing` writes, `generate`, `seasons`, `damage`, `inputs`, `faults`,
//! `named_runs`, `any_inputs`, `table_inputs`, `pass_inputs`, `content_inputs`,
//! `content_samples`, `list_inputs`, `large`, `sources`, `samples`, `vectors`, `frames` and
//! `kinds`.

#![forbid(unsafe_code)]

pub mod any_inputs;
pub mod binding;
pub mod board;
pub mod book;
pub mod calls;
pub mod changeovers;
pub mod check;
pub mod content_inputs;
pub mod content_samples;
pub mod contents;
pub mod damage;
pub mod dates;
pub mod draft;
pub mod exhaustive;
pub mod faults;
pub mod frames;
pub mod generate;
pub mod inputs;
pub mod kinds;
pub mod large;
pub mod list_inputs;
pub mod lists;
pub mod named_runs;
pub mod pass_inputs;
pub mod passes;
pub mod plan;
pub mod programs;
pub mod random;
pub mod refusal;
pub mod samples;
pub mod seasons;
pub mod sources;
pub mod table_inputs;
pub mod tables;
pub mod text;
pub mod trials;
pub mod vectors;
pub mod writing;
