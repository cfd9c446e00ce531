//! A second judge of the mailbox core and the recording reader, written from
//! document 01 (the scope) and requests 2026-02 (start values), 2026-04 (a task
//! that reads its own last output), 2026-06 (thirty-two tasks) and 2026-07
//! (earliest deadline first) alone; in `writing` one of the recording writer,
//! and in `settings` one of the settings migrator, both from document 02 (the
//! change requests).
//!
//! `sizes` has the kinds of recordings and the room of a state, `order` the
//! order of tasks and of jobs, `format` reads recordings, `writing` writes them
//! from numbers that are handed over, `pointers` and `zero_time` are two
//! engines that know nothing of each other, `subject` is what gets judged,
//! `laws` says the same rules once more as properties, `wrong` holds the errors
//! that look right, `corpus`, `handovers`, `tables`, `saved` and `exhaustive`
//! make the inputs (out of `random_table`, `schedule`, `nasty` and `example`),
//! `run` compares all the answers, `reach` says how deep it went, `printouts`
//! has what the programs print, and `command` reads the options.

#![forbid(unsafe_code)]

pub mod command;
pub mod corpus;
pub mod engine;
pub mod example;
mod exhaustive;
pub mod format;
pub mod handovers;
mod laws;
mod nasty;
pub mod order;
pub mod pointers;
pub mod printouts;
pub mod prng;
mod random_table;
pub mod reach;
mod run;
pub mod saved;
mod schedule;
pub mod settings;
pub mod sizes;
pub mod state;
pub mod subject;
pub mod tables;
pub mod writing;
pub mod wrong;
mod zero_time;
