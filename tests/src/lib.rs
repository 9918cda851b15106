//! What the independent tests stand on. Nothing here is taken from the proved crates: `checker`, `lister`,
//! `ring_lister` and `rules` are written from the customer's documents and the readings in docs/DECISIONS.md, plainly and
//! without any pruning, so that an answer they share with the static library is no shared mistake.

pub mod asked;
pub mod calls;
pub mod case;
pub mod checker;
pub mod damage;
pub mod faults;
pub mod files;
pub mod lent;
pub mod lister;
pub mod outside;
pub mod pages;
pub mod programme;
pub mod questions;
pub mod random;
pub mod ring_lister;
pub mod rules;
pub mod verdicts;
