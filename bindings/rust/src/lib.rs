//! Every chain of kinship between two persons in a file of links, and every ring that leads back to one: safe functions over
//! the proved library.
//!
//! A link file is lent as bytes and never changed. Any bytes, any [`Question`] and any bookmark get their answer or are
//! [`Refused`] with a number and a place; nothing here panics, and a refusal leaves every lent cell as it came.
//!
//! ```
//! let file = std::fs::read("../../examples/six_persons.klf")?;
//! let question = kin::Question::between(0, 5, 4);
//!
//! let counts = kin::check(&file)?;
//! assert_eq!((counts.persons, counts.links, counts.feeds), (6, 10, 2));
//!
//! let mut lines = Vec::new();
//! for chain in kin::chains(&file, question) {
//!     lines.push(chain?.to_string());
//! }
//! assert_eq!(lines, ["3: 0 1 3 5", "4: 0 2 1 3 5", "3: 0 2 3 5"]);
//! # Ok::<(), Box<dyn std::error::Error>>(())
//! ```
//!
//! | To | call |
//! |---|---|
//! | check a file | [`check`] |
//! | see a person's links | [`row_view`], [`links_in`] |
//! | know how far a person is from To | [`fewest_hops`] |
//! | go through all chains | [`chains`] |
//! | ask for one portion of them | [`portion`], then [`chains_in`] |
//! | keep a place in a listing | [`HeldListing`] |
//! | have the shortest chains first | [`join`], then [`chains_in`] |
//! | go through all rings of a person | [`rings`] |
//! | ask for one portion of them | [`ring_portion`], then [`chains_in`] |
//! | go on after a kept ring | [`Rings::onward`] |
//!
//! The library has no state of its own, so that any number of threads may call at once; `include/kin.h` says how much stack
//! each should have. When this package is built, the environment variable `KIN_ARCHIVE` names the library's archive, by its
//! whole path, if it isn't this house's `target/staticlib/liboutside.a`.

#![deny(missing_docs)]

mod answer;
mod chain;
mod chains;
mod classes;
mod date_meaning;
mod held;
mod links;
mod one_by_one;
mod operations;
mod outside;
mod question;
mod refused;
mod rings;

pub use answer::{Counts, Listed};
pub use chain::{chains_in, Chain, Ring, RECORD_CELLS};
pub use chains::{chains, Chains};
pub use classes::Classes;
pub use date_meaning::DateMeaning;
pub use held::{HeldListing, HELD_CELLS, STORED_HELD_CELLS};
pub use links::{links_in, row_view, Link};
pub use operations::{check, fewest_hops, join, portion, ring_portion, Start};
pub use question::{Question, LAST_DAY};
pub use refused::Refused;
pub use rings::{rings, Rings};

/// The version of this package, which is that of `include/kin.h`.
pub const VERSION: &str = env!("CARGO_PKG_VERSION");
