//! The library's verdict on a file, held against the independent checker's and against verdicts stated by hand.

use crate::checker::{self, Counts, Refusal, Verdict};
use crate::files::LinkFile;
use crate::outside;

/// Asks the library and the checker, who have to agree.
pub fn agreed(file: &[u8], words: impl Fn() -> String) -> Verdict {
    let right = checker::verdict(file);
    let told = outside::check(file);
    assert!(
        told == right,
        "{}: told {told:?}, right is {right:?}",
        words()
    );
    right
}

pub fn agree(file: &[u8], words: impl Fn() -> String) {
    let _ = agreed(file, words);
}

/// Asks both, whose verdict has to be the one stated.
pub fn stated(file: &[u8], verdict: Verdict, words: impl Fn() -> String) {
    let told = agreed(file, &words);
    assert!(
        told == verdict,
        "{}: told {told:?}, stated is {verdict:?}",
        words()
    );
}

pub fn passes(file: &LinkFile, words: &str) {
    let counts = Counts {
        n: file.persons() as u32,
        m: file.links() as u32,
        f: file.feeds.len() as u32,
    };
    stated(&file.bytes(), Ok(counts), || words.to_string());
}

pub fn refuses(file: &[u8], number: u32, place: u32, words: &str) {
    let refusal = Refusal { number, place };
    stated(file, Err(refusal), || words.to_string());
}

pub fn put32(file: &mut [u8], at: usize, number: u32) {
    file[at..at + 4].copy_from_slice(&number.to_le_bytes());
}
