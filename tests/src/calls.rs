//! The exported functions of the static library, each slice a pair of pointer and length, and how the one number that
//! comes back is taken apart. Nothing is looked after here: `outside` lends the memory and sees to it.

use crate::checker::{Counts, Refusal, Verdict};
use crate::lister::{Listed, Question};

/// A lent slice: its pointer and its length in elements.
pub type Slice<T> = (*mut T, usize);

/// No elements, at the null pointer.
pub fn nothing<T>() -> Slice<T> {
    (std::ptr::null_mut(), 0)
}

#[rustfmt::skip]
extern "C" {
    fn kin_check(file: *const u8, file_length: usize) -> u64;
    fn kin_row(file: *const u8, file_length: usize, person: u32) -> u64;
    fn kin_fewest(
        file: *const u8, file_length: usize,
        from: u32, to: u32, hops: u32, classes: u32, meaning: u32, first_day: u32, last_day: u32, undated: u32,
        person: u32,
    ) -> u64;
    fn kin_portion(
        file: *const u8, file_length: usize,
        from: u32, to: u32, hops: u32, classes: u32, meaning: u32, first_day: u32, last_day: u32, undated: u32,
        started: u32, bookmark: *const u32, bookmark_length: usize,
        out: *mut u32, out_length: usize,
    ) -> u64;
    fn kin_rings(
        file: *const u8, file_length: usize,
        from: u32, to: u32, hops: u32, classes: u32, meaning: u32, first_day: u32, last_day: u32, undated: u32,
        started: u32, bookmark: *const u32, bookmark_length: usize,
        out: *mut u32, out_length: usize,
    ) -> u64;
    fn kin_held(
        held: *mut u32, held_length: usize,
        file: *const u8, file_length: usize,
        out: *mut u32, out_length: usize,
    ) -> u64;
    fn kin_join(
        file: *const u8, file_length: usize,
        from: u32, to: u32, hops: u32, classes: u32, meaning: u32, first_day: u32, last_day: u32, undated: u32,
        working: *mut u32, working_length: usize,
        out: *mut u32, out_length: usize,
    ) -> u64;
}

pub fn check(file: Slice<u8>) -> Verdict {
    passed_or_refused(unsafe { kin_check(file.0, file.1) })
}

/// The length in bytes of a person's row view.
pub fn row(file: Slice<u8>, person: u32) -> u64 {
    unsafe { kin_row(file.0, file.1, person) }
}

#[rustfmt::skip]
pub fn fewest(file: Slice<u8>, q: &Question, person: u32) -> Result<u64, Refusal> {
    not_refused(unsafe {
        kin_fewest(
            file.0, file.1,
            q.from, q.to, q.hops, q.classes, q.meaning, q.first_day, q.last_day, q.undated,
            person,
        )
    })
}

#[rustfmt::skip]
pub fn portion(
    file: Slice<u8>, q: &Question, started: u32, bookmark: Slice<u32>, out: Slice<u32>,
) -> Result<Listed, Refusal> {
    listed_or_refused(unsafe {
        kin_portion(
            file.0, file.1,
            q.from, q.to, q.hops, q.classes, q.meaning, q.first_day, q.last_day, q.undated,
            started, bookmark.0, bookmark.1,
            out.0, out.1,
        )
    })
}

#[rustfmt::skip]
pub fn rings(
    file: Slice<u8>, q: &Question, started: u32, bookmark: Slice<u32>, out: Slice<u32>,
) -> Result<Listed, Refusal> {
    listed_or_refused(unsafe {
        kin_rings(
            file.0, file.1,
            q.from, q.to, q.hops, q.classes, q.meaning, q.first_day, q.last_day, q.undated,
            started, bookmark.0, bookmark.1,
            out.0, out.1,
        )
    })
}

/// Where the held listing's cells are neither 18 nor 19 the answer is exactly 2^63: a refusal of number 0 at place 0.
pub fn held(held: Slice<u32>, file: Slice<u8>, out: Slice<u32>) -> Result<Listed, Refusal> {
    listed_or_refused(unsafe { kin_held(held.0, held.1, file.0, file.1, out.0, out.1) })
}

#[rustfmt::skip]
pub fn join(
    file: Slice<u8>, q: &Question, working: Slice<u32>, out: Slice<u32>,
) -> Result<Listed, Refusal> {
    listed_or_refused(unsafe {
        kin_join(
            file.0, file.1,
            q.from, q.to, q.hops, q.classes, q.meaning, q.first_day, q.last_day, q.undated,
            working.0, working.1,
            out.0, out.1,
        )
    })
}

// Answers. Each of the 64 bits has its place in what an answer is taken apart into, so no stray bit is overlooked.

fn passed_or_refused(answer: u64) -> Verdict {
    let answer = not_refused(answer)?;
    Ok(Counts {
        n: (answer % (1 << 16)) as u32,
        m: (answer >> 16) as u32 % (1 << 16),
        f: (answer >> 32) as u32,
    })
}

/// Listed is how many, plus 2^62 if the listing has ended.
fn listed_or_refused(answer: u64) -> Result<Listed, Refusal> {
    let answer = not_refused(answer)?;
    Ok(Listed {
        count: answer % (1 << 62),
        ended: answer >> 62 == 1,
    })
}

/// A refusal is 2^63 + number * 2^32 + place.
fn not_refused(answer: u64) -> Result<u64, Refusal> {
    if answer < 1 << 63 {
        return Ok(answer);
    }
    let told = answer - (1 << 63);
    Err(Refusal {
        number: (told >> 32) as u32,
        place: told as u32,
    })
}
