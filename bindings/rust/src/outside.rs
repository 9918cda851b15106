//! The library's seven functions, as `include/kin.h` declares them, each with a safe call. All unsafe code is here.
//!
//! Why the calls are safe: the functions are proved for any slices and any numbers, they touch only the slices lent to
//! them, of their lengths, and keep no pointer; Rust's slices are aligned and never overlap where one may be written.

use crate::Question;

extern "C" {
    fn kin_check(file: *const u8, file_length: usize) -> u64;
    fn kin_row(file: *const u8, file_length: usize, person: u32) -> u64;
    fn kin_fewest(
        file: *const u8,
        file_length: usize,
        from: u32,
        to: u32,
        hops: u32,
        classes: u32,
        meaning: u32,
        first: u32,
        last: u32,
        undated: u32,
        person: u32,
    ) -> u64;
    fn kin_portion(
        file: *const u8,
        file_length: usize,
        from: u32,
        to: u32,
        hops: u32,
        classes: u32,
        meaning: u32,
        first: u32,
        last: u32,
        undated: u32,
        started: u32,
        bookmark: *const u32,
        bookmark_length: usize,
        output: *mut u32,
        output_length: usize,
    ) -> u64;
    fn kin_rings(
        file: *const u8,
        file_length: usize,
        from: u32,
        to: u32,
        hops: u32,
        classes: u32,
        meaning: u32,
        first: u32,
        last: u32,
        undated: u32,
        started: u32,
        bookmark: *const u32,
        bookmark_length: usize,
        output: *mut u32,
        output_length: usize,
    ) -> u64;
    fn kin_held(
        held: *mut u32,
        held_length: usize,
        file: *const u8,
        file_length: usize,
        output: *mut u32,
        output_length: usize,
    ) -> u64;
    fn kin_join(
        file: *const u8,
        file_length: usize,
        from: u32,
        to: u32,
        hops: u32,
        classes: u32,
        meaning: u32,
        first: u32,
        last: u32,
        undated: u32,
        working: *mut u32,
        working_length: usize,
        output: *mut u32,
        output_length: usize,
    ) -> u64;
}

pub(crate) fn check(file: &[u8]) -> u64 {
    // SAFETY: as said above.
    unsafe { kin_check(file.as_ptr(), file.len()) }
}

pub(crate) fn row(file: &[u8], person: u32) -> u64 {
    // SAFETY: as said above.
    unsafe { kin_row(file.as_ptr(), file.len(), person) }
}

pub(crate) fn fewest(file: &[u8], question: Question, person: u32) -> u64 {
    let [from, to, hops, classes, meaning, first, last, undated] = question.numbers();
    // SAFETY: as said above.
    unsafe {
        kin_fewest(
            file.as_ptr(),
            file.len(),
            from,
            to,
            hops,
            classes,
            meaning,
            first,
            last,
            undated,
            person,
        )
    }
}

pub(crate) fn portion(
    file: &[u8],
    question: Question,
    started: u32,
    bookmark: &[u32],
    output: &mut [u32],
) -> u64 {
    let [from, to, hops, classes, meaning, first, last, undated] = question.numbers();
    // SAFETY: as said above.
    unsafe {
        kin_portion(
            file.as_ptr(),
            file.len(),
            from,
            to,
            hops,
            classes,
            meaning,
            first,
            last,
            undated,
            started,
            bookmark.as_ptr(),
            bookmark.len(),
            output.as_mut_ptr(),
            output.len(),
        )
    }
}

pub(crate) fn rings(
    file: &[u8],
    question: Question,
    started: u32,
    bookmark: &[u32],
    output: &mut [u32],
) -> u64 {
    let [from, to, hops, classes, meaning, first, last, undated] = question.numbers();
    // SAFETY: as said above.
    unsafe {
        kin_rings(
            file.as_ptr(),
            file.len(),
            from,
            to,
            hops,
            classes,
            meaning,
            first,
            last,
            undated,
            started,
            bookmark.as_ptr(),
            bookmark.len(),
            output.as_mut_ptr(),
            output.len(),
        )
    }
}

pub(crate) fn held(held: &mut [u32], file: &[u8], output: &mut [u32]) -> u64 {
    // SAFETY: as said above.
    unsafe {
        kin_held(
            held.as_mut_ptr(),
            held.len(),
            file.as_ptr(),
            file.len(),
            output.as_mut_ptr(),
            output.len(),
        )
    }
}

pub(crate) fn join(
    file: &[u8],
    question: Question,
    working: &mut [u32],
    output: &mut [u32],
) -> u64 {
    let [from, to, hops, classes, meaning, first, last, undated] = question.numbers();
    // SAFETY: as said above.
    unsafe {
        kin_join(
            file.as_ptr(),
            file.len(),
            from,
            to,
            hops,
            classes,
            meaning,
            first,
            last,
            undated,
            working.as_mut_ptr(),
            working.len(),
            output.as_mut_ptr(),
            output.len(),
        )
    }
}
