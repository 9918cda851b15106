//! The static library with memory lent to it. Every call lends a copy and fails if memory that has to stay as it came
//! did not.

use crate::calls::{self, nothing, Slice};
use crate::checker::{Refusal, Verdict};
use crate::lent::{Lease, Lent, Memory, VastTail};
use crate::lister::{Listed, Question};

/// A call that hands over a portion of a listing: of chains, or of rings.
type Listing = fn(Slice<u8>, &Question, u32, Slice<u32>, Slice<u32>) -> Result<Listed, Refusal>;

/// The library, lending memory of one sort.
#[derive(Clone, Copy, Debug)]
pub struct Library {
    pub memory: Memory,
}

/// The library as most tests ask it.
pub const USUAL: Library = Library {
    memory: Memory::Zones,
};

/// The library with lent parts at a page's start, and at its end.
pub const AT_THE_EDGES: [Library; 2] = [
    Library {
        memory: Memory::PageStart,
    },
    Library {
        memory: Memory::PageEnd,
    },
];

impl Library {
    fn file(self, file: &[u8]) -> Lent<u8> {
        Lent::in_memory(self.memory, file, Lease::ToRead)
    }

    fn cells(self, cells: &[u32]) -> Lent<u32> {
        Lent::in_memory(self.memory, cells, Lease::ToWrite)
    }

    pub fn check(self, file: &[u8]) -> Verdict {
        let mut lent = self.file(file);
        let told = calls::check(lent.slice());
        lent.assert_as_it_came();
        told
    }

    /// The length in bytes of a person's row view.
    pub fn row(self, file: &[u8], person: u32) -> u64 {
        let mut lent = self.file(file);
        let told = calls::row(lent.slice(), person);
        lent.assert_as_it_came();
        told
    }

    pub fn fewest(self, file: &[u8], question: &Question, person: u32) -> Result<u64, Refusal> {
        let mut lent = self.file(file);
        let told = calls::fewest(lent.slice(), question, person);
        lent.assert_as_it_came();
        told
    }

    /// Asks for a portion; with `started` 0 it is a fresh start and the bookmark isn't looked at. `out` comes back as
    /// the library left it; file and bookmark have to stay as they came.
    pub fn portion(
        self,
        file: &[u8],
        question: &Question,
        started: u32,
        bookmark: &[u32],
        out: &mut [u32],
    ) -> Result<Listed, Refusal> {
        self.hands_over(calls::portion, file, question, started, bookmark, out)
    }

    /// Asks for a portion of the rings, as for one of the chains.
    pub fn rings(
        self,
        file: &[u8],
        question: &Question,
        started: u32,
        bookmark: &[u32],
        out: &mut [u32],
    ) -> Result<Listed, Refusal> {
        self.hands_over(calls::rings, file, question, started, bookmark, out)
    }

    fn hands_over(
        self,
        listing: Listing,
        file: &[u8],
        question: &Question,
        started: u32,
        bookmark: &[u32],
        out: &mut [u32],
    ) -> Result<Listed, Refusal> {
        let mut lent_file = self.file(file);
        let mut lent_bookmark = Lent::in_memory(self.memory, bookmark, Lease::ToRead);
        let mut lent_out = self.cells(out);
        let told = listing(
            lent_file.slice(),
            question,
            started,
            lent_bookmark.slice(),
            lent_out.slice(),
        );
        lent_file.assert_as_it_came();
        lent_bookmark.assert_as_it_came();
        take_back(&lent_out, out);
        told
    }

    /// Moves a copy of a held listing on. `held` and `out` come back as the library left them; the file has to stay as
    /// it came.
    pub fn held(self, held: &mut [u32], file: &[u8], out: &mut [u32]) -> Result<Listed, Refusal> {
        let mut lent_held = self.cells(held);
        let told = self.held_in_place(&mut lent_held, file, out);
        held.copy_from_slice(lent_held.contents());
        told
    }

    /// Moves a held listing on in the memory where it lies, call after call.
    pub fn held_in_place(
        self,
        held: &mut Lent<u32>,
        file: &[u8],
        out: &mut [u32],
    ) -> Result<Listed, Refusal> {
        let mut lent_file = self.file(file);
        let mut lent_out = self.cells(out);
        let told = calls::held(held.slice(), lent_file.slice(), lent_out.slice());
        held.assert_zones_as_they_came();
        lent_file.assert_as_it_came();
        take_back(&lent_out, out);
        told
    }

    /// Lists by joining half chains. `working` and `out` come back as the library left them; the file has to stay as it
    /// came.
    pub fn join(
        self,
        file: &[u8],
        question: &Question,
        working: &mut [u32],
        out: &mut [u32],
    ) -> Result<Listed, Refusal> {
        let mut lent_file = self.file(file);
        let mut lent_working = self.cells(working);
        let mut lent_out = self.cells(out);
        let told = calls::join(
            lent_file.slice(),
            question,
            lent_working.slice(),
            lent_out.slice(),
        );
        lent_file.assert_as_it_came();
        take_back(&lent_working, working);
        take_back(&lent_out, out);
        told
    }
}

/// The cells as the library left them; beside them nothing may have changed.
fn take_back(lent: &Lent<u32>, cells: &mut [u32]) {
    lent.assert_zones_as_they_came();
    cells.copy_from_slice(lent.contents());
}

// The check.

pub fn check(file: &[u8]) -> Verdict {
    USUAL.check(file)
}

/// The check of a file that lies `shift` bytes further in memory.
pub fn check_shifted(file: &[u8], shift: usize) -> Verdict {
    let mut lent = Lent::shifted(file, shift);
    let told = calls::check(lent.slice());
    lent.assert_as_it_came();
    told
}

pub fn check_vast(file: &VastTail) -> Verdict {
    calls::check(file.slice())
}

/// The check of no bytes at the null pointer.
pub fn check_null() -> Verdict {
    calls::check(nothing())
}

// The row view.

pub fn row(file: &[u8], person: u32) -> u64 {
    USUAL.row(file, person)
}

pub fn row_vast(file: &VastTail, person: u32) -> u64 {
    calls::row(file.slice(), person)
}

pub fn row_null(person: u32) -> u64 {
    calls::row(nothing(), person)
}

// Fewest hops.

pub fn fewest(file: &[u8], question: &Question, person: u32) -> Result<u64, Refusal> {
    USUAL.fewest(file, question, person)
}

// The portion.

pub fn portion(
    file: &[u8],
    question: &Question,
    started: u32,
    bookmark: &[u32],
    out: &mut [u32],
) -> Result<Listed, Refusal> {
    USUAL.portion(file, question, started, bookmark, out)
}

/// A portion with no output cells and no bookmark cells, both at the null pointer.
pub fn portion_null(file: &[u8], question: &Question, started: u32) -> Result<Listed, Refusal> {
    hands_over_null(calls::portion, file, question, started)
}

/// A fresh portion without a bookmark's cells at all.
pub fn portion_null_bookmark(
    file: &[u8],
    question: &Question,
    out: &mut [u32],
) -> Result<Listed, Refusal> {
    hands_over_null_bookmark(calls::portion, file, question, 0, out)
}

fn hands_over_null(
    listing: Listing,
    file: &[u8],
    question: &Question,
    started: u32,
) -> Result<Listed, Refusal> {
    let mut lent = Lent::new(file);
    let told = listing(lent.slice(), question, started, nothing(), nothing());
    lent.assert_as_it_came();
    told
}

fn hands_over_null_bookmark(
    listing: Listing,
    file: &[u8],
    question: &Question,
    started: u32,
    out: &mut [u32],
) -> Result<Listed, Refusal> {
    let mut lent_file = Lent::new(file);
    let mut lent_out = Lent::new(out);
    let told = listing(
        lent_file.slice(),
        question,
        started,
        nothing(),
        lent_out.slice(),
    );
    lent_file.assert_as_it_came();
    take_back(&lent_out, out);
    told
}

// The rings.

pub fn rings(
    file: &[u8],
    question: &Question,
    started: u32,
    bookmark: &[u32],
    out: &mut [u32],
) -> Result<Listed, Refusal> {
    USUAL.rings(file, question, started, bookmark, out)
}

/// Rings with no output cells and no bookmark cells, both at the null pointer.
pub fn rings_null(file: &[u8], question: &Question, started: u32) -> Result<Listed, Refusal> {
    hands_over_null(calls::rings, file, question, started)
}

/// Rings without a bookmark's cells at all.
pub fn rings_null_bookmark(
    file: &[u8],
    question: &Question,
    started: u32,
    out: &mut [u32],
) -> Result<Listed, Refusal> {
    hands_over_null_bookmark(calls::rings, file, question, started, out)
}

/// Rings of no bytes at the null pointer.
pub fn rings_null_file(question: &Question, out: &mut [u32]) -> Result<Listed, Refusal> {
    let mut lent_out = Lent::new(out);
    let told = calls::rings(nothing(), question, 0, nothing(), lent_out.slice());
    take_back(&lent_out, out);
    told
}

/// Rings after a bookmark of very many cells.
pub fn rings_vast_bookmark(
    file: &[u8],
    question: &Question,
    bookmark: &VastTail,
    out: &mut [u32],
) -> Result<Listed, Refusal> {
    let (mut lent_file, mut lent_out) = (Lent::new(file), Lent::new(out));
    let told = calls::rings(
        lent_file.slice(),
        question,
        1,
        bookmark.slice(),
        lent_out.slice(),
    );
    lent_file.assert_as_it_came();
    take_back(&lent_out, out);
    told
}

/// Rings into an output of very many cells.
pub fn rings_vast_output(
    file: &[u8],
    question: &Question,
    out: &VastTail,
) -> Result<Listed, Refusal> {
    let mut lent_file = Lent::new(file);
    let told = calls::rings(lent_file.slice(), question, 0, nothing(), out.slice());
    lent_file.assert_as_it_came();
    told
}

/// Rings of a file of very many bytes.
pub fn rings_vast_file(
    file: &VastTail,
    question: &Question,
    out: &mut [u32],
) -> Result<Listed, Refusal> {
    let mut lent_out = Lent::new(out);
    let told = calls::rings(file.slice(), question, 0, nothing(), lent_out.slice());
    take_back(&lent_out, out);
    told
}

/// A file lent once, with ten cells for a bookmark and ten for a ring that are filled anew before each call: for runs in
/// which lending takes longer than asking.
pub struct Bookmarked {
    file: Lent<u8>,
    bookmark: Lent<u32>,
    out: Lent<u32>,
}

impl Bookmarked {
    pub fn new(file: &[u8]) -> Bookmarked {
        Bookmarked {
            file: Lent::new(file),
            bookmark: Lent::new(&[0; 10]),
            out: Lent::new(&[0; 10]),
        }
    }

    /// Asks for one ring after the bookmark; `out` comes back as the library left it, all else has to stay as it came.
    pub fn ring_after(
        &mut self,
        question: &Question,
        bookmark: &[u32; 10],
        out: &mut [u32; 10],
    ) -> Result<Listed, Refusal> {
        self.bookmark.fill(bookmark);
        self.out.fill(out);
        let told = calls::rings(
            self.file.slice(),
            question,
            1,
            self.bookmark.slice(),
            self.out.slice(),
        );
        self.file.assert_as_it_came();
        self.bookmark.assert_as_it_came();
        take_back(&self.out, out);
        told
    }
}

// The held listing.

pub fn held(held: &mut [u32], file: &[u8], out: &mut [u32]) -> Result<Listed, Refusal> {
    USUAL.held(held, file, out)
}

pub fn held_in_place(
    held: &mut Lent<u32>,
    file: &[u8],
    out: &mut [u32],
) -> Result<Listed, Refusal> {
    USUAL.held_in_place(held, file, out)
}

/// A held listing of no cells at the null pointer.
pub fn held_null(file: &[u8], out: &mut [u32]) -> Result<Listed, Refusal> {
    let (mut lent_file, mut lent_out) = (Lent::new(file), Lent::new(out));
    let told = calls::held(nothing(), lent_file.slice(), lent_out.slice());
    lent_file.assert_as_it_came();
    take_back(&lent_out, out);
    told
}

/// A held listing of very many cells in pages that may only be read: writing to it ends the run.
pub fn held_vast(held: &VastTail, file: &[u8], out: &mut [u32]) -> Result<Listed, Refusal> {
    let (mut lent_file, mut lent_out) = (Lent::new(file), Lent::new(out));
    let told = calls::held(held.slice(), lent_file.slice(), lent_out.slice());
    lent_file.assert_as_it_came();
    take_back(&lent_out, out);
    told
}

/// A held listing without output cells, at the null pointer.
pub fn held_null_output(held: &mut [u32], file: &[u8]) -> Result<Listed, Refusal> {
    let (mut lent_held, mut lent_file) = (Lent::new(held), Lent::new(file));
    let told = calls::held(lent_held.slice(), lent_file.slice(), nothing());
    lent_file.assert_as_it_came();
    take_back(&lent_held, held);
    told
}

// The join.

pub fn join(
    file: &[u8],
    question: &Question,
    working: &mut [u32],
    out: &mut [u32],
) -> Result<Listed, Refusal> {
    USUAL.join(file, question, working, out)
}

/// The join with no working cells, at the null pointer.
pub fn join_null_working(
    file: &[u8],
    question: &Question,
    out: &mut [u32],
) -> Result<Listed, Refusal> {
    let (mut lent_file, mut lent_out) = (Lent::new(file), Lent::new(out));
    let told = calls::join(lent_file.slice(), question, nothing(), lent_out.slice());
    lent_file.assert_as_it_came();
    lent_out.assert_as_it_came();
    told
}

/// The join with no output cells, at the null pointer.
pub fn join_null_output(
    file: &[u8],
    question: &Question,
    working: &mut [u32],
) -> Result<Listed, Refusal> {
    let (mut lent_file, mut lent_working) = (Lent::new(file), Lent::new(working));
    let told = calls::join(lent_file.slice(), question, lent_working.slice(), nothing());
    lent_file.assert_as_it_came();
    lent_working.assert_as_it_came();
    told
}
