//! A catalogue of faults for a sound file: each with the change of bytes that makes it, and the refusal number and
//! place that the customer's table gives it. The places are stated by hand, so the catalogue tests the independent
//! checker as well as the library.

use crate::checker::Refusal;
use crate::files::{Link, LinkFile};

/// One change of a file's bytes.
#[derive(Clone, Debug, PartialEq, Eq)]
pub enum Change {
    Put { at: usize, bytes: Vec<u8> },
    Cut { length: usize },
    Append { bytes: Vec<u8> },
}

#[derive(Clone, Debug)]
pub struct Fault {
    pub words: String,
    pub refusal: Refusal,
    pub change: Change,
}

impl Fault {
    /// Where the fault stands in the order in which faults are looked at.
    pub fn rank(&self) -> (u32, u32, u32) {
        let Refusal { number, place } = self.refusal;
        let table = match number {
            4 | 5 => 4,
            7..=9 => 7,
            other => other,
        };
        (table, place, number)
    }

    /// Can both changes be made in one file, so that each is still there?
    pub fn goes_with(&self, other: &Fault) -> bool {
        match (&self.change, &other.change) {
            (Change::Put { at: a, bytes: x }, Change::Put { at: b, bytes: y }) => {
                a + x.len() <= *b || b + y.len() <= *a
            }
            (Change::Put { .. }, _) | (_, Change::Put { .. }) => true,
            _ => false,
        }
    }
}

/// The file with the faults in it: bytes are put first, then the length is changed.
pub fn with_faults(file: &[u8], faults: &[&Fault]) -> Vec<u8> {
    let mut changed = file.to_vec();
    for fault in faults {
        if let Change::Put { at, bytes } = &fault.change {
            changed[*at..*at + bytes.len()].copy_from_slice(bytes);
        }
    }
    for fault in faults {
        match &fault.change {
            Change::Put { .. } => {}
            Change::Cut { length } => changed.truncate(*length),
            Change::Append { bytes } => changed.extend(bytes),
        }
    }
    changed
}

/// Every fault of the catalogue at every place of the file. Each stays what it is whatever faults of higher rank are
/// put beside it: so of two that go together, the lower ranked one is the verdict.
pub fn catalogue(file: &LinkFile) -> Vec<Fault> {
    let mut faults = vec![];
    marks(&mut faults);
    counts(file, &mut faults);
    header(file, &mut faults);
    for place in 0..file.feeds.len() {
        feeds(file, place, &mut faults);
    }
    entries(file, &mut faults);
    for_links(file, |place, person, before, link| {
        links(file, place, person, before, link, &mut faults)
    });
    faults
}

/// Faults that show one place behind the change that makes them: a number raised so that the next one no longer rises
/// above it. Another change at that place may mend them, so they are tried alone.
pub fn shown_behind(file: &LinkFile) -> Vec<Fault> {
    let mut faults = vec![];
    for place in 1..file.feeds.len() {
        let archive = file.feeds[place].archive;
        let at = file.feed_at(place - 1);
        put16(&mut faults, "archive before raised", 4, place, at, archive);
    }
    let row_table = file.entries();
    for place in 2..row_table.len() {
        for raised in [row_table[place] + 1, u32::MAX, 1 << 31] {
            let at = file.entry_at(place - 1);
            put32(&mut faults, "entry before raised", 6, place, at, raised);
        }
    }
    for_links(file, |place, person, before, link| {
        if before.is_some() && link.target != person {
            let at = file.link_at(place - 1);
            put32(
                &mut faults,
                "target before raised",
                7,
                place,
                at,
                link.target,
            );
        }
    });
    faults
}

/// Calls with each link's number, its owner, the link before it in the row, and the link.
fn for_links(file: &LinkFile, mut each: impl FnMut(usize, u32, Option<&Link>, &Link)) {
    let mut place = 0;
    for (person, row) in file.rows.iter().enumerate() {
        for (i, link) in row.iter().enumerate() {
            let before = if i == 0 { None } else { Some(&row[i - 1]) };
            each(place, person as u32, before, link);
            place += 1;
        }
    }
}

fn marks(faults: &mut Vec<Fault>) {
    for (at, right) in b"KLF1".iter().enumerate() {
        for wrong in [0, 255, right + 1, right - 1, right ^ 0x20] {
            put8(faults, "mark", 1, 0, at, wrong);
        }
    }
    for length in [0, 1, 3, 4, 5, 16, 28, 31] {
        cut(faults, "under 32 bytes", 1, length);
    }
}

fn counts(file: &LinkFile, faults: &mut Vec<Fault>) {
    let right = [file.persons(), file.links(), file.feeds.len()];
    for wrong in [0, 1025, 65_536 + right[0] as u32, 1 << 31, u32::MAX] {
        put32(faults, "person count", 2, 0, 4, wrong);
    }
    for wrong in [4097, 65_536 + right[1] as u32, 1 << 31, u32::MAX] {
        put32(faults, "link count", 2, 0, 8, wrong);
    }
    for wrong in [17, 256, 65_536 + right[2] as u32, 1 << 31, u32::MAX] {
        put32(faults, "feed count", 2, 0, 12, wrong);
    }
}

fn header(file: &LinkFile, faults: &mut Vec<Fault>) {
    other_counts(file, faults);
    let derived = [
        ("offset of the feed table", 16, file.feed_at(0)),
        ("offset of the row table", 20, file.entry_at(0)),
        ("offset of the link table", 24, file.link_at(0)),
        ("file length", 28, file.length()),
    ];
    for (words, at, right) in derived {
        let right = right as u32;
        let wrongs = [
            0,
            right - 1,
            right + 1,
            right + 4,
            right + 12,
            right + 65_536,
            right + (1 << 31),
            u32::MAX,
        ];
        for wrong in wrongs {
            put32(faults, words, 3, 0, at, wrong);
        }
    }
    for length in [32, file.length() - 12, file.length() - 4, file.length() - 1] {
        if length >= 32 && length < file.length() {
            cut(faults, "slice too short", 3, length);
        }
    }
    for length in [1, 4, 12, 256] {
        let change = Change::Append {
            bytes: vec![0; length],
        };
        push(faults, "slice too long", 3, 0, change);
    }
}

/// Counts that keep their limits but are not this file's.
fn other_counts(file: &LinkFile, faults: &mut Vec<Fault>) {
    let limits = [
        ("other person count", 4, file.persons(), 1, 1024),
        ("other link count", 8, file.links(), 0, 4096),
        ("other feed count", 12, file.feeds.len(), 0, 16),
    ];
    for (words, at, right, least, most) in limits {
        for wrong in [least, right.saturating_sub(1), right + 1, most] {
            if wrong >= least && wrong <= most && wrong != right {
                put32(faults, words, 3, 0, at, wrong as u32);
            }
        }
    }
}

fn feeds(file: &LinkFile, place: usize, faults: &mut Vec<Fault>) {
    let at = file.feed_at(place);
    put16(faults, "archive 0", 4, place, at, 0);
    if place > 0 {
        let before = file.feeds[place - 1].archive;
        for wrong in [before, before - 1, 1] {
            put16(faults, "archive not rising", 4, place, at, wrong);
        }
    }
    for wrong in [1, 2, 128, 255] {
        put8(faults, "feed's last byte", 4, place, at + 3, wrong);
    }
    for wrong in [0, 3, 129, 255] {
        put8(faults, "feed's meaning", 5, place, at + 2, wrong);
    }
}

fn entries(file: &LinkFile, faults: &mut Vec<Fault>) {
    let right = file.entries();
    let last = right.len() - 1;
    for wrong in [1, 256, 1 << 24, u32::MAX] {
        put32(faults, "first entry", 6, 0, file.entry_at(0), wrong);
    }
    for place in 1..=last {
        if right[place - 1] > 0 {
            for wrong in [0, right[place - 1] - 1] {
                let at = file.entry_at(place);
                put32(faults, "entry falls", 6, place, at, wrong);
            }
        }
    }
    let m = right[last];
    for wrong in [m + 1, m + 256, m + 65_536, m + (1 << 31), u32::MAX] {
        put32(faults, "last entry", 6, last, file.entry_at(last), wrong);
    }
    if m > 0 {
        put32(faults, "last entry", 6, last, file.entry_at(last), m - 1);
    }
}

fn links(
    file: &LinkFile,
    place: usize,
    person: u32,
    before: Option<&Link>,
    link: &Link,
    faults: &mut Vec<Fault>,
) {
    let at = file.link_at(place);
    let n = file.persons() as u32;
    let f = file.feeds.len() as u16;
    for wrong in [n, n + 1, 65_536 + link.target, 1 << 31, u32::MAX] {
        put32(faults, "target", 7, place, at, wrong);
    }
    put32(faults, "own person as target", 7, place, at, person);
    if let Some(before) = before {
        for wrong in [before.target, before.target.saturating_sub(1), 0] {
            put32(faults, "target not rising", 7, place, at, wrong);
        }
    }
    for wrong in [f, f + 1, 256 + link.feed, u16::MAX] {
        put16(faults, "feed index", 7, place, at + 8, wrong);
    }
    for wrong in [1, 2, 128, 255] {
        put8(faults, "link's last byte", 7, place, at + 11, wrong);
    }
    for wrong in [0, 6, 15, 32, 33, 129, 255] {
        put8(faults, "kind", 8, place, at + 10, wrong);
    }
    for wrong in [3_652_060, 3_652_061, 1 << 24, 1 << 31, u32::MAX] {
        put32(faults, "day", 9, place, at + 4, wrong);
    }
}

// Writing a fault down.

fn put8(faults: &mut Vec<Fault>, words: &str, number: u32, place: usize, at: usize, wrong: u8) {
    let bytes = vec![wrong];
    push(faults, words, number, place, Change::Put { at, bytes });
}

fn put16(faults: &mut Vec<Fault>, words: &str, number: u32, place: usize, at: usize, wrong: u16) {
    let bytes = wrong.to_le_bytes().to_vec();
    push(faults, words, number, place, Change::Put { at, bytes });
}

fn put32(faults: &mut Vec<Fault>, words: &str, number: u32, place: usize, at: usize, wrong: u32) {
    let bytes = wrong.to_le_bytes().to_vec();
    push(faults, words, number, place, Change::Put { at, bytes });
}

fn cut(faults: &mut Vec<Fault>, words: &str, number: u32, length: usize) {
    push(faults, words, number, 0, Change::Cut { length });
}

fn push(faults: &mut Vec<Fault>, words: &str, number: u32, place: usize, change: Change) {
    let place = place as u32;
    faults.push(Fault {
        words: format!("{words}: {change:?} gives {number} at {place}"),
        refusal: Refusal { number, place },
        change,
    });
}
