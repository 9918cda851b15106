//! An independent verdict on a link file: the counts of a file that passes, or the refusal, by the customer's order.

/// What a file that passes answers: person count, link count, feed count.
#[derive(Clone, Copy, Debug, PartialEq, Eq)]
pub struct Counts {
    pub n: u32,
    pub m: u32,
    pub f: u32,
}

#[derive(Clone, Copy, Debug, PartialEq, Eq)]
pub struct Refusal {
    pub number: u32,
    pub place: u32,
}

pub type Verdict = Result<Counts, Refusal>;

pub const LAST_DAY: u32 = 3_652_059;

/// The header's eight fields have four bytes each.
const HEADER: usize = 32;

pub fn verdict(file: &[u8]) -> Verdict {
    mark(file)?;
    let counts = counts(file)?;
    header(file, counts)?;
    feeds(file, counts)?;
    rows(file, counts)?;
    links(file, counts)?;
    Ok(counts)
}

/// The bytes of a person's links: none for a refused file or a person out of range.
pub fn row_view(file: &[u8], person: u32) -> &[u8] {
    match verdict(file) {
        Ok(counts) if person < counts.n => {
            let (first, end) = row(file, counts, person);
            &file[link_at(counts, first)..link_at(counts, end)]
        }
        _ => &[],
    }
}

pub fn refused<T>(number: u32, place: u32) -> Result<T, Refusal> {
    Err(Refusal { number, place })
}

// Where things stand, for a file whose header is right.

pub fn feed_at(feed: u32) -> usize {
    HEADER + 4 * feed as usize
}

pub fn entry_at(counts: Counts, entry: u32) -> usize {
    feed_at(counts.f) + 4 * entry as usize
}

pub fn link_at(counts: Counts, link: u32) -> usize {
    entry_at(counts, counts.n + 1) + 12 * link as usize
}

/// The first link of a person's row, and the one behind its last.
pub fn row(file: &[u8], counts: Counts, person: u32) -> (u32, u32) {
    let first = number32(file, entry_at(counts, person));
    let end = number32(file, entry_at(counts, person + 1));
    (first, end)
}

pub struct Feed {
    pub archive: u32,
    pub meaning: u8,
    pub last_byte: u8,
}

pub fn feed(file: &[u8], feed: u32) -> Feed {
    let at = feed_at(feed);
    Feed {
        archive: number16(file, at),
        meaning: file[at + 2],
        last_byte: file[at + 3],
    }
}

pub struct Link {
    pub target: u32,
    pub day: u32,
    pub feed: u32,
    pub kind: u8,
    pub last_byte: u8,
}

pub fn link(file: &[u8], counts: Counts, link: u32) -> Link {
    let at = link_at(counts, link);
    Link {
        target: number32(file, at),
        day: number32(file, at + 4),
        feed: number16(file, at + 8),
        kind: file[at + 10],
        last_byte: file[at + 11],
    }
}

/// The class of a kind, or nothing where the kind is unknown.
pub fn class(kind: u8) -> Option<u32> {
    if kind == 1 || kind == 2 || kind == 4 {
        Some(1)
    } else if kind == 3 {
        Some(2)
    } else if kind == 5 {
        Some(4)
    } else if (16..=31).contains(&kind) {
        Some(8)
    } else {
        None
    }
}

// The refusals 1 to 9.

fn mark(file: &[u8]) -> Result<(), Refusal> {
    if file.len() < HEADER || &file[..4] != b"KLF1" {
        return refused(1, 0);
    }
    Ok(())
}

fn counts(file: &[u8]) -> Result<Counts, Refusal> {
    let counts = Counts {
        n: number32(file, 4),
        m: number32(file, 8),
        f: number32(file, 12),
    };
    if counts.n < 1 || counts.n > 1024 || counts.m > 4096 || counts.f > 16 {
        return refused(2, 0);
    }
    Ok(counts)
}

fn header(file: &[u8], counts: Counts) -> Result<(), Refusal> {
    let length = link_at(counts, counts.m);
    let derived = [
        HEADER,
        entry_at(counts, 0),
        link_at(counts, 0),
        length,
        file.len(),
    ];
    let told = [
        number32(file, 16) as usize,
        number32(file, 20) as usize,
        number32(file, 24) as usize,
        number32(file, 28) as usize,
        length,
    ];
    if told != derived {
        return refused(3, 0);
    }
    Ok(())
}

fn feeds(file: &[u8], counts: Counts) -> Result<(), Refusal> {
    let mut archive_before = 0;
    for place in 0..counts.f {
        let feed = feed(file, place);
        // Before the first feed stands 0: rising above it says that the archive number is 1 or more.
        if feed.archive <= archive_before || feed.last_byte != 0 {
            return refused(4, place);
        }
        if feed.meaning != 1 && feed.meaning != 2 {
            return refused(5, place);
        }
        archive_before = feed.archive;
    }
    Ok(())
}

fn rows(file: &[u8], counts: Counts) -> Result<(), Refusal> {
    for place in 0..=counts.n {
        let entry = number32(file, entry_at(counts, place));
        let starts_wrong = place == 0 && entry != 0;
        let falls = place > 0 && entry < number32(file, entry_at(counts, place - 1));
        let ends_wrong = place == counts.n && entry != counts.m;
        if starts_wrong || falls || ends_wrong {
            return refused(6, place);
        }
    }
    Ok(())
}

fn links(file: &[u8], counts: Counts) -> Result<(), Refusal> {
    for person in 0..counts.n {
        let (first, end) = row(file, counts, person);
        for place in first..end {
            let link = link(file, counts, place);
            let rises = place == first || link.target > self::link(file, counts, place - 1).target;
            if link.target >= counts.n
                || link.target == person
                || !rises
                || link.feed >= counts.f
                || link.last_byte != 0
            {
                return refused(7, place);
            }
            if class(link.kind).is_none() {
                return refused(8, place);
            }
            if link.day > LAST_DAY {
                return refused(9, place);
            }
        }
    }
    Ok(())
}

fn number16(file: &[u8], at: usize) -> u32 {
    u32::from(file[at]) + 256 * u32::from(file[at + 1])
}

fn number32(file: &[u8], at: usize) -> u32 {
    number16(file, at) + 65_536 * number16(file, at + 2)
}
