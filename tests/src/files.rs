//! Link files to test with: a builder that writes the bytes, the six-person file, largest files, random files.
//! The builder takes any numbers, also such as the check refuses.

use crate::checker::LAST_DAY;
use crate::random::Random;

/// Kinds that are known, each class among them and both ends of 16 to 31.
pub const KNOWN_KINDS: [u8; 10] = [1, 2, 3, 4, 5, 16, 17, 23, 30, 31];

/// The limits of the counts.
pub const MOST_PERSONS: usize = 1024;
pub const MOST_LINKS: usize = 4096;
pub const MOST_FEEDS: usize = 16;

#[derive(Clone, Copy, Debug, PartialEq, Eq)]
pub struct Feed {
    pub archive: u16,
    pub meaning: u8,
    pub last_byte: u8,
}

#[derive(Clone, Copy, Debug, PartialEq, Eq)]
pub struct Link {
    pub target: u32,
    pub day: u32,
    pub feed: u16,
    pub kind: u8,
    pub last_byte: u8,
}

/// A file as its feeds and, for each person, the row of links.
#[derive(Clone, Debug, PartialEq, Eq)]
pub struct LinkFile {
    pub feeds: Vec<Feed>,
    pub rows: Vec<Vec<Link>>,
}

pub fn feed(archive: u16, meaning: u8) -> Feed {
    Feed {
        archive,
        meaning,
        last_byte: 0,
    }
}

pub fn link(target: u32, kind: u8, day: u32, feed: u16) -> Link {
    Link {
        target,
        day,
        feed,
        kind,
        last_byte: 0,
    }
}

impl LinkFile {
    pub fn persons(&self) -> usize {
        self.rows.len()
    }

    pub fn links(&self) -> usize {
        self.rows.iter().map(Vec::len).sum()
    }

    pub fn length(&self) -> usize {
        self.link_at(self.links())
    }

    // Where a table's parts stand among the bytes.

    pub fn feed_at(&self, feed: usize) -> usize {
        32 + 4 * feed
    }

    pub fn entry_at(&self, entry: usize) -> usize {
        self.feed_at(self.feeds.len()) + 4 * entry
    }

    pub fn link_at(&self, link: usize) -> usize {
        self.entry_at(self.persons() + 1) + 12 * link
    }

    /// The row table: where each row starts, then where the last one ends.
    pub fn entries(&self) -> Vec<u32> {
        let mut entries = vec![0];
        let mut links = 0;
        for row in &self.rows {
            links += row.len() as u32;
            entries.push(links);
        }
        entries
    }

    pub fn bytes(&self) -> Vec<u8> {
        let mut bytes = Vec::with_capacity(self.length());
        self.write_header(&mut bytes);
        for feed in &self.feeds {
            bytes.extend(feed.archive.to_le_bytes());
            bytes.extend([feed.meaning, feed.last_byte]);
        }
        for entry in self.entries() {
            bytes.extend(entry.to_le_bytes());
        }
        for link in self.rows.iter().flatten() {
            write_link(link, &mut bytes);
        }
        bytes
    }

    /// The same links, each with the day that its number through the file gets: 0 for undated.
    pub fn dated(mut self, mut day: impl FnMut(usize) -> u32) -> LinkFile {
        for (number, link) in self.rows.iter_mut().flatten().enumerate() {
            link.day = day(number);
        }
        self
    }

    /// The same persons with those links only that are wanted.
    pub fn keeping(mut self, wanted: impl Fn(&Link) -> bool) -> LinkFile {
        for row in &mut self.rows {
            row.retain(&wanted);
        }
        self
    }

    fn write_header(&self, bytes: &mut Vec<u8>) {
        bytes.extend(b"KLF1");
        let numbers = [
            self.persons(),
            self.links(),
            self.feeds.len(),
            self.feed_at(0),
            self.entry_at(0),
            self.link_at(0),
            self.length(),
        ];
        for number in numbers {
            bytes.extend((number as u32).to_le_bytes());
        }
    }
}

fn write_link(link: &Link, bytes: &mut Vec<u8>) {
    bytes.extend(link.target.to_le_bytes());
    bytes.extend(link.day.to_le_bytes());
    bytes.extend(link.feed.to_le_bytes());
    bytes.extend([link.kind, link.last_byte]);
}

/// The file the customer states in full.
pub fn six_persons() -> LinkFile {
    LinkFile {
        feeds: vec![feed(11, 1), feed(27, 2)],
        rows: vec![
            vec![link(1, 1, 700_000, 0), link(2, 3, 0, 0)],
            vec![link(3, 1, 700_100, 0), link(4, 5, 700_200, 1)],
            vec![link(1, 4, 700_050, 0), link(3, 1, 700_300, 0)],
            vec![link(2, 2, 700_300, 0), link(5, 1, 700_400, 0)],
            vec![link(5, 1, 700_500, 0)],
            vec![link(0, 2, 0, 0)],
        ],
    }
}

/// The smallest file there is: one person.
pub fn one_person() -> LinkFile {
    LinkFile {
        feeds: vec![],
        rows: vec![vec![]],
    }
}

/// A file of undated parent links, given as pairs of owner and target.
pub fn undated(persons: usize, pairs: &[(u32, u32)]) -> LinkFile {
    let mut rows = vec![vec![]; persons];
    let mut pairs = pairs.to_vec();
    pairs.sort();
    for (owner, target) in pairs {
        rows[owner as usize].push(link(target, 1, 0, 0));
    }
    LinkFile {
        feeds: vec![feed(1, 1)],
        rows,
    }
}

/// An undated graph in which about `parts` of ten links are there: sparse ones have dead ends and ways that reopen.
pub fn random_graph(random: &mut Random, persons: usize, parts: usize) -> LinkFile {
    let mut pairs = vec![];
    for owner in 0..persons as u32 {
        for target in 0..persons as u32 {
            if owner != target && random.chance(parts, 10) {
                pairs.push((owner, target));
            }
        }
    }
    undated(persons, &pairs)
}

/// Every person linked with every other.
pub fn everybody_linked(persons: usize) -> LinkFile {
    undated(persons, &everybody(persons as u32))
}

/// How many links a graph of so many persons can have.
pub fn links_of_graph(persons: u32) -> u32 {
    persons * (persons - 1)
}

/// The undated graph of a number: each of its bits is one link, owner by owner, target by target.
pub fn graph_of_number(persons: u32, number: u32) -> LinkFile {
    let mut pairs = everybody(persons);
    let mut bits = (0..).map(|bit| number >> bit & 1 == 1);
    pairs.retain(|_| bits.next().expect("bits never end"));
    undated(persons as usize, &pairs)
}

/// All pairs of different persons, in order.
fn everybody(persons: u32) -> Vec<(u32, u32)> {
    (0..persons)
        .flat_map(|owner| (0..persons).map(move |target| (owner, target)))
        .filter(|(owner, target)| owner != target)
        .collect()
}

/// Links both ways, as between relatives: ways close and reopen more often than in other graphs.
pub fn two_way_family(random: &mut Random, persons: usize) -> LinkFile {
    let mut pairs = vec![];
    for _ in 0..random.between(persons, 2 * persons) {
        let (one, other) = (random.below(persons) as u32, random.below(persons) as u32);
        if one != other {
            pairs.extend([(one, other), (other, one)]);
        }
    }
    pairs.sort();
    pairs.dedup();
    undated(persons, &pairs)
}

/// A file with all counts at their limits and four links a person.
pub fn largest() -> LinkFile {
    let rows = (0..MOST_PERSONS)
        .map(|person| {
            let mut targets: Vec<usize> = [1, 7, 300, 1000]
                .iter()
                .map(|step| (person + step) % MOST_PERSONS)
                .collect();
            targets.sort();
            (0..4)
                .map(|i| plain_link(targets[i], 4 * person + i))
                .collect()
        })
        .collect();
    LinkFile {
        feeds: many_feeds(MOST_FEEDS),
        rows,
    }
}

/// A sound link whose kind, day and feed go round with its number.
fn plain_link(target: usize, number: usize) -> Link {
    let days = [0, 1, 700_000, LAST_DAY];
    link(
        target as u32,
        KNOWN_KINDS[number % KNOWN_KINDS.len()],
        days[number % 7 % days.len()],
        (number % MOST_FEEDS) as u16,
    )
}

/// Feeds whose archive numbers cross a byte's bound, and end at the highest number there is.
fn many_feeds(count: usize) -> Vec<Feed> {
    (1..=count)
        .map(|i| {
            let archive = if i == count { 65_535 } else { 100 * i as u16 };
            feed(archive, 1 + (i % 2) as u8)
        })
        .collect()
}

/// A sound file with all counts at their limits, its links spread unevenly: some rows are as full as rows can be.
pub fn largest_uneven(random: &mut Random) -> LinkFile {
    let mut lengths = vec![0; MOST_PERSONS];
    let full = random.below(MOST_PERSONS);
    lengths[full] = MOST_PERSONS - 1;
    for _ in MOST_PERSONS - 1..MOST_LINKS {
        // A few persons get most of what is left, and nobody more than there are others.
        let bound = random.one_of(&[8, 200, MOST_PERSONS]);
        let mut person = random.below(bound);
        while lengths[person] == MOST_PERSONS - 1 {
            person = random.below(MOST_PERSONS);
        }
        lengths[person] += 1;
    }
    let feeds = random_feeds(random, MOST_FEEDS);
    random_rows(random, feeds, &lengths)
}

/// A sound file of a random shape: up to `most_persons` persons, rows empty or full, feeds of both meanings.
pub fn random_file(random: &mut Random, most_persons: usize) -> LinkFile {
    let persons = random.between(1, most_persons);
    let feed_count = random.one_of(&[0, 1, 1, 2, 2, 3, 5, 15, MOST_FEEDS]);
    let fullness = random.below(101);
    let mut lengths = vec![0; persons];
    if feed_count > 0 {
        for length in &mut lengths {
            *length = (1..persons)
                .filter(|_| random.chance(fullness, 100))
                .count();
        }
    }
    let feeds = random_feeds(random, feed_count);
    random_rows(random, feeds, &lengths)
}

pub fn random_feeds(random: &mut Random, count: usize) -> Vec<Feed> {
    let most_step = random.one_of(&[1, 3, 300, 4000]);
    let mut archive = 0;
    (0..count)
        .map(|_| {
            archive += random.between(1, most_step) as u16;
            feed(archive, random.between(1, 2) as u8)
        })
        .collect()
}

fn random_rows(random: &mut Random, feeds: Vec<Feed>, lengths: &[usize]) -> LinkFile {
    let mut rows = vec![];
    for (person, &length) in lengths.iter().enumerate() {
        let mut others: Vec<u32> = (0..lengths.len() as u32)
            .filter(|&other| other != person as u32)
            .collect();
        random.shuffle(&mut others);
        others.truncate(length);
        others.sort();
        rows.push(
            others
                .into_iter()
                .map(|target| random_link(random, target, feeds.len()))
                .collect(),
        );
    }
    LinkFile { feeds, rows }
}

fn random_link(random: &mut Random, target: u32, feeds: usize) -> Link {
    link(
        target,
        random.one_of(&KNOWN_KINDS),
        random_day(random),
        random.below(feeds) as u16,
    )
}

/// A day that is often undated or at a limit, and otherwise one of few, so that a window cuts between them.
pub fn random_day(random: &mut Random) -> u32 {
    let near = 700_000 + random.below(10) as u32;
    let far = random.between(1, LAST_DAY as usize) as u32;
    random.one_of(&[0, 0, 1, LAST_DAY, near, near, near, far])
}
