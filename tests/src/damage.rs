//! Random damage of a file's bytes: cut, grown, single bytes and bits, header numbers, tables, links exchanged. Some of
//! it leaves a file that still passes, and says other things than before.

use crate::checker::Verdict;
use crate::files::LinkFile;
use crate::random::Random;

/// How often each verdict was met: passed at 0, the refusals at their numbers.
#[derive(Default, Debug)]
pub struct Tally(pub [usize; 10]);

impl Tally {
    pub fn note(&mut self, verdict: Verdict) {
        match verdict {
            Ok(_) => self.0[0] += 1,
            Err(refusal) => self.0[refusal.number as usize] += 1,
        }
    }

    pub fn assert_each_at_least(&self, least: usize) {
        assert!(self.0.iter().all(|&met| met >= least), "{self:?}");
    }
}

/// Damages a file in several places at once, now and then in many.
pub fn damaged(random: &mut Random, shape: &LinkFile) -> Vec<u8> {
    let mut file = shape.bytes();
    let times = random.one_of(&[1, 1, 2, 2, 3, 4, 9]);
    for _ in 0..times {
        damage(random, shape, &mut file);
    }
    file
}

/// One random change of the bytes. The file may have been damaged and shortened before.
pub fn damage(random: &mut Random, shape: &LinkFile, file: &mut Vec<u8>) {
    let (feeds, entries, links) = (32, shape.entry_at(0), shape.link_at(0));
    match random.below(16) {
        0 => file.truncate(random.below(file.len() + 1)),
        1 => grow(random, file),
        2 => random_byte(random, file, 0, 32),
        3 => random_byte(random, file, 4, 12),
        4 => random_byte(random, file, feeds, entries),
        5 => random_byte(random, file, entries, links),
        6 | 7 => random_byte(random, file, links, shape.length()),
        8 => random_field(random, shape, file, 10, &[0, 1, 5, 6, 15, 16, 31, 32, 255]),
        9 => random_field(random, shape, file, 7, &[0, 1, 128, 255]),
        10 => random_field(random, shape, file, 0, &[0, 1, 2, 3, 4, 5, 6, 7, 8]),
        11 => random_bit(random, file),
        12 => header_number(random, file),
        13 => exchange_feeds(random, shape, file),
        14 => mend_header(file),
        _ => exchange_links(random, shape, file),
    }
}

/// Bytes behind the end: any, or a part of the file again.
fn grow(random: &mut Random, file: &mut Vec<u8>) {
    if random.chance(1, 2) {
        file.extend(vec![random.any() as u8; random.between(1, 20)]);
    } else {
        let first = random.below(file.len() + 1);
        file.extend_from_within(first..);
    }
}

/// Changes one byte from `first` up to but without `end`, if the file has it.
pub fn random_byte(random: &mut Random, file: &mut [u8], first: usize, end: usize) {
    let end = end.min(file.len());
    if first < end {
        let at = random.between(first, end - 1);
        let near = file[at].wrapping_add(1);
        let any = random.any() as u8;
        file[at] = random.one_of(&[0, 1, 2, 3, 17, 255, near, near.wrapping_sub(2), any]);
    }
}

fn random_bit(random: &mut Random, file: &mut [u8]) {
    if !file.is_empty() {
        file[random.below(file.len())] ^= 1 << random.below(8);
    }
}

/// Changes one byte of a random link to one of the values.
fn random_field(
    random: &mut Random,
    shape: &LinkFile,
    file: &mut [u8],
    byte: usize,
    values: &[u8],
) {
    if shape.links() > 0 {
        let at = shape.link_at(random.below(shape.links())) + byte;
        if at < file.len() {
            file[at] = random.one_of(values);
        }
    }
}

/// Puts another number in one of the header's seven places: one that another place has, a limit, a near one, any.
fn header_number(random: &mut Random, file: &mut [u8]) {
    if file.len() >= 32 {
        let at = 4 * random.between(1, 7);
        let other = 4 * random.between(1, 7);
        let near = number(file, at)
            .wrapping_add(random.between(0, 24) as u32)
            .wrapping_sub(12);
        let limit = random.one_of(&[0, 16, 17, 1024, 1025, 4096, 4097, 53_348, u32::MAX]);
        let any = random.any() as u32;
        let put = random.one_of(&[number(file, other), near, limit, any]);
        file[at..at + 4].copy_from_slice(&put.to_le_bytes());
    }
}

fn number(file: &[u8], at: usize) -> u32 {
    u32::from_le_bytes(file[at..at + 4].try_into().expect("four bytes"))
}

/// Makes offsets and length what the counts say, and the slice as long if that is not much longer: so that changed counts
/// reach the tables.
pub fn mend_header(file: &mut Vec<u8>) {
    if file.len() < 32 {
        return;
    }
    let [n, m, f] = [4, 8, 12].map(|at| number(file, at));
    if n > 1024 || m > 4096 || f > 16 {
        return;
    }
    let entries = 32 + 4 * f;
    let links = entries + 4 * (n + 1);
    let length = links + 12 * m;
    for (at, put) in [(16, 32), (20, entries), (24, links), (28, length)] {
        file[at..at + 4].copy_from_slice(&u32::to_le_bytes(put));
    }
    if length as usize <= file.len() + 200 {
        file.resize(length as usize, 0);
    }
}

fn exchange_feeds(random: &mut Random, shape: &LinkFile, file: &mut [u8]) {
    let feeds = shape.feeds.len();
    if feeds > 1 {
        let one = shape.feed_at(random.below(feeds));
        let other = shape.feed_at(random.below(feeds));
        exchange(file, one, other, 4);
    }
}

fn exchange_links(random: &mut Random, shape: &LinkFile, file: &mut [u8]) {
    if shape.links() > 1 {
        let one = shape.link_at(random.below(shape.links()));
        let other = shape.link_at(random.below(shape.links()));
        exchange(file, one, other, 12);
    }
}

/// Exchanges the bytes at two places, if the file has both.
fn exchange(file: &mut [u8], one: usize, other: usize, bytes: usize) {
    if one.max(other) + bytes <= file.len() {
        for byte in 0..bytes {
            file.swap(one + byte, other + byte);
        }
    }
}
