//! Lengths and changed bytes, through `kin_check`, against the independent checker.
//!
//! Covers: every truncation of the six-person file and of a largest one; trailing bytes; every single-byte change of the
//! six-person file and many of two bytes; random damage; the empty slice, the null pointer, odd addresses, and files
//! before or behind which nothing may be read.

use independent::checker::{self, LAST_DAY};
use independent::damage::{damage, damaged, random_byte, Tally};
use independent::faults::{catalogue, with_faults};
use independent::files;
use independent::lent::VastTail;
use independent::outside::{self, AT_THE_EDGES};
use independent::random::Random;
use independent::verdicts::{agree, agreed, put32, refuses};

// Lengths.

#[test]
fn every_truncation_of_the_six_person_file() {
    let file = files::six_persons().bytes();
    for length in 0..file.len() {
        let number = if length < 32 { 1 } else { 3 };
        let words = format!("the first {length} bytes");
        refuses(&file[..length], number, 0, &words);
    }
}

#[test]
fn every_truncation_of_the_largest_file() {
    let file = files::largest().bytes();
    for length in 0..file.len() {
        let number = if length < 32 { 1 } else { 3 };
        let right = checker::refused(number, 0);
        assert_eq!(outside::check(&file[..length]), right, "{length} bytes");
    }
    // The independent checker at some of them.
    for length in (0..file.len()).step_by(97) {
        agree(&file[..length], || format!("the first {length} bytes"));
    }
}

#[test]
fn a_truncation_that_tells_its_length_is_still_3() {
    let file = files::six_persons().bytes();
    for length in 32..file.len() {
        let mut shorter = file[..length].to_vec();
        put32(&mut shorter, 28, length as u32);
        refuses(&shorter, 3, 0, &format!("{length} bytes and told so"));
    }
}

#[test]
fn trailing_bytes_are_3() {
    for shape in [
        files::six_persons(),
        files::one_person(),
        files::largest(),
        files::undated(2, &[(0, 1)]),
    ] {
        for more in [1, 2, 4, 12, 32, 4096, 65_536] {
            for byte in [0, 1, 255] {
                let mut file = shape.bytes();
                let length = file.len() + more;
                file.resize(length, byte);
                refuses(&file, 3, 0, "trailing bytes");
                put32(&mut file, 28, length as u32);
                refuses(&file, 3, 0, "trailing bytes, told in the header");
            }
        }
        let mut twice = shape.bytes();
        twice.extend(shape.bytes());
        refuses(&twice, 3, 0, "the file twice");
    }
}

#[test]
fn the_empty_slice_is_1() {
    let right = checker::refused(1, 0);
    refuses(&[], 1, 0, "no bytes");
    assert_eq!(outside::check_null(), right, "no bytes at the null pointer");
    for library in AT_THE_EDGES {
        assert_eq!(library.check(&[]), right);
    }
}

/// Asks with a file before or behind which nothing may be read.
fn agree_at_the_edge(file: &[u8]) {
    for library in AT_THE_EDGES {
        assert_eq!(library.check(file), checker::verdict(file));
    }
}

#[test]
fn nothing_is_read_beside_the_slice() {
    let shape = files::six_persons();
    let file = shape.bytes();
    for length in 0..=file.len() {
        agree_at_the_edge(&file[..length]);
    }
    for fault in catalogue(&shape) {
        agree_at_the_edge(&with_faults(&file, &[&fault]));
    }
    let largest = files::largest().bytes();
    for length in [0, 31, 32, 33, 36, 100, 4096, 53_347, 53_348] {
        agree_at_the_edge(&largest[..length]);
    }
}

#[test]
fn a_slice_of_more_than_32_bits_of_bytes_is_3() {
    for shape in [files::six_persons(), files::one_person(), files::largest()] {
        let vast = VastTail::new(&shape.bytes(), 1 << 32);
        assert_eq!(outside::check_vast(&vast), checker::refused(3, 0));
    }
}

#[test]
fn a_file_may_lie_at_any_address() {
    let shape = files::six_persons();
    let file = shape.bytes();
    let faults = catalogue(&shape);
    for shift in 0..16 {
        assert!(outside::check_shifted(&file, shift).is_ok());
        for fault in &faults {
            let changed = with_faults(&file, &[fault]);
            let told = outside::check_shifted(&changed, shift);
            assert_eq!(told, Err(fault.refusal), "{} at {shift}", fault.words);
        }
        let largest = files::largest().bytes();
        assert!(outside::check_shifted(&largest, shift).is_ok());
    }
}

// Damage.

#[test]
fn every_single_byte_change_of_the_six_person_file() {
    let right = files::six_persons().bytes();
    for at in 0..right.len() {
        let mut file = right.clone();
        // All values, among them 0, 1, 255 and the byte's own plus one.
        for value in 0..=255 {
            file[at] = value;
            agree(&file, || format!("byte {at} is {value}"));
        }
    }
}

#[test]
fn changes_of_two_bytes_of_the_six_person_file() {
    let right = files::six_persons().bytes();
    let mut file = right.clone();
    for one in 0..right.len() {
        for other in 0..one {
            for value in [0, 255, right[one].wrapping_add(1)] {
                for other_value in [0, 1, right[other].wrapping_add(1)] {
                    file[one] = value;
                    file[other] = other_value;
                    agree(&file, || {
                        format!("byte {one} is {value}, byte {other} is {other_value}")
                    });
                }
            }
            file[other] = right[other];
        }
        file[one] = right[one];
    }
}

#[test]
fn random_damage_of_random_files() {
    let mut random = Random::of_test("random_damage_of_random_files");
    let mut tally = Tally::default();
    for round in 0..60_000 {
        let shape = if random.chance(1, 4) {
            files::six_persons()
        } else {
            files::random_file(&mut random, 8)
        };
        let file = damaged(&mut random, &shape);
        tally.note(agreed(&file, || format!("round {round}: {file:?}")));
    }
    tally.assert_each_at_least(200);
}

#[test]
fn random_damage_of_largest_files() {
    let mut random = Random::of_test("random_damage_of_largest_files");
    let mut tally = Tally::default();
    for round in 0..3_000 {
        let shape = if round % 100 == 0 {
            files::largest_uneven(&mut random)
        } else {
            files::largest()
        };
        let mut file = shape.bytes();
        damage(&mut random, &shape, &mut file);
        tally.note(agreed(&file, || format!("round {round}")));
    }
    tally.assert_each_at_least(3);
}

#[test]
fn tables_of_small_random_numbers() {
    // The header is right and the tables are nearly noise, so that rules meet that no single change brings together.
    let mut random = Random::of_test("tables_of_small_random_numbers");
    let mut tally = Tally::default();
    for round in 0..200_000 {
        let mut shape = files::random_file(&mut random, 4);
        shape.feeds.truncate(2);
        for feed in &mut shape.feeds {
            feed.archive = random.between(1, 3) as u16;
        }
        for link in shape.rows.iter_mut().flatten() {
            link.target = random.below(4) as u32;
            link.feed = random.below(8) as u16 / 3;
            link.kind = random.one_of(&[1, 3, 5, 16, 31, 31, 32]);
            link.day = random.one_of(&[0, 1, LAST_DAY, LAST_DAY, LAST_DAY + 1]);
            link.last_byte = random.one_of(&[0, 0, 0, 0, 0, 0, 0, 1]);
        }
        let mut file = shape.bytes();
        if random.chance(1, 4) {
            let (first, end) = (shape.entry_at(0), shape.link_at(0));
            random_byte(&mut random, &mut file, first, end);
        }
        tally.note(agreed(&file, || format!("round {round}: {file:?}")));
    }
    for number in [0, 4, 6, 7, 8, 9] {
        assert!(tally.0[number] > 500, "{tally:?}");
    }
}
