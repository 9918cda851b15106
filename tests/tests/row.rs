//! The row view, through `kin_row`, which answers its length in bytes, against the independent checker's view.
//!
//! Covers: every person of the six-person file, of random files and of largest ones; persons out of range, also such
//! as would be in range with high bits cut off; files with each fault of the catalogue, where every view is empty;
//! damaged files; the empty slice; files before or behind which nothing may be read. That the file stays as it came is
//! asked in every call.

use independent::checker;
use independent::faults::{catalogue, with_faults};
use independent::files::{self, LinkFile};
use independent::lent::VastTail;
use independent::outside::{self, AT_THE_EDGES};
use independent::random::Random;

/// Persons that no file has, or that a file of `n` persons has not.
fn nobody(n: u32) -> Vec<u32> {
    let mut persons = vec![
        n,
        n + 1,
        1024,
        1025,
        65_535,
        1 << 31,
        u32::MAX - 1,
        u32::MAX,
    ];
    for person in [0, n - 1] {
        persons.extend([person + 65_536, person + (1 << 30), person + (1 << 31)]);
    }
    persons
}

/// Asks for every person's view, which has to be as long as the builder's row, and for nobody's.
fn views_of_sound_file(shape: &LinkFile) {
    let file = shape.bytes();
    for (person, row) in shape.rows.iter().enumerate() {
        let person = person as u32;
        let length = outside::row(&file, person);
        assert_eq!(length, 12 * row.len() as u64, "person {person}");
        assert_eq!(length, checker::row_view(&file, person).len() as u64);
    }
    for person in nobody(shape.persons() as u32) {
        assert_eq!(outside::row(&file, person), 0, "person {person}");
    }
}

fn all_views_empty(file: &[u8], n: u32, words: &str) {
    for person in (0..n.min(8)).chain(nobody(n)) {
        let length = outside::row(file, person);
        assert_eq!(length, 0, "person {person}: {words}");
    }
}

#[test]
fn every_person_of_the_six_person_file() {
    let file = files::six_persons().bytes();
    let lengths: Vec<u64> = (0..7).map(|person| outside::row(&file, person)).collect();
    assert_eq!(lengths, [24, 24, 24, 24, 12, 12, 0]);
    views_of_sound_file(&files::six_persons());
}

#[test]
fn the_smallest_files() {
    views_of_sound_file(&files::one_person());
    views_of_sound_file(&files::undated(2, &[(0, 1)]));
    views_of_sound_file(&files::undated(2, &[(1, 0)]));
    views_of_sound_file(&files::undated(3, &[(1, 0), (1, 2)]));
}

#[test]
fn every_person_of_largest_files() {
    let mut random = Random::of_test("every_person_of_largest_files");
    views_of_sound_file(&files::largest());
    let uneven = files::largest_uneven(&mut random);
    assert!(uneven.rows.iter().any(|row| row.len() == 1023));
    views_of_sound_file(&uneven);
}

#[test]
fn every_person_of_random_files() {
    let mut random = Random::of_test("every_person_of_random_files");
    for _ in 0..3_000 {
        let most = random.one_of(&[3, 8, 30]);
        views_of_sound_file(&files::random_file(&mut random, most));
    }
}

#[test]
fn a_refused_file_has_no_view() {
    let shape = files::six_persons();
    let file = shape.bytes();
    for fault in catalogue(&shape) {
        let changed = with_faults(&file, &[&fault]);
        all_views_empty(&changed, 6, &fault.words);
    }
    for length in 0..file.len() {
        let words = format!("the first {length} bytes");
        all_views_empty(&file[..length], 6, &words);
    }
}

#[test]
fn a_largest_file_with_one_fault_has_no_view() {
    let mut random = Random::of_test("a_largest_file_with_one_fault_has_no_view");
    let shape = files::largest();
    let file = shape.bytes();
    let faults = catalogue(&shape);
    for _ in 0..200 {
        let fault = &faults[random.below(faults.len())];
        let changed = with_faults(&file, &[fault]);
        all_views_empty(&changed, 1024, &fault.words);
    }
}

#[test]
fn every_single_byte_change_of_the_six_person_file() {
    let right = files::six_persons().bytes();
    for at in 0..right.len() {
        for value in [0, 1, 255, right[at].wrapping_add(1)] {
            let mut file = right.clone();
            file[at] = value;
            for person in 0..8 {
                let length = checker::row_view(&file, person).len() as u64;
                let told = outside::row(&file, person);
                assert_eq!(told, length, "byte {at} is {value}, person {person}");
            }
        }
    }
}

#[test]
fn rows_moved_within_a_sound_file() {
    // Entries may change and the file still pass: then the views follow the new entries.
    let mut random = Random::of_test("rows_moved_within_a_sound_file");
    let mut passed = 0;
    for _ in 0..30_000 {
        let shape = files::random_file(&mut random, 5);
        let mut file = shape.bytes();
        let at = shape.entry_at(random.below(shape.persons() + 1));
        file[at] = random.below(shape.links() + 2) as u8;
        passed += usize::from(checker::verdict(&file).is_ok());
        for person in 0..=shape.persons() as u32 {
            let length = checker::row_view(&file, person).len() as u64;
            assert_eq!(outside::row(&file, person), length, "{file:?}");
        }
    }
    assert!(passed > 1_000, "only {passed} files passed");
}

#[test]
fn the_empty_slice_has_no_view() {
    for person in [0, 1, u32::MAX] {
        assert_eq!(outside::row(&[], person), 0);
        assert_eq!(outside::row_null(person), 0);
        for library in AT_THE_EDGES {
            assert_eq!(library.row(&[], person), 0);
        }
    }
}

/// Asks with a file before or behind which nothing may be read.
fn view_at_the_edge(file: &[u8], person: u32) {
    let right = checker::row_view(file, person).len() as u64;
    for library in AT_THE_EDGES {
        assert_eq!(library.row(file, person), right);
    }
}

#[test]
fn nothing_is_read_beside_the_slice() {
    let file = files::six_persons().bytes();
    for length in 0..=file.len() {
        for person in [0, 5, 6, u32::MAX] {
            view_at_the_edge(&file[..length], person);
        }
    }
    let largest = files::largest().bytes();
    for person in [0, 1, 1022, 1023, 1024, u32::MAX] {
        view_at_the_edge(&largest, person);
    }
}

#[test]
fn a_slice_of_more_than_32_bits_of_bytes_has_no_view() {
    let vast = VastTail::new(&files::six_persons().bytes(), 1 << 32);
    for person in 0..7 {
        assert_eq!(outside::row_vast(&vast, person), 0);
    }
}
