//! The check of a link file, through `kin_check`, against the independent checker and against verdicts stated by hand.
//!
//! Covers: the six-person file, the smallest and the largest files; each refusal 1 to 9 at every place of the six-person
//! file and at first, middle and last place of the largest; every kind, archive number and feed index. Two faults at once
//! are in `check_order.rs`, lengths and changed bytes in `check_bytes.rs`. That the file stays as it came is asked in
//! every call.

use independent::checker::{self, Counts, Refusal, LAST_DAY};
use independent::faults::{catalogue, shown_behind, with_faults, Fault};
use independent::files::{self, feed, link, LinkFile};
use independent::random::Random;
use independent::verdicts::{passes, put32, refuses, stated};

// Files that pass.

#[test]
fn the_builder_writes_the_six_person_file_as_stated() {
    let file = files::six_persons().bytes();
    assert_eq!(file.len(), 188);
    let header = [
        0x4B, 0x4C, 0x46, 0x31, 6, 0, 0, 0, 10, 0, 0, 0, 2, 0, 0, 0, 32, 0, 0, 0, 40, 0, 0, 0, 68,
        0, 0, 0, 188, 0, 0, 0,
    ];
    assert_eq!(file[..32], header);
    assert_eq!(file[32..40], [11, 0, 1, 0, 27, 0, 2, 0]);
    let entries: Vec<u8> = file[40..68].iter().step_by(4).copied().collect();
    assert_eq!(entries, [0, 2, 4, 6, 8, 9, 10]);
    // 1→4, kind 5, day 700200, feed 1.
    assert_eq!(
        file[68 + 36..68 + 48],
        [4, 0, 0, 0, 0x28, 0xAF, 0x0A, 0, 1, 0, 5, 0]
    );
}

#[test]
fn the_six_person_file_passes() {
    let counts = Counts { n: 6, m: 10, f: 2 };
    let file = files::six_persons().bytes();
    stated(&file, Ok(counts), || "the six-person file".to_string());
}

#[test]
fn the_smallest_files_pass() {
    let mut file = files::one_person();
    assert_eq!(file.bytes().len(), 40);
    passes(&file, "one person");
    file.feeds.push(feed(65_535, 2));
    passes(&file, "one person, one feed");
    file.feeds.clear();
    file.rows.push(vec![]);
    passes(&file, "two persons, no feed, no link");
}

#[test]
fn the_largest_files_pass() {
    let file = files::largest();
    assert_eq!(file.bytes().len(), 53_348);
    passes(&file, "the largest file");
    let mut random = Random::of_test("the_largest_files_pass");
    for _ in 0..20 {
        let file = files::largest_uneven(&mut random);
        assert_eq!(file.bytes().len(), 53_348);
        passes(&file, "a largest file with uneven rows");
    }
}

#[test]
fn random_sound_files_pass() {
    let mut random = Random::of_test("random_sound_files_pass");
    for round in 0..5_000 {
        let most = random.one_of(&[2, 6, 12, 40]);
        let file = files::random_file(&mut random, most);
        passes(&file, &format!("round {round}"));
    }
}

#[test]
fn sound_numbers_at_their_limits_pass() {
    let mut file = files::six_persons();
    let plain = file.clone();
    for day in [0, 1, LAST_DAY - 1, LAST_DAY] {
        for row in 0..6 {
            let last = file.rows[row].len() - 1;
            file.rows[row][last].day = day;
        }
        passes(&file, &format!("day {day}"));
    }
    for kind in files::KNOWN_KINDS {
        file = plain.clone();
        file.rows[0][0].kind = kind;
        file.rows[5][0].kind = kind;
        passes(&file, &format!("kind {kind}"));
    }
    file = plain.clone();
    file.feeds = vec![feed(1, 1), feed(65_535, 2)];
    passes(&file, "archives 1 and 65535");
}

#[test]
fn targets_rise_within_a_row_only() {
    // Each row starts at or below the target that ended the row before.
    let mut file = files::undated(4, &[(0, 3), (1, 0), (1, 3), (2, 3), (3, 0), (3, 1), (3, 2)]);
    passes(&file, "targets 3, 0 3, 3, 0 1 2");
    file.rows[2].clear();
    passes(&file, "targets 3, 0 3, none, 0 1 2");
    file.rows[0].clear();
    file.rows[3].clear();
    passes(&file, "targets none, 0 3, none, none");
}

// Faults alone.

/// Asks for each fault's own refusal; `kept` says which faults.
fn each_alone(file: &LinkFile, faults: &[Fault], kept: impl Fn(&Fault) -> bool) {
    let bytes = file.bytes();
    for fault in faults.iter().filter(|fault| kept(fault)) {
        let changed = with_faults(&bytes, &[fault]);
        stated(&changed, Err(fault.refusal), || fault.words.clone());
    }
}

/// The places of a refusal number in a file, first to last.
fn last_place(file: &LinkFile, number: u32) -> u32 {
    let places = match number {
        1..=3 => 1,
        4 | 5 => file.feeds.len(),
        6 => file.persons() + 1,
        _ => file.links(),
    };
    places as u32 - 1
}

fn has_fault(faults: &[Fault], number: u32, place: u32) -> bool {
    let refusal = Refusal { number, place };
    faults.iter().any(|fault| fault.refusal == refusal)
}

#[test]
fn each_fault_at_every_place_of_the_six_person_file() {
    let file = files::six_persons();
    let faults = catalogue(&file);
    for number in 1..=9 {
        for place in 0..=last_place(&file, number) {
            // Entry 1 follows 0, so that it cannot fall.
            let possible = (number, place) != (6, 1);
            assert_eq!(has_fault(&faults, number, place), possible);
        }
    }
    each_alone(&file, &faults, |_| true);
    each_alone(&file, &shown_behind(&file), |_| true);
}

#[test]
fn each_fault_at_first_middle_and_last_place_of_the_largest_file() {
    let file = files::largest();
    let faults = catalogue(&file);
    for number in 1..=9 {
        let last = last_place(&file, number);
        for place in [0, last / 2, last] {
            assert!(has_fault(&faults, number, place));
            let here = |fault: &Fault| fault.refusal == Refusal { number, place };
            each_alone(&file, &faults, here);
            each_alone(&file, &shown_behind(&file), here);
        }
    }
}

#[test]
fn random_places_of_largest_files() {
    let mut random = Random::of_test("random_places_of_largest_files");
    for _ in 0..4 {
        let file = files::largest_uneven(&mut random);
        let bytes = file.bytes();
        let mut faults = catalogue(&file);
        faults.extend(shown_behind(&file));
        for _ in 0..1_000 {
            let fault = &faults[random.below(faults.len())];
            let changed = with_faults(&bytes, &[fault]);
            stated(&changed, Err(fault.refusal), || fault.words.clone());
        }
    }
}

#[test]
fn counts_over_their_limits_are_refused_even_if_all_else_fits() {
    let mut file = files::largest();
    file.rows.push(vec![]);
    refuses(&file.bytes(), 2, 0, "1025 persons");
    let mut file = files::largest();
    file.rows[0] = (1..6).map(|target| link(target, 1, 0, 0)).collect();
    refuses(&file.bytes(), 2, 0, "4097 links");
    let mut file = files::largest();
    file.feeds = (1..=17).map(|archive| feed(archive, 1)).collect();
    refuses(&file.bytes(), 2, 0, "17 feeds");
    file.rows.clear();
    refuses(&file.bytes(), 2, 0, "no person");
}

#[test]
fn a_header_that_fits_itself_but_not_the_slice_is_3() {
    let right = files::six_persons();
    let rest = right.bytes()[32..].to_vec();
    let mut others = vec![];
    let mut more_persons = right.clone();
    more_persons.rows.push(vec![]);
    others.push(more_persons);
    let mut fewer_links = right.clone();
    fewer_links.rows[5].clear();
    others.push(fewer_links);
    let mut more_feeds = right.clone();
    more_feeds.feeds.push(feed(28, 1));
    others.push(more_feeds);
    others.push(files::largest());
    others.push(files::one_person());
    for other in others {
        let mut file = other.bytes()[..32].to_vec();
        file.extend(&rest);
        refuses(&file, 3, 0, "another file's header");
    }
}

#[test]
fn the_row_table_is_judged_entry_by_entry() {
    // An entry above m in the middle is no fault by itself: the entry behind it is.
    let cases: [(&[u32], u32); 9] = [
        (&[0, 7, 5], 2),
        (&[0, 7, 7], 2),
        (&[0, 5, 4], 2),
        (&[1, 5, 5], 0),
        (&[0, u32::MAX, 5], 2),
        (&[0, 9, 8, 5], 2),
        (&[0, 9, 9, 5], 3),
        (&[5, 5, 5], 0),
        (&[0, 0, 0], 2),
    ];
    for (entries, place) in cases {
        let mut shape = files::one_person();
        shape.rows = vec![vec![]; entries.len() - 1];
        shape.rows[0] = vec![link(1, 1, 0, 0); 5];
        let mut file = shape.bytes();
        for (i, &entry) in entries.iter().enumerate() {
            put32(&mut file, shape.entry_at(i), entry);
        }
        refuses(
            &file,
            6,
            place,
            &format!("entries {entries:?} with 5 links"),
        );
    }
}

#[test]
fn without_feeds_every_link_is_7() {
    let mut file = files::undated(3, &[(1, 0), (2, 1)]);
    file.feeds.clear();
    refuses(&file.bytes(), 7, 0, "a link and no feed");
}

/// Tries every value of one number in the six-person file, which starts `at` and has `bytes` bytes.
fn every_value(at: usize, bytes: usize, right: impl Fn(u32) -> Option<(u32, u32)>) {
    let mut file = files::six_persons().bytes();
    let counts = checker::verdict(&file).expect("the six-person file passes");
    for value in 0..1u32 << (8 * bytes) {
        file[at..at + bytes].copy_from_slice(&value.to_le_bytes()[..bytes]);
        let verdict = match right(value) {
            None => Ok(counts),
            Some((number, place)) => checker::refused(number, place),
        };
        stated(&file, verdict, || format!("{value} at byte {at}"));
    }
}

#[test]
fn every_kind_meaning_archive_and_feed_index() {
    let file = files::six_persons();
    for place in [0, 4, 9] {
        let at = file.link_at(place);
        let unknown = |kind| !matches!(kind, 1..=5 | 16..=31);
        let wrong = |number| Some((number, place as u32));
        every_value(at + 10, 1, |kind| wrong(8).filter(|_| unknown(kind)));
        every_value(at + 11, 1, |last| wrong(7).filter(|_| last != 0));
        every_value(at + 8, 2, |index| wrong(7).filter(|_| index > 1));
    }
    for place in [0, 1] {
        let at = file.feed_at(place);
        let wrong = |number| Some((number, place as u32));
        every_value(at + 2, 1, |m| wrong(5).filter(|_| m != 1 && m != 2));
        every_value(at + 3, 1, |last| wrong(4).filter(|_| last != 0));
    }
    // Feed 1 has archive 27, feed 0 has 11.
    every_value(file.feed_at(0), 2, |archive| match archive {
        0 => Some((4, 0)),
        1..=26 => None,
        _ => Some((4, 1)),
    });
    every_value(file.feed_at(1), 2, |archive| {
        Some((4, 1)).filter(|_| archive <= 11)
    });
}
