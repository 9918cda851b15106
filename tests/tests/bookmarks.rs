//! Bookmarks of `kin_portion`, against the brute-force lister: a portion goes on after a chain of this listing, and whatever
//! else stands in the bookmark is refused.
//!
//! Covers: what a fresh start ignores; every number that is started; bookmarks of the wrong length, with one cell and with
//! two changed, nearly chains, of other questions, after the file changed.

use independent::asked::Asked;
use independent::checker::refused;
use independent::files::{self, random_graph};
use independent::lent::untouched;
use independent::lister::{listed, record, Question};
use independent::questions::{first_to_last, random_question, A, B, Q};
use independent::random::Random;

#[test]
fn a_fresh_start_ignores_the_bookmark() {
    let asked = Asked::six_persons(Q);
    for bookmark in [&[][..], &[9; 3], &record(B), &[u32::MAX; 10], &[0; 40]] {
        let (answer, _) = asked.portion(0, bookmark, 30);
        assert_eq!(answer, listed(3, true));
    }
}

#[test]
fn any_number_but_0_is_started() {
    let asked = Asked::six_persons(Q);
    for started in [1, 2, 255, 256, 65_536, 1 << 31, u32::MAX] {
        assert_eq!(asked.portion(started, &record(A), 30).0, listed(2, true));
        assert_eq!(asked.portion(started, &[], 30).0, refused(17, 0));
    }
}

#[test]
fn bookmarks_of_the_wrong_length() {
    let asked = Asked::six_persons(Q);
    let mut cells = record(A).to_vec();
    cells.resize(40, 0);
    for length in (0..=40).filter(|&length| length != 10) {
        let (answer, out) = asked.portion(1, &cells[..length], 30);
        assert_eq!((answer, out), (refused(17, 0), untouched(30)), "{length}");
    }
}

#[test]
fn every_cell_of_a_bookmark_changed() {
    let mut random = Random::of_test("every_cell_of_a_bookmark_changed");
    let mut all = vec![Asked::six_persons(Q)];
    all.extend((0..150).map(|_| Asked::random(&mut random, 6)));
    for asked in all {
        for chain in asked.chains().iter().take(20) {
            for cell in 0..10 {
                for value in (0..12).chain([256, 65_536, 1 << 31, u32::MAX]) {
                    let mut bookmark = record(chain);
                    bookmark[cell] = value;
                    let _ = asked.portion(1, &bookmark, 20);
                    bookmark[cell] = record(chain)[cell].wrapping_add(value << 16);
                    let _ = asked.portion(1, &bookmark, 20);
                }
            }
        }
    }
}

#[test]
fn two_cells_of_a_bookmark_changed() {
    let mut random = Random::of_test("two_cells_of_a_bookmark_changed");
    let mut still_chains = 0;
    for _ in 0..6_000 {
        let asked = Asked::random(&mut random, 6);
        for chain in asked.chains().iter().take(5) {
            for _ in 0..20 {
                let mut bookmark = record(chain);
                for _ in 0..2 {
                    // Mostly persons, so that another chain comes out now and then.
                    let last = random.one_of(&[chain.len(), chain.len(), 9]);
                    bookmark[random.between(0, last)] = random.below(7) as u32;
                }
                let (answer, _) = asked.portion(1, &bookmark, 20);
                let changed = bookmark != record(chain);
                still_chains += usize::from(changed && answer.is_ok());
            }
        }
    }
    assert!(still_chains > 20, "{still_chains}");
}

#[test]
fn sequences_that_are_nearly_chains() {
    let asked = Asked::six_persons(Question { hops: 8, ..Q });
    let wrong: [&[u32]; 12] = [
        &[0],                         // From alone
        &[5],                         // To alone
        &[1, 3, 5],                   // a beginning left out
        &[0, 1, 3],                   // an end left out
        &[0, 5],                      // no such link
        &[0, 3, 5],                   // no such link at the start
        &[0, 1, 4, 5],                // a link not admitted
        &[0, 1, 3, 2, 1, 3, 5],       // a person twice
        &[0, 2, 3, 2, 3, 5],          // persons twice
        &[0, 1, 3, 5, 0],             // beyond To
        &[0, 1, 3, 5, 0, 1, 3, 5],    // To and From passed
        &[0, 1, 3, 5, 0, 2, 1, 3, 5], // the same, as long as a record holds
    ];
    for sequence in wrong {
        let (answer, out) = asked.portion(1, &record(sequence), 30);
        assert_eq!(
            (answer, out),
            (refused(17, 0), untouched(30)),
            "{sequence:?}"
        );
    }
    // A record of no hops, and zeros alone.
    assert_eq!(asked.portion(1, &[0; 10], 30).0, refused(17, 0));
    assert_eq!(
        asked.portion(1, &[9, 0, 1, 3, 5, 0, 0, 0, 0, 0], 30).0,
        refused(17, 0)
    );
}

#[test]
fn ways_that_visit_a_person_twice_are_no_bookmarks() {
    // Every sequence of up to five persons over small graphs: admitted at each hop or not, simple or not.
    let mut random = Random::of_test("ways_that_visit_a_person_twice_are_no_bookmarks");
    for _ in 0..40 {
        let file = random_graph(&mut random, 4, 7).bytes();
        let asked = Asked::new(file, first_to_last(4, random.between(1, 8) as u32));
        for code in 0..4u32.pow(6) {
            let length = 1 + code as usize % 6;
            let persons: Vec<u32> = (0..length as u32).map(|i| code / 4u32.pow(i) % 4).collect();
            let _ = asked.portion(1, &record(&persons), 10);
        }
    }
}

#[test]
fn bookmarks_of_another_question() {
    let mut random = Random::of_test("bookmarks_of_another_question");
    let (mut kept, mut bad) = (0, 0);
    for _ in 0..3_000 {
        let asked = Asked::random(&mut random, 6);
        let n = u32::from_le_bytes(asked.file[4..8].try_into().expect("four bytes"));
        let mut question = random_question(&mut random, n as usize);
        if random.chance(2, 3) {
            (question.from, question.to) = (asked.question.from, asked.question.to);
        }
        let other = Asked::new(asked.file.clone(), question);
        for chain in asked.chains().iter().take(5) {
            match other.portion(1, &record(chain), 20).0 {
                Ok(_) => kept += 1,
                Err(_) => bad += 1,
            }
        }
    }
    assert!(kept > 100 && bad > 100, "{kept} kept, {bad} bad");
}

#[test]
fn bookmarks_after_the_file_changed() {
    let mut random = Random::of_test("bookmarks_after_the_file_changed");
    let (mut kept, mut bad) = (0, 0);
    for _ in 0..3_000 {
        let mut shape = files::random_file(&mut random, 6);
        if shape.links() == 0 {
            continue;
        }
        let question = random_question(&mut random, shape.persons());
        let before = Asked::new(shape.bytes(), question);
        let owner = random.below(shape.persons());
        let row = &mut shape.rows[owner];
        if !row.is_empty() {
            row.remove(random.below(row.len()));
        }
        let after = Asked::new(shape.bytes(), question);
        for chain in before.chains().iter().take(8) {
            match after.portion(1, &record(chain), 20).0 {
                Ok(_) => kept += 1,
                Err(_) => bad += 1,
            }
        }
    }
    assert!(kept > 100 && bad > 100, "{kept} kept, {bad} bad");
}
