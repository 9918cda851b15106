//! Bookmarks of `kin_rings`, against the brute-force lister: a portion goes on after a ring of this listing, and whatever else
//! stands in the bookmark is refused.
//!
//! Covers: what a fresh start ignores; every number that is started; bookmarks of the wrong length, of more than 32 bits too;
//! one cell and two cells changed; sequences that are nearly rings; chains, and rings handed to the chain listing; rings of
//! another person, turned round, of more hops than asked, over a link that is not admitted, after the file changed. Every
//! sequence over every graph of four persons is in `rings_exhaustive.rs`.

use independent::asked::{cells_of, Asked};
use independent::checker::refused;
use independent::files::{self, LinkFile};
use independent::lent::{untouched, VastTail};
use independent::lister::{self, listed, record, Question};
use independent::outside;
use independent::questions::{random_question, Q, R, R_RINGS};
use independent::random::Random;
use independent::rules::is_ring;

/// Refused by 17 with every cell as it came, whatever the room.
fn is_no_bookmark(asked: &Asked, bookmark: &[u32]) {
    for cells in [10, 45] {
        let told = asked.ring_portion(1, bookmark, cells);
        assert_eq!(told, (refused(17, 0), untouched(cells)), "{bookmark:?}");
    }
}

/// Random rings asked for: a file of two persons or more, and a question with the same person at both ends.
fn random_rings(random: &mut Random, most_persons: usize) -> (LinkFile, Asked) {
    loop {
        let shape = files::random_file(random, most_persons);
        if shape.persons() > 1 {
            let question = random_question(random, shape.persons());
            let asked = Asked::new(shape.bytes(), question).back_to_from();
            return (shape, asked);
        }
    }
}

// Which bookmark is looked at.

#[test]
fn a_fresh_start_ignores_the_bookmark() {
    let asked = Asked::six_persons(R);
    for bookmark in [
        &[][..],
        &[9; 3],
        &record(R_RINGS[1]),
        &record(&[2, 3, 5]),
        &[u32::MAX; 10],
        &[0; 40],
    ] {
        let told = asked.ring_portion(0, bookmark, 40);
        assert_eq!(told, (listed(4, true), cells_of(&R_RINGS, 40)));
    }
}

#[test]
fn any_number_but_0_is_started() {
    let asked = Asked::six_persons(R);
    let rest = cells_of(&R_RINGS[1..], 30);
    for started in [1, 2, 255, 256, 65_536, 1 << 31, u32::MAX] {
        let told = asked.ring_portion(started, &record(R_RINGS[0]), 30);
        assert_eq!(told, (listed(3, true), rest.clone()));
        assert_eq!(asked.ring_portion(started, &[], 30).0, refused(17, 0));
        let chain = record(&[2, 3, 5]);
        assert_eq!(asked.ring_portion(started, &chain, 30).0, refused(17, 0));
    }
}

#[test]
fn after_each_ring_come_those_behind_it() {
    let asked = Asked::six_persons(R);
    for (place, ring) in R_RINGS.iter().enumerate() {
        let behind = &R_RINGS[place + 1..];
        let told = asked.ring_portion(1, &record(ring), 45);
        let right = listed(behind.len() as u64, true);
        assert_eq!(told, (right, cells_of(behind, 45)));
    }
}

// Lengths.

#[test]
fn bookmarks_of_the_wrong_length() {
    // Zeros behind the record, and a ring of eight hops whose ten cells are all full.
    let eight = Asked::new(
        files::everybody_linked(8).bytes(),
        Question { hops: 8, ..R },
    );
    let full = [2, 0, 1, 3, 4, 5, 6, 7, 2];
    for (asked, ring) in [(Asked::six_persons(R), R_RINGS[0]), (eight, &full)] {
        let mut cells = record(ring).to_vec();
        cells.resize(40, 0);
        assert!(asked.ring_portion(1, &cells[..10], 10).0.is_ok());
        for length in (0..=40).filter(|&length| length != 10) {
            is_no_bookmark(&asked, &cells[..length]);
        }
    }
}

#[test]
fn a_length_that_is_ten_only_in_its_lower_half() {
    let file = files::six_persons().bytes();
    let bytes: Vec<u8> = record(R_RINGS[0])
        .iter()
        .flat_map(|cell| cell.to_le_bytes())
        .collect();
    let vast = VastTail::new(&bytes, 4 << 32);
    let mut out = untouched(30);
    let told = outside::rings_vast_bookmark(&file, &R, &vast, &mut out);
    assert_eq!((told, out), (refused(17, 0), untouched(30)));
}

// Cells changed.

#[test]
fn every_cell_of_a_bookmark_changed() {
    let mut random = Random::of_test("every_cell_of_a_bookmark_changed");
    let mut all = vec![Asked::six_persons(R)];
    all.extend((0..300).map(|_| random_rings(&mut random, 6).1));
    for asked in all {
        for ring in asked.rings().iter().take(20) {
            for cell in 0..10 {
                for value in (0..12).chain([256, 65_536, 1 << 31, u32::MAX]) {
                    let mut bookmark = record(ring);
                    bookmark[cell] = value;
                    let _ = asked.ring_portion(1, &bookmark, 20);
                    bookmark[cell] = record(ring)[cell].wrapping_add(value << 16);
                    let _ = asked.ring_portion(1, &bookmark, 20);
                    bookmark[cell] = record(ring)[cell].wrapping_add(value << 8);
                    let _ = asked.ring_portion(1, &bookmark, 20);
                }
            }
        }
    }
}

#[test]
fn two_cells_of_a_bookmark_changed() {
    let mut random = Random::of_test("two_cells_of_a_bookmark_changed");
    let mut still_rings = 0;
    for _ in 0..6_000 {
        let (_, asked) = random_rings(&mut random, 6);
        for ring in asked.rings().iter().take(5) {
            for _ in 0..20 {
                let mut bookmark = record(ring);
                for _ in 0..2 {
                    // Mostly persons, so that another ring comes out now and then.
                    let last = random.one_of(&[ring.len(), ring.len(), 9]);
                    bookmark[random.between(0, last)] = random.below(7) as u32;
                }
                let (answer, _) = asked.ring_portion(1, &bookmark, 20);
                let changed = bookmark != record(ring);
                still_rings += usize::from(changed && answer.is_ok());
            }
        }
    }
    assert!(still_rings > 20, "{still_rings}");
}

// Nearly rings.

#[test]
fn sequences_that_are_nearly_rings() {
    let asked = Asked::six_persons(Question { hops: 8, ..R });
    let wrong: [&[u32]; 22] = [
        &[2],                         // the person alone
        &[2, 2],                      // one hop, from the person to the same one
        &[2, 3],                      // one hop, and no ring
        &[2, 3, 5],                   // a chain to 5
        &[2, 3, 5, 0],                // a chain to 0, which lacks the hop back
        &[2, 1, 3, 5, 0],             // another
        &[2, 1, 3],                   // a chain whose last has a link back
        &[3, 2, 3],                   // rings of others
        &[3, 2, 1, 3],                //
        &[0, 2, 3, 5, 0],             // one through the person
        &[1, 3, 2, 1],                // another
        &[3, 2],                      // it ends at the person only
        &[0, 2],                      // the same
        &[2, 0, 5, 3, 2],             // the other way round, where no links are
        &[2, 3, 1, 2],                // the same
        &[2, 0, 2],                   // no such link there, though there is one back
        &[2, 1, 2],                   // no such link back
        &[2, 1, 4, 5, 0, 2],          // over a link that is not admitted
        &[2, 3, 2, 3, 2],             // through its own person in the middle
        &[2, 3, 2, 1, 3, 2],          // two rings, one behind the other
        &[2, 1, 3, 5, 0, 1, 3, 2],    // persons twice
        &[2, 3, 5, 0, 2, 3, 5, 0, 2], // a ring twice, as long as a record holds
    ];
    for sequence in wrong {
        is_no_bookmark(&asked, &record(sequence));
    }
}

/// In a star whose middle is person 2 every way there and back is a ring, and no two of them make one.
#[test]
fn rings_one_behind_the_other() {
    let others = [0, 1, 3, 4];
    let pairs: Vec<(u32, u32)> = others
        .iter()
        .flat_map(|&other| [(2, other), (other, 2)])
        .collect();
    let file = files::undated(5, &pairs).bytes();
    let asked = Asked::new(file, Question { hops: 8, ..R });
    assert_eq!(asked.rings().len(), 4);
    for one in others {
        assert!(asked.ring_portion(1, &record(&[2, one, 2]), 10).0.is_ok());
        for other in others {
            is_no_bookmark(&asked, &record(&[2, one, 2, other, 2]));
            is_no_bookmark(&asked, &record(&[one, 2, other, 2, one]));
        }
    }
    is_no_bookmark(&asked, &record(&[2, 0, 2, 1, 2, 3, 2, 4, 2]));
}

#[test]
#[rustfmt::skip]
fn cells_that_are_nearly_a_record() {
    let asked = Asked::six_persons(Question { hops: 8, ..R });
    assert!(asked.ring_portion(1, &[2, 2, 3, 2, 0, 0, 0, 0, 0, 0], 10).0.is_ok());
    let wrong = [
        [0; 10],
        [0, 2, 0, 0, 0, 0, 0, 0, 0, 0],            // no hops
        [0, 2, 3, 2, 0, 0, 0, 0, 0, 0],            //
        [1, 2, 3, 2, 0, 0, 0, 0, 0, 0],            // one hop too few
        [1, 2, 2, 0, 0, 0, 0, 0, 0, 0],            // one hop, closed
        [3, 2, 3, 2, 0, 0, 0, 0, 0, 0],            // one too many
        [2, 2, 3, 2, 3, 0, 0, 0, 0, 0],            // no zeros behind it
        [2, 2, 3, 2, 0, 0, 0, 0, 0, 1],            //
        [2, 2, 3, 2, 0, 0, 2, 0, 0, 0],            //
        [2, 2, 3, 0, 0, 0, 0, 0, 0, 0],            // the person not repeated
        [2, 2, 3, 2, u32::MAX, 0, 0, 0, 0, 0],     //
        [4, 2, 3, 5, 0, 0, 0, 0, 0, 0],            // not repeated behind person 0
        [9, 2, 3, 5, 0, 2, 3, 5, 0, 2],            // more hops than a record holds
        [u32::MAX, 2, 3, 2, 0, 0, 0, 0, 0, 0],     //
        [256 + 2, 2, 3, 2, 0, 0, 0, 0, 0, 0],      //
        [65_536 + 2, 2, 3, 2, 0, 0, 0, 0, 0, 0],   //
        [2, 2, 256 + 3, 2, 0, 0, 0, 0, 0, 0],      // nobody
        [2, 2, 6, 2, 0, 0, 0, 0, 0, 0],            //
        [2, 2, 1_024, 2, 0, 0, 0, 0, 0, 0],        //
        [2, 2, u32::MAX, 2, 0, 0, 0, 0, 0, 0],     //
        [2, 256 + 2, 3, 2, 0, 0, 0, 0, 0, 0],      //
        [2, 2, 3, 256 + 2, 0, 0, 0, 0, 0, 0],      //
    ];
    for cells in wrong {
        is_no_bookmark(&asked, &cells);
    }
    // Of person 0 the zeros behind a chain look like the person repeated.
    let of_0 = Asked::six_persons(Question { from: 0, to: 0, ..R });
    assert!(of_0.ring_portion(1, &[4, 0, 2, 3, 5, 0, 0, 0, 0, 0], 10).0.is_ok());
    is_no_bookmark(&of_0, &[3, 0, 2, 3, 5, 0, 0, 0, 0, 0]);
    is_no_bookmark(&of_0, &[5, 0, 2, 3, 5, 0, 0, 0, 0, 0]);
    is_no_bookmark(&of_0, &[1, 0, 0, 0, 0, 0, 0, 0, 0, 0]);
    is_no_bookmark(&of_0, &[2, 0, 0, 0, 0, 0, 0, 0, 0, 0]);
}

// Chains and rings of other listings.

#[test]
fn chains_are_no_bookmarks_of_rings() {
    let mut random = Random::of_test("chains_are_no_bookmarks_of_rings");
    let mut cases = vec![(files::six_persons(), Asked::six_persons(R))];
    cases.extend((0..1_500).map(|_| random_rings(&mut random, 6)));
    let mut chains_met = 0;
    for (shape, asked) in cases {
        for to in (0..shape.persons() as u32).filter(|&to| to != asked.question.from) {
            let question = Question {
                to,
                ..asked.question
            };
            let chains = lister::listing(&asked.file, &question).expect("the question passes");
            chains_met += chains.len();
            for chain in chains.iter().take(10) {
                is_no_bookmark(&asked, &record(chain));
            }
        }
    }
    assert!(chains_met > 1_000, "{chains_met}");
}

#[test]
fn rings_are_no_bookmarks_of_chains() {
    let mut random = Random::of_test("rings_are_no_bookmarks_of_chains");
    let mut rings_met = 0;
    for _ in 0..1_000 {
        let (shape, asked) = random_rings(&mut random, 6);
        for ring in asked.rings().iter().take(5) {
            rings_met += 1;
            for to in (0..shape.persons() as u32).filter(|&to| to != ring[0]) {
                let question = Question {
                    to,
                    ..asked.question
                };
                let chains = Asked::new(asked.file.clone(), question);
                let told = chains.portion(1, &record(ring), 20);
                assert_eq!(told, (refused(17, 0), untouched(20)));
                chains.refuses_to_move(chains.held(1, &record(ring)), 20, 17, 0);
            }
        }
    }
    assert!(rings_met > 200, "{rings_met}");
}

/// A ring begun at another of its persons is that person's. Turned round it is another ring, if the links are there.
#[test]
fn rings_of_others_and_rings_turned_round() {
    let mut random = Random::of_test("rings_of_others_and_rings_turned_round");
    let (mut turned_rings, mut turned_bad) = (0, 0);
    for _ in 0..2_000 {
        let (shape, asked) = random_rings(&mut random, 6);
        for ring in asked.rings().iter().take(5) {
            let hops = ring.len() - 1;
            for start in 1..hops {
                let others: Vec<u32> = (0..=hops).map(|hop| ring[(start + hop) % hops]).collect();
                is_no_bookmark(&asked, &record(&others));
            }
            let turned: Vec<u32> = ring.iter().rev().copied().collect();
            let (answer, _) = asked.ring_portion(1, &record(&turned), 20);
            assert_eq!(answer.is_ok(), is_ring(&shape, &asked.question, &turned));
            if answer.is_err() {
                turned_bad += 1;
            } else if hops > 2 {
                turned_rings += 1;
            }
        }
    }
    assert!(
        turned_rings > 50 && turned_bad > 50,
        "{turned_rings} {turned_bad}"
    );
}

#[test]
fn rings_of_more_hops_than_asked() {
    let file = files::everybody_linked(8).bytes();
    let ring = [3, 0, 7, 1, 6, 2, 5, 4, 3];
    for hops in 1..=8 {
        let question = Question {
            from: 3,
            to: 3,
            hops,
            ..Q
        };
        let asked = Asked::new(file.clone(), question);
        for length in 2..=8 {
            let shorter = [&ring[..length], &[3]].concat();
            if length as u32 <= hops {
                let (answer, _) = asked.ring_portion(1, &record(&shorter), 10);
                assert_eq!(answer, listed(1, false));
            } else {
                is_no_bookmark(&asked, &record(&shorter));
            }
        }
    }
}

/// The ring of one question asked of another that does not admit one of its links, or has fewer hops.
#[test]
fn bookmarks_of_another_question() {
    let mut random = Random::of_test("bookmarks_of_another_question");
    let (mut kept, mut bad) = (0, 0);
    for _ in 0..3_000 {
        let (shape, asked) = random_rings(&mut random, 6);
        let person = asked.question.from;
        let question = Question {
            from: person,
            to: person,
            ..random_question(&mut random, shape.persons())
        };
        let other = Asked::new(asked.file.clone(), question);
        for ring in asked.rings().iter().take(5) {
            let (answer, out) = other.ring_portion(1, &record(ring), 20);
            if is_ring(&shape, &question, ring) {
                assert!(answer.is_ok());
                kept += 1;
            } else {
                assert_eq!((answer, out), (refused(17, 0), untouched(20)));
                bad += 1;
            }
        }
    }
    assert!(kept > 100 && bad > 100, "{kept} kept, {bad} bad");
}

#[test]
#[rustfmt::skip]
fn each_reason_why_a_link_is_not_admitted() {
    let [a, b, c, d] = R_RINGS;
    let bad = |question, rings: &[&[u32]], still: &[&[u32]]| {
        let asked = Asked::six_persons(question);
        for ring in rings {
            is_no_bookmark(&asked, &record(ring));
        }
        for ring in still {
            assert!(asked.ring_portion(1, &record(ring), 20).0.is_ok());
        }
    };
    bad(Question { classes: 1, ..R }, &[b, d], &[a, c]);
    bad(Question { undated: 0, ..R }, &[b, d], &[a, c]);
    bad(Question { meaning: 2, ..R }, &[a, b, c, d], &[]);
    bad(Question { first_day: 700_051, ..R }, &[a, b], &[c, d]);
    bad(Question { last_day: 700_399, ..R }, &[b, d], &[a, c]);
    bad(Question { hops: 3, ..R }, &[b, d], &[a, c]);
    bad(Question { hops: 1, ..R }, &[a, b, c, d], &[]);
}

#[test]
fn bookmarks_after_the_file_changed() {
    let mut random = Random::of_test("bookmarks_after_the_file_changed");
    let (mut kept, mut bad) = (0, 0);
    for _ in 0..4_000 {
        let (mut shape, before) = random_rings(&mut random, 6);
        let owner = random.below(shape.persons());
        let row = &mut shape.rows[owner];
        if !row.is_empty() {
            row.remove(random.below(row.len()));
        }
        let after = Asked::new(shape.bytes(), before.question);
        for ring in before.rings().iter().take(8) {
            match after.ring_portion(1, &record(ring), 20).0 {
                Ok(_) => kept += 1,
                Err(_) => bad += 1,
            }
        }
    }
    assert!(kept > 100 && bad > 100, "{kept} kept, {bad} bad");
}
