//! The held listing, through `kin_held`, against the brute-force lister: answer, every output cell and all 19 cells of
//! the held listing, or all 18 of one stored before undated links could be left out.
//!
//! Covers: the six-person file moved through; whole listings at rooms 1, 2, 3, 40 and random, in one place and from
//! whichever desk; past the end, again and again; no chain at all; garbage in the record of one not yet started; bad
//! records in a started one; every number in the started cell; the file and the question changed between calls; one
//! stored before beside today's form, call by call with every room. Sizes and refusals are in `held_refusals.rs`. The
//! file has to stay as it came in every call, and so has the memory beside what is lent.

use independent::asked::{records, Asked};
use independent::files::{self, random_graph};
use independent::lent::{untouched, Lent};
use independent::lister::{listed, listing, record, Held, Question};
use independent::questions::{
    first_to_last, q_after, q_stored_after, random_question, A, B, C, Q, Q_HELD, Q_STORED,
};
use independent::random::Random;

/// Numbers that are started.
const STARTED: [u32; 8] = [1, 2, 3, 255, 256, 65_536, 1 << 31, u32::MAX];

// The six-person file.

#[test]
fn the_six_person_file_with_room_for_two() {
    let desk = Asked::six_persons(Q);
    let mut held = Q_HELD;
    let (answer, out) = desk.moved(&mut held, 29);
    assert_eq!((answer, held), (listed(2, false), q_after(B)));
    assert_eq!(out[..20], [record(A), record(B)].concat());
    assert_eq!(out[20..], untouched(29)[20..]);
    let (answer, out) = desk.moved(&mut held, 29);
    assert_eq!((answer, held), (listed(1, true), q_after(C)));
    assert_eq!(out[..10], record(C));
    assert_eq!(out[10..], untouched(29)[10..]);
    desk.stays_at_its_end(held);
}

#[test]
fn the_six_person_file_chain_by_chain() {
    let desk = Asked::six_persons(Q);
    let mut held = Q_HELD;
    for (chain, ended) in [(A, false), (B, false), (C, true)] {
        let (answer, out) = desk.moved(&mut held, 10);
        assert_eq!((answer, held), (listed(1, ended), q_after(chain)));
        assert_eq!(out, record(chain));
    }
    desk.stays_at_its_end(held);
}

#[test]
fn a_portion_that_is_all_there_is() {
    let desk = Asked::six_persons(Q);
    for cells in [30, 39, 40, 400] {
        let mut held = Q_HELD;
        let (answer, _) = desk.moved(&mut held, cells);
        assert_eq!((answer, held), (listed(3, true), q_after(C)));
    }
}

#[test]
#[rustfmt::skip]
fn no_chain_starts_nothing() {
    for question in [Question { hops: 2, ..Q }, Question { meaning: 2, ..Q }, Question { last_day: 700_399, ..Q }] {
        let desk = Asked::six_persons(question);
        desk.stays_at_its_end(desk.fresh());
        desk.stays_at_its_end(desk.held(0, &[0; 10]));
        desk.stays_at_its_end(desk.held(0, &record(A)));
        desk.refuses_to_move(desk.held(1, &record(A)), 30, 17, 0);
    }
}

#[test]
fn every_question_over_the_six_person_file() {
    for from in 0..6 {
        for to in 0..6 {
            for hops in 0..=9 {
                let question = Question {
                    from,
                    to,
                    hops,
                    ..Q
                };
                let desk = Asked::six_persons(question);
                if desk.passes() {
                    desk.moved_through(desk.fresh(), &[]);
                    desk.moved_through(desk.fresh(), &[2, 2, 2, 2]);
                } else {
                    let _ = desk.moved(&mut desk.fresh(), 30);
                }
            }
        }
    }
}

// Whole listings.

#[test]
fn whole_listings_at_rooms_1_2_3_and_40() {
    let mut random = Random::of_test("whole_listings_at_rooms_1_2_3_and_40");
    let (mut with_chains, mut longest) = (0, 0);
    for _ in 0..12_000 {
        let desk = Asked::random(&mut random, 7);
        let count = desk.chains().len();
        with_chains += usize::from(count > 1);
        longest = longest.max(count);
        for room in [1, 2, 3, 40] {
            desk.moved_through(desk.fresh(), &vec![room; count / room + 1]);
        }
    }
    assert!(with_chains > 500 && longest > 40, "{with_chains} {longest}");
}

#[test]
fn whole_listings_at_random_rooms() {
    let mut random = Random::of_test("whole_listings_at_random_rooms");
    let mut longest = 0;
    for _ in 0..6_000 {
        let persons = random.between(4, 8);
        let parts = random.between(1, 5);
        let file = random_graph(&mut random, persons, parts).bytes();
        let desk = Asked::new(file, first_to_last(persons, random.between(2, 8) as u32));
        longest = longest.max(desk.chains().len());
        let most = random.one_of(&[2, 5, 20, 60]);
        let rooms: Vec<usize> = (0..300).map(|_| random.between(1, most)).collect();
        desk.moved_through(desk.fresh(), &rooms);
    }
    assert!(longest > 100, "{longest}");
}

#[test]
fn a_held_listing_that_stays_in_its_place() {
    let mut random = Random::of_test("a_held_listing_that_stays_in_its_place");
    for _ in 0..2_000 {
        let desk = Asked::random(&mut random, 6);
        let lent = Lent::shifted(&desk.fresh(), random.below(4));
        to_the_end_in_its_place(&mut random, &desk, lent);
    }
}

fn to_the_end_in_its_place(random: &mut Random, desk: &Asked, mut lent: Lent<u32>) {
    let mut handed_over = vec![];
    // Two calls more than it takes at the smallest room.
    for _ in 0..desk.chains().len() + 2 {
        let cells = random.between(10, 35);
        let (answer, out) = desk.moved_in_place(&mut lent, cells);
        let answer = answer.expect("neither file nor question is refused");
        handed_over.extend_from_slice(&out[..10 * answer.count as usize]);
    }
    assert_eq!(handed_over, records(desk.chains()));
}

#[test]
fn held_listings_of_several_desks_at_once() {
    // Several questions over several files, held side by side and moved in any order: none knows of another.
    let mut random = Random::of_test("held_listings_of_several_desks_at_once");
    for _ in 0..300 {
        let desks: Vec<Asked> = (0..4).map(|_| Asked::random(&mut random, 6)).collect();
        let mut listings: Vec<(usize, Held, Vec<u32>)> = (0..8)
            .map(|i| (i % 4, desks[i % 4].fresh(), vec![]))
            .collect();
        for _ in 0..200 {
            let (desk, held, handed_over) = &mut listings[random.below(8)];
            let (answer, out) = desks[*desk].moved(held, random.between(10, 45));
            let count = answer.expect("neither file nor question is refused").count;
            handed_over.extend_from_slice(&out[..10 * count as usize]);
        }
        for (desk, _, handed_over) in &listings {
            let whole = records(desks[*desk].chains());
            assert_eq!(handed_over[..], whole[..handed_over.len()]);
        }
    }
}

#[test]
fn a_copy_goes_on_from_where_it_was_made() {
    let mut random = Random::of_test("a_copy_goes_on_from_where_it_was_made");
    for _ in 0..300 {
        let desk = Asked::random(&mut random, 6);
        let mut held = desk.fresh();
        let mut copies = vec![held];
        for _ in 0..desk.chains().len().min(12) {
            let _ = desk.moved(&mut held, 10 * random.between(1, 3));
            copies.push(held);
        }
        random.shuffle(&mut copies);
        for mut copy in copies {
            let _ = desk.moved(&mut copy, 10 * desk.chains().len() + 15);
            desk.stays_at_its_end(copy);
        }
    }
}

// Not yet started.

#[test]
fn one_not_yet_started_ignores_its_record() {
    let desk = Asked::six_persons(Q);
    let mut beyond = record(C);
    beyond[9] = 1;
    for garbage in [
        [0; 10],
        [u32::MAX; 10],
        [9; 10],
        record(A),
        record(B),
        record(C),
        record(&[0, 1, 4, 5]),
        beyond,
    ] {
        desk.moved_through(desk.held(0, &garbage), &[]);
        desk.moved_through(desk.held(0, &garbage), &[2, 2]);
        desk.refuses_to_move(desk.held(0, &garbage), 9, 16, 0);
    }
}

#[test]
fn garbage_in_the_records_of_random_listings() {
    let mut random = Random::of_test("garbage_in_the_records_of_random_listings");
    for _ in 0..3_000 {
        let desk = Asked::random(&mut random, 6);
        let bound = random.one_of(&[2, 7, 1 << 16, 1 << 32]);
        let garbage: [u32; 10] = std::array::from_fn(|_| random.below(bound) as u32);
        let mut held = desk.held(0, &garbage);
        let _ = desk.moved(&mut held, random.between(10, 60));
        for chain in desk.chains().iter().take(3) {
            let _ = desk.moved(&mut desk.held(0, &record(chain)), 20);
        }
    }
}

// Started.

#[test]
fn any_number_but_0_is_started() {
    let desk = Asked::six_persons(Q);
    for started in STARTED {
        let mut held = desk.held(started, &record(A));
        let (answer, _) = desk.moved(&mut held, 10);
        assert_eq!((answer, held), (listed(1, false), q_after(B)), "{started}");
        // With nothing written, and where it is refused, the cell stays as it was.
        desk.stays_at_its_end(desk.held(started, &record(C)));
        desk.refuses_to_move(desk.held(started, &record(&[0, 1, 4, 5])), 30, 17, 0);
        desk.refuses_to_move(desk.held(started, &record(A)), 9, 16, 0);
        let none = Asked::six_persons(Question { hops: 0, ..Q });
        none.refuses_to_move(none.held(started, &record(A)), 30, 12, 0);
    }
}

#[test]
fn started_over_random_listings() {
    let mut random = Random::of_test("started_over_random_listings");
    for _ in 0..4_000 {
        let desk = Asked::random(&mut random, 6);
        for chain in desk.chains().iter().take(6) {
            let mut held = desk.held(random.one_of(&STARTED), &record(chain));
            let _ = desk.moved(&mut held, random.between(9, 45));
        }
    }
}

#[test]
fn bad_records_of_a_started_one() {
    let desk = Asked::six_persons(Q);
    for record in [
        [0; 10],
        [u32::MAX; 10],
        record(&[0]),
        record(&[5]),
        record(&[0, 5]),
        record(&[0, 1, 3]),
        record(&[1, 3, 5]),
        record(&[0, 1, 4, 5]),
        record(&[0, 1, 3, 2, 3, 5]),
        record(&[0, 1, 3, 5, 0, 2, 3, 5]),
        [3, 0, 1, 3, 5, 0, 0, 0, 0, 1],
        [4, 0, 1, 3, 5, 0, 0, 0, 0, 0],
        [2, 0, 1, 3, 5, 0, 0, 0, 0, 0],
        [9, 0, 1, 3, 5, 0, 0, 0, 0, 0],
    ] {
        for started in STARTED {
            for cells in [10, 30, 45] {
                desk.refuses_to_move(desk.held(started, &record), cells, 17, 0);
            }
        }
    }
    // With hops 3 the chain of four hops is none of the listing.
    let three = Asked::six_persons(Question { hops: 3, ..Q });
    three.refuses_to_move(three.held(1, &record(B)), 30, 17, 0);
}

#[test]
fn every_cell_of_a_record_changed() {
    let mut random = Random::of_test("every_cell_of_a_record_changed");
    let mut desks = vec![Asked::six_persons(Q)];
    desks.extend((0..400).map(|_| Asked::random(&mut random, 6)));
    let (mut kept, mut bad) = (0, 0);
    for desk in desks {
        for chain in desk.chains().iter().take(10) {
            for cell in 0..10 {
                for value in (0..10).chain([256, 65_536, 1 << 31, u32::MAX]) {
                    let mut changed = record(chain);
                    changed[cell] = value;
                    let mut held = desk.held(1, &changed);
                    match desk.moved(&mut held, 20).0 {
                        Ok(_) => kept += 1,
                        Err(_) => bad += 1,
                    }
                }
            }
        }
    }
    assert!(kept > 300 && bad > 300, "{kept} kept, {bad} bad");
}

// Between two calls.

#[test]
fn the_file_changed_between_calls() {
    let mut random = Random::of_test("the_file_changed_between_calls");
    let (mut kept, mut bad) = (0, 0);
    for _ in 0..4_000 {
        let mut shape = files::random_file(&mut random, 6);
        if shape.persons() < 2 {
            continue;
        }
        let question = random_question(&mut random, shape.persons());
        let desk = Asked::new(shape.bytes(), question);
        let mut held = desk.fresh();
        let _ = desk.moved(&mut held, 10 * random.between(1, 4));
        for _ in 0..3 {
            let owner = random.below(shape.persons());
            let row = &mut shape.rows[owner];
            if !row.is_empty() {
                row.remove(random.below(row.len()));
            }
            let changed = Asked::new(shape.bytes(), question);
            match changed.moved(&mut held, 10 * random.between(1, 2)).0 {
                Ok(_) => kept += 1,
                Err(_) => bad += 1,
            }
        }
        // The file it was started on: what it holds is good there again.
        let _ = desk.moved(&mut held, 20);
    }
    assert!(kept > 500 && bad > 100, "{kept} kept, {bad} bad");
}

#[test]
fn a_link_more_brings_chains_after_the_end() {
    let mut shape = files::six_persons();
    let desk = Asked::new(shape.bytes(), Q);
    let mut held = desk.fresh();
    let _ = desk.moved(&mut held, 30);
    assert_eq!(held, q_after(C));
    desk.stays_at_its_end(held);
    // 2 gets a link to 5 as well: (0 2 5) follows (0 2 3 5).
    shape.rows[2].push(files::link(5, 1, 0, 0));
    let changed = Asked::new(shape.bytes(), Q);
    let (answer, _) = changed.moved(&mut held, 30);
    assert_eq!((answer, held), (listed(1, true), q_after(&[0, 2, 5])));
    // Without that link again, its record is none of the listing.
    desk.refuses_to_move(held, 30, 17, 0);
}

#[test]
fn the_question_changed_between_calls() {
    let mut random = Random::of_test("the_question_changed_between_calls");
    for _ in 0..3_000 {
        let desk = Asked::random(&mut random, 6);
        let mut held = desk.fresh();
        let _ = desk.moved(&mut held, 10 * random.between(1, 4));
        let n = u32::from_le_bytes(desk.file[4..8].try_into().expect("four bytes"));
        let mut other = random_question(&mut random, n as usize);
        (other.from, other.to) = (desk.question.from, desk.question.to);
        let changed = Asked::new(desk.file.clone(), other);
        let record = held[9..].try_into().expect("ten cells");
        let mut held = changed.held(held[8], record);
        let _ = changed.moved(&mut held, 30);
    }
}

// Stored before undated links could be left out.

#[test]
fn the_six_person_file_stored_before() {
    // The last two chains rest on an undated link.
    let desk = Asked::six_persons(Q);
    let mut stored = Q_STORED;
    for (chain, ended) in [(A, false), (B, false), (C, true)] {
        let (answer, out) = desk.moved(&mut stored, 10);
        assert_eq!((answer, stored), (listed(1, ended), q_stored_after(chain)));
        assert_eq!(out, record(chain));
    }
    desk.stays_at_its_end(stored);
}

/// A desk that admits undated links, and whether a chain of its listing rests on one.
fn random_desk_with_undated(random: &mut Random) -> (Asked, bool) {
    let Asked { file, question, .. } = Asked::random(random, 6);
    let [left_out, admitted] = [0, 1].map(|undated| Question {
        undated,
        ..question
    });
    let fewer = listing(&file, &left_out) != listing(&file, &admitted);
    (Asked::new(file, admitted), fewer)
}

#[test]
fn stored_before_beside_todays_form_with_every_room() {
    let mut random = Random::of_test("stored_before_beside_todays_form_with_every_room");
    let mut on_undated = 0;
    for _ in 0..2_000 {
        let (desk, fewer) = random_desk_with_undated(&mut random);
        on_undated += usize::from(fewer);
        let count = desk.chains().len();
        for room in 1..=count + 1 {
            let (mut held, mut stored) = (desk.fresh(), desk.fresh_stored());
            // Two calls more than it takes.
            for call in 0..count / room + 3 {
                let cells = 10 * room + call % 10;
                let answer = desk.moved_side_by_side(&mut held, &mut stored, cells);
                let left = count.saturating_sub(call * room);
                assert_eq!(answer, listed(left.min(room) as u64, left <= room));
            }
        }
    }
    assert!(on_undated > 200, "{on_undated}");
}

#[test]
fn stored_before_in_its_place() {
    let mut random = Random::of_test("stored_before_in_its_place");
    for _ in 0..1_000 {
        let (desk, _) = random_desk_with_undated(&mut random);
        let lent = Lent::shifted(&desk.fresh_stored(), random.below(4));
        to_the_end_in_its_place(&mut random, &desk, lent);
    }
}

#[test]
fn stored_before_with_any_record_and_any_started_mark() {
    let mut random = Random::of_test("stored_before_with_any_record_and_any_started_mark");
    let (mut kept, mut bad) = (0, 0);
    for _ in 0..3_000 {
        let (desk, _) = random_desk_with_undated(&mut random);
        for chain in desk.chains().iter().take(4) {
            let mut record = record(chain);
            if random.chance(1, 3) {
                record[random.below(10)] = random.below(7) as u32;
            }
            let started = random.one_of(&[0, 1, 2, 255, 1 << 31, u32::MAX]);
            let (mut held, mut stored) =
                (desk.held(started, &record), desk.stored(started, &record));
            let cells = random.between(9, 45);
            match desk.moved_side_by_side(&mut held, &mut stored, cells) {
                Ok(_) => kept += 1,
                Err(_) => bad += 1,
            }
        }
    }
    assert!(kept > 300 && bad > 100, "{kept} kept, {bad} bad");
}

#[test]
fn leaving_out_undated_links_refuses_what_rests_on_one() {
    let admitted = Asked::six_persons(Q);
    let left_out = Asked::six_persons(Question { undated: 0, ..Q });
    for chain in [B, C] {
        left_out.refuses_to_move(left_out.held(1, &record(chain)), 30, 17, 0);
        admitted.moved_in_each_form(1, &record(chain), 30);
    }
    // The first chain is dated at every hop; with 0 none follows it.
    left_out.stays_at_its_end(left_out.held(1, &record(A)));
    let mut held = left_out.fresh();
    let (answer, out) = left_out.moved(&mut held, 10);
    assert_eq!((answer, &out[..]), (listed(1, true), &record(A)[..]));
    assert_eq!(held, left_out.held(1, &record(A)));
}
