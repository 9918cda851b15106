//! Rings: those of the six-person file, those that a lister of its own finds where everybody is linked, and refusals.

use crate::{everybody_linked, listed, persons_in, refused, SIX_PERSONS};
use kin::{
    ring_portion, rings, Classes, DateMeaning, HeldListing, Question, Refused, Ring, Rings, Start,
    LAST_DAY,
};

/// A cell that the library doesn't write, to see which cells it left alone.
const UNTOUCHED: u32 = 77_777;

/// The rings of person 2 in at most five hops; in four there is no second one.
const FIRST: &[u32] = &[2, 1, 3, 2];
const SECOND: &[u32] = &[2, 1, 3, 5, 0, 2];
const THIRD: &[u32] = &[2, 3, 2];
const FOURTH: &[u32] = &[2, 3, 5, 0, 2];

fn five_hops() -> Question {
    Question::back_to(2, 5)
}

fn all(rings: Rings<'_>) -> Result<Vec<Vec<u32>>, Refused> {
    rings
        .map(|ring| ring.map(|ring| ring.persons().to_vec()))
        .collect()
}

/// All rings that begin so, where everybody is linked; in dictionary order.
fn rounds(so_far: &[u32], persons: u32, hops: u32) -> Vec<Vec<u32>> {
    if hops == 0 {
        return vec![];
    }
    let next = (0..persons).filter(|person| so_far.last() != Some(person));
    next.flat_map(|person| match [so_far, &[person]].concat() {
        ring if person == so_far[0] => vec![ring],
        _ if so_far.contains(&person) => vec![],
        longer => rounds(&longer, persons, hops - 1),
    })
    .collect()
}

#[test]
fn the_rings_of_a_person() {
    let q = five_hops();
    let cases: [(Question, &[&[u32]]); 11] = [
        (q, &[FIRST, SECOND, THIRD, FOURTH]),
        (Question { hops: 8, ..q }, &[FIRST, SECOND, THIRD, FOURTH]),
        (Question { hops: 4, ..q }, &[FIRST, THIRD, FOURTH]),
        (Question { hops: 2, ..q }, &[THIRD]),
        (Question { hops: 1, ..q }, &[]),
        (
            Question {
                undated: false,
                ..q
            },
            &[FIRST, THIRD],
        ),
        (
            Question {
                classes: Classes::SPOUSE,
                ..q
            },
            &[],
        ),
        (
            Question {
                last_day: 700_299,
                ..q
            },
            &[],
        ),
        (
            Question {
                first_day: 700_101,
                ..q
            },
            &[THIRD, FOURTH],
        ),
        (
            Question::back_to(0, 4),
            &[&[0, 1, 3, 5, 0], &[0, 2, 3, 5, 0]],
        ),
        (Question::back_to(4, 8), &[]),
    ];
    for (question, right) in cases {
        assert_eq!(
            all(rings(SIX_PERSONS, question)).unwrap(),
            right,
            "{question:?}"
        );
    }
}

#[test]
fn a_question_for_rings_has_one_person_and_else_asks_as_one_for_chains() {
    let question = Question {
        from: 2,
        ..Question::between(0, 2, 5)
    };
    assert_eq!(five_hops(), question);
}

#[test]
fn every_room_gives_the_same_rings_whoever_is_asked() {
    let file = everybody_linked(5);
    for person in 0..5 {
        let question = Question::back_to(person, 4);
        let right = rounds(&[person], 5, 4);
        assert_eq!(right.len(), 4 + 12 + 24);
        for room in (1..=right.len() as u16 + 1).chain([u16::MAX]) {
            let told = all(Rings::onward(&file, question, Start::Fresh, room));
            assert_eq!(told.unwrap(), right, "room {room}");
        }
        assert_eq!(all(rings(&file, question)).unwrap(), right);
    }
}

#[test]
fn rings_go_on_after_each_of_them() {
    let file = everybody_linked(5);
    let question = Question::back_to(1, 8);
    let right: Vec<Ring> = rings(&file, question).map(Result::unwrap).collect();
    assert_eq!(right.len(), 4 + 12 + 24 + 24);
    for (place, ring) in right.iter().enumerate() {
        let rest: Vec<Ring> = Rings::onward(&file, question, Start::After(ring.record()), 3)
            .map(Result::unwrap)
            .collect();
        assert_eq!(rest, right[place + 1..]);
    }
}

#[test]
fn a_portion_of_rings_fills_its_room_and_leaves_the_other_cells() {
    let mut output = [UNTOUCHED; 39];
    let answer = ring_portion(SIX_PERSONS, five_hops(), Start::Fresh, &mut output);
    assert_eq!(answer, Ok(listed(3, false)));
    assert_eq!(persons_in(&output, 3), [FIRST, SECOND, THIRD]);
    assert_eq!(output[30..], [UNTOUCHED; 9]);

    let mut output = [UNTOUCHED; 40];
    let answer = ring_portion(SIX_PERSONS, five_hops(), Start::Fresh, &mut output);
    assert_eq!(answer, Ok(listed(4, true)));

    let bookmark = [2, 2, 3, 2, 0, 0, 0, 0, 0, 0];
    let mut output = [UNTOUCHED; 20];
    let after = Start::After(&bookmark);
    let answer = ring_portion(SIX_PERSONS, five_hops(), after, &mut output);
    assert_eq!(answer, Ok(listed(1, true)));
    assert_eq!(persons_in(&output, 1), [FOURTH]);
    assert_eq!(output[10..], [UNTOUCHED; 10]);
}

#[test]
fn bookmarks_that_are_no_ring_of_the_person_are_refused() {
    let cases: [&[u32]; 9] = [
        &[],
        &[2, 2, 3, 2, 0, 0, 0, 0, 0],
        // Two chains, the person alone, a ring of another person, one of six hops, and one that passes through the person.
        &[2, 2, 3, 5, 0, 0, 0, 0, 0, 0],
        &[3, 0, 1, 3, 5, 0, 0, 0, 0, 0],
        &[0, 2, 0, 0, 0, 0, 0, 0, 0, 0],
        &[3, 3, 2, 1, 3, 0, 0, 0, 0, 0],
        &[6, 2, 1, 3, 5, 0, 1, 2, 0, 0],
        &[4, 2, 3, 2, 3, 2, 0, 0, 0, 0],
        // A ring with something behind its zeros.
        &[2, 2, 3, 2, 0, 0, 0, 0, 0, 1],
    ];
    for bookmark in cases {
        let mut output = [UNTOUCHED; 20];
        let after = Start::After(bookmark);
        let answer = ring_portion(SIX_PERSONS, five_hops(), after, &mut output);
        assert_eq!(answer, Err(refused(17, 0)), "{bookmark:?}");
        assert_eq!(output, [UNTOUCHED; 20]);
        let told = all(Rings::onward(SIX_PERSONS, five_hops(), after, 2));
        assert_eq!(told, Err(refused(17, 0)), "{bookmark:?}");
    }
}

#[test]
fn a_held_listing_lists_no_rings() {
    let ring = Ring::from_record(&[2, 2, 3, 2, 0, 0, 0, 0, 0, 0]).unwrap();
    let mut held = HeldListing::after(five_hops(), &ring);
    let answer = held.move_on(SIX_PERSONS, &mut [0; 20]);
    assert_eq!(answer, Err(refused(11, 0)));
}

#[test]
fn questions_for_rings_that_make_no_sense_are_refused() {
    let q = five_hops();
    let bad_hops = Question { hops: 0, ..q };
    let cases = [
        (Question { from: 6, ..q }, refused(10, 0)),
        (Question { to: 6, ..q }, refused(10, 1)),
        (Question::back_to(6, 5), refused(10, 0)),
        (Question { to: 3, ..q }, refused(21, 0)),
        (Question { to: 3, ..bad_hops }, refused(21, 0)),
        (bad_hops, refused(12, 0)),
        (Question { hops: 9, ..q }, refused(12, 0)),
        (
            Question {
                classes: Classes::from_number(16),
                ..q
            },
            refused(13, 0),
        ),
        (
            Question {
                meaning: DateMeaning::from_number(3),
                ..q
            },
            refused(14, 0),
        ),
        (
            Question {
                last_day: LAST_DAY + 1,
                ..q
            },
            refused(15, 0),
        ),
    ];
    for (question, right) in cases {
        assert_eq!(
            all(rings(SIX_PERSONS, question)),
            Err(right),
            "{question:?}"
        );
    }
    assert_eq!(all(rings(&SIX_PERSONS[..187], q)), Err(refused(3, 0)));
}

#[test]
fn no_room_for_a_ring_is_refused() {
    let mut output = [UNTOUCHED; 9];
    let answer = ring_portion(SIX_PERSONS, five_hops(), Start::After(&[]), &mut output);
    assert_eq!(answer, Err(refused(16, 0)));
    assert_eq!(output, [UNTOUCHED; 9]);
    let mut rings = Rings::onward(SIX_PERSONS, five_hops(), Start::Fresh, 0);
    assert_eq!(rings.next(), Some(Err(refused(16, 0))));
    assert_eq!(rings.next(), None);
    assert_eq!(rings.next(), None);
}
