//! What `kin_held` refuses, and what it leaves as it came: answer, every output cell and all cells of the held listing.
//!
//! Covers, in today's form of 19 cells and in the one of 18 that was stored before: outputs of every length; every
//! refusal and their order. Other than 18 or 19 cells, also none at the null pointer and more than 32 bits count. 20 for
//! the eighth number, never for one stored before.

use independent::asked::{cells_of, Answer, Asked};
use independent::checker::{refused, Refusal};
use independent::faults::{catalogue, with_faults};
use independent::files;
use independent::lent::{untouched, VastTail};
use independent::lister::{listed, question_held, record, Question};
use independent::outside;
use independent::questions::{
    faulty_questions, q_after, q_stored_after, A, B, C, NOT_UNDATED, Q, Q_HELD, Q_STORED,
};
use independent::random::Random;

// Output.

#[test]
fn outputs_of_every_length() {
    let desk = Asked::six_persons(Q);
    for cells in 0..=64 {
        for mut held in in_both_forms(&[A, B, C]) {
            let (answer, _) = desk.moved(&mut held, cells);
            assert_eq!(answer.is_err(), cells < 10);
        }
    }
}

/// Q held in each form, not yet started and after these chains.
fn in_both_forms(chains: &[&[u32]]) -> Vec<Vec<u32>> {
    let mut forms = vec![Q_HELD.to_vec(), Q_STORED.to_vec()];
    for chain in chains {
        forms.extend([q_after(chain).to_vec(), q_stored_after(chain).to_vec()]);
    }
    forms
}

#[test]
fn no_output_cells_at_the_null_pointer() {
    let file = files::six_persons().bytes();
    for held in in_both_forms(&[A, &[0, 5]]) {
        let mut asked = held.clone();
        let told = outside::held_null_output(&mut asked, &file);
        assert_eq!((told, &asked), (refused(16, 0), &held));
        let told = outside::held_null_output(&mut asked, &[]);
        assert_eq!((told, asked), (refused(1, 0), held));
    }
}

// Other than 18 or 19 cells.

/// The answer of exactly 2^63.
const WRONG_SIZE: Answer = Err(Refusal {
    number: 0,
    place: 0,
});

/// Files and outputs that would be refused, and such as would not.
fn whatever_else_is_lent(mut each: impl FnMut(&[u8], usize)) {
    let file = files::six_persons().bytes();
    for file in [&file[..], &file[..187], &[]] {
        for cells in [0, 9, 10, 45] {
            each(file, cells);
        }
    }
}

#[test]
fn other_than_18_or_19_cells() {
    for held in in_both_forms(&[A, &[0, 5]]) {
        for length in (0..=40).filter(|length| ![18, 19].contains(length)) {
            let mut lent: Vec<u32> = held.iter().copied().cycle().take(length).collect();
            let came = lent.clone();
            whatever_else_is_lent(|file, cells| {
                let mut out = untouched(cells);
                let told = outside::held(&mut lent, file, &mut out);
                assert_eq!((told, out), (WRONG_SIZE, untouched(cells)), "{length}");
                assert_eq!(lent, came);
            });
        }
    }
}

#[test]
fn no_held_cells_at_the_null_pointer() {
    whatever_else_is_lent(|file, cells| {
        let mut out = untouched(cells);
        let told = outside::held_null(file, &mut out);
        assert_eq!((told, out), (WRONG_SIZE, untouched(cells)));
    });
}

#[test]
fn a_length_that_is_18_or_19_only_in_its_lower_half() {
    for held in in_both_forms(&[A]) {
        let held: Vec<u8> = held.iter().flat_map(|cell| cell.to_le_bytes()).collect();
        let vast = VastTail::new(&held, 4 << 32);
        whatever_else_is_lent(|file, cells| {
            let mut out = untouched(cells);
            let told = outside::held_vast(&vast, file, &mut out);
            assert_eq!((told, out), (WRONG_SIZE, untouched(cells)));
        });
    }
}

// Refusals.

#[test]
fn every_refusal_of_the_file() {
    let shape = files::six_persons();
    let file = shape.bytes();
    let wrong = Question { from: 9, ..Q };
    for fault in catalogue(&shape) {
        let Refusal { number, place } = fault.refusal;
        let changed = with_faults(&file, &[&fault]);
        for (question, cells) in [(Q, 30), (Q, 9), (wrong, 30)] {
            let desk = Asked::new(changed.clone(), question);
            desk.refuses_to_move(desk.fresh(), cells, number, place);
            desk.refuses_to_move(desk.fresh_stored(), cells, number, place);
            for (started, record) in [(1, record(A)), (2, [7; 10])] {
                desk.refuses_to_move(desk.held(started, &record), cells, number, place);
                desk.refuses_to_move(desk.stored(started, &record), cells, number, place);
            }
        }
    }
}

#[test]
fn every_refusal_of_the_question() {
    for (question, Refusal { number, place }) in faulty_questions() {
        let desk = Asked::six_persons(question);
        desk.refuses_to_move(desk.fresh(), 30, number, place);
        desk.refuses_to_move(desk.held(1, &record(A)), 30, number, place);
        desk.refuses_to_move(desk.held(u32::MAX, &[7; 10]), 9, number, place);
        // One stored before has no eighth number that could be at fault.
        if question.undated == 1 {
            desk.refuses_to_move(desk.fresh_stored(), 30, number, place);
            desk.refuses_to_move(desk.stored(1, &record(A)), 30, number, place);
            desk.refuses_to_move(desk.stored(u32::MAX, &[7; 10]), 9, number, place);
        }
    }
}

#[test]
fn sixteen_comes_before_seventeen() {
    let desk = Asked::six_persons(Q);
    for cells in 0..10 {
        for record in [record(A), record(&[0, 5]), [3; 10], [0; 10]] {
            for started in [0, 1] {
                desk.refuses_to_move(desk.held(started, &record), cells, 16, 0);
                desk.refuses_to_move(desk.stored(started, &record), cells, 16, 0);
            }
        }
    }
    desk.refuses_to_move(desk.held(1, &[3; 10]), 10, 17, 0);
    desk.refuses_to_move(desk.stored(1, &[3; 10]), 10, 17, 0);
}

// Refusal 20.

#[test]
fn the_eighth_of_19_cells_is_twenty_where_18_are_started() {
    let desk = Asked::six_persons(Q);
    for number in NOT_UNDATED {
        // In the place of the eighth number one stored before has its started mark.
        let mut stored = desk.stored(number, &record(A));
        let (answer, out) = desk.moved(&mut stored, 30);
        assert_eq!((answer, stored), (listed(2, true), q_stored_after(C)));
        assert_eq!(out, cells_of(&[B, C], 30));
        let other = Asked::six_persons(Question {
            undated: number,
            ..Q
        });
        for started in [0, 1, number] {
            for record in [record(A), record(&[0, 5]), [7; 10]] {
                for cells in [0, 9, 10, 30] {
                    other.refuses_to_move(other.held(started, &record), cells, 20, 0);
                }
            }
        }
    }
}

#[test]
fn one_stored_before_is_never_twenty() {
    let mut random = Random::of_test("one_stored_before_is_never_twenty");
    let mut by_number = [0; 21];
    for _ in 0..20_000 {
        let mut stored = q_stored_after(random.one_of(&[A, B, C]));
        for _ in 0..random.below(3) {
            let any = random.any() as u32;
            stored[random.below(18)] =
                random.one_of(&[0, 1, 2, 3, 5, 6, 9, 255, 256, 1 << 31, u32::MAX, any]);
        }
        let desk = Asked::six_persons(question_held(&stored));
        let cells = random.one_of(&[9, 10, 30, 30]);
        match desk.moved(&mut stored, cells).0 {
            Ok(_) => by_number[0] += 1,
            Err(refusal) => by_number[refusal.number as usize] += 1,
        }
    }
    assert_eq!(by_number[20], 0);
    for number in [0, 10, 11, 12, 13, 14, 15, 16, 17] {
        assert!(by_number[number] > 50, "{number}: {by_number:?}");
    }
}
