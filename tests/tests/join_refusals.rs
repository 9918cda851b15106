//! What `kin_join` refuses, and what it leaves as it came: answer, every working cell and every output cell.
//!
//! Covers: outputs and working cells of every length, also none at the null pointer; every refusal, their order, and 16
//! before 18.

use independent::asked::Asked;
use independent::checker::{refused, Refusal};
use independent::faults::{catalogue, with_faults};
use independent::files;
use independent::lent::untouched;
use independent::lister::{listed, Question};
use independent::outside;
use independent::questions::{faulty_questions, Q};
use independent::random::Random;

// Lengths.

#[test]
fn working_cells_and_outputs_of_every_length() {
    let asked = Asked::six_persons(Q);
    for working in 0..=75 {
        for cells in 0..=45 {
            let answer = asked.join(working, cells).0;
            if cells < 10 {
                assert_eq!(answer, refused(16, 0));
            } else if working < 50 {
                assert_eq!(answer, refused(18, 0));
            } else {
                let count = (cells as u64 / 10).min(3);
                assert_eq!(answer, listed(count, count == 3));
            }
        }
    }
}

#[test]
fn no_cells_at_the_null_pointer() {
    let file = files::six_persons().bytes();
    let mut out = untouched(30);
    assert_eq!(
        outside::join_null_working(&file, &Q, &mut out),
        refused(18, 0)
    );
    assert_eq!(outside::join_null_working(&[], &Q, &mut out), refused(1, 0));
    assert_eq!(
        outside::join_null_working(&file, &Q, &mut out[..9]),
        refused(16, 0)
    );
    for working in [0, 49, 50] {
        let mut working = untouched(working);
        let told = outside::join_null_output(&file, &Q, &mut working);
        assert_eq!(told, refused(16, 0));
        let told = outside::join_null_output(&file[..187], &Q, &mut working);
        assert_eq!(told, refused(3, 0));
    }
}

// Refusals.

#[test]
fn every_refusal_of_the_file() {
    let shape = files::six_persons();
    let file = shape.bytes();
    let wrong = Question { from: 9, ..Q };
    for fault in catalogue(&shape) {
        let Refusal { number, place } = fault.refusal;
        let changed = with_faults(&file, &[&fault]);
        for (question, working, cells) in [(Q, 50, 30), (Q, 49, 30), (Q, 49, 9), (wrong, 0, 0)] {
            let asked = Asked::new(changed.clone(), question);
            asked.refuses_to_join(working, cells, number, place);
        }
    }
}

#[test]
fn every_refusal_of_the_question() {
    for (question, Refusal { number, place }) in faulty_questions() {
        let asked = Asked::six_persons(question);
        for (working, cells) in [(100, 45), (100, 9), (9, 45), (0, 0)] {
            asked.refuses_to_join(working, cells, number, place);
        }
    }
}

#[test]
fn sixteen_comes_before_eighteen() {
    let mut random = Random::of_test("sixteen_comes_before_eighteen");
    let mut all = vec![Asked::six_persons(Q)];
    all.extend((0..300).map(|_| Asked::random(&mut random, 6)));
    for asked in all {
        for cells in 0..10 {
            for working in [0, asked.enough() - 1, asked.enough(), asked.enough() + 10] {
                asked.refuses_to_join(working, cells, 16, 0);
            }
        }
        asked.refuses_to_join(asked.enough() - 1, 10, 18, 0);
    }
}
