//! What `kin_rings` refuses, in which order, and that every lent cell stays as it came.
//!
//! Covers: every two wrongs of 1 to 9, 10 at From, 10 at To, 21, 12 to 15, 20, 16 and 17, in each of which the one that is
//! looked at first is told; every pair of two persons; 11 never, and From and To the same never a fault; refusals of a file
//! by its length alone, above 32 bits too.

use independent::asked::Asked;
use independent::checker::{refused, Refusal};
use independent::faults::{catalogue, with_faults};
use independent::files;
use independent::lent::{untouched, VastTail};
use independent::lister::{listed, record, Question};
use independent::outside;
use independent::questions::{
    faulty_ring_questions, random_question, ring_question_faults, with_fault, Q, R, R_RINGS,
};
use independent::random::Random;

/// A fresh start, a good bookmark, bad ones, each with output enough and too little.
const LENT: [(u32, &[u32], usize); 7] = [
    (0, &[], 45),
    (0, &[7; 3], 9),
    (1, &[3, 2, 1, 3, 2, 0, 0, 0, 0, 0], 45),
    (1, &[3, 2, 1, 3, 2, 0, 0, 0, 0, 0], 9),
    (1, &[2, 2, 3, 5, 0, 0, 0, 0, 0, 0], 45),
    (1, &[7; 11], 0),
    (2, &[], 10),
];

/// Told so whatever else is lent, and all cells stay as they came.
fn refuses(file: &[u8], question: Question, refusal: Refusal) {
    let asked = Asked::new(file.to_vec(), question);
    for (started, bookmark, cells) in LENT {
        let told = asked.ring_portion(started, bookmark, cells);
        assert_eq!(told, (Err(refusal), untouched(cells)), "{question:?}");
    }
}

/// What is lent is what it is said to be: without another wrong the two are listed, then 16, then 17.
#[test]
fn sixteen_comes_before_seventeen() {
    let asked = Asked::six_persons(R);
    let told =
        LENT.map(|(started, bookmark, cells)| asked.ring_portion(started, bookmark, cells).0);
    let (sixteen, seventeen) = (refused(16, 0), refused(17, 0));
    let right = [
        listed(4, true),
        sixteen,
        listed(3, true),
        sixteen,
        seventeen,
        sixteen,
        seventeen,
    ];
    assert_eq!(told, right);
    for cells in 0..10 {
        for bookmark in [&[][..], &record(R_RINGS[0]), &[3; 10], &[0; 11]] {
            let told = asked.ring_portion(1, bookmark, cells);
            assert_eq!(told, (refused(16, 0), untouched(cells)));
        }
    }
    assert_eq!(asked.ring_portion(1, &[3; 10], 10).0, refused(17, 0));
}

#[test]
fn every_refusal_of_a_question_before_those_that_follow() {
    let file = files::six_persons().bytes();
    for fault in ring_question_faults(6, R.from) {
        refuses(&file, with_fault(&R, &fault), fault.refusal);
    }
    for (question, refusal) in faulty_ring_questions() {
        refuses(&file, question, refusal);
    }
}

#[test]
fn the_files_refusals_come_before_the_questions() {
    let shape = files::six_persons();
    let file = shape.bytes();
    let mut questions = vec![R];
    // One fault of each number at each place where it can be.
    let mut faults = ring_question_faults(6, R.from);
    faults.dedup_by_key(|fault| (fault.number_of_question, fault.refusal.number));
    questions.extend(faults.iter().map(|fault| with_fault(&R, fault)));
    for fault in catalogue(&shape) {
        let changed = with_faults(&file, &[&fault]);
        for question in &questions {
            refuses(&changed, *question, fault.refusal);
        }
    }
}

#[test]
#[rustfmt::skip]
fn the_order_stated_one_by_one() {
    let file = files::six_persons().bytes();
    let told = |question, number, place| refuses(&file, question, Refusal { number, place });
    // Each has all the wrongs of those below it.
    let all_wrong = Question { from: 6, to: 7, hops: 0, classes: 0, meaning: 0, first_day: 0, last_day: 0, undated: 2 };
    refuses(&file[..31], all_wrong, Refusal { number: 1, place: 0 });
    refuses(&file[..187], all_wrong, Refusal { number: 3, place: 0 });
    told(all_wrong, 10, 0);
    told(Question { to: 6, ..all_wrong }, 10, 0);
    told(Question { from: 2, ..all_wrong }, 10, 1);
    let differ = Question { from: 2, to: 3, ..all_wrong };
    told(differ, 21, 0);
    let same = Question { to: 2, ..differ };
    told(same, 12, 0);
    told(Question { hops: 1, ..same }, 13, 0);
    told(Question { hops: 8, classes: 15, ..same }, 14, 0);
    told(Question { hops: 8, classes: 15, meaning: 1, ..same }, 15, 0);
    told(Question { undated: 2, ..R }, 20, 0);
    assert_eq!(Asked::six_persons(R).ring_portion(1, &[7; 10], 9).0, refused(16, 0));
    assert_eq!(Asked::six_persons(R).ring_portion(1, &[7; 10], 10).0, refused(17, 0));
}

/// 21 for any two who differ, whichever is lower, whether there are chains between them or not.
#[test]
fn any_two_persons_who_differ() {
    let file = files::six_persons().bytes();
    for from in 0..6 {
        for to in 0..6 {
            for hops in 1..=8 {
                let question = Question {
                    from,
                    to,
                    hops,
                    ..Q
                };
                if from != to {
                    let refusal = Refusal {
                        number: 21,
                        place: 0,
                    };
                    refuses(&file, question, refusal);
                } else {
                    let asked = Asked::new(file.clone(), question);
                    assert!(asked.ring_portion(0, &[], 45).0.is_ok());
                }
            }
        }
    }
    // Of many persons, those whose numbers are the same in their lower byte too.
    let file = files::largest().bytes();
    for (from, to) in [(0, 256), (256, 0), (1_023, 767), (3, 515), (1_022, 1_023)] {
        let question = Question { from, to, ..R };
        let refusal = Refusal {
            number: 21,
            place: 0,
        };
        refuses(&file, question, refusal);
    }
}

/// Whatever the numbers are, 11 is never told, and the same person at both ends never has 21.
#[test]
fn never_11() {
    let mut random = Random::of_test("never_11");
    let (mut met_21, mut passed) = (0, 0);
    for _ in 0..20_000 {
        let shape = files::random_file(&mut random, 5);
        let mut question = random_question(&mut random, shape.persons().max(2));
        if random.chance(1, 2) {
            question.to = question.from;
        }
        let faults = ring_question_faults(shape.persons() as u32, question.from);
        if random.chance(1, 2) {
            question = with_fault(&question, &faults[random.below(faults.len())]);
        }
        let cells = random.one_of(&[9, 10, 45]);
        let asked = Asked::new(shape.bytes(), question);
        let (answer, _) = asked.ring_portion(random.below(2) as u32, &[1; 10], cells);
        match answer {
            Ok(_) => passed += 1,
            Err(refusal) => {
                assert_ne!(refusal.number, 11, "{question:?}");
                assert!(refusal.number != 21 || question.from != question.to);
                met_21 += usize::from(refusal.number == 21);
            }
        }
    }
    assert!(met_21 > 2_000 && passed > 500, "{met_21} {passed}");
}

#[test]
fn a_file_of_more_than_32_bits_of_bytes_is_3() {
    let vast = VastTail::new(&files::six_persons().bytes(), 1 << 32);
    for question in [R, Q] {
        let mut out = untouched(45);
        let told = outside::rings_vast_file(&vast, &question, &mut out);
        assert_eq!((told, out), (refused(3, 0), untouched(45)));
    }
}
