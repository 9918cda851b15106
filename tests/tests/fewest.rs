//! Fewest hops, through `kin_fewest`, against an independent breadth-first search and admission test.
//!
//! Covers: the six-person file for every pair, hops, class sum, meaning and window that cuts between its days, with its
//! undated links and without; every refusal 10 to 15 and 20 at its limits, alone and in every pair, and after the file's
//! own; every kind under every class sum; undated links admitted and left out, both meanings, both ends of the window;
//! paths longer than the hops; random files and largest ones with every person. That the file stays as it came is asked
//! in every call.

use independent::checker::{refused, Refusal, LAST_DAY};
use independent::faults::{catalogue, with_faults};
use independent::files::{self, feed, link, LinkFile};
use independent::lister::{self, Question};
use independent::outside;
use independent::questions::{
    first_to_last, numbers_of, question_faults, question_of, random_question, QuestionFault,
    EXTRA_PERSON, Q,
};
use independent::random::Random;

fn agree(file: &[u8], question: &Question, person: u32) -> Result<u64, Refusal> {
    let right = lister::fewest(file, question, person).map(u64::from);
    let told = outside::fewest(file, question, person);
    assert!(
        told == right,
        "{question:?}, person {person}: told {told:?}, right is {right:?}"
    );
    right
}

fn stated(file: &[u8], question: &Question, person: u32, hops: u64) {
    let told = agree(file, question, person);
    assert_eq!(told, Ok(hops), "{question:?}, person {person}");
}

fn agree_for_all(file: &LinkFile, question: &Question) {
    let bytes = file.bytes();
    for person in 0..=file.persons() as u32 {
        let _ = agree(&bytes, question, person);
    }
}

// The six-person file.

#[test]
fn the_six_person_file() {
    let file = files::six_persons().bytes();
    for (person, hops) in [(0, 3), (1, 2), (2, 2), (3, 1), (4, 1), (5, 0)] {
        stated(&file, &Q, person, hops);
        for k in 1..=8 {
            let question = Question { hops: k, ..Q };
            stated(&file, &question, person, hops.min(u64::from(k) + 1));
        }
    }
    assert_eq!(agree(&file, &Q, 6), refused(10, 2));
}

#[test]
fn every_pair_and_hops_of_the_six_person_file() {
    let file = files::six_persons();
    for from in 0..7 {
        for to in 0..7 {
            for hops in 0..10 {
                let question = Question {
                    from,
                    to,
                    hops,
                    ..Q
                };
                agree_for_all(&file, &question);
            }
        }
    }
}

#[test]
fn every_class_sum_and_meaning_of_the_six_person_file() {
    let file = files::six_persons();
    for classes in 0..17 {
        for meaning in 0..4 {
            for to in 1..6 {
                for undated in 0..3 {
                    let question = Question {
                        classes,
                        meaning,
                        to,
                        undated,
                        ..Q
                    };
                    agree_for_all(&file, &question);
                }
            }
        }
    }
}

#[test]
fn every_window_between_the_days_of_the_six_person_file() {
    let file = files::six_persons();
    let days: Vec<u32> = [0, 50, 100, 200, 300, 400, 500]
        .iter()
        .flat_map(|day| [700_000 + day - 1, 700_000 + day, 700_000 + day + 1])
        .chain([0, 1, LAST_DAY, LAST_DAY + 1])
        .collect();
    for &first_day in &days {
        for &last_day in &days {
            for (meaning, undated) in [(1, 1), (2, 1), (1, 0), (2, 0), (1, 2)] {
                let question = Question {
                    first_day,
                    last_day,
                    meaning,
                    undated,
                    ..Q
                };
                agree_for_all(&file, &question);
            }
        }
    }
}

// Admission, one link at a time.

/// Two persons and one link from 0 to 1, in the second of two feeds with meanings 1 and `meaning`.
fn one_link(kind: u8, day: u32, meaning: u8) -> Vec<u8> {
    let file = LinkFile {
        feeds: vec![feed(1, 1), feed(2, meaning)],
        rows: vec![vec![link(1, kind, day, 1)], vec![]],
    };
    file.bytes()
}

/// Every kind that is known, with its class.
fn kinds_with_their_classes() -> impl Iterator<Item = (u8, u32)> {
    let papers = (16..=31).map(|kind| (kind, 8));
    [(1, 1), (2, 1), (3, 2), (4, 1), (5, 4)]
        .into_iter()
        .chain(papers)
}

#[test]
fn every_kind_under_every_class_sum() {
    for (kind, class) in kinds_with_their_classes() {
        for classes in 1..=15 {
            for day in [0, 9] {
                let question = Question {
                    classes,
                    ..first_to_last(2, 1)
                };
                let hops = if classes & class == 0 { 2 } else { 1 };
                stated(&one_link(kind, day, 1), &question, 0, hops);
            }
        }
    }
}

#[test]
fn both_ends_of_the_window_are_included() {
    for day in [1, 2, 700_000, LAST_DAY - 1, LAST_DAY] {
        let file = one_link(1, day, 1);
        let windows = [
            (day, day, 1),
            (1, day, 1),
            (day, LAST_DAY, 1),
            (1, day - 1, 2),
            (day + 1, LAST_DAY, 2),
        ];
        for (first_day, last_day, hops) in windows {
            let question = Question {
                first_day,
                last_day,
                ..first_to_last(2, 1)
            };
            if first_day >= 1 && last_day >= first_day {
                stated(&file, &question, 0, hops);
            }
        }
    }
}

#[test]
fn the_feed_of_a_dated_link_has_the_meaning_asked_for() {
    for feed_meaning in [1, 2] {
        for meaning in [1, 2] {
            let question = Question {
                meaning,
                ..first_to_last(2, 8)
            };
            let same = u32::from(feed_meaning) == meaning;
            let dated = one_link(1, 9, feed_meaning);
            stated(&dated, &question, 0, if same { 1 } else { 9 });
            // An undated link is admitted whatever its feed's dates mean, and outside every window.
            let undated = one_link(1, 0, feed_meaning);
            let narrow = Question {
                first_day: 5,
                last_day: 5,
                ..question
            };
            stated(&undated, &narrow, 0, 1);
        }
    }
}

#[test]
fn the_eighth_number_decides_of_undated_links_alone() {
    for (kind, class) in kinds_with_their_classes() {
        for (classes, undated) in (1..=15).flat_map(|classes| [(classes, 0), (classes, 1)]) {
            for (meaning, feed_meaning) in [(1, 1), (1, 2), (2, 1), (2, 2)] {
                for (first_day, last_day) in [(1, LAST_DAY), (5, 5), (9, 9)] {
                    let question = Question {
                        classes,
                        meaning,
                        first_day,
                        last_day,
                        undated,
                        ..first_to_last(2, 1)
                    };
                    let in_sum = classes & class != 0;
                    let hops = |admitted| if admitted { 1 } else { 2 };
                    let link = one_link(kind, 0, feed_meaning);
                    stated(&link, &question, 0, hops(in_sum && undated == 1));
                    let link = one_link(kind, 9, feed_meaning);
                    let same = u32::from(feed_meaning) == meaning;
                    stated(&link, &question, 0, hops(in_sum && same && first_day != 5));
                }
            }
        }
    }
}

#[test]
fn a_shorter_way_over_an_undated_link() {
    // From 0 to 3 at once by an undated link, or over 1 and 2.
    let shape = files::undated(4, &[(0, 1), (0, 3), (1, 2), (2, 3)]);
    let file = shape.dated(|link| [9, 0, 9, 9][link]).bytes();
    for hops in 1..=8 {
        let admitted = first_to_last(4, hops);
        stated(&file, &admitted, 0, 1);
        let left_out = Question {
            undated: 0,
            ..admitted
        };
        stated(&file, &left_out, 0, u64::from(hops + 1).min(3));
        stated(&file, &left_out, 2, 1);
    }
}

#[test]
fn a_way_may_pass_through_from_and_beyond_it() {
    let file = files::undated(4, &[(1, 0), (0, 3), (2, 1)]).bytes();
    let question = first_to_last(4, 3);
    for (person, hops) in [(0, 1), (1, 2), (2, 3), (3, 0)] {
        stated(&file, &question, person, hops);
    }
}

// Refusals.

/// Asks with some numbers set wrong.
fn ask_with(file: &[u8], faults: &[&QuestionFault]) -> Result<u64, Refusal> {
    let mut numbers = numbers_of(&Q, 2);
    for fault in faults {
        numbers[fault.number_of_question] = fault.value;
    }
    agree(file, &question_of(&numbers), numbers[EXTRA_PERSON])
}

#[test]
fn each_refusal_of_a_question_alone_and_in_pairs() {
    let file = files::six_persons().bytes();
    let faults = question_faults(6, Q.from);
    for one in &faults {
        assert_eq!(ask_with(&file, &[one]), Err(one.refusal), "{one:?}");
        for other in &faults {
            if one.number_of_question != other.number_of_question && one.rank() <= other.rank() {
                let told = ask_with(&file, &[one, other]);
                assert_eq!(told, Err(one.refusal), "{one:?} with {other:?}");
            }
        }
    }
}

#[test]
fn limits_that_pass() {
    let file = files::six_persons().bytes();
    let limits: [(usize, &[u32]); 9] = [
        (0, &[0, 1, 4]),
        (1, &[1, 5]),
        (2, &[1, 2, 7, 8]),
        (3, &[1, 2, 3, 8, 14, 15]),
        (4, &[1, 2]),
        (5, &[1, 2, LAST_DAY]),
        (6, &[1, 2, LAST_DAY - 1, LAST_DAY]),
        (7, &[0, 1]),
        (EXTRA_PERSON, &[0, 5]),
    ];
    for (number, values) in limits {
        for &value in values {
            let mut numbers = numbers_of(&Q, 2);
            numbers[number] = value;
            assert!(agree(&file, &question_of(&numbers), numbers[EXTRA_PERSON]).is_ok());
        }
    }
}

#[test]
fn from_and_to_and_person_the_same_stranger() {
    let file = files::six_persons().bytes();
    for stranger in [6, 7, u32::MAX] {
        let both = Question {
            from: stranger,
            to: stranger,
            ..Q
        };
        assert_eq!(agree(&file, &both, stranger), refused(10, 0));
        let to = Question { to: stranger, ..Q };
        assert_eq!(agree(&file, &to, stranger), refused(10, 1));
        let same = Question { from: 5, ..Q };
        assert_eq!(agree(&file, &same, stranger), refused(10, 2));
    }
}

#[test]
fn the_files_refusals_come_first() {
    let shape = files::six_persons();
    let file = shape.bytes();
    let questions = question_faults(6, Q.from);
    for fault in catalogue(&shape) {
        let changed = with_faults(&file, &[&fault]);
        assert_eq!(outside::fewest(&changed, &Q, 2), Err(fault.refusal));
        let wrong = &questions[fault.words.len() % questions.len()];
        assert_eq!(ask_with(&changed, &[wrong]), Err(fault.refusal));
    }
    for length in 0..file.len() {
        let _ = agree(&file[..length], &Q, 2);
    }
    assert_eq!(agree(&[], &Q, 0), refused(1, 0));
}

// Larger files.

#[test]
fn a_path_longer_than_the_hops() {
    let pairs: Vec<(u32, u32)> = (0..1023).map(|person| (person, person + 1)).collect();
    let file = files::undated(1024, &pairs).bytes();
    for k in 1..=8 {
        let question = first_to_last(1024, k);
        for hops in [0, 1, 2, 6, 7, 8, 9, 10, 500, 1023] {
            let right = u64::from(hops.min(k + 1));
            stated(&file, &question, 1023 - hops, right);
        }
    }
}

#[test]
fn random_questions_over_random_files() {
    let mut random = Random::of_test("random_questions_over_random_files");
    let mut by_hops = [0; 10];
    for _ in 0..20_000 {
        let most = random.one_of(&[3, 6, 12, 25]);
        let file = files::random_file(&mut random, most);
        if file.persons() < 2 {
            continue;
        }
        let bytes = file.bytes();
        let question = random_question(&mut random, file.persons());
        for person in 0..file.persons() as u32 {
            let hops = agree(&bytes, &question, person).expect("the question passes");
            by_hops[hops as usize] += 1;
        }
    }
    assert!(by_hops.iter().all(|&count| count > 50), "{by_hops:?}");
}

#[test]
fn sparse_random_files_with_long_ways() {
    let mut random = Random::of_test("sparse_random_files_with_long_ways");
    for _ in 0..1_000 {
        let persons = random.between(10, 60);
        let links = random.between(persons / 2, persons * 2);
        let mut pairs: Vec<(u32, u32)> = (0..links)
            .map(|_| (random.below(persons) as u32, random.below(persons) as u32))
            .filter(|(owner, target)| owner != target)
            .collect();
        pairs.sort();
        pairs.dedup();
        let file = files::undated(persons, &pairs);
        let hops = random.between(1, 8) as u32;
        agree_for_all(&file, &first_to_last(persons, hops));
    }
}

#[test]
fn every_person_of_largest_files() {
    let mut random = Random::of_test("every_person_of_largest_files");
    for round in 0..4 {
        let file = if round == 0 {
            files::largest()
        } else {
            files::largest_uneven(&mut random)
        };
        let question = random_question(&mut random, file.persons());
        agree_for_all(&file, &question);
    }
}
