//! The customer's cases on the six-person file.

use crate::{listed, persons_in, refused, the_question, SIX_PERSONS};
use kin::{
    chains, check, fewest_hops, join, portion, Classes, DateMeaning, HeldListing, Question,
    Refused, Start, LAST_DAY,
};

const FIRST: &[u32] = &[0, 1, 3, 5];
const SECOND: &[u32] = &[0, 2, 1, 3, 5];
const THIRD: &[u32] = &[0, 2, 3, 5];

/// A cell that the library doesn't write, to see which cells it left alone.
const UNTOUCHED: u32 = 77_777;

fn all(question: Question) -> Result<Vec<Vec<u32>>, Refused> {
    chains(SIX_PERSONS, question)
        .map(|chain| chain.map(|chain| chain.persons().to_vec()))
        .collect()
}

#[test]
fn listings() {
    let q = the_question();
    let cases: [(Question, &[&[u32]]); 11] = [
        (q, &[FIRST, SECOND, THIRD]),
        (Question { hops: 3, ..q }, &[FIRST, THIRD]),
        (Question { hops: 2, ..q }, &[]),
        (
            Question {
                classes: Classes::PARENT_CHILD_SIBLING,
                ..q
            },
            &[FIRST],
        ),
        (
            Question {
                meaning: DateMeaning::REGISTRATION,
                ..q
            },
            &[],
        ),
        (
            Question {
                first_day: 700_001,
                ..q
            },
            &[SECOND, THIRD],
        ),
        (
            Question {
                last_day: 700_400,
                ..q
            },
            &[FIRST, SECOND, THIRD],
        ),
        (
            Question {
                last_day: 700_399,
                ..q
            },
            &[],
        ),
        (Question { hops: 8, ..q }, &[FIRST, SECOND, THIRD]),
        (
            Question {
                undated: false,
                ..q
            },
            &[FIRST],
        ),
        (
            Question {
                first_day: 700_001,
                undated: false,
                ..q
            },
            &[],
        ),
    ];
    for (question, right) in cases {
        assert_eq!(all(question).unwrap(), right, "{question:?}");
    }
}

#[test]
fn undated_links_are_left_out_everywhere() {
    let question = Question {
        first_day: 700_001,
        undated: false,
        ..the_question()
    };
    let (mut working, mut output) = ([UNTOUCHED; 50], [UNTOUCHED; 30]);
    let nothing = Ok(listed(0, true));
    assert_eq!(
        portion(SIX_PERSONS, question, Start::Fresh, &mut output),
        nothing
    );
    assert_eq!(
        HeldListing::new(question).move_on(SIX_PERSONS, &mut output),
        nothing
    );
    assert_eq!(
        join(SIX_PERSONS, question, &mut working, &mut output),
        nothing
    );
    assert_eq!(fewest_hops(SIX_PERSONS, question, 0), Ok(None));
    assert_eq!(fewest_hops(SIX_PERSONS, question, 2), Ok(Some(2)));
    assert_eq!(output, [UNTOUCHED; 30]);
}

#[test]
fn a_bookmark_over_an_undated_link_is_none_where_they_are_left_out() {
    let question = Question {
        undated: false,
        ..the_question()
    };
    let bookmark = [3, 0, 2, 3, 5, 0, 0, 0, 0, 0];
    let mut output = [UNTOUCHED; 20];
    let answer = portion(SIX_PERSONS, question, Start::After(&bookmark), &mut output);
    assert_eq!(answer, Err(refused(17, 0)));
    assert_eq!(output, [UNTOUCHED; 20]);
}

#[test]
fn a_portion_fills_its_room_and_leaves_the_other_cells() {
    let mut output = [UNTOUCHED; 29];
    let answer = portion(SIX_PERSONS, the_question(), Start::Fresh, &mut output);
    assert_eq!(answer, Ok(listed(2, false)));
    assert_eq!(persons_in(&output, 2), [FIRST, SECOND]);
    assert_eq!(output[20..], [UNTOUCHED; 9]);

    let mut output = [UNTOUCHED; 30];
    let answer = portion(SIX_PERSONS, the_question(), Start::Fresh, &mut output);
    assert_eq!(answer, Ok(listed(3, true)));
}

#[test]
fn a_portion_starts_after_its_bookmark() {
    let bookmark = [4, 0, 2, 1, 3, 5, 0, 0, 0, 0];
    let mut output = [UNTOUCHED; 20];
    let answer = portion(
        SIX_PERSONS,
        the_question(),
        Start::After(&bookmark),
        &mut output,
    );
    assert_eq!(answer, Ok(listed(1, true)));
    assert_eq!(persons_in(&output, 1), [THIRD]);
    assert_eq!(output[10..], [UNTOUCHED; 10]);
}

#[test]
fn bookmarks_that_are_no_chain_of_the_listing_are_refused() {
    let fewer_hops = Question {
        hops: 3,
        ..the_question()
    };
    let cases: [(Question, &[u32]); 4] = [
        (the_question(), &[3, 0, 1, 4, 5, 0, 0, 0, 0, 0]),
        (fewer_hops, &[4, 0, 2, 1, 3, 5, 0, 0, 0, 0]),
        (the_question(), &[3, 0, 1, 3, 5, 0, 0, 0, 0]),
        (the_question(), &[]),
    ];
    for (question, bookmark) in cases {
        let mut output = [UNTOUCHED; 20];
        let answer = portion(SIX_PERSONS, question, Start::After(bookmark), &mut output);
        assert_eq!(answer, Err(refused(17, 0)), "{bookmark:?}");
        assert_eq!(output, [UNTOUCHED; 20]);
    }
}

#[test]
fn questions_that_make_no_sense_are_refused() {
    let q = the_question();
    let cases = [
        (Question { from: 6, ..q }, refused(10, 0)),
        (Question { to: 6, ..q }, refused(10, 1)),
        (Question { to: 0, ..q }, refused(11, 0)),
        (Question { hops: 0, ..q }, refused(12, 0)),
        (Question { hops: 9, ..q }, refused(12, 0)),
        (
            Question {
                classes: Classes::from_number(0),
                ..q
            },
            refused(13, 0),
        ),
        (
            Question {
                classes: Classes::from_number(16),
                ..q
            },
            refused(13, 0),
        ),
        (
            Question {
                meaning: DateMeaning::from_number(3),
                ..q
            },
            refused(14, 0),
        ),
        (Question { first_day: 0, ..q }, refused(15, 0)),
        (
            Question {
                last_day: LAST_DAY + 1,
                ..q
            },
            refused(15, 0),
        ),
    ];
    for (question, right) in cases {
        assert_eq!(all(question), Err(right), "{question:?}");
        assert_eq!(
            fewest_hops(SIX_PERSONS, question, 1),
            Err(right),
            "{question:?}"
        );
    }
}

#[test]
fn the_check_answers_counts_or_the_fault() {
    let counts = check(SIX_PERSONS).unwrap();
    assert_eq!((counts.persons, counts.links, counts.feeds), (6, 10, 2));
    assert_eq!(check(&SIX_PERSONS[..187]), Err(refused(3, 0)));
    assert_eq!(check(&[]), Err(refused(1, 0)));
    let mut file = SIX_PERSONS.to_vec();
    file[38] = 3;
    assert_eq!(check(&file), Err(refused(5, 1)));
}

#[test]
fn nine_output_cells_are_refused() {
    let mut output = [UNTOUCHED; 9];
    let answer = portion(SIX_PERSONS, the_question(), Start::Fresh, &mut output);
    assert_eq!(answer, Err(refused(16, 0)));
    assert_eq!(output, [UNTOUCHED; 9]);
}

#[test]
fn fewest_hops_to_the_end_person() {
    let fewest = |person| fewest_hops(SIX_PERSONS, the_question(), person);
    let all: Vec<Option<u32>> = (0..6).map(|person| fewest(person).unwrap()).collect();
    assert_eq!(all, [Some(3), Some(2), Some(2), Some(1), Some(1), Some(0)]);
    assert_eq!(fewest(6), Err(refused(10, 2)));
    let near = Question {
        hops: 1,
        ..the_question()
    };
    assert_eq!(fewest_hops(SIX_PERSONS, near, 0), Ok(None));
}

#[test]
fn the_join_lists_the_shortest_first_and_keeps_the_half_chains() {
    let (mut working, mut output) = ([UNTOUCHED; 55], [UNTOUCHED; 31]);
    let answer = join(SIX_PERSONS, the_question(), &mut working, &mut output);
    assert_eq!(answer, Ok(listed(3, true)));
    assert_eq!(persons_in(&output, 3), [FIRST, THIRD, SECOND]);
    assert_eq!(output[30], UNTOUCHED);
    let right: [&[u32]; 5] = [&[5], &[3, 5], &[4, 5], &[1, 3, 5], &[2, 3, 5]];
    assert_eq!(persons_in(&working, 5), right);
    assert_eq!(working[50..], [UNTOUCHED; 5]);
}

#[test]
fn too_few_working_cells_are_refused() {
    let (mut working, mut output) = ([UNTOUCHED; 49], [UNTOUCHED; 30]);
    let answer = join(SIX_PERSONS, the_question(), &mut working, &mut output);
    assert_eq!(answer, Err(refused(18, 0)));
    assert_eq!(working, [UNTOUCHED; 49]);
    assert_eq!(output, [UNTOUCHED; 30]);
}
