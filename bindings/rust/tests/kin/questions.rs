//! Questions: names stand for the customer's numbers, and any number can be asked.

use crate::{refused, the_question, SIX_PERSONS};
use kin::{Classes, DateMeaning, HeldListing, Question};

#[test]
fn names_stand_for_the_customer_s_numbers() {
    let classes = [
        Classes::PARENT_CHILD_SIBLING,
        Classes::SPOUSE,
        Classes::SAME_PERSON,
        Classes::NAMED_TOGETHER,
        Classes::ALL,
    ];
    assert_eq!(classes.map(Classes::number), [1, 2, 4, 8, 15]);
    let meanings = [DateMeaning::EVENT, DateMeaning::REGISTRATION];
    assert_eq!(meanings.map(DateMeaning::number), [1, 2]);
}

#[test]
fn classes_are_put_together() {
    let two = Classes::SPOUSE | Classes::NAMED_TOGETHER;
    assert_eq!(two, Classes::from_number(10));
    assert_eq!(two | Classes::SPOUSE, two);
}

#[test]
fn a_held_listing_keeps_any_question() {
    let question = Question {
        from: 1,
        to: 2,
        hops: 3,
        classes: Classes::from_number(4_000_000_000),
        meaning: DateMeaning::from_number(5),
        first_day: 6,
        last_day: 7,
        undated: false,
    };
    let held = HeldListing::new(question);
    assert_eq!(held.cells()[..8], [1, 2, 3, 4_000_000_000, 5, 6, 7, 0]);
    assert_eq!(held.question(), Some(question));
}

#[test]
fn undated_links_count_unless_it_is_said_otherwise() {
    assert!(the_question().undated);
    assert_eq!(HeldListing::new(the_question()).cells()[7], 1);
}

#[test]
fn a_number_that_no_question_asks_is_refused_and_shown_as_none() {
    for number in [2, 3, 256, u32::MAX] {
        let mut cells = *HeldListing::new(the_question()).cells();
        cells[7] = number;
        let mut held = HeldListing::from_cells(cells);
        assert_eq!(held.question(), None);
        assert_eq!(held.move_on(SIX_PERSONS, &mut [0; 30]), Err(refused(20, 0)));
        assert_eq!(*held.cells(), cells);
    }
}
