//! Listings in portions: the room a portion has shows in nothing, and a listing can be put away and taken up.

use crate::{everybody_linked, listed, refused, the_question, SIX_PERSONS};
use kin::{Chain, Chains, HeldListing, Question, Refused, LAST_DAY};

/// All ways on from a chain so far to the last person, where everybody is linked; in dictionary order.
fn ways_on(chain: &[u32], persons: u32, hops: u32) -> Vec<Vec<u32>> {
    if chain.last() == Some(&(persons - 1)) {
        return vec![chain.to_vec()];
    }
    if hops == 0 {
        return vec![];
    }
    let next = (0..persons).filter(|person| !chain.contains(person));
    next.flat_map(|person| ways_on(&[chain, &[person]].concat(), persons, hops - 1))
        .collect()
}

fn all(chains: Chains<'_>) -> Result<Vec<Vec<u32>>, Refused> {
    chains
        .map(|chain| chain.map(|chain| chain.persons().to_vec()))
        .collect()
}

#[test]
fn every_room_gives_the_same_listing() {
    let file = everybody_linked(6);
    let right = ways_on(&[0], 6, 4);
    assert_eq!(right.len(), 1 + 4 + 12 + 24);
    let held = HeldListing::new(the_question());
    for room in (1..=right.len() as u16 + 1).chain([u16::MAX]) {
        assert_eq!(
            all(Chains::onward(&file, held, room)).unwrap(),
            right,
            "room {room}"
        );
    }
    assert_eq!(all(kin::chains(&file, the_question())).unwrap(), right);
}

#[test]
fn no_room_is_refused() {
    let mut chains = Chains::onward(SIX_PERSONS, HeldListing::new(the_question()), 0);
    assert_eq!(chains.next(), Some(Err(refused(16, 0))));
    assert_eq!(chains.next(), None);
    assert_eq!(chains.next(), None);
}

#[test]
fn a_listing_goes_on_after_each_of_its_chains() {
    let file = everybody_linked(5);
    let question = Question::between(0, 4, 8);
    let right: Vec<Chain> = kin::chains(&file, question).map(Result::unwrap).collect();
    assert_eq!(right.len(), 1 + 3 + 6 + 6);
    for (place, chain) in right.iter().enumerate() {
        let held = HeldListing::after(question, chain);
        let rest: Vec<Chain> = Chains::onward(&file, held, 2).map(Result::unwrap).collect();
        assert_eq!(rest, right[place + 1..]);
    }
}

#[test]
fn a_held_listing_keeps_its_question_and_its_last_chain() {
    let mut held = HeldListing::new(the_question());
    assert_eq!((held.question(), held.last()), (Some(the_question()), None));
    let mut output = [0; 10];
    for (place, ended) in [false, false, true].into_iter().enumerate() {
        let answer = held.move_on(SIX_PERSONS, &mut output);
        assert_eq!(answer, Ok(listed(1, ended)), "chain {place}");
        assert_eq!(held.question(), Some(the_question()));
        assert_eq!(held.last(), Chain::from_record(&output));
        assert_eq!(HeldListing::from_cells(*held.cells()), held);
    }
    let before = held;
    let over = held.move_on(SIX_PERSONS, &mut output);
    assert_eq!(over, Ok(listed(0, true)));
    assert_eq!(held, before);
}

#[test]
fn a_held_listing_stored_before_goes_on_where_it_was() {
    let right: Vec<Chain> = kin::chains(SIX_PERSONS, the_question())
        .map(Result::unwrap)
        .collect();
    let mut stored = [0, 5, 4, 15, 1, 1, LAST_DAY, 0, 0, 0, 0, 0, 0, 0, 0, 0, 0, 0];
    let not_started = HeldListing::from_stored_cells(stored);
    assert_eq!(not_started, HeldListing::new(the_question()));
    for (place, chain) in right.iter().enumerate() {
        stored[7] = 1;
        stored[8..].copy_from_slice(chain.record());
        let held = HeldListing::from_stored_cells(stored);
        assert_eq!(held, HeldListing::after(the_question(), chain));
        assert_eq!(held.question(), Some(the_question()));
        let again = HeldListing::from_cells(*held.cells());
        let rest: Vec<Chain> = Chains::onward(SIX_PERSONS, again, 1)
            .map(Result::unwrap)
            .collect();
        assert_eq!(rest, right[place + 1..]);
    }
}

#[test]
fn a_refusal_changes_nothing_in_a_held_listing() {
    let no_chain = Chain::from_record(&[3, 0, 1, 4, 5, 0, 0, 0, 0, 0]).unwrap();
    let mut held = HeldListing::after(the_question(), &no_chain);
    let before = held;
    let answer = held.move_on(SIX_PERSONS, &mut [0; 10]);
    assert_eq!(answer, Err(refused(17, 0)));
    assert_eq!(held, before);
}

#[test]
fn cells_that_are_no_record_are_no_chain() {
    assert!(Chain::from_record(&[8, 0, 1, 2, 3, 4, 5, 6, 7, 8]).is_some());
    let none: [&[u32]; 5] = [
        &[],
        &[1, 0, 5, 0, 0, 0, 0, 0, 0],
        &[1, 0, 5, 9, 0, 0, 0, 0, 0, 0],
        &[9, 0, 1, 2, 3, 4, 5, 6, 7, 8],
        &[u32::MAX, 0, 0, 0, 0, 0, 0, 0, 0, 0],
    ];
    for cells in none {
        assert_eq!(Chain::from_record(cells), None, "{cells:?}");
    }
}
