//! Row views: the very part of the file, and the links in it.

use crate::SIX_PERSONS;
use kin::{links_in, row_view, Link};

#[test]
fn a_row_view_is_the_very_part_of_the_file() {
    let entries = [0, 2, 4, 6, 8, 9, 10];
    for (person, row) in entries.windows(2).enumerate() {
        let right = &SIX_PERSONS[68 + 12 * row[0]..68 + 12 * row[1]];
        let view = row_view(SIX_PERSONS, person as u32);
        assert_eq!(view, right, "person {person}");
        assert_eq!(view.as_ptr(), right.as_ptr(), "person {person}");
    }
}

#[test]
fn the_links_of_a_row_view() {
    let links: Vec<Link> = links_in(row_view(SIX_PERSONS, 1)).collect();
    let right = [
        Link {
            target: 3,
            day: 700_100,
            feed: 0,
            kind: 1,
        },
        Link {
            target: 4,
            day: 700_200,
            feed: 1,
            kind: 5,
        },
    ];
    assert_eq!(links, right);
}

#[test]
fn nobody_and_refused_files_have_an_empty_row_view() {
    for person in [6, 7, 1_024, u32::MAX] {
        assert!(row_view(SIX_PERSONS, person).is_empty());
    }
    for length in 0..SIX_PERSONS.len() {
        assert!(row_view(&SIX_PERSONS[..length], 0).is_empty());
    }
}
