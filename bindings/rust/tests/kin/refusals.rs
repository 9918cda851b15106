//! What a refusal says of itself is what docs/REFUSALS.md says.

use std::error::Error;

use crate::{refused, the_question, SIX_PERSONS};
use kin::{HeldListing, Question, Refused, Start};

const DOCUMENT: &str = include_str!("../../../../docs/REFUSALS.md");

/// The number and the meaning of each line of the document's table.
fn lines() -> Vec<(u32, &'static str)> {
    let cells = DOCUMENT
        .lines()
        .map(|line| line.split('|').map(str::trim).collect::<Vec<_>>());
    cells
        .filter_map(|cells| Some((cells.get(1)?.parse().ok()?, *cells.get(2)?)))
        .collect()
}

#[test]
fn every_meaning_is_the_document_s() {
    let lines = lines();
    assert_eq!(lines.len(), 21);
    for (number, (told, meaning)) in (1..).zip(lines) {
        let refused = Refused { number, place: 7 };
        assert_eq!(told, number);
        assert_eq!(refused.meaning(), Some(meaning));
        assert_eq!(
            refused.to_string(),
            format!("refused {number} at 7: {meaning}")
        );
    }
}

#[test]
fn a_number_without_a_line_has_no_meaning() {
    for number in [0, 22, u32::MAX] {
        let refused = Refused { number, place: 0 };
        assert_eq!(refused.meaning(), None);
        assert_eq!(refused.to_string(), format!("refused {number} at 0"));
    }
}

/// How many chains a file tells of a question, each way of listing them handing a refusal on.
fn listed_in_every_way(file: &[u8], question: Question) -> Result<[usize; 4], Box<dyn Error>> {
    let (mut output, mut working) = ([0; 40], [0; 50]);
    Ok([
        kin::portion(file, question, Start::Fresh, &mut output)?.count,
        HeldListing::new(question).move_on(file, &mut output)?.count,
        kin::join(file, question, &mut working, &mut output)?.count,
        kin::chains(file, question)
            .collect::<Result<Vec<_>, _>>()?
            .len(),
    ])
}

/// How many rings, likewise.
fn rings_in_every_way(file: &[u8], question: Question) -> Result<[usize; 2], Box<dyn Error>> {
    Ok([
        kin::ring_portion(file, question, Start::Fresh, &mut [0; 40])?.count,
        kin::rings(file, question)
            .collect::<Result<Vec<_>, _>>()?
            .len(),
    ])
}

#[test]
fn a_refusal_is_an_error_that_is_handed_on() {
    assert_eq!(
        listed_in_every_way(SIX_PERSONS, the_question()).unwrap(),
        [3; 4]
    );
    let error = listed_in_every_way(&[], the_question()).unwrap_err();
    assert_eq!(error.downcast_ref(), Some(&refused(1, 0)));
    assert!(error.to_string().starts_with("refused 1 at 0: The file"));

    let counts = rings_in_every_way(SIX_PERSONS, Question::back_to(2, 4));
    assert_eq!(counts.unwrap(), [3; 2]);
    let error = rings_in_every_way(SIX_PERSONS, the_question()).unwrap_err();
    assert_eq!(error.downcast_ref(), Some(&refused(21, 0)));
}
