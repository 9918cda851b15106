//! The customer's rules written out once more, over the links that a file was made of instead of its bytes, and tried on
//! every sequence of persons whatever the links are. Slower still than the listers, for small files.

use crate::files::{Link, LinkFile};
use crate::lister::Question;
use crate::ring_lister::Ring;

/// Does the class of the link stand in the sum of the question's?
pub fn in_the_classes(link: &Link, question: &Question) -> bool {
    let class = match link.kind {
        1 | 2 | 4 => 1,
        3 => 2,
        5 => 4,
        _ => 8,
    };
    question.classes / class % 2 == 1
}

/// Has the link a day from the first to the last, from a feed whose meaning is the question's?
pub fn has_a_day_asked_for(shape: &LinkFile, link: &Link, question: &Question) -> bool {
    let meaning = shape.feeds[usize::from(link.feed)].meaning;
    let window = question.first_day..=question.last_day;
    window.contains(&link.day) && u32::from(meaning) == question.meaning
}

/// Is some link of the file from one person to the other admitted?
pub fn admitted_hop(shape: &LinkFile, question: &Question, owner: u32, target: u32) -> bool {
    shape.rows[owner as usize].iter().any(|link| {
        let counts = match link.day {
            0 => question.undated == 1,
            _ => has_a_day_asked_for(shape, link, question),
        };
        link.target == target && counts && in_the_classes(link, question)
    })
}

/// Is the sequence a ring of the person: 2 to k admitted hops, starting and ending at that person, all others different
/// from it and from each other?
pub fn is_ring(shape: &LinkFile, question: &Question, sequence: &[u32]) -> bool {
    let hops = sequence.len().saturating_sub(1);
    if hops < 2 || hops > question.hops as usize {
        return false;
    }
    let (person, others) = (question.from, &sequence[1..hops]);
    let closes = sequence[0] == person && sequence[hops] == person;
    let different = (0..others.len())
        .all(|place| others[place] != person && !others[..place].contains(&others[place]));
    let admitted = |hop: &[u32]| admitted_hop(shape, question, hop[0], hop[1]);
    closes && different && sequence.windows(2).all(admitted)
}

/// Every ring in dictionary order. All sequences of others are tried, from none to one fewer than the hops.
pub fn rings_by_rule(shape: &LinkFile, question: &Question) -> Vec<Ring> {
    let persons = 0..shape.persons() as u32;
    let mut rings = vec![];
    // Those who may stand between, one more with each round.
    let mut between: Vec<Vec<u32>> = vec![vec![]];
    for _ in 0..question.hops {
        for others in &between {
            let sequence = [&[question.from], &others[..], &[question.from]].concat();
            if is_ring(shape, question, &sequence) {
                rings.push(sequence);
            }
        }
        between = one_more(&between, persons.clone());
    }
    rings.sort();
    rings
}

/// Each sequence with each person behind it who is not in it yet.
fn one_more(sequences: &[Vec<u32>], persons: std::ops::Range<u32>) -> Vec<Vec<u32>> {
    let mut longer = vec![];
    for sequence in sequences {
        for person in persons.clone().filter(|person| !sequence.contains(person)) {
            longer.push([&sequence[..], &[person]].concat());
        }
    }
    longer
}
