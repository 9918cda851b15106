//! An independent lister of rings, by brute force: from the person every admitted sequence of different persons is walked,
//! nothing is pruned, and what comes back to the person is kept and sorted. Portions and bookmarks of rings are those of
//! the chain listing, so `lister::portion` hands them over.

use crate::checker::{self, refused, Refusal};
use crate::lister::{admitted_hops, ends_below_n, refusals_behind_the_ends, Chain, Hops, Question};

/// A ring as its persons, the same one first and last.
pub type Ring = Chain;

/// Every ring of the person who is both From and To, in dictionary order, or the refusal of the file (1 to 9) or of the
/// question: 10 at From, 10 at To, 21 if they differ, 12 to 15, 20.
pub fn rings(file: &[u8], question: &Question) -> Result<Vec<Ring>, Refusal> {
    let counts = checker::verdict(file)?;
    ends_below_n(question, counts.n)?;
    if question.from != question.to {
        return refused(21, 0);
    }
    refusals_behind_the_ends(question)?;
    let hops = admitted_hops(file, counts, question);
    let mut rings = vec![];
    walk(&hops, question, &mut vec![question.from], &mut rings);
    rings.sort();
    Ok(rings)
}

/// No link leads from a person to the same one, so what closes has two hops at least.
fn walk(hops: &Hops, question: &Question, so_far: &mut Ring, rings: &mut Vec<Ring>) {
    if so_far.len() as u32 == question.hops + 1 {
        return;
    }
    for &person in &hops[so_far[so_far.len() - 1] as usize] {
        let closes = person == so_far[0];
        if closes || !so_far.contains(&person) {
            so_far.push(person);
            if closes {
                rings.push(so_far.clone());
            } else {
                walk(hops, question, so_far, rings);
            }
            so_far.pop();
        }
    }
}

/// The ring that follows another in dictionary order, for listings too long to be written down whole: the last person
/// that can be exchanged for a higher one is, and the first way back is taken.
pub fn following(file: &[u8], question: &Question, ring: &[u32]) -> Option<Ring> {
    let counts = checker::verdict(file).expect("the file passes");
    let hops = admitted_hops(file, counts, question);
    for place in (1..ring.len()).rev() {
        let before = &ring[..place];
        for &person in &hops[before[place - 1] as usize] {
            if person > ring[place] && !before[1..].contains(&person) {
                let mut so_far = before.to_vec();
                so_far.push(person);
                if first_way_back(&hops, question, &mut so_far) {
                    return Some(so_far);
                }
            }
        }
    }
    None
}

/// Completes a ring by the first way back in dictionary order, if there is one. Rows rise, so the first met is the first.
fn first_way_back(hops: &Hops, question: &Question, so_far: &mut Ring) -> bool {
    let last = so_far[so_far.len() - 1];
    if last == so_far[0] {
        return true;
    }
    if so_far.len() as u32 > question.hops {
        return false;
    }
    for &person in &hops[last as usize] {
        if !so_far[1..].contains(&person) {
            so_far.push(person);
            if first_way_back(hops, question, so_far) {
                return true;
            }
            so_far.pop();
        }
    }
    false
}
