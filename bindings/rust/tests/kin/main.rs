//! Tests of the binding, each part of it in a module. That the library is right is proved, and tested elsewhere; here it is
//! asked whether the binding hands on what the library says.

mod any_input;
mod portions;
mod questions;
mod refusals;
mod rings;
mod rows;
mod six_persons;
mod version;

use kin::{chains_in, Listed, Question, Refused};

/// The customer's six-person file.
const SIX_PERSONS: &[u8] = include_bytes!("../../../../examples/six_persons.klf");

/// The customer's question Q on it.
fn the_question() -> Question {
    Question::between(0, 5, 4)
}

fn listed(count: usize, ended: bool) -> Listed {
    Listed { count, ended }
}

fn refused(number: u32, place: u32) -> Refused {
    Refused { number, place }
}

/// The persons of the first chains in the cells, of which there have to be so many.
fn persons_in(cells: &[u32], count: usize) -> Vec<Vec<u32>> {
    let chains: Vec<Vec<u32>> = chains_in(cells, count)
        .map(|chain| chain.persons().to_vec())
        .collect();
    assert_eq!(chains.len(), count, "every record written is a chain");
    chains
}

/// A file of so many persons, each linked to each by an undated link.
fn everybody_linked(persons: u32) -> Vec<u8> {
    let links = persons * (persons - 1);
    let row_table = 32 + 4;
    let link_table = row_table + 4 * (persons + 1);
    let header = [
        persons,
        links,
        1,
        32,
        row_table,
        link_table,
        link_table + 12 * links,
    ];
    let mut file = b"KLF1".to_vec();
    let put = |file: &mut Vec<u8>, number: u32| file.extend(number.to_le_bytes());
    header.iter().for_each(|&number| put(&mut file, number));
    file.extend([1, 0, 1, 0]);
    (0..=persons).for_each(|person| put(&mut file, person * (persons - 1)));
    for person in 0..persons {
        for target in (0..persons).filter(|&target| target != person) {
            put(&mut file, target);
            file.extend([0, 0, 0, 0, 0, 0, 1, 0]);
        }
    }
    file
}
