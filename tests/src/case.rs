//! One case as bytes, for a fuzzer to change: a question, a person, a bookmark, rooms and a file. All seven operations
//! are asked, and every answer and every lent cell has to be what the independent checker and lister say.

use crate::asked::Asked;
use crate::checker::Refusal;
use crate::damage::{damaged, mend_header};
use crate::files::{self, LinkFile};
use crate::lent::Memory;
use crate::lister::{record, Chain, Question};
use crate::outside::Library;
use crate::questions::{first_to_last, random_question};
use crate::random::Random;

/// What stands before the file: one byte that says how, the question as the program `chains` reads it, one byte each for
/// the person, the started mark, output and working cells, the bookmark's length, and ten for its cells.
pub const HEAD: usize = HOW + QUESTION + ROOMS + BOOKMARK;
const HOW: usize = 1;
const QUESTION: usize = 32;
const ROOMS: usize = 5;
const BOOKMARK: usize = 10;

/// The bits of the byte that says how. The two bits between them choose where lent memory lies.
const MENDED: u8 = 1;
const AT_A_CHAIN: u8 = 2;
const AT_A_RING: u8 = 16;

/// With more links than that brute force might not get through.
const MOST_LINKS: u32 = 64;

/// The longest input worth making: a file of the most persons there can be, and some links.
pub const LONGEST: usize = HEAD + 32 + 64 + 4 * 1025 + 12 * MOST_LINKS as usize;

/// Asks all of a case; what is shorter than a head is none.
pub fn ask(input: &[u8]) {
    if input.len() >= HEAD {
        let memory = match input[0] >> 2 & 3 {
            0 => Memory::PageStart,
            1 => Memory::PageEnd,
            _ => Memory::Zones,
        };
        ask_in(input, memory);
    }
}

/// The same, with lent memory of this sort.
pub fn ask_in(input: &[u8], memory: Memory) {
    let (how, rest) = (input[0], &input[HOW..]);
    let (question, rest) = rest.split_at(QUESTION);
    let (rooms, rest) = rest.split_at(ROOMS);
    let (bookmark, file) = rest.split_at(BOOKMARK);
    let mut file = file.to_vec();
    if how & MENDED != 0 {
        mend_header(&mut file);
    }
    let mut numbers = [0; 8];
    for (number, bytes) in numbers.iter_mut().zip(question.chunks(4)) {
        *number = u32::from_le_bytes(bytes.try_into().expect("four bytes"));
    }
    let asked = Asked::new(file, Question::of_numbers(&numbers)).of(Library { memory });
    let mut bookmark = bookmark_of(bookmark);
    if how & AT_A_CHAIN != 0 {
        put_one(asked.listing(), rooms[4], &mut bookmark);
    }
    if how & AT_A_RING != 0 {
        put_one(asked.back_to_from().ring_listing(), rooms[4], &mut bookmark);
    }
    ask_all(&asked, rooms, &bookmark);
}

/// A byte is a cell, but that the highest one is the highest cell there is.
fn bookmark_of(bytes: &[u8]) -> [u32; 10] {
    let mut cells = [0; 10];
    for (cell, &byte) in cells.iter_mut().zip(bytes) {
        *cell = if byte == 255 {
            u32::MAX
        } else {
            u32::from(byte)
        };
    }
    cells
}

/// Puts a chain or a ring of the listing in the bookmark, where there is one.
fn put_one(listing: &Result<Vec<Chain>, Refusal>, which: u8, bookmark: &mut [u32; 10]) {
    if let Ok(all) = listing {
        if !all.is_empty() {
            *bookmark = record(&all[usize::from(which) % all.len()]);
        }
    }
}

fn ask_all(asked: &Asked, rooms: &[u8], bookmark: &[u32; 10]) {
    let (person, started) = (u32::from(rooms[0]), u32::from(rooms[1]));
    let (cells, working) = (usize::from(rooms[2]), 4 * usize::from(rooms[3]));
    // Mostly ten cells: a third of the bytes give another length.
    let length = if rooms[4] < 170 { 10 } else { rooms[4] % 10 };
    let _ = asked.check();
    asked.row(person);
    if links_told(&asked.file) > MOST_LINKS {
        return;
    }
    let _ = asked.fewest(person);
    let _ = asked.portion(started, &bookmark[..usize::from(length)], cells);
    asked.rings_as_asked_and_closed(started, &bookmark[..usize::from(length)], cells);
    asked.moved_in_each_form(started, bookmark, cells);
    let _ = asked.join(working, cells);
}

/// The link count that a header tells.
fn links_told(file: &[u8]) -> u32 {
    let bytes = file.get(8..12).map(|bytes| bytes.try_into());
    bytes.map_or(0, |bytes| u32::from_le_bytes(bytes.expect("four bytes")))
}

/// The bytes of a random case over a small file, sound or damaged.
pub fn random_case(random: &mut Random) -> Vec<u8> {
    let most_persons = random.one_of(&[2, 3, 5, 7]);
    let shape = files::random_file(random, most_persons);
    let question = random_question(random, shape.persons().max(2));
    case_over(random, &shape, &question)
}

/// The bytes of a random case over about as many persons as there can be, with few links.
pub fn random_wide_case(random: &mut Random) -> Vec<u8> {
    let persons = files::MOST_PERSONS - random.below(4);
    let last = persons as u32 - 1;
    let pairs = [
        (0, last - 1),
        (0, last),
        (last - 1, 0),
        (last - 1, last),
        (last, 0),
    ];
    let shape = files::undated(persons, &pairs);
    let mut question = first_to_last(persons, random.between(1, 8) as u32);
    if random.chance(1, 2) {
        (question.from, question.to) = (question.to, question.from);
    }
    case_over(random, &shape, &question)
}

fn case_over(random: &mut Random, shape: &LinkFile, question: &Question) -> Vec<u8> {
    let mut input = vec![random.below(32) as u8];
    for number in question.numbers() {
        input.extend(number.to_le_bytes());
    }
    let person = random.below(shape.persons() + 1) as u8;
    let started = random.below(2) as u8;
    let cells = random.one_of(&[9, 10, 20, 29, 50, 255]);
    let working = random.one_of(&[0, 10, 40, 100, 255]);
    input.extend([person, started, cells, working, random.any() as u8]);
    input.extend(random_bookmark(random, shape, question));
    if random.chance(3, 4) {
        input.extend(shape.bytes());
    } else {
        input.extend(damaged(random, shape));
    }
    input
}

/// The record of a chain or of a ring where there is one, with a cell changed now and then; otherwise any small cells.
fn random_bookmark(random: &mut Random, shape: &LinkFile, question: &Question) -> [u8; 10] {
    let asked = Asked::new(shape.bytes(), *question);
    let mut cells = [0; 10].map(|_: u32| random.below(8) as u32);
    let which = random.any() as u8;
    if random.chance(1, 2) {
        put_one(asked.listing(), which, &mut cells);
    } else {
        put_one(asked.back_to_from().ring_listing(), which, &mut cells);
    }
    if random.chance(1, 2) {
        cells[random.below(10)] = random.below(8) as u32;
    }
    cells.map(|cell| cell as u8)
}
