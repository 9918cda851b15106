//! Questions to ask: the customer's Q, random ones, and a catalogue of faults of a question with the refusal that the
//! customer's table gives each.

use crate::checker::{Refusal, LAST_DAY};
use crate::files::random_day;
use crate::lister::{record, Held, Question, Stored};
use crate::random::Random;

/// Q of the six-person file.
pub const Q: Question = Question {
    from: 0,
    to: 5,
    hops: 4,
    classes: 15,
    meaning: 1,
    first_day: 1,
    last_day: LAST_DAY,
    undated: 1,
};

/// The chains of Q, in dictionary order.
pub const A: &[u32] = &[0, 1, 3, 5];
pub const B: &[u32] = &[0, 2, 1, 3, 5];
pub const C: &[u32] = &[0, 2, 3, 5];

/// R of the six-person file: as Q, but from person 2 back to person 2, and in at most five hops.
pub const R: Question = Question {
    from: 2,
    to: 2,
    hops: 5,
    ..Q
};

/// The rings of R, in dictionary order.
pub const R_RINGS: [&[u32]; 4] = [
    &[2, 1, 3, 2],
    &[2, 1, 3, 5, 0, 2],
    &[2, 3, 2],
    &[2, 3, 5, 0, 2],
];

/// Q as it is held, written out cell by cell.
pub const Q_HELD: Held = [
    0, 5, 4, 15, 1, 1, 3_652_059, 1, 0, 7, 7, 7, 7, 7, 7, 7, 7, 7, 7,
];

/// Q held after one of its chains.
pub fn q_after(chain: &[u32]) -> Held {
    let mut held = Q_HELD;
    held[8] = 1;
    held[9..].copy_from_slice(&record(chain));
    held
}

/// Q as it was held before it had its eighth number, written out cell by cell.
pub const Q_STORED: Stored = [
    0, 5, 4, 15, 1, 1, 3_652_059, 0, 7, 7, 7, 7, 7, 7, 7, 7, 7, 7,
];

/// The same after one of its chains.
pub fn q_stored_after(chain: &[u32]) -> Stored {
    let mut stored = Q_STORED;
    stored[7] = 1;
    stored[8..].copy_from_slice(&record(chain));
    stored
}

/// From the first person to the last one, all links admitted that are undated.
pub fn first_to_last(persons: usize, hops: u32) -> Question {
    Question {
        to: persons as u32 - 1,
        hops,
        ..Q
    }
}

/// A question that passes over `n` persons, n at least 2: hops 1 to 8, any classes, windows open, narrow, at the
/// limits, undated links admitted or left out.
pub fn random_question(random: &mut Random, n: usize) -> Question {
    let from = random.below(n) as u32;
    let mut to = random.below(n) as u32;
    while to == from {
        to = random.below(n) as u32;
    }
    let (first_day, last_day) = random_window(random);
    Question {
        from,
        to,
        hops: random.between(1, 8) as u32,
        classes: if random.chance(1, 2) {
            15
        } else {
            random.between(1, 15) as u32
        },
        meaning: random.between(1, 2) as u32,
        first_day,
        last_day,
        undated: random.one_of(&[0, 1, 1]),
    }
}

fn random_window(random: &mut Random) -> (u32, u32) {
    if random.chance(1, 2) {
        return (1, LAST_DAY);
    }
    let one = random_day(random).max(1);
    let other = random_day(random).max(1);
    (one.min(other), one.max(other))
}

/// A number of a question set to a wrong value. The numbers are counted from 0 in the question's order; behind them
/// stands the extra person of fewest hops.
#[derive(Clone, Copy, Debug)]
pub struct QuestionFault {
    pub number_of_question: usize,
    pub value: u32,
    pub refusal: Refusal,
}

impl QuestionFault {
    /// Where the fault stands in the order: 10 by its place, then by number, but that 21 comes in 11's place.
    pub fn rank(&self) -> (u32, u32) {
        let Refusal { number, place } = self.refusal;
        (if number == 21 { 11 } else { number }, place)
    }

    /// Can both be put in one question, so that each is still there? Two that make From and To differ may make them the
    /// same again.
    fn goes_with(&self, other: &QuestionFault) -> bool {
        let both_21 = self.refusal.number == 21 && other.refusal.number == 21;
        self.number_of_question != other.number_of_question
            && !(both_21 && self.value == other.value)
    }
}

/// Where the extra person stands.
pub const EXTRA_PERSON: usize = 8;

/// The eight numbers in order, and the extra person.
pub type Numbers = [u32; 9];

pub fn question_of(numbers: &Numbers) -> Question {
    let eight = numbers[..EXTRA_PERSON].try_into().expect("eight numbers");
    Question::of_numbers(eight)
}

pub fn numbers_of(question: &Question, person: u32) -> Numbers {
    let mut numbers = [person; 9];
    numbers[..EXTRA_PERSON].copy_from_slice(&question.numbers());
    numbers
}

/// Numbers that say neither that undated links are admitted nor that they are left out.
pub const NOT_UNDATED: [u32; 10] = [
    2,
    3,
    255,
    256,
    256 + 1,
    65_536,
    65_536 + 1,
    1 << 31,
    (1 << 31) + 1,
    u32::MAX,
];

/// Every fault of the catalogue for a question like Q over `n` persons. Any two at different numbers stay faults
/// together, and the one of lower rank is the verdict.
pub fn question_faults(n: u32, from: u32) -> Vec<QuestionFault> {
    let above = [n, n + 1, n + 256, 65_536, 1 << 31, u32::MAX];
    let not_hops = [0, 9, 10, 256 + 4, 65_536 + 4, (1 << 31) + 4, u32::MAX];
    let not_classes = [0, 16, 17, 31, 256 + 15, 65_536 + 1, 1 << 31, u32::MAX];
    let not_meaning = [0, 3, 4, 256 + 1, 65_536 + 2, (1 << 31) + 1, u32::MAX];
    let not_first = [0, LAST_DAY + 1, 1 << 31, u32::MAX];
    let not_last = [0, LAST_DAY + 1, 1 << 24, (1 << 31) + 9, u32::MAX];
    let mut faults = vec![];
    note(&mut faults, 0, &above, 10, 0);
    note(&mut faults, 1, &above, 10, 1);
    note(&mut faults, EXTRA_PERSON, &above, 10, 2);
    note(&mut faults, 1, &[from], 11, 0);
    note(&mut faults, 2, &not_hops, 12, 0);
    note(&mut faults, 3, &not_classes, 13, 0);
    note(&mut faults, 4, &not_meaning, 14, 0);
    note(&mut faults, 5, &not_first, 15, 0);
    note(&mut faults, 6, &not_last, 15, 0);
    note(&mut faults, 7, &NOT_UNDATED, 20, 0);
    faults
}

fn note(
    faults: &mut Vec<QuestionFault>,
    number_of_question: usize,
    values: &[u32],
    number: u32,
    place: u32,
) {
    for &value in values {
        faults.push(QuestionFault {
            number_of_question,
            value,
            refusal: Refusal { number, place },
        });
    }
}

/// Every fault of the catalogue for a question of rings like R over `n` persons: 21 where 11 was.
pub fn ring_question_faults(n: u32, person: u32) -> Vec<QuestionFault> {
    let mut faults = question_faults(n, person);
    faults.retain(|fault| fault.number_of_question != EXTRA_PERSON && fault.refusal.number != 11);
    let others: Vec<u32> = (0..n).filter(|&other| other != person).collect();
    note(&mut faults, 0, &others, 21, 0);
    note(&mut faults, 1, &others, 21, 0);
    faults
}

/// Q over the six-person file with every two faults of the catalogue but the extra person's, and the verdict: the refusal
/// of the one that is looked at first.
pub fn faulty_questions() -> Vec<(Question, Refusal)> {
    let mut faults = question_faults(6, Q.from);
    faults.retain(|fault| fault.number_of_question != EXTRA_PERSON);
    every_two(&Q, &faults)
}

/// R over the six-person file with every two faults of its catalogue, and the verdict.
pub fn faulty_ring_questions() -> Vec<(Question, Refusal)> {
    every_two(&R, &ring_question_faults(6, R.from))
}

fn every_two(question: &Question, faults: &[QuestionFault]) -> Vec<(Question, Refusal)> {
    let mut questions = vec![];
    for one in faults {
        for other in faults {
            if one.goes_with(other) && one.rank() <= other.rank() {
                let faulty = with_fault(&with_fault(question, other), one);
                questions.push((faulty, one.refusal));
            }
        }
    }
    questions
}

/// The question with the fault in it, which is not the extra person's.
pub fn with_fault(question: &Question, fault: &QuestionFault) -> Question {
    let mut numbers = numbers_of(question, 0);
    numbers[fault.number_of_question] = fault.value;
    question_of(&numbers)
}
