//! An independent lister, by brute force: every admitted sequence of different persons is walked, nothing is pruned,
//! and the chains found are sorted. Slow, and plain enough to be believed.

use crate::checker::{self, refused, Counts, Refusal, LAST_DAY};
use std::collections::VecDeque;

#[derive(Clone, Copy, Debug, PartialEq, Eq)]
pub struct Question {
    pub from: u32,
    pub to: u32,
    pub hops: u32,
    pub classes: u32,
    pub meaning: u32,
    pub first_day: u32,
    pub last_day: u32,
    /// 1 admits undated links, 0 leaves them out.
    pub undated: u32,
}

impl Question {
    /// The eight numbers in their order.
    pub fn numbers(&self) -> [u32; 8] {
        [
            self.from,
            self.to,
            self.hops,
            self.classes,
            self.meaning,
            self.first_day,
            self.last_day,
            self.undated,
        ]
    }

    pub fn of_numbers(numbers: &[u32; 8]) -> Question {
        let [from, to, hops, classes, meaning, first_day, last_day, undated] = *numbers;
        Question {
            from,
            to,
            hops,
            classes,
            meaning,
            first_day,
            last_day,
            undated,
        }
    }
}

/// A chain as its persons, first From, last To.
pub type Chain = Vec<u32>;

/// For each person the persons reached by an admitted link, in the order of the row.
pub type Hops = Vec<Vec<u32>>;

/// Every chain in dictionary order, or the refusal of the file (1 to 9) or of the question (10 to 15, 20).
pub fn listing(file: &[u8], question: &Question) -> Result<Vec<Chain>, Refusal> {
    let counts = checker::verdict(file)?;
    ends_below_n(question, counts.n)?;
    question_refusals(question)?;
    let hops = admitted_hops(file, counts, question);
    let mut chains = vec![];
    let mut so_far = vec![question.from];
    walk(&hops, question, &mut so_far, &mut chains);
    chains.sort();
    Ok(chains)
}

/// The fewest hops from a person to To: at most k, else k+1.
pub fn fewest(file: &[u8], question: &Question, person: u32) -> Result<u32, Refusal> {
    let counts = checker::verdict(file)?;
    ends_below_n(question, counts.n)?;
    if person >= counts.n {
        return refused(10, 2);
    }
    question_refusals(question)?;
    let hops = admitted_hops(file, counts, question);
    let none = question.hops + 1;
    Ok(distance(&hops, person, question.to).map_or(none, |fewest| fewest.min(none)))
}

/// The record of a chain: its hops, its persons, zeros; ten cells.
pub fn record(chain: &[u32]) -> [u32; 10] {
    let mut cells = [0; 10];
    cells[0] = chain.len() as u32 - 1;
    cells[1..=chain.len()].copy_from_slice(chain);
    cells
}

/// What a portion answers where it is not refused.
#[derive(Clone, Copy, Debug, PartialEq, Eq)]
pub struct Listed {
    pub count: u64,
    pub ended: bool,
}

pub fn listed(count: u64, ended: bool) -> Result<Listed, Refusal> {
    Ok(Listed { count, ended })
}

/// The portion of a listing, written to `out` as it has to be. With `started` 0 the bookmark isn't looked at. What is
/// listed may be chains or rings.
pub fn portion(
    listing: &Result<Vec<Chain>, Refusal>,
    started: u32,
    bookmark: &[u32],
    out: &mut [u32],
) -> Result<Listed, Refusal> {
    let chains = match listing {
        Ok(chains) => chains,
        Err(refusal) => return Err(*refusal),
    };
    if out.len() < 10 {
        return refused(16, 0);
    }
    let mut done = 0;
    if started != 0 {
        match chains
            .iter()
            .position(|chain| record(chain)[..] == *bookmark)
        {
            Some(place) => done = place + 1,
            None => return refused(17, 0),
        }
    }
    let left = &chains[done..];
    let room = out.len() / 10;
    let count = room.min(left.len());
    for (i, chain) in left[..count].iter().enumerate() {
        out[10 * i..10 * i + 10].copy_from_slice(&record(chain));
    }
    Ok(Listed {
        count: count as u64,
        ended: count == left.len(),
    })
}

/// The cells of a held listing: the eight numbers of the question, the started mark, the last record.
pub type Held = [u32; 19];

/// The cells of one stored before the question had its eighth number: the seven, the started mark, the last record.
pub type Stored = [u32; 18];

pub fn held_of(question: &Question, started: u32, record: &[u32; 10]) -> Held {
    let mut held = [0; 19];
    held[..8].copy_from_slice(&question.numbers());
    held[8] = started;
    held[9..].copy_from_slice(record);
    held
}

pub fn stored_of(question: &Question, started: u32, record: &[u32; 10]) -> Stored {
    let mut stored = [0; 18];
    stored[..7].copy_from_slice(&question.numbers()[..7]);
    stored[7] = started;
    stored[8..].copy_from_slice(record);
    stored
}

/// The question that a held listing asks. One stored before admits undated links.
pub fn question_held(held: &[u32]) -> Question {
    let mut numbers = [1; 8];
    let count = mark_of(held);
    numbers[..count].copy_from_slice(&held[..count]);
    Question::of_numbers(&numbers)
}

/// Where the started mark stands: before the ten cells of the record, in the one form as in the other.
fn mark_of(held: &[u32]) -> usize {
    held.len() - 11
}

/// Moves a held listing on as it has to be; `listing` is that of its question. With chains written it is started and
/// its record is the last one written; otherwise nothing in it changes. It keeps its form.
pub fn moved_on(
    listing: &Result<Vec<Chain>, Refusal>,
    held: &mut [u32],
    out: &mut [u32],
) -> Result<Listed, Refusal> {
    let mark = mark_of(held);
    let listed = portion(listing, held[mark], &held[mark + 1..], out)?;
    if listed.count > 0 {
        let last = 10 * (listed.count as usize - 1);
        held[mark] = 1;
        held[mark + 1..].copy_from_slice(&out[last..last + 10]);
    }
    Ok(listed)
}

/// Every chain, shorter ones first, then in dictionary order.
pub fn listing_by_hops(file: &[u8], question: &Question) -> Result<Vec<Chain>, Refusal> {
    let mut chains = listing(file, question)?;
    by_hops(&mut chains);
    Ok(chains)
}

/// Every half chain, shorter ones first, then in dictionary order: from each person but From all ways to To of at most
/// half the hops are walked, and those that visit From are left out.
pub fn half_chains(file: &[u8], question: &Question) -> Result<Vec<Chain>, Refusal> {
    let counts = checker::verdict(file)?;
    ends_below_n(question, counts.n)?;
    question_refusals(question)?;
    let hops = admitted_hops(file, counts, question);
    let half = Question {
        hops: question.hops / 2,
        ..*question
    };
    let mut halves = vec![];
    for start in 0..counts.n {
        walk(&hops, &half, &mut vec![start], &mut halves);
    }
    halves.retain(|half| !half.contains(&question.from));
    by_hops(&mut halves);
    Ok(halves)
}

fn by_hops(sequences: &mut [Chain]) {
    sequences.sort_by(|one, other| (one.len(), one).cmp(&(other.len(), other)));
}

/// The join of a listing by hops and its half chains, written to `working` and `out` as it has to be.
pub fn join(
    by_hops: &Result<Vec<Chain>, Refusal>,
    halves: &Result<Vec<Chain>, Refusal>,
    working: &mut [u32],
    out: &mut [u32],
) -> Result<Listed, Refusal> {
    let (chains, halves) = match (by_hops, halves) {
        (Ok(chains), Ok(halves)) => (chains, halves),
        (Err(refusal), _) | (_, Err(refusal)) => return Err(*refusal),
    };
    if out.len() < 10 {
        return refused(16, 0);
    }
    if working.len() / 10 < halves.len() {
        return refused(18, 0);
    }
    let count = chains.len().min(out.len() / 10);
    write_records(halves, working);
    write_records(&chains[..count], out);
    listed(count as u64, count == chains.len())
}

fn write_records(chains: &[Chain], cells: &mut [u32]) {
    for (i, chain) in chains.iter().enumerate() {
        cells[10 * i..10 * i + 10].copy_from_slice(&record(chain));
    }
}

/// The first chain in dictionary order, for listings too long to be written down whole. Rows rise, so the first way
/// met is the first in order.
pub fn first(file: &[u8], question: &Question) -> Option<Chain> {
    let counts = checker::verdict(file).expect("the file passes");
    let hops = admitted_hops(file, counts, question);
    let mut so_far = vec![question.from];
    first_way(&hops, question, &mut so_far).then_some(so_far)
}

/// The chain that follows another in dictionary order, for listings too long to be written down whole: the last person
/// that can be exchanged for a higher one is, and the first way on is taken.
pub fn following(file: &[u8], question: &Question, chain: &[u32]) -> Option<Chain> {
    let counts = checker::verdict(file).expect("the file passes");
    let hops = admitted_hops(file, counts, question);
    for place in (1..chain.len()).rev() {
        let before = &chain[..place];
        for &person in &hops[before[place - 1] as usize] {
            if person > chain[place] && !before.contains(&person) {
                let mut so_far = before.to_vec();
                so_far.push(person);
                if first_way(&hops, question, &mut so_far) {
                    return Some(so_far);
                }
            }
        }
    }
    None
}

/// Completes a chain by the first way in dictionary order, if there is one.
fn first_way(hops: &Hops, question: &Question, so_far: &mut Chain) -> bool {
    let last = so_far[so_far.len() - 1];
    if last == question.to {
        return true;
    }
    if so_far.len() as u32 > question.hops {
        return false;
    }
    for &person in &hops[last as usize] {
        if !so_far.contains(&person) {
            so_far.push(person);
            if first_way(hops, question, so_far) {
                return true;
            }
            so_far.pop();
        }
    }
    false
}

pub fn ends_below_n(question: &Question, n: u32) -> Result<(), Refusal> {
    if question.from >= n {
        return refused(10, 0);
    }
    if question.to >= n {
        return refused(10, 1);
    }
    Ok(())
}

fn question_refusals(question: &Question) -> Result<(), Refusal> {
    if question.from == question.to {
        return refused(11, 0);
    }
    refusals_behind_the_ends(question)
}

/// 12 to 15 and 20, which look at neither From nor To.
pub fn refusals_behind_the_ends(question: &Question) -> Result<(), Refusal> {
    if !(1..=8).contains(&question.hops) {
        return refused(12, 0);
    }
    if !(1..=15).contains(&question.classes) {
        return refused(13, 0);
    }
    if !(1..=2).contains(&question.meaning) {
        return refused(14, 0);
    }
    let (first, last) = (question.first_day, question.last_day);
    if first == 0 || last > LAST_DAY || first > last {
        return refused(15, 0);
    }
    if question.undated > 1 {
        return refused(20, 0);
    }
    Ok(())
}

pub fn admitted_hops(file: &[u8], counts: Counts, question: &Question) -> Hops {
    let mut hops = vec![];
    for person in 0..counts.n {
        let (first, end) = checker::row(file, counts, person);
        let targets = (first..end)
            .map(|place| checker::link(file, counts, place))
            .filter(|link| admitted(file, link, question))
            .map(|link| link.target);
        hops.push(targets.collect());
    }
    hops
}

fn admitted(file: &[u8], link: &checker::Link, question: &Question) -> bool {
    let class = checker::class(link.kind).expect("the file passed");
    // Classes are 1, 2, 4 and 8: one is in the sum if its bit is.
    if question.classes & class == 0 {
        return false;
    }
    if link.day == 0 {
        return question.undated == 1;
    }
    let in_window = question.first_day <= link.day && link.day <= question.last_day;
    let meaning = u32::from(checker::feed(file, link.feed).meaning);
    in_window && meaning == question.meaning
}

fn walk(hops: &Hops, question: &Question, so_far: &mut Chain, chains: &mut Vec<Chain>) {
    let last = so_far[so_far.len() - 1];
    if last == question.to {
        chains.push(so_far.clone());
        return;
    }
    if so_far.len() as u32 == question.hops + 1 {
        return;
    }
    for &person in &hops[last as usize] {
        if !so_far.contains(&person) {
            so_far.push(person);
            walk(hops, question, so_far, chains);
            so_far.pop();
        }
    }
}

/// Breadth first from a person until To is met.
fn distance(hops: &Hops, person: u32, to: u32) -> Option<u32> {
    let mut met = vec![false; hops.len()];
    let mut waiting = VecDeque::from([(person, 0)]);
    met[person as usize] = true;
    while let Some((at, far)) = waiting.pop_front() {
        if at == to {
            return Some(far);
        }
        for &next in &hops[at as usize] {
            if !met[next as usize] {
                met[next as usize] = true;
                waiting.push_back((next, far + 1));
            }
        }
    }
    None
}
