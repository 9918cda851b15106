//! Damaged files, asked of all seven operations: each answers as the independent checker and lister say, and where it is
//! refused every lent cell stays as it came.
//!
//! Covers: cut and grown slices, changed bytes and bits, other header numbers, changed and exchanged table rows, headers
//! mended to changed counts, several damages at once; sound and unsound questions; fresh starts, good and bad bookmarks;
//! output and working cells too few and enough.

use independent::asked::Asked;
use independent::checker::Verdict;
use independent::damage::{damaged, Tally};
use independent::files;
use independent::lister::{record, Question};
use independent::questions::{numbers_of, question_faults, question_of, random_question};
use independent::random::{rounds, Random};

/// Mostly a question that passes over the undamaged file, now and then one that has a fault of its own.
fn question_over(random: &mut Random, n: usize) -> Question {
    let question = random_question(random, n);
    if random.chance(7, 8) {
        return question;
    }
    let faults = question_faults(n as u32, question.from);
    let fault = faults[random.below(faults.len())];
    let mut numbers = numbers_of(&question, 0);
    numbers[fault.number_of_question] = fault.value;
    question_of(&numbers)
}

/// Ten cells that were a chain's or a ring's record before the damage, or are none.
fn bookmark_from(random: &mut Random, undamaged: &Asked) -> [u32; 10] {
    let rings = undamaged.back_to_from();
    let listing = if random.chance(1, 3) {
        rings.ring_listing()
    } else {
        undamaged.listing()
    };
    let chains = match listing {
        Ok(chains) if !chains.is_empty() => chains,
        _ => return [random.below(9) as u32; 10],
    };
    let mut cells = record(&chains[random.below(chains.len())]);
    if random.chance(1, 4) {
        cells[random.below(10)] = random.below(9) as u32;
    }
    cells
}

/// All seven operations, with cells enough or too few.
fn ask_all(random: &mut Random, asked: &Asked, bookmark: &[u32; 10], n: u32) -> Verdict {
    let verdict = asked.check();
    let person = random.below(n as usize + 1) as u32;
    asked.row(person);
    let _ = asked.fewest(person);
    let cells = random.one_of(&[9, 10, 25, 200]);
    let started = random.below(2) as u32;
    let _ = asked.portion(started, bookmark, cells);
    asked.rings_as_asked_and_closed(started, bookmark, cells);
    asked.moved_in_each_form(started, bookmark, cells);
    let working = random.one_of(&[0, 9, 10, 40, 90, 400]);
    let _ = asked.join(working, cells);
    verdict
}

/// Damages so many files of up to `most_persons` persons and asks all of each.
fn damage_and_ask(random: &mut Random, files: usize, most_persons: usize) -> Tally {
    let mut tally = Tally::default();
    while tally.0.iter().sum::<usize>() < files {
        let shape = files::random_file(random, most_persons);
        if shape.persons() > 1 {
            let question = question_over(random, shape.persons());
            let bookmark = bookmark_from(random, &Asked::new(shape.bytes(), question));
            let asked = Asked::new(damaged(random, &shape), question);
            let n = shape.persons() as u32;
            tally.note(ask_all(random, &asked, &bookmark, n));
        }
    }
    tally
}

#[test]
fn a_hundred_thousand_damaged_files() {
    let mut random = Random::of_test("a_hundred_thousand_damaged_files");
    let files = rounds(100_000, 1_000_000);
    let tally = damage_and_ask(&mut random, files, 7);
    println!("passed, then refused by number: {:?}", tally.0);
    // Every verdict was met often, and so were files that pass all the same and list other chains.
    tally.assert_each_at_least(files / 100);
}

#[test]
fn damaged_files_of_up_to_forty_persons() {
    let mut random = Random::of_test("damaged_files_of_up_to_forty_persons");
    let mut tally = Tally::default();
    // A third of the questions leave undated links out, and there are no others before the damage.
    for _ in 0..rounds(3_000, 60_000) {
        // Few links a person, so that brute force gets through what still passes.
        let persons = random.between(8, 40);
        let shape = files::two_way_family(&mut random, persons);
        let question = Question {
            hops: random.between(1, 6) as u32,
            ..question_over(&mut random, persons)
        };
        let asked = Asked::new(damaged(&mut random, &shape), question);
        tally.note(ask_all(&mut random, &asked, &[1; 10], persons as u32));
    }
    tally.assert_each_at_least(10);
}
