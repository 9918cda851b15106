//! Any bytes, any numbers: nothing panics, and a refusal changes no lent cell.

use crate::{refused, SIX_PERSONS};
use kin::{
    check, fewest_hops, join, links_in, portion, ring_portion, row_view, Classes, DateMeaning,
    HeldListing, Listed, Question, Refused, Start,
};

/// Seeded, so that a failure can be seen again.
struct Random(u64);

impl Random {
    fn next(&mut self) -> u32 {
        self.0 ^= self.0 << 13;
        self.0 ^= self.0 >> 7;
        self.0 ^= self.0 << 17;
        (self.0 >> 16) as u32
    }

    /// Mostly a small number, sometimes any.
    fn number(&mut self, most: u32) -> u32 {
        match self.next() % 20 {
            0 => self.next(),
            _ => self.next() % (most + 1),
        }
    }

    /// The six-person file with a byte or two changed, perhaps cut off.
    fn file(&mut self) -> Vec<u8> {
        let mut file = SIX_PERSONS.to_vec();
        for _ in 0..self.next() % 3 {
            let place = self.next() as usize % file.len();
            file[place] = self.number(7) as u8;
        }
        if self.number(7) == 0 {
            file.truncate(self.next() as usize % 200);
        }
        file
    }

    fn question(&mut self) -> Question {
        Question {
            classes: Classes::from_number(self.number(16)),
            meaning: DateMeaning::from_number(self.number(2)),
            last_day: self.number(600).wrapping_add(700_000),
            undated: self.next() % 2 == 0,
            ..Question::between(self.number(6), self.number(6), self.number(9))
        }
    }
}

/// Holds an answer of chains to the file's verdict and to the cells that were lent, all 9 before the call.
fn hold(answer: Result<Listed, Refused>, file: &[u8], output: &[u32]) {
    hold_by(answer, file, output, |number| matches!(number, 1..=18 | 20));
}

/// The same, where only these numbers refuse.
fn hold_by(
    answer: Result<Listed, Refused>,
    file: &[u8],
    output: &[u32],
    refuses: impl Fn(u32) -> bool,
) {
    match answer {
        Ok(Listed { count, .. }) => {
            assert!(check(file).is_ok());
            assert!(output[10 * count..].iter().all(|&cell| cell == 9));
        }
        Err(refused) => {
            assert!(refuses(refused.number), "{refused}");
            assert!(output.iter().all(|&cell| cell == 9));
            let of_the_file = check(file).is_err();
            assert_eq!(of_the_file, refused.number <= 9, "{refused}");
        }
    }
}

#[test]
fn any_file_and_any_question_get_an_answer() {
    let mut random = Random(20_261_115);
    for _ in 0..20_000 {
        let (file, question) = (random.file(), random.question());
        let mut output = vec![9; random.next() as usize % 45];
        hold(
            portion(&file, question, Start::Fresh, &mut output),
            &file,
            &output,
        );

        let bookmark: Vec<u32> = (0..10).map(|_| random.number(5)).collect();
        let mut output = vec![9; 20];
        hold(
            portion(&file, question, Start::After(&bookmark), &mut output),
            &file,
            &output,
        );

        let mut working = vec![9; random.next() as usize % 90];
        let mut output = vec![9; 20];
        let answer = join(&file, question, &mut working, &mut output);
        hold(answer, &file, &output);
        if answer.is_err() {
            assert!(working.iter().all(|&cell| cell == 9));
        }
    }
}

#[test]
fn any_question_for_rings_gets_an_answer_and_never_11() {
    let mut random = Random(2_131);
    let mut seen = [false; 22];
    for _ in 0..20_000 {
        let (file, mut question) = (random.file(), random.question());
        if random.number(3) > 0 {
            question.to = question.from;
        }
        let bookmark: Vec<u32> = (0..10).map(|_| random.number(3)).collect();
        for start in [Start::Fresh, Start::After(&bookmark)] {
            let mut output = vec![9; 4 + random.next() as usize % 45];
            let answer = ring_portion(&file, question, start, &mut output);
            hold_by(
                answer,
                &file,
                &output,
                |number| matches!(number, 1..=10 | 12..=17 | 21),
            );
            seen[answer.map_or_else(|refused| refused.number as usize, |_| 0)] = true;
        }
    }
    assert!([0, 10, 12, 13, 14, 15, 16, 17, 21]
        .iter()
        .all(|&number| seen[number]));
}

#[test]
fn any_held_cells_get_an_answer() {
    let mut random = Random(15);
    for _ in 0..20_000 {
        let file = random.file();
        let cells = std::array::from_fn(|_| random.number(6));
        let mut held = HeldListing::from_cells(cells);
        let mut output = [9; 25];
        let answer = held.move_on(&file, &mut output);
        hold(answer, &file, &output);
        if answer.is_err() {
            assert_eq!(*held.cells(), cells);
        }
        assert_eq!(held.question().is_some(), cells[7] < 2);
        let _ = held.last();
    }
}

#[test]
fn any_stored_cells_get_an_answer_and_never_20() {
    let mut random = Random(18);
    for _ in 0..20_000 {
        let file = random.file();
        let mut held = HeldListing::from_stored_cells(std::array::from_fn(|_| random.number(6)));
        let mut output = [9; 25];
        let answer = held.move_on(&file, &mut output);
        hold(answer, &file, &output);
        assert_ne!(answer, Err(refused(20, 0)));
        assert!(held.question().is_some_and(|question| question.undated));
    }
}

#[test]
fn any_person_has_a_row_view_and_fewest_hops_or_a_refusal() {
    let mut random = Random(1_115);
    for _ in 0..20_000 {
        let (file, question, person) = (random.file(), random.question(), random.number(7));
        let row = row_view(&file, person);
        assert_eq!(links_in(row).count() * 12, row.len());
        assert!(row.is_empty() || check(&file).is_ok());
        if let Ok(Some(hops)) = fewest_hops(&file, question, person) {
            assert!(hops <= question.hops);
        }
    }
}
