//! So many portions in a row over one file, each from the last record of the one before: how long every tenth of them
//! takes in processor time, and what memory the process has before and after it. With the word `rings` behind the number
//! they are portions of the rings of person 0, otherwise of the chains from person 0 to the last one.

use independent::calls::{self, Slice};
use independent::checker::Refusal;
use independent::files;
use independent::lister::{Listed, Question};
use independent::questions::first_to_last;

/// The call for a portion: of chains, or of rings.
type Portion = fn(Slice<u8>, &Question, u32, Slice<u32>, Slice<u32>) -> Result<Listed, Refusal>;

/// A room small enough that portions are many and each file is checked anew for few chains.
const ROOM: usize = 4;

extern "C" {
    /// The processor time of the process, in millionths of a second.
    fn clock() -> i64;
}

fn main() {
    let portions = std::env::args().nth(1).expect("say how many portions");
    let portions: usize = portions.parse().expect("a whole number of portions");
    // 2.5 * 10^12 chains, and a few more rings: it never ends.
    let mut file = files::everybody_linked(64).bytes();
    let mut question = first_to_last(64, 8);
    let mut portion_of: Portion = calls::portion;
    if std::env::args().nth(2).is_some_and(|word| word == "rings") {
        question.to = question.from;
        portion_of = calls::rings;
    }
    let mut bookmark = [0; 10];
    let tenth = portions / 10;
    println!("resident before: {} KB", resident());
    for part in 0..10 {
        let start = unsafe { clock() };
        for portion in 0..tenth {
            let started = u32::from(part + portion > 0);
            next(portion_of, &mut file, &question, started, &mut bookmark);
        }
        let micros = (unsafe { clock() } - start) as f64 / tenth as f64;
        let (first, end) = (part * tenth, (part + 1) * tenth);
        let resident = resident();
        println!("portions {first} to {end}: {micros:.2} us each, then resident: {resident} KB");
    }
    println!("at the record {bookmark:?}");
}

/// Goes on by a portion, which has to be full, and keeps its last record.
fn next(
    portion_of: Portion,
    file: &mut [u8],
    question: &Question,
    started: u32,
    bookmark: &mut [u32; 10],
) {
    let mut out = [0; 10 * ROOM];
    let told = portion_of(
        (file.as_mut_ptr(), file.len()),
        question,
        started,
        (bookmark.as_mut_ptr(), bookmark.len()),
        (out.as_mut_ptr(), out.len()),
    );
    let listed = told.expect("neither file nor question nor bookmark is refused");
    assert!(listed.count == ROOM as u64 && !listed.ended, "{listed:?}");
    // Dictionary order compares the persons, which stand behind the hops.
    assert!(started == 0 || out[1..10] > bookmark[1..]);
    bookmark.copy_from_slice(&out[10 * (ROOM - 1)..]);
}

/// The kilobytes of the process that are in memory.
fn resident() -> u64 {
    let status = std::fs::read_to_string("/proc/self/status").expect("the system tells");
    let line = status.lines().find(|line| line.starts_with("VmRSS:"));
    let number = line.and_then(|line| line.split_whitespace().nth(1));
    number
        .expect("it has its number")
        .parse()
        .expect("a number")
}
