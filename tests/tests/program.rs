//! The built program `chains`, run on bytes, against the brute-force lister: what it prints, byte for byte.
//!
//! Covers: every stated case of the six-person file that can be put to the program; refusals 1 to 9 by the catalogue of
//! faults, 10 to 15 and 20 by the catalogue of questions, 19 by every short input; inputs of 0 to 64 bytes, around the
//! question's 32 with several contents; a question of seven numbers, as it was before; inputs longer than it takes, and
//! how much it takes of them; inputs fed in pieces; listings of no chain, of one, of exactly one portion, of one more, of
//! many portions; undated links admitted and left out; random files; a reader that goes away.

use independent::checker::{refused, Refusal, LAST_DAY};
use independent::faults::{catalogue, with_faults};
use independent::files::{self, random_file, undated, LinkFile};
use independent::lister::{listing, Question};
use independent::questions::{
    first_to_last, numbers_of, question_faults, question_of, random_question, NOT_UNDATED, Q,
};
use independent::random::Random;
use std::fs::File;
use std::io::{Read, Seek, Write};
use std::path::PathBuf;
use std::process::{Child, Command, Stdio};

/// What a question's bytes are, and the most bytes of a file that the program takes.
const QUESTION: usize = 32;
const MOST_FILE: usize = 53_349;

fn program() -> PathBuf {
    PathBuf::from(env!("CARGO_MANIFEST_DIR")).join("../target/bin/chains")
}

fn started() -> Child {
    Command::new(program())
        .stdin(Stdio::piped())
        .stdout(Stdio::piped())
        .spawn()
        .unwrap_or_else(|fault| panic!("{}: {fault}", program().display()))
}

/// What the program prints on an input that is fed in pieces of so many bytes.
fn printed_in_pieces(input: &[u8], piece: usize) -> Vec<u8> {
    let mut program = started();
    let mut stdin = program.stdin.take().expect("its input is a pipe");
    let input = input.to_vec();
    let feeder = std::thread::spawn(move || {
        for part in input.chunks(piece) {
            // It may leave the rest of a long input unread.
            if stdin.write_all(part).and_then(|()| stdin.flush()).is_err() {
                break;
            }
        }
    });
    let mut printed = Vec::new();
    let mut stdout = program.stdout.take().expect("its output is a pipe");
    stdout
        .read_to_end(&mut printed)
        .expect("its output is read");
    feeder.join().expect("the feeder ends");
    program.wait().expect("it ends");
    printed
}

fn input_of(file: &[u8], question: &Question) -> Vec<u8> {
    let mut input = Vec::new();
    for number in question.numbers() {
        input.extend_from_slice(&number.to_le_bytes());
    }
    input.extend_from_slice(file);
    input
}

fn asked_of(input: &[u8]) -> Question {
    let mut numbers = [0; 8];
    for (number, bytes) in numbers.iter_mut().zip(input[..QUESTION].chunks(4)) {
        *number = u32::from_le_bytes(bytes.try_into().expect("four bytes"));
    }
    Question::of_numbers(&numbers)
}

/// What the document says is printed.
fn right(input: &[u8]) -> Vec<u8> {
    let told = if input.len() < QUESTION {
        refused(19, 0)
    } else {
        let end = input.len().min(QUESTION + MOST_FILE);
        listing(&input[QUESTION..end], &asked_of(input))
    };
    let chains = match told {
        Err(Refusal { number, place }) => return format!("refused {number} at {place}\n").into(),
        Ok(chains) => chains,
    };
    let mut lines = String::new();
    for chain in &chains {
        let persons: Vec<String> = chain.iter().map(u32::to_string).collect();
        lines += &format!("{}: {}\n", chain.len() - 1, persons.join(" "));
    }
    lines += &format!("end {}\n", chains.len());
    lines.into()
}

fn agree(input: &[u8]) -> String {
    let printed = printed_in_pieces(input, 1 << 20);
    let right = right(input);
    assert!(
        printed == right,
        "{} bytes, question {:?}: printed {} bytes, right are {}",
        input.len(),
        input.get(..QUESTION).map(asked_of),
        printed.len(),
        right.len()
    );
    String::from_utf8(printed).expect("it prints text")
}

fn six(question: Question) -> String {
    agree(&input_of(&files::six_persons().bytes(), &question))
}

#[test]
#[rustfmt::skip]
fn the_stated_cases() {
    let whole = "3: 0 1 3 5\n4: 0 2 1 3 5\n3: 0 2 3 5\nend 3\n";
    assert_eq!(six(Q), whole);
    assert_eq!(six(Question { hops: 3, ..Q }), "3: 0 1 3 5\n3: 0 2 3 5\nend 2\n");
    assert_eq!(six(Question { hops: 2, ..Q }), "end 0\n");
    assert_eq!(six(Question { classes: 1, ..Q }), "3: 0 1 3 5\nend 1\n");
    assert_eq!(six(Question { meaning: 2, ..Q }), "end 0\n");
    let later = Question { first_day: 700_001, ..Q };
    assert_eq!(six(later), "4: 0 2 1 3 5\n3: 0 2 3 5\nend 2\n");
    assert_eq!(six(Question { undated: 0, ..later }), "end 0\n");
    assert_eq!(six(Question { last_day: 700_400, ..Q }), whole);
    assert_eq!(six(Question { last_day: 700_399, ..Q }), "end 0\n");
    assert_eq!(six(Question { hops: 0, ..Q }), "refused 12 at 0\n");
    assert_eq!(six(Question { hops: 9, ..Q }), "refused 12 at 0\n");
    assert_eq!(six(Question { hops: 8, ..Q }), whole);
    assert_eq!(six(Question { classes: 0, ..Q }), "refused 13 at 0\n");
    assert_eq!(six(Question { classes: 16, ..Q }), "refused 13 at 0\n");
    assert_eq!(six(Question { to: 6, ..Q }), "refused 10 at 1\n");
    let file = files::six_persons().bytes();
    assert_eq!(agree(&input_of(&file[..187], &Q)), "refused 3 at 0\n");
    let mut meant = file.clone();
    meant[32 + 4 + 2] = 3;
    assert_eq!(agree(&input_of(&meant, &Q)), "refused 5 at 1\n");
}

#[test]
fn undated_links_admitted_or_left_out() {
    assert_eq!(six(Question { undated: 0, ..Q }), "3: 0 1 3 5\nend 1\n");
    for undated in NOT_UNDATED {
        let question = Question { undated, ..Q };
        assert_eq!(six(question), "refused 20 at 0\n");
        assert_eq!(agree(&input_of(&[], &question)), "refused 1 at 0\n");
        let later = Question {
            first_day: LAST_DAY,
            last_day: 1,
            ..question
        };
        assert_eq!(six(later), "refused 15 at 0\n");
    }
}

#[test]
fn inputs_of_0_to_64_bytes() {
    let input = input_of(&files::six_persons().bytes(), &Q);
    for length in 0..=64 {
        let told = agree(&input[..length]);
        if length < QUESTION {
            assert_eq!(told, "refused 19 at 0\n");
        }
    }
}

#[test]
fn inputs_around_the_length_of_a_question() {
    let file = files::six_persons().bytes();
    let contents = [
        vec![0; 33],
        vec![255; 33],
        b"KLF1".repeat(9),
        (0..33).collect(),
        input_of(&file, &Q),
        input_of(&file, &Question { undated: 0, ..Q }),
        input_of(&file, &Question { undated: 2, ..Q }),
        input_of(&file, &Question { from: 6, ..Q }),
        file,
    ];
    for content in contents {
        for length in 27..=33 {
            // From 32 bytes on the question is whole, and the file behind it is too short.
            let right = if length < 32 { 19 } else { 1 };
            let told = agree(&content[..length]);
            assert_eq!(told, format!("refused {right} at 0\n"), "{length} bytes");
        }
    }
}

#[test]
fn a_question_of_seven_numbers_is_none() {
    // The mark is taken for the eighth number, and the person count for the mark.
    let input = input_of(&files::six_persons().bytes(), &Q);
    let before = [&input[..28], &input[32..]].concat();
    assert_eq!(agree(&before), "refused 1 at 0\n");
}

#[test]
fn every_refusal_of_a_file() {
    let file = files::six_persons();
    let bytes = file.bytes();
    for fault in &catalogue(&file) {
        agree(&input_of(&with_faults(&bytes, &[fault]), &Q));
    }
}

#[test]
fn it_lists_no_rings() {
    for person in 0..6 {
        for hops in [1, 5, 8] {
            let question = Question {
                from: person,
                to: person,
                hops,
                ..Q
            };
            assert_eq!(six(question), "refused 11 at 0\n");
        }
    }
}

#[test]
fn every_refusal_of_a_question() {
    let file = files::six_persons().bytes();
    for fault in &question_faults(6, Q.from) {
        let mut numbers = numbers_of(&Q, 0);
        numbers[fault.number_of_question] = fault.value;
        agree(&input_of(&file, &question_of(&numbers)));
    }
}

#[test]
fn inputs_longer_than_it_takes() {
    let file = files::largest().bytes();
    for more in [1, 2, 1000, 100_000] {
        let mut long = file.clone();
        long.resize(file.len() + more, 0);
        assert_eq!(agree(&input_of(&long, &Q)), "refused 3 at 0\n");
        // A person count of 0, then no mark: the earlier refusals come first.
        long[4..8].fill(0);
        assert_eq!(agree(&input_of(&long, &Q)), "refused 2 at 0\n");
        long[0] = 0;
        assert_eq!(agree(&input_of(&long, &Q)), "refused 1 at 0\n");
    }
}

#[test]
fn what_it_takes_of_a_longer_input() {
    let whole = input_of(&files::largest().bytes(), &Question { hops: 1, ..Q });
    assert_eq!(whole.len(), QUESTION + MOST_FILE - 1);
    for more in [0, 1, 2, 3, 4, 5, 1000, 100_000] {
        let mut input = whole.clone();
        input.resize(whole.len() + more, 0);
        let (printed, taken) = printed_from_a_file(&input);
        assert_eq!(printed, right(&input), "{more} bytes more");
        assert_eq!(taken, input.len().min(QUESTION + MOST_FILE) as u64);
    }
}

/// What the program prints on an input that lies in a file, and how many bytes it took of it: where it stopped to read,
/// the next one to read the same open file would go on.
fn printed_from_a_file(input: &[u8]) -> (Vec<u8>, u64) {
    let name = std::env::temp_dir().join(format!("chains-{}", std::process::id()));
    std::fs::write(&name, input).expect("it is written");
    let mut file = File::open(&name).expect("it is there");
    std::fs::remove_file(&name).expect("it goes when it is closed");
    let stdin = file.try_clone().expect("the same open file");
    let program = Command::new(program()).stdin(stdin).output();
    let printed = program.expect("it runs").stdout;
    (printed, file.stream_position().expect("it has a place"))
}

#[test]
fn inputs_fed_in_pieces() {
    let input = input_of(&files::six_persons().bytes(), &Q);
    for piece in [1, 2, 3, 7, 27, 28, 29, 31, 32, 33, 100, 219, 220] {
        assert_eq!(
            printed_in_pieces(&input, piece),
            right(&input),
            "pieces of {piece}"
        );
    }
    let largest = input_of(&files::largest().bytes(), &Question { hops: 3, ..Q });
    assert_eq!(printed_in_pieces(&largest, 4099), right(&largest));
}

/// From the first person to the last through so many layers of eight: eight times as many chains for each layer.
fn layers(count: u32, direct: bool) -> LinkFile {
    let last = 8 * count + 1;
    let mut pairs = Vec::new();
    for person in 0..8 {
        pairs.push((0, 1 + person));
        pairs.push((last - 8 + person, last));
    }
    for layer in 0..count - 1 {
        for one in 0..8 {
            for other in 0..8 {
                pairs.push((1 + 8 * layer + one, 9 + 8 * layer + other));
            }
        }
    }
    if direct {
        pairs.push((0, last));
    }
    undated(last as usize + 1, &pairs)
}

#[test]
fn listings_of_one_portion_one_more_and_many() {
    for (layered, direct, chains) in [
        (1, false, 8),
        (4, false, 4096),
        (4, true, 4097),
        (5, true, 32_769),
    ] {
        let file = layers(layered, direct);
        let question = first_to_last(file.persons(), layered + 1);
        let told = agree(&input_of(&file.bytes(), &question));
        assert!(
            told.ends_with(&format!("\nend {chains}\n")),
            "{layered} layers"
        );
    }
}

#[test]
fn one_chain_and_none() {
    let file = undated(2, &[(0, 1)]).bytes();
    assert_eq!(
        agree(&input_of(&file, &first_to_last(2, 1))),
        "1: 0 1\nend 1\n"
    );
    let apart = undated(2, &[]).bytes();
    assert_eq!(agree(&input_of(&apart, &first_to_last(2, 8))), "end 0\n");
}

#[test]
fn random_questions_over_random_files() {
    let mut random = Random::of_test("program");
    for _ in 0..400 {
        let file = random_file(&mut random, 12);
        if file.persons() < 2 {
            continue;
        }
        let question = random_question(&mut random, file.persons());
        agree(&input_of(&file.bytes(), &question));
    }
}

#[test]
fn a_reader_that_goes_away_ends_it() {
    let file = layers(6, true);
    let question = Question {
        last_day: LAST_DAY,
        ..first_to_last(file.persons(), 7)
    };
    let mut program = started();
    let input = input_of(&file.bytes(), &question);
    program
        .stdin
        .take()
        .expect("its input is a pipe")
        .write_all(&input)
        .expect("it reads");
    let mut some = [0; 100];
    let mut stdout = program.stdout.take().expect("its output is a pipe");
    stdout.read_exact(&mut some).expect("it prints");
    drop(stdout);
    program.wait().expect("it ends");
}
