//! Undated links, admitted or left out: the eighth number of the question through every operation, against the
//! brute-force lister and against rules that are written out here.
//!
//! Covers: the stated cases; files with undated links only, with none and with both; windows that hold none of the days,
//! both meanings; with 1 the rule of the customer's first document, with 0 a dated link at every hop, both tried on every
//! sequence of persons; files whose undated links are taken out; bookmarks that rest on an undated link; 20 before and
//! behind every other refusal. All graphs of three persons whose links are missing, undated or dated are in
//! `exhaustive.rs`, held listings stored before in `held.rs` and `held_refusals.rs`, the program in `program.rs`.

use independent::asked::{cells_of, Answer, Asked, Joined};
use independent::checker::{refused, Refusal, LAST_DAY};
use independent::faults::{catalogue, with_faults};
use independent::files::{self, Link, LinkFile};
use independent::lent::untouched;
use independent::lister::{listed, record, Chain, Question};
use independent::questions::{random_question, A, B, C, NOT_UNDATED, Q};
use independent::random::Random;
use independent::rules::{has_a_day_asked_for, in_the_classes};

/// The same question with another eighth number.
fn with(undated: u32, question: &Question) -> Question {
    Question {
        undated,
        ..*question
    }
}

/// A random file of three to six persons and more links than persons, two fifths of them undated, and a question that
/// passes.
fn random_mixed(random: &mut Random) -> (LinkFile, Question) {
    loop {
        let shape = files::random_file(random, 6);
        if shape.links() > shape.persons() {
            let question = random_question(random, shape.persons());
            let days = [0, 0, 700_000, question.first_day, question.last_day];
            return (shape.dated(|_| random.one_of(&days)), question);
        }
    }
}

/// The file without its undated links.
fn dated_only(shape: &LinkFile) -> LinkFile {
    shape.clone().keeping(|link| link.day != 0)
}

fn undated_only(shape: &LinkFile) -> LinkFile {
    shape.clone().keeping(|link| link.day == 0)
}

fn no_link(shape: &LinkFile) -> LinkFile {
    shape.clone().keeping(|_| false)
}

/// All that is told of a question, with room for everything: the listing, moved on too, the join with its half chains,
/// everybody's fewest hops.
#[derive(Debug, PartialEq)]
struct Told {
    portion: (Answer, Vec<u32>),
    moved: (Answer, Vec<u32>),
    joined: Joined,
    fewest: Vec<Result<u64, Refusal>>,
}

/// Room for the 65 chains that six persons can have at most, and for as many half chains.
const ROOM: usize = 700;

fn told(shape: &LinkFile, question: Question) -> Told {
    let asked = Asked::new(shape.bytes(), question);
    let persons = 0..shape.persons() as u32;
    Told {
        portion: asked.portion(0, &[], ROOM),
        moved: asked.moved(&mut asked.fresh(), ROOM),
        joined: asked.join(ROOM, ROOM),
        fewest: persons.map(|person| asked.fewest(person)).collect(),
    }
}

impl Told {
    fn count(&self) -> u64 {
        self.portion.0.expect("the question passes").count
    }

    /// The chains as they were handed over.
    fn chains(&self) -> Vec<Chain> {
        let records = self.portion.1.chunks(10).take(self.count() as usize);
        records
            .map(|record| record[1..record[0] as usize + 2].to_vec())
            .collect()
    }
}

// The six-person file.

/// The whole listing is stated, in dictionary order; the join has it shorter chains first.
fn lists(question: Question, chains: &[&[u32]]) {
    let told = told(&files::six_persons(), question);
    let right = listed(chains.len() as u64, true);
    assert_eq!(
        told.portion,
        (right, cells_of(chains, ROOM)),
        "{question:?}"
    );
    assert_eq!(told.moved, (right, cells_of(chains, ROOM)), "{question:?}");
    let mut by_hops = chains.to_vec();
    by_hops.sort_by_key(|chain| chain.len());
    let (answer, _, out) = told.joined;
    assert_eq!(
        (answer, out),
        (right, cells_of(&by_hops, ROOM)),
        "{question:?}"
    );
}

#[test]
fn first_day_700001_lists_p6_or_nothing() {
    let later = Question {
        first_day: 700_001,
        ..Q
    };
    lists(later, &[B, C]);
    lists(with(0, &later), &[]);
    let six = files::six_persons();
    let fewest = |undated| told(&six, with(undated, &later)).fewest;
    assert_eq!(fewest(1), [3, 2, 2, 1, 1, 0].map(Ok));
    assert_eq!(fewest(0), [5, 2, 2, 1, 1, 0].map(Ok));
}

#[test]
#[rustfmt::skip]
fn p1_to_p8_without_undated_links() {
    // From 0 only the link to 1 is dated.
    let q = with(0, &Q);
    lists(q, &[A]);
    lists(Question { hops: 3, ..q }, &[A]);
    lists(Question { hops: 2, ..q }, &[]);
    lists(Question { classes: 1, ..q }, &[A]);
    lists(Question { meaning: 2, ..q }, &[]);
    lists(Question { first_day: 700_000, ..q }, &[A]);
    lists(Question { last_day: 700_400, ..q }, &[A]);
    lists(Question { last_day: 700_399, ..q }, &[]);
}

#[test]
fn everything_about_the_six_person_file_without_undated_links() {
    for from in 0..6 {
        for to in (0..6).filter(|&to| to != from) {
            for hops in 1..=8 {
                let question = Question {
                    from,
                    to,
                    hops,
                    undated: 0,
                    ..Q
                };
                Asked::six_persons(question).everything(6);
            }
        }
    }
}

// Which links there are.

#[test]
fn undated_links_only() {
    let mut random = Random::of_test("undated_links_only");
    let mut with_chains = 0;
    for _ in 0..1_000 {
        let (shape, question) = random_mixed(&mut random);
        let shape = undated_only(&shape);
        with_chains += usize::from(told(&shape, with(1, &question)).count() > 0);
        // With 0 nobody reaches To but To itself, and the only half chain is (To).
        let left_out = told(&shape, with(0, &question));
        assert_eq!(left_out, told(&no_link(&shape), with(0, &question)));
        assert_eq!(left_out.portion, (listed(0, true), untouched(ROOM)));
        let halves = cells_of(&[&[question.to]], ROOM);
        assert_eq!(left_out.joined, (listed(0, true), halves, untouched(ROOM)));
        for (person, hops) in left_out.fewest.iter().enumerate() {
            let same = person as u32 == question.to;
            let right = if same { 0 } else { question.hops + 1 };
            assert_eq!(*hops, Ok(u64::from(right)));
        }
    }
    assert!(with_chains > 100, "{with_chains}");
}

#[test]
fn no_undated_link() {
    let mut random = Random::of_test("no_undated_link");
    let mut with_chains = 0;
    for _ in 0..1_000 {
        let (shape, question) = random_mixed(&mut random);
        let shape = dated_only(&shape);
        let left_out = told(&shape, with(0, &question));
        with_chains += usize::from(left_out.count() > 0);
        assert_eq!(left_out, told(&shape, with(1, &question)));
    }
    assert!(with_chains > 100, "{with_chains}");
}

#[test]
fn windows_that_hold_none_of_the_days() {
    let mut random = Random::of_test("windows_that_hold_none_of_the_days");
    let mut with_chains = 0;
    for _ in 0..1_000 {
        let (shape, question) = random_mixed(&mut random);
        let shape = shape.dated(|_| random.one_of(&[0, 700_000, 700_005, 700_009]));
        let windows = [(1, 699_999), (700_001, 700_004), (700_010, LAST_DAY)];
        let (first_day, last_day) = random.one_of(&windows);
        let question = Question {
            first_day,
            last_day,
            ..question
        };
        with_chains += usize::from(chains_of_the_undated_only(&shape, &question) > 0);
    }
    assert!(with_chains > 50, "{with_chains}");
}

#[test]
fn days_of_the_other_meaning() {
    let mut random = Random::of_test("days_of_the_other_meaning");
    let mut with_chains = 0;
    for _ in 0..1_000 {
        let (mut shape, question) = random_mixed(&mut random);
        for feed in &mut shape.feeds {
            feed.meaning = 3 - question.meaning as u8;
        }
        with_chains += usize::from(chains_of_the_undated_only(&shape, &question) > 0);
    }
    assert!(with_chains > 100, "{with_chains}");
}

/// No day of the file is one that the question asks for: with 0 there is nothing, with 1 there are the undated links,
/// whose chains are counted.
fn chains_of_the_undated_only(shape: &LinkFile, question: &Question) -> u64 {
    let [left_out, admitted] = [0, 1].map(|undated| with(undated, question));
    assert_eq!(told(shape, left_out), told(&no_link(shape), left_out));
    let told_of_all = told(shape, admitted);
    assert_eq!(told_of_all, told(&undated_only(shape), admitted));
    told_of_all.count()
}

// Rules of their own.

/// Every sequence of different persons from From to To is tried, whatever the links are; those of at most so many hops
/// stay that have at each a link which is admitted.
fn chains_by(
    shape: &LinkFile,
    question: &Question,
    admitted: &dyn Fn(&Link) -> bool,
) -> Vec<Chain> {
    let mut begun = vec![vec![question.from]];
    let mut chains = vec![];
    while let Some(so_far) = begun.pop() {
        let last = so_far[so_far.len() - 1];
        if last == question.to {
            chains.push(so_far);
        } else if so_far.len() <= question.hops as usize {
            let strangers = (0..shape.persons() as u32).filter(|person| !so_far.contains(person));
            begun.extend(strangers.map(|person| [&so_far[..], &[person]].concat()));
        }
    }
    let has_hop = |owner: u32, target| {
        let row = &shape.rows[owner as usize];
        row.iter()
            .any(|link| link.target == target && admitted(link))
    };
    chains.retain(|chain| chain.windows(2).all(|hop| has_hop(hop[0], hop[1])));
    chains.sort();
    chains
}

/// All that has to be told where a rule says which links are admitted. Half chains are the ways of half the hops from
/// anybody that leave out From; the fewest hops are those of a shortest way.
fn right_by(shape: &LinkFile, question: &Question, admitted: &dyn Fn(&Link) -> bool) -> Told {
    let ways = |from, hops| {
        let question = Question {
            from,
            hops,
            ..*question
        };
        chains_by(shape, &question, admitted)
    };
    let persons = 0..shape.persons() as u32;
    let mut chains = ways(question.from, question.hops);
    let mut halves: Vec<Chain> = persons
        .clone()
        .flat_map(|person| ways(person, question.hops / 2))
        .filter(|half| !half.contains(&question.from))
        .collect();
    let answer = listed(chains.len() as u64, true);
    let listing = (answer, cells(&chains));
    // Both are in dictionary order, and stay so among those of the same hops.
    chains.sort_by_key(Vec::len);
    halves.sort_by_key(Vec::len);
    let fewest = persons.map(|person| {
        let hops = ways(person, question.hops).iter().map(Vec::len).min();
        Ok(hops.map_or(u64::from(question.hops) + 1, |persons| persons as u64 - 1))
    });
    Told {
        portion: listing.clone(),
        moved: listing,
        joined: (answer, cells(&halves), cells(&chains)),
        fewest: fewest.collect(),
    }
}

/// The records of the chains, then cells as they came.
fn cells(chains: &[Chain]) -> Vec<u32> {
    let chains: Vec<&[u32]> = chains.iter().map(Vec::as_slice).collect();
    cells_of(&chains, ROOM)
}

#[test]
fn with_1_the_rule_of_the_first_document() {
    // That document knows of seven numbers: the class is in the sum, and the link is undated or has a day asked for.
    let mut random = Random::of_test("with_1_the_rule_of_the_first_document");
    let mut with_chains = 0;
    for _ in 0..3_000 {
        let (shape, question) = random_mixed(&mut random);
        let rule = |link: &Link| {
            let dated = has_a_day_asked_for(&shape, link, &question);
            in_the_classes(link, &question) && (link.day == 0 || dated)
        };
        let told = told(&shape, with(1, &question));
        assert_eq!(told, right_by(&shape, &question, &rule), "{shape:?}");
        with_chains += usize::from(told.count() > 1);
    }
    assert!(with_chains > 300, "{with_chains}");
}

#[test]
fn with_0_a_dated_link_at_every_hop() {
    let mut random = Random::of_test("with_0_a_dated_link_at_every_hop");
    let (mut with_chains, mut with_fewer) = (0, 0);
    for _ in 0..3_000 {
        let (shape, question) = random_mixed(&mut random);
        let rule = |link: &Link| {
            let dated = has_a_day_asked_for(&shape, link, &question);
            link.day != 0 && dated && in_the_classes(link, &question)
        };
        let [left_out, admitted] = [0, 1].map(|undated| told(&shape, with(undated, &question)));
        for chain in left_out.chains() {
            for hop in chain.windows(2) {
                let row = &shape.rows[hop[0] as usize];
                let link = row.iter().find(|link| link.target == hop[1]);
                assert!(link.is_some_and(rule), "{chain:?}, {hop:?}: {link:?}");
            }
            assert!(admitted.chains().contains(&chain));
        }
        assert_eq!(left_out, right_by(&shape, &question, &rule), "{shape:?}");
        with_chains += usize::from(left_out.count() > 0);
        with_fewer += usize::from(left_out.count() > 0 && left_out.count() < admitted.count());
    }
    assert!(
        with_chains > 300 && with_fewer > 100,
        "{with_chains} {with_fewer}"
    );
}

#[test]
fn a_file_whose_undated_links_are_taken_out() {
    let mut random = Random::of_test("a_file_whose_undated_links_are_taken_out");
    let (mut with_chains, mut with_halves) = (0, 0);
    for _ in 0..3_000 {
        let (shape, question) = random_mixed(&mut random);
        let [left_out, admitted] = [0, 1].map(|undated| with(undated, &question));
        let right = told(&shape, left_out);
        let taken_out = dated_only(&shape);
        assert_eq!(told(&taken_out, admitted), right, "{shape:?}");
        assert_eq!(told(&taken_out, left_out), right, "{shape:?}");
        let fewer = right.count() < told(&shape, admitted).count();
        with_chains += usize::from(right.count() > 0 && fewer);
        // More half chains than (To) alone.
        with_halves += usize::from(right.joined.1[10] != untouched(ROOM)[10]);
    }
    assert!(
        with_chains > 100 && with_halves > 300,
        "{with_chains} {with_halves}"
    );
}

// Bookmarks.

#[test]
fn bookmarks_that_rest_on_an_undated_link() {
    let mut random = Random::of_test("bookmarks_that_rest_on_an_undated_link");
    let mut cases = vec![(files::six_persons(), Q)];
    cases.extend((0..2_000).map(|_| random_mixed(&mut random)));
    let (mut kept, mut bad) = (0, 0);
    for (shape, question) in cases {
        let [left_out, admitted] =
            [0, 1].map(|undated| Asked::new(shape.bytes(), with(undated, &question)));
        for chain in admitted.chains().iter().take(8) {
            let bookmark = record(chain);
            assert!(admitted.portion(1, &bookmark, 20).0.is_ok());
            admitted.moved_in_each_form(1, &bookmark, 20);
            if rests_on_an_undated_link(&shape, chain) {
                let told = left_out.portion(1, &bookmark, 20);
                assert_eq!(told, (refused(17, 0), untouched(20)), "{chain:?}");
                left_out.refuses_to_move(left_out.held(1, &bookmark), 20, 17, 0);
                bad += 1;
            } else {
                assert!(left_out.portion(1, &bookmark, 20).0.is_ok(), "{chain:?}");
                left_out.moved_in_each_form(1, &bookmark, 20);
                kept += 1;
            }
        }
    }
    assert!(kept > 200 && bad > 200, "{kept} kept, {bad} bad");
}

fn rests_on_an_undated_link(shape: &LinkFile, chain: &[u32]) -> bool {
    chain.windows(2).any(|hop| {
        let row = &shape.rows[hop[0] as usize];
        row.iter()
            .any(|link| link.target == hop[1] && link.day == 0)
    })
}

// Refusal 20.

/// Every operation that takes a question refuses it so, whatever else is lent, and all cells stay as they came.
fn refuses(file: &[u8], question: Question, number: u32, place: u32) {
    let asked = Asked::new(file.to_vec(), question);
    assert_eq!(asked.fewest(2), refused(number, place), "{question:?}");
    for cells in [0, 9, 10, 45] {
        for (started, bookmark) in [(0, &[][..]), (1, &record(A)), (1, &[7; 10]), (2, &[7; 3])] {
            let told = asked.portion(started, bookmark, cells);
            assert_eq!(told, (refused(number, place), untouched(cells)));
        }
        for (started, record) in [(0, [7; 10]), (1, record(A)), (2, [7; 10])] {
            asked.refuses_to_move(asked.held(started, &record), cells, number, place);
        }
        for working in [0, 9, 49, 50] {
            asked.refuses_to_join(working, cells, number, place);
        }
    }
}

#[test]
fn twenty_for_any_other_number_before_16_17_and_18() {
    let file = files::six_persons().bytes();
    for undated in NOT_UNDATED {
        refuses(&file, with(undated, &Q), 20, 0);
    }
    for undated in [0, 1] {
        let asked = Asked::six_persons(with(undated, &Q));
        assert_eq!(asked.portion(1, &[7; 10], 9).0, refused(16, 0));
        assert_eq!(asked.portion(1, &[7; 10], 10).0, refused(17, 0));
        asked.refuses_to_move(asked.held(1, &[7; 10]), 9, 16, 0);
        asked.refuses_to_move(asked.held(1, &[7; 10]), 10, 17, 0);
        asked.refuses_to_join(49, 9, 16, 0);
        asked.refuses_to_join(49, 10, 18, 0);
    }
}

#[test]
#[rustfmt::skip]
fn fifteen_and_those_before_it_come_before_twenty() {
    let file = files::six_persons().bytes();
    for undated in NOT_UNDATED {
        let q = with(undated, &Q);
        refuses(&file, Question { from: 6, ..q }, 10, 0);
        refuses(&file, Question { to: 6, ..q }, 10, 1);
        refuses(&file, Question { from: 5, ..q }, 11, 0);
        refuses(&file, Question { hops: 9, ..q }, 12, 0);
        refuses(&file, Question { classes: 16, ..q }, 13, 0);
        refuses(&file, Question { meaning: 3, ..q }, 14, 0);
        refuses(&file, Question { first_day: 0, ..q }, 15, 0);
        refuses(&file, Question { last_day: LAST_DAY + 1, ..q }, 15, 0);
        refuses(&file, Question { first_day: 9, last_day: 8, ..q }, 15, 0);
        // Fewest hops asks for its extra person before 11.
        assert_eq!(Asked::six_persons(q).fewest(6), refused(10, 2));
        assert_eq!(Asked::six_persons(q).fewest(5), refused(20, 0));
    }
}

#[test]
fn the_files_refusals_come_before_twenty() {
    let shape = files::six_persons();
    let file = shape.bytes();
    let mut others = NOT_UNDATED.into_iter().cycle();
    for fault in catalogue(&shape) {
        let Refusal { number, place } = fault.refusal;
        let changed = with_faults(&file, &[&fault]);
        let other = others.next().expect("numbers never end");
        refuses(&changed, with(other, &Q), number, place);
    }
}
