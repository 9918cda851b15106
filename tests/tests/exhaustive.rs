//! Every graph of four persons and every question about it, and as much of five persons as there is time for: fresh with
//! every room, resumed at every chain, held to the end, joined, and everybody's fewest hops, against brute force.
//!
//! Covers: all 2^12 graphs of four persons, all ordered pairs of From and To, all hops 1 to 8; all graphs of two and three
//! persons; graphs of five persons by seeded samples, of any density and sparse, and with all links or all but one; files
//! of four and five persons with classes, meanings and windows by a seeded sample. With undated links admitted and left
//! out: all graphs of three persons whose links are missing, undated or dated, all ways in which the links of the full
//! graph of four persons are undated or dated, and a seeded sample of what lies between.

use independent::asked::Asked;
use independent::checker;
use independent::files::{self, graph_of_number, links_of_graph, LinkFile};
use independent::lister::Question;
use independent::questions::{first_to_last, random_question, Q};
use independent::random::{rounds, Random};

/// Every ordered pair of From and To.
fn for_each_pair(n: u32, mut each: impl FnMut(u32, u32)) {
    for from in 0..n {
        for to in (0..n).filter(|&to| to != from) {
            each(from, to);
        }
    }
}

/// Asks everything that can differ, and the rest once by each route.
///
/// A chain over n persons has at most n - 1 hops, and a half chain, which leaves out From, at most n - 2, half of 2(n - 2)
/// hops. So from the higher of n - 1 and 2(n - 2) hops on, both lists stay what they are, and only the fewest hops of a
/// person out of reach, k + 1, still change. The search and the join are asked once all the same at the hops beyond: what
/// they reserve for hops that nobody goes could go wrong too.
fn every_number_of_hops(file: &[u8], n: u32, question: Question) {
    let last_that_differs = (n - 1).max(2 * (n - 2));
    for hops in 1..=8 {
        let asked = Asked::new(file.to_vec(), Question { hops, ..question });
        if hops <= last_that_differs {
            asked.everything(n);
        } else {
            asked.once_by_each_route(n);
        }
    }
}

/// One graph with all questions of that plain sort about it.
fn every_question_about(n: u32, graph: u32) {
    let file = graph_of_number(n, graph).bytes();
    for_each_pair(n, |from, to| {
        let question = Question { from, to, ..Q };
        every_number_of_hops(&file, n, question);
    });
}

/// All graphs of four persons in which person 0 has the links that `row` says: an eighth of them all, so that eight tests
/// share the work.
fn graphs_of_four(row: u32) {
    let each_row = 1 << 3;
    for others in 0..1 << 9 {
        every_question_about(4, row + each_row * others);
    }
}

#[test]
fn four_persons_and_0_has_no_link() {
    graphs_of_four(0);
}

#[test]
fn four_persons_and_0_has_a_link_to_1() {
    graphs_of_four(1);
}

#[test]
fn four_persons_and_0_has_a_link_to_2() {
    graphs_of_four(2);
}

#[test]
fn four_persons_and_0_has_links_to_1_and_2() {
    graphs_of_four(3);
}

#[test]
fn four_persons_and_0_has_a_link_to_3() {
    graphs_of_four(4);
}

#[test]
fn four_persons_and_0_has_links_to_1_and_3() {
    graphs_of_four(5);
}

#[test]
fn four_persons_and_0_has_links_to_2_and_3() {
    graphs_of_four(6);
}

#[test]
fn four_persons_and_0_has_links_to_everybody() {
    graphs_of_four(7);
}

#[test]
fn every_graph_of_three_persons() {
    for graph in 0..1 << 6 {
        every_question_about(3, graph);
    }
}

#[test]
fn every_graph_of_two_persons() {
    for graph in 0..1 << 2 {
        every_question_about(2, graph);
    }
}

#[test]
fn the_numbers_of_graphs_name_each_graph_once() {
    let mut all: Vec<Vec<u8>> = (0..1 << 12)
        .map(|graph| graph_of_number(4, graph).bytes())
        .collect();
    all.sort();
    all.dedup();
    assert_eq!(all.len(), 1 << 12);
    assert!(all.iter().all(|file| checker::verdict(file).is_ok()));
    assert_eq!(
        graph_of_number(4, (1 << 12) - 1),
        files::everybody_linked(4)
    );
}

#[test]
fn a_sample_of_the_graphs_of_five_persons() {
    let mut random = Random::of_test("a_sample_of_the_graphs_of_five_persons");
    for _ in 0..rounds(150, 4_000) {
        every_question_about(5, random.below(1 << 20) as u32);
    }
}

#[test]
fn five_persons_with_all_links_but_at_most_one() {
    let all = (1 << links_of_graph(5)) - 1;
    every_question_about(5, all);
    for left_out in (0..links_of_graph(5)).step_by(rounds(5, 1)) {
        every_question_about(5, all - (1 << left_out));
    }
}

#[test]
fn five_persons_with_few_links() {
    // Most numbers have about ten of the twenty links, and such graphs have few dead ends.
    let mut random = Random::of_test("five_persons_with_few_links");
    for _ in 0..rounds(150, 4_000) {
        let links = random.between(4, 8);
        let graph = (0..links).fold(0, |graph, _| graph | 1 << random.below(20));
        every_question_about(5, graph);
    }
}

#[test]
fn four_and_five_persons_with_classes_meanings_and_windows() {
    let mut random = Random::of_test("four_and_five_persons_with_classes_meanings_and_windows");
    let mut longest = 0;
    for _ in 0..rounds(6_000, 200_000) {
        let shape = files::random_file(&mut random, 5);
        let n = shape.persons() as u32;
        if n >= 4 {
            let question = random_question(&mut random, n as usize);
            let asked = Asked::new(shape.bytes(), question);
            longest = longest.max(asked.chains().len());
            asked.everything(n);
        }
    }
    assert!(longest > 5, "{longest}");
}

// Links undated and dated.

/// The graph of a number, in which each bit of `dates` says of one link that it has a day.
fn dated_graph(persons: u32, graph: u32, dates: u32) -> LinkFile {
    graph_of_number(persons, graph).dated(|link| 9 * (dates >> link & 1))
}

/// Undated links admitted, and left out.
const BOTH: [Question; 2] = [Q, Question { undated: 0, ..Q }];

#[test]
fn every_graph_of_three_persons_with_links_undated_and_dated() {
    let mut graphs = 0;
    for graph in 0..1 << links_of_graph(3) {
        for dates in 0..1 << u32::count_ones(graph) {
            let file = dated_graph(3, graph, dates).bytes();
            graphs += 1;
            for_each_pair(3, |from, to| {
                for question in BOTH {
                    every_number_of_hops(
                        &file,
                        3,
                        Question {
                            from,
                            to,
                            ..question
                        },
                    );
                }
            });
        }
    }
    // Each of six links is missing, undated or dated.
    assert_eq!(graphs, 3_usize.pow(6));
}

#[test]
fn the_full_graph_of_four_persons_with_links_undated_and_dated() {
    // All are linked with all, so that but for the persons' numbers one pair of From and To stands for every other.
    let links = links_of_graph(4);
    for dates in 0..1 << links {
        let file = dated_graph(4, (1 << links) - 1, dates).bytes();
        for Question { undated, .. } in BOTH {
            for hops in 1..=8 {
                let question = Question {
                    undated,
                    ..first_to_last(4, hops)
                };
                Asked::new(file.clone(), question).once_by_each_route(4);
            }
        }
    }
}

#[test]
fn a_sample_of_four_persons_with_links_undated_and_dated() {
    let mut random = Random::of_test("a_sample_of_four_persons_with_links_undated_and_dated");
    for _ in 0..rounds(400, 8_000) {
        let all = 1 << links_of_graph(4);
        let [graph, dates] = [(); 2].map(|()| random.below(all) as u32);
        let file = dated_graph(4, graph, dates).bytes();
        for_each_pair(4, |from, to| {
            for question in BOTH {
                every_number_of_hops(
                    &file,
                    4,
                    Question {
                        from,
                        to,
                        ..question
                    },
                );
            }
        });
    }
}
