//! Every graph of four persons and the rings of everybody in it, and as much of five persons as there is time for: fresh with
//! every room, resumed at every ring, and every bookmark, against brute force.
//!
//! Covers: all 2^12 graphs of four persons, each of the four, all hops 1 to 8. For each of these graphs, persons and hops:
//! every sequence of up to five persons that begins at the person and goes on to another at every hop, closed or not, as a
//! bookmark; and for one of the hops a part of all others of up to six persons, and of those that begin at somebody else.
//! All graphs of two and three persons, with every number of hops and every bookmark of up to five persons. Graphs of five
//! persons by seeded samples, of any density and sparse, and with all links or all but one. With undated links admitted
//! and left out: all graphs of three persons whose links are missing, undated or dated, with every bookmark of up to four
//! persons; all ways in which the links of the full graph of four persons are undated or dated. Files of four and five
//! persons with classes, meanings and windows by a seeded sample.

use independent::asked::Asked;
use independent::files::{self, graph_of_number, links_of_graph, LinkFile};
use independent::lister::{record, Question};
use independent::questions::{random_question, Q};
use independent::random::{rounds, Random};

fn of(person: u32, hops: u32) -> Question {
    Question {
        from: person,
        to: person,
        hops,
        ..Q
    }
}

// Every room, and every ring as a bookmark.

/// Asks everything that can differ. A ring over n persons has at most n hops; beyond them the listing stays what it is and
/// is asked once: what the search reserves for hops that nobody goes could go wrong too.
fn every_number_of_hops(shape: &LinkFile, question: Question) {
    for hops in 1..=8 {
        let asked = Asked::new(shape.bytes(), Question { hops, ..question });
        if hops as usize <= shape.persons() {
            asked.everything_of_rings();
        } else {
            asked.rings_once();
        }
    }
}

fn rings_of_everybody(n: u32, graph: u32) {
    let shape = graph_of_number(n, graph);
    for person in 0..n {
        every_number_of_hops(&shape, of(person, 8));
    }
}

/// One person's rings in all graphs of four, so that four tests share the work.
fn graphs_of_four(person: u32) {
    let mut rings = 0;
    for graph in 0..1 << links_of_graph(4) {
        let shape = graph_of_number(4, graph);
        every_number_of_hops(&shape, of(person, 8));
        let asked = Asked::new(shape.bytes(), of(person, 8));
        asked.no_chain_comes_back();
        rings += asked.rings().len();
    }
    // Each of 3 rings of two hops stands in a quarter of the graphs, each of 6 of three in an eighth, each of 6 of four in a
    // sixteenth.
    assert_eq!(rings, 3 * 1024 + 6 * 512 + 6 * 256);
}

#[test]
fn rings_of_0_in_every_graph_of_four_persons() {
    graphs_of_four(0);
}

#[test]
fn rings_of_1_in_every_graph_of_four_persons() {
    graphs_of_four(1);
}

#[test]
fn rings_of_2_in_every_graph_of_four_persons() {
    graphs_of_four(2);
}

#[test]
fn rings_of_3_in_every_graph_of_four_persons() {
    graphs_of_four(3);
}

#[test]
fn rings_in_every_graph_of_two_and_three_persons() {
    for n in [2, 3] {
        for graph in 0..1 << links_of_graph(n) {
            rings_of_everybody(n, graph);
        }
    }
}

#[test]
fn rings_in_a_sample_of_the_graphs_of_five_persons() {
    let mut random = Random::of_test("rings_in_a_sample_of_the_graphs_of_five_persons");
    for _ in 0..rounds(60, 4_000) {
        rings_of_everybody(5, random.below(1 << 20) as u32);
        // Most numbers have about ten of the twenty links, and such graphs have few dead ends.
        let links = random.between(4, 8);
        let sparse = (0..links).fold(0, |graph, _| graph | 1 << random.below(20));
        rings_of_everybody(5, sparse);
    }
}

#[test]
fn rings_of_five_persons_with_all_links_but_at_most_one() {
    let all = (1 << links_of_graph(5)) - 1;
    every_number_of_hops(&graph_of_number(5, all), of(2, 8));
    for left_out in (0..links_of_graph(5)).step_by(rounds(7, 1)) {
        let shape = graph_of_number(5, all - (1 << left_out));
        every_number_of_hops(&shape, of(left_out % 5, 8));
    }
}

// Every bookmark.

/// All sequences of 1 to `longest` persons over `n` persons that begin at one of them.
fn beginning_at(person: u32, n: u32, longest: u32) -> Vec<Vec<u32>> {
    let mut all = vec![vec![person]];
    let mut first = 0;
    for _ in 1..longest {
        let end = all.len();
        for place in first..end {
            let longer = (0..n).map(|next| [&all[place][..], &[next]].concat());
            all.extend(longer.collect::<Vec<_>>());
        }
        first = end;
    }
    all
}

fn records(sequences: &[Vec<u32>]) -> Vec<[u32; 10]> {
    sequences.iter().map(|sequence| record(sequence)).collect()
}

/// Does the sequence go on to another person at every hop?
fn goes_on(sequence: &[u32]) -> bool {
    sequence.windows(2).all(|hop| hop[0] != hop[1])
}

/// In every graph of four, with every number of hops, the sequences of up to five persons that begin at the person and go
/// on at every hop; and with one of them a part of all others of up to six persons, and of those that begin at somebody else.
fn bookmarks_of_four(person: u32) {
    let mut random = Random::of_test(&format!("bookmarks of {person} in every graph of four"));
    let (in_every_graph, mut others): (Vec<_>, Vec<_>) = beginning_at(person, 4, 6)
        .into_iter()
        .partition(|sequence| sequence.len() < 6 && goes_on(sequence));
    others.extend(beginning_at((person + 1) % 4, 4, 5));
    let (in_every_graph, others) = (records(&in_every_graph), records(&others));
    let parts = rounds(32, 1);
    let mut rings = 0;
    for graph in 0..1 << links_of_graph(4) {
        let asked_more = random.between(1, 8) as u32;
        let file = graph_of_number(4, graph).bytes();
        for hops in 1..=8 {
            let asked = Asked::new(file.clone(), of(person, hops));
            let mut bookmarks = in_every_graph.clone();
            if hops == asked_more {
                bookmarks.extend(others.iter().skip(random.below(parts)).step_by(parts));
            }
            let taken = asked.one_ring_after_each(&bookmarks);
            assert_eq!(taken, asked.rings().len());
            rings += taken;
        }
    }
    // Of 3 * 1024 rings of two hops, 6 * 512 of three and 6 * 256 of four, each is taken with its own hops or more.
    assert_eq!(rings, 3 * 1024 * 7 + 6 * 512 * 6 + 6 * 256 * 5);
}

#[test]
fn bookmarks_of_0_in_every_graph_of_four_persons() {
    bookmarks_of_four(0);
}

#[test]
fn bookmarks_of_1_in_every_graph_of_four_persons() {
    bookmarks_of_four(1);
}

#[test]
fn bookmarks_of_2_in_every_graph_of_four_persons() {
    bookmarks_of_four(2);
}

#[test]
fn bookmarks_of_3_in_every_graph_of_four_persons() {
    bookmarks_of_four(3);
}

#[test]
fn bookmarks_in_every_graph_of_two_and_three_persons() {
    for n in [2, 3] {
        for person in 0..n {
            let mut bookmarks = records(&beginning_at(person, n, 5));
            bookmarks.extend(records(&beginning_at((person + 1) % n, n, 3)));
            for graph in 0..1 << links_of_graph(n) {
                for hops in 1..=8 {
                    let file = graph_of_number(n, graph).bytes();
                    let asked = Asked::new(file, of(person, hops));
                    let taken = asked.one_ring_after_each(&bookmarks);
                    assert_eq!(taken, asked.rings().len());
                }
            }
        }
    }
}

// Links undated and dated, classes, meanings and windows.

/// Undated links admitted, and left out.
const BOTH: [u32; 2] = [1, 0];

/// Calls with every graph of three persons whose links are missing, undated or dated.
fn for_each_dated_graph_of_three(mut each: impl FnMut(&LinkFile)) {
    for graph in 0..1 << links_of_graph(3) {
        for dates in 0..1 << u32::count_ones(graph) {
            each(&graph_of_number(3, graph).dated(|link| 9 * (dates >> link & 1)));
        }
    }
}

#[test]
fn rings_in_every_graph_of_three_persons_with_links_undated_and_dated() {
    let mut graphs = 0;
    for_each_dated_graph_of_three(|shape| {
        graphs += 1;
        for person in 0..3 {
            for undated in BOTH {
                every_number_of_hops(
                    shape,
                    Question {
                        undated,
                        ..of(person, 8)
                    },
                );
            }
        }
    });
    assert_eq!(graphs, 3_usize.pow(6));
}

/// A ring over an undated link is none where undated links are left out.
#[test]
fn bookmarks_in_every_graph_of_three_persons_with_links_undated_and_dated() {
    let bookmarks = [0, 1, 2].map(|person| records(&beginning_at(person, 3, 4)));
    for_each_dated_graph_of_three(|shape| {
        for person in 0..3 {
            for undated in BOTH {
                let question = Question {
                    undated,
                    ..of(person, 3)
                };
                let asked = Asked::new(shape.bytes(), question);
                let taken = asked.one_ring_after_each(&bookmarks[person as usize]);
                assert_eq!(taken, asked.rings().len());
            }
        }
    });
}

#[test]
fn rings_of_four_persons_all_linked_with_links_undated_and_dated() {
    // All are linked with all, so that but for the persons' numbers one of them stands for every other.
    let links = links_of_graph(4);
    for dates in 0..1 << links {
        let shape = graph_of_number(4, (1 << links) - 1).dated(|link| 9 * (dates >> link & 1));
        for undated in BOTH {
            let question = of(dates % 4, 2 + dates % 7);
            Asked::new(
                shape.bytes(),
                Question {
                    undated,
                    ..question
                },
            )
            .rings_once();
        }
    }
}

#[test]
fn rings_of_four_and_five_persons_with_classes_meanings_and_windows() {
    let mut random = Random::of_test("rings_of_four_and_five_persons_with_classes_meanings");
    let mut longest = 0;
    for _ in 0..rounds(6_000, 200_000) {
        let shape = files::random_file(&mut random, 5);
        if shape.persons() >= 4 {
            let question = random_question(&mut random, shape.persons());
            let asked = Asked::new(shape.bytes(), question).back_to_from();
            longest = longest.max(asked.rings().len());
            asked.everything_of_rings();
        }
    }
    assert!(longest > 5, "{longest}");
}
