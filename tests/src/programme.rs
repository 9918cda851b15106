//! Everything there is to ask of one question, for graphs small enough that it can be asked.

use crate::asked::Asked;
use crate::checker::refused;
use crate::lister::{listed, record};

impl Asked {
    /// The whole programme of a question that passes, over `n` persons.
    pub fn everything(&self, n: u32) {
        self.fresh_with_every_room();
        self.resumed_at_every_chain();
        self.to_the_end_with_every_room(self.fresh());
        self.stored_before_chain_by_chain();
        self.joined_with_just_enough();
        self.fewest_of_everybody(n);
        self.no_ring_between_two();
    }

    /// The whole listing, once by each route, and everybody's fewest hops.
    pub fn once_by_each_route(&self, n: u32) {
        let cells = 10 * self.chains().len() + 15;
        let _ = self.portion(0, &[], cells);
        self.moved_in_each_form(0, &[9; 10], cells);
        let _ = self.join(self.enough(), cells);
        self.fewest_of_everybody(n);
    }

    /// The whole programme of the rings of one person, for a question that has that person at both ends.
    pub fn everything_of_rings(&self) {
        self.rings_fresh_with_every_room();
        self.rings_resumed_at_every_ring();
    }

    /// All rings at once, and all that are left after each, with cells to spare that are no room.
    pub fn rings_once(&self) {
        let cells = 10 * self.rings().len() + 15;
        let _ = self.ring_portion(0, &[], cells);
        for ring in self.rings() {
            let _ = self.ring_portion(1, &record(ring), cells);
        }
    }

    /// Rooms from 1 to one more than there are chains, with cells to spare that are no room.
    pub fn fresh_with_every_room(&self) {
        for room in 1..=self.chains().len() + 1 {
            let _ = self.portion(0, &[], 10 * room + room % 10);
        }
    }

    pub fn rings_fresh_with_every_room(&self) {
        for room in 1..=self.rings().len() + 1 {
            let _ = self.ring_portion(0, &[], 10 * room + room % 10);
        }
    }

    /// After each chain, with rooms from 1 to one more than there are chains left.
    pub fn resumed_at_every_chain(&self) {
        let count = self.chains().len();
        for (place, chain) in self.chains().iter().enumerate() {
            for room in 1..=count - place {
                let _ = self.portion(1, &record(chain), 10 * room);
            }
        }
    }

    /// After each ring, with rooms from 1 to one more than there are rings left.
    pub fn rings_resumed_at_every_ring(&self) {
        let count = self.rings().len();
        for (place, ring) in self.rings().iter().enumerate() {
            for room in 1..=count - place {
                let _ = self.ring_portion(1, &record(ring), 10 * room);
            }
        }
    }

    /// Rings are asked of one person: a question from one to another gets 21.
    pub fn no_ring_between_two(&self) {
        assert_eq!(self.ring_portion(0, &[], 30).0, refused(21, 0));
    }

    /// Chains are asked of two: a question from a person to the same one gets 11 from every operation but rings.
    pub fn no_chain_comes_back(&self) {
        assert_eq!(self.portion(0, &[], 30).0, refused(11, 0));
        assert_eq!(self.moved(&mut self.fresh(), 30).0, refused(11, 0));
        assert_eq!(self.join(30, 30).0, refused(11, 0));
        assert_eq!(self.fewest(self.question.from), refused(11, 0));
    }

    /// At its end a held listing stays, whichever way it came there.
    pub fn to_the_end_with_every_room<const FORM: usize>(&self, fresh: [u32; FORM]) {
        let count = self.chains().len();
        for room in 1..=count + 1 {
            let end = self.moved_to_the_end(fresh, &vec![room; count]);
            let mut again = end;
            assert_eq!(self.moved(&mut again, 10).0, listed(0, true));
            assert_eq!(again, end);
        }
    }

    /// Only a question that admits undated links can have been stored before.
    pub fn stored_before_chain_by_chain(&self) {
        if self.question.undated == 1 {
            let _ = self.moved_to_the_end(self.fresh_stored(), &[]);
        }
    }

    /// Working cells around what is enough, and rooms around the count of chains.
    pub fn joined_around_the_bounds(&self) {
        let (enough, all) = (self.enough(), 10 * self.chains().len());
        for cells in [10, 20, 29, all, all + 9, all + 10, all + 25] {
            for working in [enough, enough + 1, enough + 9, enough + 10, enough + 35] {
                let answer = self.join(working, cells).0;
                assert_eq!(answer.is_ok(), cells >= 10);
            }
            for working in [0, 9, enough / 2, enough - 10, enough - 9, enough - 1] {
                let number = if cells < 10 { 16 } else { 18 };
                self.refuses_to_join(working, cells, number, 0);
            }
        }
    }

    /// Working cells exactly enough for the half chains, and one cell fewer; room for one chain and for more than all.
    pub fn joined_with_just_enough(&self) {
        let (enough, count) = (self.enough(), self.chains().len());
        let (answer, _, _) = self.join(enough, 10 * count + 10);
        assert_eq!(answer, listed(count as u64, true));
        if count > 1 {
            assert_eq!(self.join(enough, 10).0, listed(1, false));
        }
        self.refuses_to_join(enough - 1, 10 * count + 10, 18, 0);
    }

    pub fn fewest_of_everybody(&self, n: u32) {
        for person in 0..n {
            let _ = self.fewest(person);
        }
    }
}
