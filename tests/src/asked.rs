//! A file and a question with what the independent lister says of them, asked of the library again and again: whatever
//! is asked, answer and lent cells have to be the lister's.

use crate::checker::{self, refused, Refusal};
use crate::files;
use crate::lent::{untouched, Lent};
use crate::lister::{
    self, half_chains, held_of, listed, listing, listing_by_hops, moved_on, question_held, record,
    stored_of, Chain, Held, Listed, Question, Stored,
};
use crate::outside::{Bookmarked, Library, USUAL};
use crate::questions::random_question;
use crate::random::Random;
use crate::ring_lister::{self, Ring};
use std::cell::OnceCell;

pub type Answer = Result<Listed, Refusal>;

/// An answer, the working cells and the output cells of a join.
pub type Joined = (Answer, Vec<u32>, Vec<u32>);

/// Chains or rings, or why there are none.
type Chains = Result<Vec<Chain>, Refusal>;

/// Asks for a portion of the chains, or of the rings: `Asked::portion`, or `Asked::ring_portion`.
type Portion = fn(&Asked, u32, &[u32], usize) -> (Answer, Vec<u32>);

pub struct Asked {
    pub file: Vec<u8>,
    pub question: Question,
    library: Library,
    listing: OnceCell<Chains>,
    by_hops: OnceCell<Chains>,
    halves: OnceCell<Chains>,
    rings: OnceCell<Chains>,
}

impl Asked {
    pub fn new(file: Vec<u8>, question: Question) -> Asked {
        Asked {
            file,
            question,
            library: USUAL,
            listing: OnceCell::new(),
            by_hops: OnceCell::new(),
            halves: OnceCell::new(),
            rings: OnceCell::new(),
        }
    }

    pub fn six_persons(question: Question) -> Asked {
        Asked::new(files::six_persons().bytes(), question)
    }

    /// A random question that passes, over a random file of two persons or more.
    pub fn random(random: &mut Random, most_persons: usize) -> Asked {
        loop {
            let file = files::random_file(random, most_persons);
            if file.persons() > 1 {
                let question = random_question(random, file.persons());
                return Asked::new(file.bytes(), question);
            }
        }
    }

    /// Asked with lent memory of another sort.
    pub fn of(self, library: Library) -> Asked {
        Asked { library, ..self }
    }

    /// Held against these chains in the join, where the whole listing is too long to be written down.
    pub fn with_first_by_hops(self, chains: Vec<Chain>) -> Asked {
        let by_hops = OnceCell::from(Ok(chains));
        Asked { by_hops, ..self }
    }

    // What is right.

    pub fn listing(&self) -> &Chains {
        self.listing
            .get_or_init(|| listing(&self.file, &self.question))
    }

    fn by_hops(&self) -> &Chains {
        self.by_hops
            .get_or_init(|| listing_by_hops(&self.file, &self.question))
    }

    fn halves(&self) -> &Chains {
        self.halves
            .get_or_init(|| half_chains(&self.file, &self.question))
    }

    pub fn passes(&self) -> bool {
        self.listing().is_ok()
    }

    /// The chains in dictionary order.
    pub fn chains(&self) -> &[Chain] {
        self.listing().as_ref().expect("the question passes")
    }

    /// The chains shortest first.
    pub fn chains_by_hops(&self) -> &[Chain] {
        self.by_hops().as_ref().expect("the question passes")
    }

    /// How many working cells are just enough for the half chains.
    pub fn enough(&self) -> usize {
        10 * self.halves().as_ref().expect("the question passes").len()
    }

    /// The rings of From, or the refusal: of 21 too, where To is another.
    pub fn ring_listing(&self) -> &Chains {
        self.rings
            .get_or_init(|| ring_lister::rings(&self.file, &self.question))
    }

    /// The rings in dictionary order.
    pub fn rings(&self) -> &[Ring] {
        self.ring_listing().as_ref().expect("the question passes")
    }

    /// The same file and question asked for From alone: To is From.
    pub fn back_to_from(&self) -> Asked {
        let question = Question {
            to: self.question.from,
            ..self.question
        };
        Asked::new(self.file.clone(), question).of(self.library)
    }

    // Asking.

    pub fn check(&self) -> checker::Verdict {
        let told = self.library.check(&self.file);
        let right = checker::verdict(&self.file);
        assert!(
            told == right,
            "told {told:?}, right {right:?} of {:?}",
            self.file
        );
        told
    }

    pub fn row(&self, person: u32) {
        let told = self.library.row(&self.file, person);
        let right = checker::row_view(&self.file, person).len() as u64;
        assert!(
            told == right,
            "row of {person}: told {told}, right {right} of {:?}",
            self.file
        );
    }

    pub fn fewest(&self, person: u32) -> Result<u64, Refusal> {
        let told = self.library.fewest(&self.file, &self.question, person);
        let right = lister::fewest(&self.file, &self.question, person).map(u64::from);
        assert!(
            told == right,
            "{:?}, person {person}: told {told:?}, right {right:?} of {:?}",
            self.question,
            self.file
        );
        told
    }

    /// Asks for a portion; gives the answer and the output cells, which are the lister's.
    pub fn portion(&self, started: u32, bookmark: &[u32], cells: usize) -> (Answer, Vec<u32>) {
        let mut out = untouched(cells);
        let mut right_out = out.clone();
        let told = self
            .library
            .portion(&self.file, &self.question, started, bookmark, &mut out);
        let right = lister::portion(self.listing(), started, bookmark, &mut right_out);
        assert!(
            told == right && out == right_out,
            "{:?}, started {started}, bookmark {bookmark:?}, {cells} cells of {:?}:\ntold {told:?} {out:?}\nright {right:?} {right_out:?}",
            self.question,
            self.file
        );
        (told, out)
    }

    /// Asks for a portion of the rings; gives the answer and the output cells, which are the lister's.
    pub fn ring_portion(&self, started: u32, bookmark: &[u32], cells: usize) -> (Answer, Vec<u32>) {
        let mut out = untouched(cells);
        let mut right_out = out.clone();
        let told = self
            .library
            .rings(&self.file, &self.question, started, bookmark, &mut out);
        let right = lister::portion(self.ring_listing(), started, bookmark, &mut right_out);
        assert!(
            told == right && out == right_out,
            "rings, {:?}, started {started}, bookmark {bookmark:?}, {cells} cells of {:?}:\ntold {told:?} {out:?}\nright {right:?} {right_out:?}",
            self.question,
            self.file
        );
        (told, out)
    }

    /// Asks for one ring after each of these bookmarks; gives how many were rings. Answers and cells are the lister's.
    pub fn one_ring_after_each(&self, bookmarks: &[[u32; 10]]) -> usize {
        let mut lent = Bookmarked::new(&self.file);
        let came: [u32; 10] = untouched(10).try_into().expect("ten cells");
        let mut rings = 0;
        for bookmark in bookmarks {
            let (mut out, mut right_out) = (came, came);
            let told = lent.ring_after(&self.question, bookmark, &mut out);
            let right = lister::portion(self.ring_listing(), 1, bookmark, &mut right_out);
            assert!(
                told == right && out == right_out,
                "rings, {:?}, bookmark {bookmark:?} of {:?}:\ntold {told:?} {out:?}\nright {right:?} {right_out:?}",
                self.question,
                self.file
            );
            rings += usize::from(told.is_ok());
        }
        rings
    }

    /// Asks for rings with the question as it is, and with From at both ends.
    pub fn rings_as_asked_and_closed(&self, started: u32, bookmark: &[u32], cells: usize) {
        let _ = self.ring_portion(started, bookmark, cells);
        let _ = self.back_to_from().ring_portion(started, bookmark, cells);
    }

    /// The question, held.
    pub fn held(&self, started: u32, record: &[u32; 10]) -> Held {
        held_of(&self.question, started, record)
    }

    /// The question, held as it was before it could leave undated links out.
    pub fn stored(&self, started: u32, record: &[u32; 10]) -> Stored {
        stored_of(&self.question, started, record)
    }

    /// The question held and not yet started, with garbage in its record.
    pub fn fresh(&self) -> Held {
        self.held(0, &garbage())
    }

    /// The same, stored before.
    pub fn fresh_stored(&self) -> Stored {
        self.stored(0, &garbage())
    }

    /// Moves the question on in each form that can hold it: one stored before admits undated links.
    pub fn moved_in_each_form(&self, started: u32, record: &[u32; 10], cells: usize) {
        let mut held = self.held(started, record);
        if self.question.undated == 1 {
            let mut stored = self.stored(started, record);
            let _ = self.moved_side_by_side(&mut held, &mut stored, cells);
        } else {
            let _ = self.moved(&mut held, cells);
        }
    }

    /// Moves on a held listing and the same one stored before: both are told the same, and all cells they share are the
    /// same afterwards.
    pub fn moved_side_by_side(&self, held: &mut Held, stored: &mut Stored, cells: usize) -> Answer {
        let told = self.moved(held, cells);
        assert_eq!(self.moved(stored, cells), told, "{held:?} {stored:?}");
        assert_eq!(
            (&held[..7], held[7], &held[8..]),
            (&stored[..7], 1, &stored[7..])
        );
        told.0
    }

    /// Moves a held listing of the question on; gives answer and output, which are the lister's, as its cells are.
    pub fn moved(&self, held: &mut [u32], cells: usize) -> (Answer, Vec<u32>) {
        let came = held.to_vec();
        let mut out = untouched(cells);
        let told = self.library.held(held, &self.file, &mut out);
        self.moved_as_it_has_to_be(&came, held, told, &out);
        (told, out)
    }

    /// The same, in the memory where the held listing lies.
    pub fn moved_in_place(&self, lent: &mut Lent<u32>, cells: usize) -> (Answer, Vec<u32>) {
        let came = lent.contents().to_vec();
        let mut out = untouched(cells);
        let told = self.library.held_in_place(lent, &self.file, &mut out);
        self.moved_as_it_has_to_be(&came, lent.contents(), told, &out);
        (told, out)
    }

    fn moved_as_it_has_to_be(&self, came: &[u32], held: &[u32], told: Answer, out: &[u32]) {
        assert_eq!(question_held(came), self.question, "another's listing");
        let mut right_held = came.to_vec();
        let mut right_out = untouched(out.len());
        let right = moved_on(self.listing(), &mut right_held, &mut right_out);
        assert!(
            told == right && held == right_held && out == right_out,
            "held {came:?}, {} cells, of {:?}:\ntold {told:?} {held:?} {out:?}\nright {right:?} {right_held:?} {right_out:?}",
            out.len(),
            self.file
        );
    }

    /// Lists by joining half chains; gives answer and all cells, which are the lister's.
    pub fn join(&self, working_cells: usize, cells: usize) -> Joined {
        let (mut working, mut out) = (untouched(working_cells), untouched(cells));
        let (mut right_working, mut right_out) = (working.clone(), out.clone());
        let told = self
            .library
            .join(&self.file, &self.question, &mut working, &mut out);
        let right = lister::join(
            self.by_hops(),
            self.halves(),
            &mut right_working,
            &mut right_out,
        );
        assert!(
            told == right && working == right_working && out == right_out,
            "{:?}, {working_cells} working cells, {cells} cells of {:?}:\ntold {told:?} {working:?} {out:?}\nright {right:?} {right_working:?} {right_out:?}",
            self.question,
            self.file
        );
        (told, working, out)
    }

    // Refusals.

    /// A call to move on that is refused, and leaves all cells as they came.
    pub fn refuses_to_move<const FORM: usize>(
        &self,
        held: [u32; FORM],
        cells: usize,
        number: u32,
        place: u32,
    ) {
        let mut asked = held;
        let (answer, out) = self.moved(&mut asked, cells);
        assert_eq!((answer, out), (refused(number, place), untouched(cells)));
        assert_eq!(asked, held);
    }

    /// A join that is refused, and leaves all cells as they came.
    pub fn refuses_to_join(&self, working: usize, cells: usize, number: u32, place: u32) {
        let told = self.join(working, cells);
        assert_eq!(told, as_they_came(number, place, working, cells));
    }

    // Asking for a whole listing.

    /// Hands over the whole listing by portions with these rooms, then with room 1 again and again.
    pub fn by_rooms(&self, rooms: &[usize]) {
        self.handed_over(Asked::portion, self.chains(), rooms);
    }

    /// The same with all rings.
    pub fn rings_by_rooms(&self, rooms: &[usize]) {
        self.handed_over(Asked::ring_portion, self.rings(), rooms);
    }

    fn handed_over(&self, portion: Portion, all: &[Chain], rooms: &[usize]) {
        let mut handed_over: Vec<u32> = vec![];
        let mut rooms = rooms.iter().copied().chain(std::iter::repeat(1));
        loop {
            let cells = 10 * rooms.next().expect("rooms never end");
            let (answer, out) = match handed_over.len() {
                0 => portion(self, 0, &[], cells),
                end => portion(self, 1, &handed_over[end - 10..], cells),
            };
            let listed = answer.expect("neither file nor question is refused");
            handed_over.extend(&out[..10 * listed.count as usize]);
            if listed.ended {
                break;
            }
        }
        assert_eq!(handed_over, records(all), "{:?}", self.question);
    }

    /// Moves through the whole listing with these rooms, then goes on past the end.
    pub fn moved_through<const FORM: usize>(&self, held: [u32; FORM], rooms: &[usize]) {
        self.stays_at_its_end(self.moved_to_the_end(held, rooms));
    }

    /// Moves through the whole listing with these rooms, then with room 1 again and again, each call from a copy of
    /// what the call before it left; gives the held listing at its end.
    pub fn moved_to_the_end<const FORM: usize>(
        &self,
        held: [u32; FORM],
        rooms: &[usize],
    ) -> [u32; FORM] {
        let mut held = held;
        let mut rooms = rooms.iter().copied().chain(std::iter::repeat(1));
        let mut handed_over = vec![];
        loop {
            let mut copy = held;
            let room = rooms.next().expect("rooms never end");
            let (answer, out) = self.moved(&mut copy, 10 * room);
            let answer = answer.expect("neither file nor question is refused");
            handed_over.extend_from_slice(&out[..10 * answer.count as usize]);
            held = copy;
            if answer.ended {
                break;
            }
        }
        assert_eq!(handed_over, records(self.chains()), "{:?}", self.question);
        held
    }

    /// A held listing at its end answers 0 chains, ended, and does not change, however often it is asked.
    pub fn stays_at_its_end<const FORM: usize>(&self, held: [u32; FORM]) {
        let mut asked = held;
        for cells in [10, 29, 30, 400, 10] {
            let (answer, out) = self.moved(&mut asked, cells);
            assert_eq!((answer, out), (listed(0, true), untouched(cells)));
            assert_eq!(asked, held);
        }
    }
}

/// A join that is refused with all cells as they came.
pub fn as_they_came(number: u32, place: u32, working: usize, cells: usize) -> Joined {
    (refused(number, place), untouched(working), untouched(cells))
}

/// What stands in a record that nobody looks at.
fn garbage() -> [u32; 10] {
    untouched(10).try_into().expect("ten cells")
}

/// The records of the chains, one behind the other.
pub fn records(chains: &[Chain]) -> Vec<u32> {
    chains.iter().flat_map(|chain| record(chain)).collect()
}

/// The records of the chains, then cells as they came.
pub fn cells_of(chains: &[&[u32]], cells: usize) -> Vec<u32> {
    let mut out = untouched(cells);
    for (i, chain) in chains.iter().enumerate() {
        out[10 * i..10 * i + 10].copy_from_slice(&record(chain));
    }
    out
}
