//! The held listing: a place in a listing, kept between calls.

use crate::answer::listed;
use crate::{outside, Chain, Listed, Question, Refused, RECORD_CELLS};

/// The cells of a held listing: the eight numbers of its question, started, the record of the last chain.
pub const HELD_CELLS: usize = 19;

/// The cells of a held listing put away before version 2, when a question did not say whether undated links count.
pub const STORED_HELD_CELLS: usize = 18;

const UNDATED: usize = 7;
const STARTED: usize = UNDATED + 1;
const RECORD: usize = HELD_CELLS - RECORD_CELLS;

/// A question and how far its listing of chains has come. Each call moves it on by a portion. Who lists rings keeps the
/// question and the last ring, and goes on by [`Rings::onward`](crate::Rings::onward).
///
/// ```
/// use kin::{HeldListing, Listed, Question};
///
/// let file = std::fs::read("../../examples/six_persons.klf")?;
/// let mut held = HeldListing::new(Question::between(0, 5, 4));
/// let mut output = [0; 20];
/// assert_eq!(held.move_on(&file, &mut output)?, Listed { count: 2, ended: false });
/// assert_eq!(held.last().unwrap().persons(), [0, 2, 1, 3, 5]);
///
/// // Put away and taken up again.
/// let mut held = HeldListing::from_cells(*held.cells());
/// assert_eq!(held.move_on(&file, &mut output)?, Listed { count: 1, ended: true });
/// # Ok::<(), Box<dyn std::error::Error>>(())
/// ```
#[derive(Clone, Copy, Debug, PartialEq, Eq, Hash)]
pub struct HeldListing {
    cells: [u32; HELD_CELLS],
}

impl HeldListing {
    /// A listing not yet started.
    pub fn new(question: Question) -> HeldListing {
        let mut cells = [0; HELD_CELLS];
        cells[..STARTED].copy_from_slice(&question.numbers());
        HeldListing { cells }
    }

    /// A listing that has come as far as this chain.
    pub fn after(question: Question, chain: &Chain) -> HeldListing {
        let mut held = HeldListing::new(question);
        held.cells[STARTED] = 1;
        held.cells[RECORD..].copy_from_slice(chain.record());
        held
    }

    /// Takes up a held listing from its cells. Any numbers are taken; the library refuses those that make no sense.
    pub fn from_cells(cells: [u32; HELD_CELLS]) -> HeldListing {
        HeldListing { cells }
    }

    /// Takes up a held listing that was put away before version 2. It goes on where it was, over undated links too, as it did;
    /// put away again, it has the cells of today.
    ///
    /// ```
    /// use kin::{HeldListing, Listed};
    ///
    /// let file = std::fs::read("../../examples/six_persons.klf")?;
    /// let stored = [0, 5, 4, 15, 1, 1, 3_652_059, 1, 4, 0, 2, 1, 3, 5, 0, 0, 0, 0];
    /// let mut held = HeldListing::from_stored_cells(stored);
    /// assert_eq!(held.last().unwrap().persons(), [0, 2, 1, 3, 5]);
    /// assert_eq!(held.move_on(&file, &mut [0; 20])?, Listed { count: 1, ended: true });
    /// # Ok::<(), Box<dyn std::error::Error>>(())
    /// ```
    pub fn from_stored_cells(stored: [u32; STORED_HELD_CELLS]) -> HeldListing {
        let mut cells = [0; HELD_CELLS];
        let (asked, started_and_record) = stored.split_at(UNDATED);
        cells[..UNDATED].copy_from_slice(asked);
        cells[UNDATED] = 1;
        cells[STARTED..].copy_from_slice(started_and_record);
        HeldListing { cells }
    }

    /// The cells, to be put away.
    pub fn cells(&self) -> &[u32; HELD_CELLS] {
        &self.cells
    }

    /// The question, which no call changes; nothing if its cells hold neither 1 nor 0 where they say whether undated links
    /// count, which the library refuses (20).
    pub fn question(&self) -> Option<Question> {
        Question::from_numbers(std::array::from_fn(|place| self.cells[place]))
    }

    /// The last chain handed over; nothing if the listing isn't started, or if its cells hold no record.
    pub fn last(&self) -> Option<Chain> {
        if self.cells[STARTED] == 0 {
            return None;
        }
        Chain::from_record(&self.cells[RECORD..])
    }

    /// Writes the next chains to the output and keeps the last of them. Refusals and answer are those of
    /// [`portion`](crate::portion), and 20 where there is no [`question`](HeldListing::question); a refusal, and a portion
    /// without chains, changes nothing here.
    pub fn move_on(&mut self, file: &[u8], output: &mut [u32]) -> Result<Listed, Refused> {
        listed(outside::held(&mut self.cells, file, output))
    }
}
