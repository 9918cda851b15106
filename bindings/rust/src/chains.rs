//! All chains, one after another.

use std::iter::FusedIterator;

use crate::one_by_one::{OneByOne, Portions, ROOM};
use crate::{Chain, HeldListing, Listed, Question, Refused};

/// All chains of a question, in dictionary order.
///
/// ```
/// let file = std::fs::read("../../examples/six_persons.klf")?;
/// let all: Result<Vec<kin::Chain>, kin::Refused> = kin::chains(&file, kin::Question::between(0, 5, 4)).collect();
/// assert_eq!(all?.len(), 3);
///
/// // A refusal is the first and only item.
/// let mut refused = kin::chains(&file, kin::Question::between(0, 6, 4));
/// assert_eq!(refused.next().unwrap().unwrap_err().to_string(), "refused 10 at 1: A person asked about is not in the file.");
/// assert!(refused.next().is_none());
/// # Ok::<(), Box<dyn std::error::Error>>(())
/// ```
pub fn chains(file: &[u8], question: Question) -> Chains<'_> {
    Chains::onward(file, HeldListing::new(question), ROOM)
}

/// Goes through chains by moving a held listing on, portion by portion. Made by [`chains`] or [`Chains::onward`].
#[derive(Clone, Debug)]
pub struct Chains<'f>(OneByOne<MovedOn<'f>>);

impl<'f> Chains<'f> {
    /// The chains still to come of a held listing, fetched so many a portion. The room shows in the time it takes and in
    /// nothing else, but that a room of 0 is refused (16).
    ///
    /// ```
    /// use kin::{Chain, Chains, HeldListing, Question};
    ///
    /// let file = std::fs::read("../../examples/six_persons.klf")?;
    /// let question = Question::between(0, 5, 4);
    /// let bookmark = Chain::from_record(&[3, 0, 1, 3, 5, 0, 0, 0, 0, 0]).unwrap();
    /// let held = HeldListing::after(question, &bookmark);
    /// assert_eq!(Chains::onward(&file, held, 1).count(), 2);
    /// # Ok::<(), std::io::Error>(())
    /// ```
    pub fn onward(file: &'f [u8], held: HeldListing, room: u16) -> Chains<'f> {
        Chains(OneByOne::new(MovedOn { file, held }, room))
    }
}

/// A held listing that is moved on over its file.
#[derive(Clone, Debug)]
struct MovedOn<'f> {
    file: &'f [u8],
    held: HeldListing,
}

impl Portions for MovedOn<'_> {
    fn next_portion(&mut self, output: &mut [u32]) -> Result<Listed, Refused> {
        self.held.move_on(self.file, output)
    }
}

impl Iterator for Chains<'_> {
    type Item = Result<Chain, Refused>;

    fn next(&mut self) -> Option<Self::Item> {
        self.0.next()
    }
}

impl FusedIterator for Chains<'_> {}
