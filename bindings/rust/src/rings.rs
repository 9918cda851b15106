//! All rings of a person, one after another.

use std::iter::FusedIterator;

use crate::one_by_one::{OneByOne, Portions, ROOM};
use crate::{ring_portion, Listed, Question, Refused, Ring, Start, RECORD_CELLS};

/// All rings of the question's person, in dictionary order.
///
/// ```
/// use kin::Question;
///
/// let file = std::fs::read("../../examples/six_persons.klf")?;
/// let mut lines = Vec::new();
/// for ring in kin::rings(&file, Question::back_to(2, 4)) {
///     lines.push(ring?.to_string());
/// }
/// assert_eq!(lines, ["3: 2 1 3 2", "2: 2 3 2", "4: 2 3 5 0 2"]);
///
/// // A question between two persons has no rings. A refusal is the first and only item.
/// let mut refused = kin::rings(&file, Question::between(0, 5, 4));
/// assert_eq!(refused.next().unwrap().unwrap_err().number, 21);
/// assert!(refused.next().is_none());
/// # Ok::<(), Box<dyn std::error::Error>>(())
/// ```
pub fn rings(file: &[u8], question: Question) -> Rings<'_> {
    Rings::onward(file, question, Start::Fresh, ROOM)
}

/// Goes through rings portion by portion, each after the last ring of the one before. Made by [`rings`] or
/// [`Rings::onward`].
#[derive(Clone, Debug)]
pub struct Rings<'f>(OneByOne<Resumed<'f>>);

impl<'f> Rings<'f> {
    /// The rings still to come, fetched so many a portion. The room shows in the time it takes and in nothing else, but that
    /// a room of 0 is refused (16).
    ///
    /// ```
    /// use kin::{Question, Ring, Rings, Start};
    ///
    /// let file = std::fs::read("../../examples/six_persons.klf")?;
    /// let question = Question::back_to(2, 4);
    /// let kept: Ring = kin::rings(&file, question).next().unwrap()?;
    /// let rest: Result<Vec<Ring>, _> = Rings::onward(&file, question, Start::After(kept.record()), 1).collect();
    /// assert_eq!(rest?.len(), 2);
    /// # Ok::<(), Box<dyn std::error::Error>>(())
    /// ```
    pub fn onward(file: &'f [u8], question: Question, start: Start<'_>, room: u16) -> Rings<'f> {
        let bookmark = match start {
            Start::Fresh => None,
            Start::After(bookmark) => Some(bookmark.to_vec()),
        };
        let resumed = Resumed {
            file,
            question,
            bookmark,
        };
        Rings(OneByOne::new(resumed, room))
    }
}

/// A question, and the bookmark after which its next portion starts; none before the first.
#[derive(Clone, Debug)]
struct Resumed<'f> {
    file: &'f [u8],
    question: Question,
    bookmark: Option<Vec<u32>>,
}

impl Portions for Resumed<'_> {
    fn next_portion(&mut self, output: &mut [u32]) -> Result<Listed, Refused> {
        let start = self.bookmark.as_deref().map_or(Start::Fresh, Start::After);
        let listed = ring_portion(self.file, self.question, start, output)?;
        let mut written = output.chunks_exact(RECORD_CELLS).take(listed.count);
        if let Some(last) = written.next_back() {
            self.bookmark = Some(last.to_vec());
        }
        Ok(listed)
    }
}

impl Iterator for Rings<'_> {
    type Item = Result<Ring, Refused>;

    fn next(&mut self) -> Option<Self::Item> {
        self.0.next()
    }
}

impl FusedIterator for Rings<'_> {}
