//! The operations that take a file and a question and keep nothing.

use crate::answer::{counts, listed, not_refused};
use crate::{outside, Counts, Listed, Question, Refused};

/// Where a portion begins.
#[derive(Clone, Copy, Debug, PartialEq, Eq, Hash)]
pub enum Start<'b> {
    /// With the first chain, or ring, of the listing.
    Fresh,
    /// After this bookmark, the ten cells of a record. Anything that is no record of a chain, or ring, of the listing is
    /// refused (17).
    After(&'b [u32]),
}

impl<'b> Start<'b> {
    /// The started mark and the bookmark, which isn't looked at on a fresh start.
    fn numbers(self) -> (u32, &'b [u32]) {
        match self {
            Start::Fresh => (0, &[]),
            Start::After(bookmark) => (1, bookmark),
        }
    }
}

/// Checks a file: its counts, or the first fault (refusals 1 to 9).
///
/// ```
/// let file = std::fs::read("../../examples/six_persons.klf")?;
/// assert_eq!(kin::check(&file)?.persons, 6);
/// assert_eq!(kin::check(&file[..187]).unwrap_err().number, 3);
/// # Ok::<(), Box<dyn std::error::Error>>(())
/// ```
pub fn check(file: &[u8]) -> Result<Counts, Refused> {
    counts(outside::check(file))
}

/// The fewest hops from a person to the question's To over links that the question admits; `None` if it takes more than the
/// question's hops. To itself is at 0. Refusals 1 to 15; 10 at place 2 says that the person isn't in the file.
///
/// ```
/// let file = std::fs::read("../../examples/six_persons.klf")?;
/// let question = kin::Question::between(0, 5, 2);
/// assert_eq!(kin::fewest_hops(&file, question, 5)?, Some(0));
/// assert_eq!(kin::fewest_hops(&file, question, 1)?, Some(2));
/// assert_eq!(kin::fewest_hops(&file, question, 0)?, None);
/// # Ok::<(), Box<dyn std::error::Error>>(())
/// ```
pub fn fewest_hops(file: &[u8], question: Question, person: u32) -> Result<Option<u32>, Refused> {
    // One more than the question's hops is the library's word for none.
    let fewest = not_refused(outside::fewest(file, question, person))? as u32;
    Ok((fewest <= question.hops).then_some(fewest))
}

/// Writes the next chains to the output, in dictionary order, as many as it has room for, ten cells a chain. Refusals 1 to 17.
///
/// ```
/// use kin::{Listed, Question, Start};
///
/// let file = std::fs::read("../../examples/six_persons.klf")?;
/// let bookmark = [4, 0, 2, 1, 3, 5, 0, 0, 0, 0];
/// let mut output = [0; 20];
/// let listed = kin::portion(&file, Question::between(0, 5, 4), Start::After(&bookmark), &mut output)?;
/// assert_eq!(listed, Listed { count: 1, ended: true });
/// assert_eq!(output[..5], [3, 0, 2, 3, 5]);
/// # Ok::<(), Box<dyn std::error::Error>>(())
/// ```
pub fn portion(
    file: &[u8],
    question: Question,
    start: Start<'_>,
    output: &mut [u32],
) -> Result<Listed, Refused> {
    let (started, bookmark) = start.numbers();
    listed(outside::portion(file, question, started, bookmark, output))
}

/// Writes the next rings of the question's person to the output, in dictionary order, as many as it has room for, ten cells
/// a ring. Refusals 1 to 10, 12 to 17, and 21 if the question names two persons.
///
/// A ring is 2 to the question's hops over links that it admits, from the person back to that person, all others different
/// from it and from each other. Both directions round are two rings. In one hop there is none.
///
/// ```
/// use kin::{Listed, Question, Start};
///
/// let file = std::fs::read("../../examples/six_persons.klf")?;
/// let bookmark = [3, 2, 1, 3, 2, 0, 0, 0, 0, 0];
/// let mut output = [0; 20];
/// let listed = kin::ring_portion(&file, Question::back_to(2, 3), Start::After(&bookmark), &mut output)?;
/// assert_eq!(listed, Listed { count: 1, ended: true });
/// assert_eq!(output[..4], [2, 2, 3, 2]);
/// # Ok::<(), Box<dyn std::error::Error>>(())
/// ```
pub fn ring_portion(
    file: &[u8],
    question: Question,
    start: Start<'_>,
    output: &mut [u32],
) -> Result<Listed, Refused> {
    let (started, bookmark) = start.numbers();
    listed(outside::rings(file, question, started, bookmark, output))
}

/// Lists by joining half chains: shorter chains first, in dictionary order among those of the same hops. Refusals 1 to 16
/// and 18.
///
/// The half chains, of 0 to half the question's hops and ending at To, are written to the working cells as records, ten
/// cells each; the working cells behind them are as they came.
///
/// ```
/// use kin::{Listed, Question};
///
/// let file = std::fs::read("../../examples/six_persons.klf")?;
/// let (mut working, mut output) = ([0; 50], [0; 30]);
/// let listed = kin::join(&file, Question::between(0, 5, 4), &mut working, &mut output)?;
/// assert_eq!(listed, Listed { count: 3, ended: true });
/// let hops: Vec<usize> = kin::chains_in(&output, listed.count).map(|chain| chain.hops()).collect();
/// assert_eq!(hops, [3, 3, 4]);
/// # Ok::<(), Box<dyn std::error::Error>>(())
/// ```
pub fn join(
    file: &[u8],
    question: Question,
    working: &mut [u32],
    output: &mut [u32],
) -> Result<Listed, Refused> {
    listed(outside::join(file, question, working, output))
}
