//! Refusals, and what each means.

use std::error::Error;
use std::fmt;

/// A refusal: its number, and the place in the file or the question that it speaks of. No lent cell was changed.
///
/// ```
/// let refused = kin::check(b"not a link file").unwrap_err();
/// assert_eq!((refused.number, refused.place), (1, 0));
/// assert_eq!(
///     refused.to_string(),
///     "refused 1 at 0: The file is shorter than 32 bytes, or it does not begin with the mark KLF1."
/// );
/// ```
#[derive(Clone, Copy, Debug, PartialEq, Eq, Hash)]
pub struct Refused {
    /// Which refusal it is, a line of `docs/REFUSALS.md`.
    pub number: u32,
    /// Where the fault is; that line says what is counted.
    pub place: u32,
}

impl Refused {
    /// What the refusal means, in the words of `docs/REFUSALS.md`; nothing for a number that it doesn't have.
    pub fn meaning(&self) -> Option<&'static str> {
        let line = self.number.checked_sub(1)?;
        MEANINGS.get(line as usize).copied()
    }
}

impl fmt::Display for Refused {
    fn fmt(&self, shown: &mut fmt::Formatter<'_>) -> fmt::Result {
        write!(shown, "refused {} at {}", self.number, self.place)?;
        match self.meaning() {
            Some(meaning) => write!(shown, ": {meaning}"),
            None => Ok(()),
        }
    }
}

impl Error for Refused {}

/// The second column of `docs/REFUSALS.md`, from number 1 on. A test holds it to that.
const MEANINGS: [&str; 21] = [
    "The file is shorter than 32 bytes, or it does not begin with the mark KLF1.",
    "A count in the file's header is outside its limits: 1 to 1,024 persons, 0 to 4,096 links, 0 to 16 feeds.",
    "An offset or the length in the file's header does not follow from the counts, or the length is not that of \
     the bytes handed over.",
    "A feed's archive number is 0 or not above the one before it, or the feed's last byte is not 0.",
    "A feed's date meaning is neither 1, the day of the event, nor 2, the day of registration.",
    "The row table does not start at 0, falls somewhere, or does not end at the link count.",
    "A link's target is not in the file, is the row's own person or is not above the target before it in the row, \
     or the link's feed index is not below the feed count, or its last byte is not 0.",
    "A link's kind is unknown: known are 1 to 5 and 16 to 31.",
    "A link's day is above 3,652,059, which is 31 December 9999.",
    "A person asked about is not in the file.",
    "From and To are the same person.",
    "The hops asked for are not 1 to 8.",
    "The classes asked for are not a sum of classes, 1 to 15.",
    "The date meaning asked for is neither 1, the day of the event, nor 2, the day of registration.",
    "The first day asked for is 0, the last day is above 3,652,059, or the first day is above the last.",
    "The output has fewer than ten cells, so there is no room for one chain or ring.",
    "The bookmark is not ten cells, or it is not the record of a chain or ring of this listing.",
    "The working cells hold fewer records than there are half chains.",
    "The program's input is shorter than 32 bytes, so there is no whole question in it.",
    "The number that says whether undated links count is neither 1, they count, nor 0, they are left out.",
    "From and To are different persons, and rings lead back to the same one.",
];
