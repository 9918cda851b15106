//! What the library answers. It answers in one number of 64 bits, which is taken apart here and nowhere else.

use crate::Refused;

/// How many persons, links and feeds a sound file has.
#[derive(Clone, Copy, Debug, PartialEq, Eq, Hash)]
pub struct Counts {
    /// Persons, 1 to 1,024. They are numbered from 0.
    pub persons: u32,
    /// Links, 0 to 4,096.
    pub links: u32,
    /// Feeds, 0 to 16.
    pub feeds: u32,
}

/// What was listed: chains, or rings, were written to the output, from its first cell on. The other cells are as they came.
///
/// ```
/// use kin::{Question, Start};
///
/// let file = std::fs::read("../../examples/six_persons.klf")?;
/// let mut output = [0; 20];
/// let listed = kin::portion(&file, Question::between(0, 5, 4), Start::Fresh, &mut output)?;
/// assert_eq!((listed.count, listed.ended), (2, false));
/// # Ok::<(), Box<dyn std::error::Error>>(())
/// ```
#[derive(Clone, Copy, Debug, PartialEq, Eq, Hash)]
pub struct Listed {
    /// How many chains or rings were written.
    pub count: usize,
    /// Whether none follows the last one written.
    pub ended: bool,
}

/// The bit that says refused; below it stand the number, from bit 32 on, and the place.
const REFUSED: u64 = 1 << 63;

/// The bit of a listing that says ended; below it stands the count.
const ENDED: u64 = 1 << 62;

pub(crate) fn not_refused(answer: u64) -> Result<u64, Refused> {
    if answer < REFUSED {
        return Ok(answer);
    }
    let told = answer - REFUSED;
    Err(Refused {
        number: (told >> 32) as u32,
        place: told as u32,
    })
}

pub(crate) fn counts(answer: u64) -> Result<Counts, Refused> {
    let told = not_refused(answer)?;
    Ok(Counts {
        persons: told as u32 & 0xFFFF,
        links: told as u32 >> 16,
        feeds: (told >> 32) as u32,
    })
}

pub(crate) fn listed(answer: u64) -> Result<Listed, Refused> {
    let told = not_refused(answer)?;
    Ok(Listed {
        count: (told & (ENDED - 1)) as usize,
        ended: told & ENDED != 0,
    })
}
