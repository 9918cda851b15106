//! Chains and rings, and the records in which the library writes them.

use std::fmt;

/// The cells of a record: the hops, then one person more than hops, then zeros.
pub const RECORD_CELLS: usize = 10;

/// A chain of persons, each next one reached by a link. It is shown as the program shows it: hops, colon, persons.
///
/// ```
/// use kin::Chain;
///
/// let chain = Chain::from_record(&[3, 0, 1, 3, 5, 0, 0, 0, 0, 0]).unwrap();
/// assert_eq!(chain.persons(), [0, 1, 3, 5]);
/// assert_eq!(chain.hops(), 3);
/// assert_eq!(chain.to_string(), "3: 0 1 3 5");
/// ```
#[derive(Clone, Copy, Debug, PartialEq, Eq, Hash)]
pub struct Chain {
    record: [u32; RECORD_CELLS],
}

impl Chain {
    /// Takes a record: ten cells, hops that fit into them, and zeros behind the persons. Other cells are no record.
    pub fn from_record(cells: &[u32]) -> Option<Chain> {
        let record: [u32; RECORD_CELLS] = cells.try_into().ok()?;
        let hops = record[0] as usize;
        let behind = record.get(hops.checked_add(2)?..)?;
        if behind.iter().any(|&cell| cell != 0) {
            return None;
        }
        Some(Chain { record })
    }

    /// How many links the chain goes over.
    pub fn hops(&self) -> usize {
        self.record[0] as usize
    }

    /// The persons, From first and To last; of a ring they are the same person.
    pub fn persons(&self) -> &[u32] {
        self.record.get(1..self.hops() + 2).unwrap_or_default()
    }

    /// The chain's record. It is a bookmark: [`Start::After`](crate::Start::After) takes it.
    pub fn record(&self) -> &[u32; RECORD_CELLS] {
        &self.record
    }
}

/// A ring: from a person back to that person, all others different from it and from each other. Its record has the form of a
/// chain's, so it is read, shown and kept as one.
///
/// ```
/// use kin::Ring;
///
/// let ring = Ring::from_record(&[3, 2, 1, 3, 2, 0, 0, 0, 0, 0]).unwrap();
/// assert_eq!(ring.persons(), [2, 1, 3, 2]);
/// assert_eq!(ring.to_string(), "3: 2 1 3 2");
/// ```
pub type Ring = Chain;

impl fmt::Display for Chain {
    fn fmt(&self, shown: &mut fmt::Formatter<'_>) -> fmt::Result {
        write!(shown, "{}:", self.hops())?;
        self.persons()
            .iter()
            .try_for_each(|person| write!(shown, " {person}"))
    }
}

/// The first `count` chains, or rings, in cells that the library has written records to.
///
/// ```
/// let output = [1, 0, 5, 0, 0, 0, 0, 0, 0, 0, 2, 0, 1, 5, 0, 0, 0, 0, 0, 0, 7, 7, 7];
/// let shown: Vec<String> = kin::chains_in(&output, 2).map(|chain| chain.to_string()).collect();
/// assert_eq!(shown, ["1: 0 5", "2: 0 1 5"]);
/// ```
///
/// It stops at the first ten cells that are no record; with the library's own count there are none.
pub fn chains_in(cells: &[u32], count: usize) -> impl Iterator<Item = Chain> + '_ {
    cells
        .chunks_exact(RECORD_CELLS)
        .take(count)
        .map_while(Chain::from_record)
}
