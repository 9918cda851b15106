//! The row view: a person's links, as the very part of the file they occupy.

use crate::outside;

/// Where the header keeps the offset of the row table, and that of the link table.
const ROW_TABLE_OFFSET: usize = 20;
const LINK_TABLE_OFFSET: usize = 24;

/// The bytes of a link in the file.
const LINK_BYTES: usize = 12;

/// A link as a row view shows it. Its owner is the person whose row it stands in.
#[derive(Clone, Copy, Debug, PartialEq, Eq, Hash)]
pub struct Link {
    /// The person that it leads to.
    pub target: u32,
    /// Its day, 1 being 1 January of year 1, or 0 for undated.
    pub day: u32,
    /// The feed it came from.
    pub feed: u16,
    /// Its kind: 1 parent of, 2 child of, 3 spouse of, 4 sibling of, 5 same person, 16 to 31 named together in papers.
    pub kind: u8,
}

/// The part of the file that holds a person's links, 12 bytes each; [`links_in`] reads them.
///
/// It is empty for a person without links, for a person who isn't in the file and for a refused file; no number comes with
/// it, [`check`](crate::check) tells which.
///
/// ```
/// let file = std::fs::read("../../examples/six_persons.klf")?;
/// let row = kin::row_view(&file, 4);
/// assert_eq!(row, &file[164..176]);
/// assert_eq!(kin::links_in(row).next().unwrap().target, 5);
/// assert!(kin::row_view(&file, 6).is_empty());
/// # Ok::<(), std::io::Error>(())
/// ```
pub fn row_view(file: &[u8], person: u32) -> &[u8] {
    let nothing = &file[..0];
    match outside::row(file, person) as usize {
        0 => nothing,
        length => part(file, person as usize, length).unwrap_or(nothing),
    }
}

/// The library answers the part's length only. Where it lies is read from the header and the row table, which the library has
/// checked if the length isn't 0; a part of another length than the library's is none.
fn part(file: &[u8], person: usize, length: usize) -> Option<&[u8]> {
    let row_table = number_at(file, ROW_TABLE_OFFSET)?;
    let link_table = number_at(file, LINK_TABLE_OFFSET)?;
    let entry = row_table + 4 * person;
    let place = |link: usize| link_table + LINK_BYTES * link;
    let first = place(number_at(file, entry)?);
    let behind = place(number_at(file, entry + 4)?);
    let part = file.get(first..behind)?;
    (part.len() == length).then_some(part)
}

fn number_at(file: &[u8], place: usize) -> Option<usize> {
    let bytes = file.get(place..)?.first_chunk()?;
    Some(u32::from_le_bytes(*bytes) as usize)
}

/// The links in a row view, in its order.
///
/// ```
/// let file = std::fs::read("../../examples/six_persons.klf")?;
/// let targets: Vec<u32> = kin::links_in(kin::row_view(&file, 0)).map(|link| link.target).collect();
/// assert_eq!(targets, [1, 2]);
/// # Ok::<(), std::io::Error>(())
/// ```
pub fn links_in(row: &[u8]) -> impl Iterator<Item = Link> + '_ {
    row.chunks_exact(LINK_BYTES).filter_map(link)
}

fn link(bytes: &[u8]) -> Option<Link> {
    let &[t0, t1, t2, t3, d0, d1, d2, d3, f0, f1, kind, _] = bytes else {
        return None;
    };
    Some(Link {
        target: u32::from_le_bytes([t0, t1, t2, t3]),
        day: u32::from_le_bytes([d0, d1, d2, d3]),
        feed: u16::from_le_bytes([f0, f1]),
        kind,
    })
}
