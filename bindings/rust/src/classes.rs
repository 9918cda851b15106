//! The classes of link.

use std::ops::BitOr;

/// The classes of link that count, put together by `|`.
///
/// ```
/// use kin::Classes;
///
/// let classes = Classes::PARENT_CHILD_SIBLING | Classes::SPOUSE;
/// assert_eq!(classes.number(), 1 + 2);
/// assert_eq!(classes | Classes::SAME_PERSON | Classes::NAMED_TOGETHER, Classes::ALL);
/// ```
#[derive(Clone, Copy, Debug, PartialEq, Eq, Hash)]
pub struct Classes(u32);

impl Classes {
    /// Parent of, child of, sibling of: kinds 1, 2 and 4.
    pub const PARENT_CHILD_SIBLING: Classes = Classes(1);
    /// Spouse of: kind 3.
    pub const SPOUSE: Classes = Classes(2);
    /// Same person: kind 5.
    pub const SAME_PERSON: Classes = Classes(4);
    /// Named together in papers: kinds 16 to 31.
    pub const NAMED_TOGETHER: Classes = Classes(8);
    /// Links of every class.
    pub const ALL: Classes = Classes(15);

    /// Takes any number; the library refuses one that is no sum of classes (13).
    pub const fn from_number(number: u32) -> Classes {
        Classes(number)
    }

    /// The sum of the classes, which is what the library is asked.
    pub const fn number(self) -> u32 {
        self.0
    }
}

impl BitOr for Classes {
    type Output = Classes;

    fn bitor(self, other: Classes) -> Classes {
        Classes(self.0 | other.0)
    }
}
