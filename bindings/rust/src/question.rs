//! What is asked.

use crate::{Classes, DateMeaning};

/// 31 December 9999, the last day a link or a question can name. Day 1 is 1 January of year 1.
pub const LAST_DAY: u32 = 3_652_059;

/// What is asked of a file: between whom, in how many hops, over which links. For chains From and To are two persons, for
/// rings they are the same one.
///
/// A question may hold any numbers; the library refuses those that make no sense (refusals 10 to 15 and 21). Whether undated links
/// count is a yes or no, and never refused.
///
/// ```
/// use kin::{Classes, DateMeaning, Question};
///
/// // Family and marriage only, by the day of registration, up to the end of the year 1800, nothing without a day.
/// let question = Question {
///     classes: Classes::PARENT_CHILD_SIBLING | Classes::SPOUSE,
///     meaning: DateMeaning::REGISTRATION,
///     last_day: 657_436,
///     undated: false,
///     ..Question::between(0, 5, 4)
/// };
/// assert_eq!(question.first_day, 1);
/// ```
#[derive(Clone, Copy, Debug, PartialEq, Eq, Hash)]
pub struct Question {
    /// The first person of every chain or ring.
    pub from: u32,
    /// The last person of every chain or ring.
    pub to: u32,
    /// The most hops of a chain or ring, 1 to 8.
    pub hops: u32,
    /// The classes of link that count.
    pub classes: Classes,
    /// What a day has to mean for a dated link to count.
    pub meaning: DateMeaning,
    /// The first day that counts.
    pub first_day: u32,
    /// The last day that counts.
    pub last_day: u32,
    /// Whether undated links count too, whatever the days.
    pub undated: bool,
}

impl Question {
    /// Asks for chains over links of every class, undated or with any day of an event.
    pub fn between(from: u32, to: u32, hops: u32) -> Question {
        Question {
            from,
            to,
            hops,
            classes: Classes::ALL,
            meaning: DateMeaning::EVENT,
            first_day: 1,
            last_day: LAST_DAY,
            undated: true,
        }
    }

    /// Asks for the rings of a person, over links of every class, undated or with any day of an event.
    ///
    /// ```
    /// use kin::Question;
    ///
    /// // Only over links with a day.
    /// let question = Question {
    ///     undated: false,
    ///     ..Question::back_to(2, 4)
    /// };
    /// assert_eq!((question.from, question.to), (2, 2));
    /// ```
    pub fn back_to(person: u32, hops: u32) -> Question {
        Question::between(person, person, hops)
    }

    /// The eight numbers, in the order in which the library takes them.
    pub(crate) fn numbers(&self) -> [u32; 8] {
        [
            self.from,
            self.to,
            self.hops,
            self.classes.number(),
            self.meaning.number(),
            self.first_day,
            self.last_day,
            u32::from(self.undated),
        ]
    }

    /// The question that has these numbers; nothing if the last is no yes or no, since no question here asks that.
    pub(crate) fn from_numbers(numbers: [u32; 8]) -> Option<Question> {
        let [from, to, hops, classes, meaning, first_day, last_day, undated] = numbers;
        let undated = match undated {
            0 => false,
            1 => true,
            _ => return None,
        };
        Some(Question {
            from,
            to,
            hops,
            classes: Classes::from_number(classes),
            meaning: DateMeaning::from_number(meaning),
            first_day,
            last_day,
            undated,
        })
    }
}
