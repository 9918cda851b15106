//! What a day means.

/// What the day of a dated link means. It is no enum, because the library can be asked any number.
///
/// ```
/// use kin::DateMeaning;
///
/// assert_eq!(DateMeaning::REGISTRATION.number(), 2);
/// assert_eq!(DateMeaning::from_number(1), DateMeaning::EVENT);
/// ```
#[derive(Clone, Copy, Debug, PartialEq, Eq, Hash)]
pub struct DateMeaning(u32);

impl DateMeaning {
    /// The day of the event.
    pub const EVENT: DateMeaning = DateMeaning(1);
    /// The day of registration.
    pub const REGISTRATION: DateMeaning = DateMeaning(2);

    /// Takes any number; the library refuses one that is no date meaning (14).
    pub const fn from_number(number: u32) -> DateMeaning {
        DateMeaning(number)
    }

    /// The number that the library is asked.
    pub const fn number(self) -> u32 {
        self.0
    }
}
