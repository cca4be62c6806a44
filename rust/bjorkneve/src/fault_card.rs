// What the fault card is made of.

use crate::card;

/// The refusals, a table for each occasion.
///
/// ```
/// use bjorkneve::fault_card::TABLES;
///
/// assert_eq!(TABLES.iter().map(|table| table.rows.len()).sum::<usize>(), 25);
/// ```
pub const TABLES: &[Table] = card::TABLES;

/// The other numbers with a name.
///
/// ```
/// use bjorkneve::fault_card::NAMED;
///
/// assert!(NAMED.iter().any(|named| named.name == "UNIT_BAR" && named.value == 2));
/// ```
pub const NAMED: &[Named] = card::NAMED;

/// What the detail of a refusal is.
///
/// ```
/// use bjorkneve::fault_card::Detail;
///
/// let sets = Detail::OneOf(&[(2, "pressure set"), (3, "temperature set")]);
/// assert_eq!(sets.means(3), Some("temperature set"));
/// assert_eq!(Detail::Is("the line").means(3), Some("the line"));
/// assert_eq!(Detail::Zero.means(0), None);
/// ```
#[derive(Debug, Clone, Copy, PartialEq, Eq)]
pub enum Detail {
    /// Always 0: there is nothing to tell.
    Zero,
    /// A number, of what these words say.
    Is(&'static str),
    /// One of these numbers, each with its words.
    OneOf(&'static [(u64, &'static str)]),
}

impl Detail {
    /// What the detail of this value means; nothing where it means nothing.
    ///
    /// ```
    /// use bjorkneve::fault_card::Detail;
    ///
    /// let sets = Detail::OneOf(&[(2, "pressure set"), (3, "temperature set")]);
    /// assert_eq!(sets.means(2), Some("pressure set"));
    /// assert_eq!(sets.means(0), None);
    /// ```
    #[must_use]
    pub fn means(self, value: u64) -> Option<&'static str> {
        match self {
            Detail::Zero => None,
            Detail::Is(words) => Some(words),
            Detail::OneOf(cases) => {
                let case = cases.iter().find(|(number, _)| *number == value)?;
                Some(case.1)
            }
        }
    }
}

/// A refusal's row.
///
/// ```
/// use bjorkneve::{fault_card, refused};
///
/// let row = &fault_card::TABLES[1].rows[1];
/// assert_eq!((row.number, row.name), (refused::CONTENTS_COUNT, "CONTENTS_COUNT"));
/// assert_eq!(row.what_to_do, "Ask the supplier for a new file.");
/// ```
#[derive(Debug, Clone, Copy, PartialEq, Eq)]
pub struct Row {
    /// The number that a panel shows.
    pub number: u32,
    /// Its name for programs.
    pub name: &'static str,
    /// What happened, in sentences.
    pub what_happened: &'static str,
    /// What the detail after the number is.
    pub detail: Detail,
    /// What to do, in sentences.
    pub what_to_do: &'static str,
}

/// The refusals of one occasion.
///
/// ```
/// let table = &bjorkneve::fault_card::TABLES[0];
/// assert_eq!((table.heading, table.rows.len()), ("While a text is loaded", 4));
/// ```
#[derive(Debug, Clone, Copy, PartialEq, Eq)]
pub struct Table {
    /// When they are given.
    pub heading: &'static str,
    /// In the order of the card.
    pub rows: &'static [Row],
}

/// A limit, a level, a unit, or a bit of the mark.
///
/// ```
/// let named = &bjorkneve::fault_card::NAMED[0];
/// assert_eq!((named.name, named.value), ("LARGEST_IMAGE", bjorkneve::LARGEST_IMAGE as u32));
/// assert_eq!(named.what_it_is, "bytes of the largest image");
/// ```
#[derive(Debug, Clone, Copy, PartialEq, Eq)]
pub struct Named {
    /// Its name for programs.
    pub name: &'static str,
    /// Its value.
    pub value: u32,
    /// What it is.
    pub what_it_is: &'static str,
}
