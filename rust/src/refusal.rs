//! Why a call is refused.

use core::error::Error;
use core::fmt;

/// Why a call was refused. Each case has a number; the lowest wins, but 14 and 15 come behind 7 and before 8, 16 comes
/// behind 11 and before 12, and [`read_exercise`](crate::read_exercise) has an order of its own.
///
/// ```
/// use mikjuqan::{Exercise, Refusal};
///
/// let refusal = Exercise::new(&[1, 2, 3]).check_block().unwrap_err();
/// assert_eq!((refusal, refusal.number()), (Refusal::Head, 3));
/// assert_eq!(refusal.to_string(), "refused with 3: the head is short or out of limits");
/// ```
#[derive(Clone, Copy, Debug, PartialEq, Eq, PartialOrd, Ord, Hash)]
#[non_exhaustive]
pub enum Refusal {
    /// 1: a text holds another character than 0 to 9, A to F and line feed, a line with an odd number of digits, or a
    /// last line that does not end.
    Character = 1,
    /// 2: the head line is not ten digits, or a line is missing, extra or of another length than the head asks.
    Line = 2,
    /// 3: there are fewer than five bytes, or a number of the head is out of its limits.
    Head = 3,
    /// 4: the block is not as long as its head asks.
    Length = 4,
    /// 5: a map byte is no abstract label.
    Map = 5,
    /// 6: a byte of a rule or a goal is no term, or a constant is no label.
    Term = 6,
    /// 7: a variable on the right of a rule does not stand on its left.
    Unbound = 7,
    /// 8: a state has another number of labels than there are positions, or one that is no label.
    State = 8,
    /// 9: a rule number is not below the number of rules.
    Rule = 9,
    /// 10: the step limit is over 64, or a list of rules over 4,096.
    Limit = 10,
    /// 11: the buffer is shorter than what may be written.
    Buffer = 11,
    /// 12: the table has fewer entries than all tables together: one for each abstract state of each map.
    TableShort = 12,
    /// 13: the table fails the lower-bound test, or one of several does.
    TableFails = 13,
    /// 14: there are more than three further maps, or their bytes are not K and a byte for each label for each.
    Maps = 14,
    /// 15: the K of a further map is 0 or above the number of labels, a byte of it is not below its K, or all tables
    /// together have more than 16,384 entries.
    MapRange = 15,
    /// 16: there are no query records or more than 256, their bytes are no whole number of records, or the answers do
    /// not fit.
    Records = 16,
}

impl Refusal {
    /// All refusals, in the order of their numbers.
    pub const ALL: &'static [Refusal] = &[
        Refusal::Character,
        Refusal::Line,
        Refusal::Head,
        Refusal::Length,
        Refusal::Map,
        Refusal::Term,
        Refusal::Unbound,
        Refusal::State,
        Refusal::Rule,
        Refusal::Limit,
        Refusal::Buffer,
        Refusal::TableShort,
        Refusal::TableFails,
        Refusal::Maps,
        Refusal::MapRange,
        Refusal::Records,
    ];

    /// The number of this refusal, 1 to 16.
    ///
    /// ```
    /// use mikjuqan::Refusal;
    ///
    /// assert_eq!(Refusal::Character.number(), 1);
    /// assert_eq!(Refusal::Records.number(), 16);
    /// assert!(Refusal::ALL.iter().map(|refusal| refusal.number()).eq(1..=16));
    /// ```
    pub fn number(self) -> u32 {
        self as u32
    }
}

impl fmt::Display for Refusal {
    fn fmt(&self, formatter: &mut fmt::Formatter<'_>) -> fmt::Result {
        let reason = match self {
            Refusal::Character => "the text holds a wrong character, an odd line or an unended one",
            Refusal::Line => "a line is missing, extra or of wrong length",
            Refusal::Head => "the head is short or out of limits",
            Refusal::Length => "the block is not as long as its head asks",
            Refusal::Map => "a map byte is no abstract label",
            Refusal::Term => "a byte is no term, or a constant is no label",
            Refusal::Unbound => "a right variable does not stand on the left",
            Refusal::State => "a state has a wrong length or a byte that is no label",
            Refusal::Rule => "there is no such rule",
            Refusal::Limit => "the step limit is over 64, or the list is over 4,096",
            Refusal::Buffer => "the buffer is too short",
            Refusal::TableShort => "the table is too short",
            Refusal::TableFails => "the table fails the lower-bound test",
            Refusal::Maps => "there are more than three further maps, or a part of one",
            Refusal::MapRange => "a further map is out of range, or the tables have too many entries",
            Refusal::Records => "the queries are none, over 256 or not whole, or the answers do not fit",
        };
        write!(formatter, "refused with {}: {reason}", self.number())
    }
}

impl Error for Refusal {}

/// `Ok` for 0, else the refusal with this number.
pub(crate) fn accepted(number: u32) -> Result<(), Refusal> {
    match number {
        0 => Ok(()),
        1..=16 => Err(Refusal::ALL[number as usize - 1]),
        _ => unreachable!("the library has no refusal {number}"),
    }
}
