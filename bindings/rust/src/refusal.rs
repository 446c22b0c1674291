//! Refusals: the numbers on the display, with their words, and the place of a fault.

use std::error::Error;
use std::fmt;

/// Why a call was refused: one of the numbers on the display.
///
/// A refused call changes nothing that was lent to it. Where several refusals hold, the first in the
/// order that stands at the function is given.
///
/// ```
/// use fullerecru::Refusal;
///
/// assert_eq!(Refusal::Ragged.number(), 9);
/// assert_eq!(Refusal::Ragged.word(), "ragged");
/// assert_eq!(Refusal::Ragged.to_string(), "refused 9 (ragged)");
/// assert_eq!(Refusal::from_number(9), Some(Refusal::Ragged));
/// assert_eq!(Refusal::from_number(0), None); // accepted
/// assert_eq!(Refusal::from_number(99), Some(Refusal::Unknown(99)));
/// ```
#[derive(Clone, Copy, Debug, PartialEq, Eq, Hash)]
#[non_exhaustive]
pub enum Refusal {
    /// 1: a machine limit outside its range, or a zero bit of the tape's limits set.
    Limits,
    /// 2: all three moves 0.
    Still,
    /// 3: a move beyond ±1,000,000 µm.
    Long,
    /// 4: feed 0, or above 1,000,000 µm/s.
    Feed,
    /// 5: radius above 10,000,000 µm.
    Radius,
    /// 6: mark above 2,097,151.
    Mark,
    /// 7: 64 blocks held.
    Full,
    /// 8: take with none held.
    Empty,
    /// 9: a tape under 24 bytes, or its rest no multiple of 16; a trace likewise, by 28; for limits
    /// or one record alone, or the records of a text, too few bytes lent.
    Ragged,
    /// 10: a tape longer than 32,792 bytes; a text's block past 2,048; any tape for a report that has
    /// accepted 100.
    Many,
    /// 11: a lent list that has not the size that it must have.
    List,
    /// 12: in a text, a character that has no place there, or a word that is not listed or stands on
    /// its line already.
    Word,
    /// 13: in a text, a word's number that is badly formed.
    Number,
    /// 14: loaded torque steps that are not eight, out of range or rising.
    Steps,
    /// 15: in an order, a double that is a NaN or an infinity, or a coordinate less its offset that
    /// is.
    NotFinite,
    /// 16: in an order, a rounded value beyond 1,000,000,000 either way, or below 0 for speed or
    /// radius.
    Beyond,
    /// A number that is none of these. A library of this binding's [`VERSION`](crate::VERSION) never
    /// gives one; from another it arrives here instead of ending the control's program.
    Unknown(u64),
}

impl Refusal {
    /// The refusal of a number on the display; `None` of 0, which says accepted.
    pub fn from_number(number: u64) -> Option<Refusal> {
        Some(match number {
            0 => return None,
            1 => Refusal::Limits,
            2 => Refusal::Still,
            3 => Refusal::Long,
            4 => Refusal::Feed,
            5 => Refusal::Radius,
            6 => Refusal::Mark,
            7 => Refusal::Full,
            8 => Refusal::Empty,
            9 => Refusal::Ragged,
            10 => Refusal::Many,
            11 => Refusal::List,
            12 => Refusal::Word,
            13 => Refusal::Number,
            14 => Refusal::Steps,
            15 => Refusal::NotFinite,
            16 => Refusal::Beyond,
            unknown => Refusal::Unknown(unknown),
        })
    }

    /// The number on the display, 1 to 16.
    pub fn number(self) -> u64 {
        match self {
            Refusal::Limits => 1,
            Refusal::Still => 2,
            Refusal::Long => 3,
            Refusal::Feed => 4,
            Refusal::Radius => 5,
            Refusal::Mark => 6,
            Refusal::Full => 7,
            Refusal::Empty => 8,
            Refusal::Ragged => 9,
            Refusal::Many => 10,
            Refusal::List => 11,
            Refusal::Word => 12,
            Refusal::Number => 13,
            Refusal::Steps => 14,
            Refusal::NotFinite => 15,
            Refusal::Beyond => 16,
            Refusal::Unknown(number) => number,
        }
    }

    /// Its word, as "ragged" of 9.
    pub fn word(self) -> &'static str {
        match self {
            Refusal::Limits => "limits",
            Refusal::Still => "still",
            Refusal::Long => "long",
            Refusal::Feed => "feed",
            Refusal::Radius => "radius",
            Refusal::Mark => "mark",
            Refusal::Full => "full",
            Refusal::Empty => "empty",
            Refusal::Ragged => "ragged",
            Refusal::Many => "many",
            Refusal::List => "list",
            Refusal::Word => "word",
            Refusal::Number => "number",
            Refusal::Steps => "steps",
            Refusal::NotFinite => "not finite",
            Refusal::Beyond => "beyond",
            Refusal::Unknown(_) => "unknown",
        }
    }

    /// What the number that a call answers says.
    pub(crate) fn judged(number: u64) -> Result<(), Refusal> {
        Refusal::from_number(number).map_or(Ok(()), Err)
    }
}

impl fmt::Display for Refusal {
    fn fmt(&self, formatter: &mut fmt::Formatter<'_>) -> fmt::Result {
        write!(formatter, "refused {} ({})", self.number(), self.word())
    }
}

impl Error for Refusal {}

/// Why a tape or a text was refused, and where.
///
/// ```
/// use fullerecru::{text_records, Fault, Refusal};
///
/// let fault = text_records(b"F60\nX1\nY 2\n").unwrap_err();
/// assert_eq!(fault, Fault { refusal: Refusal::Number, place: 3 });
/// assert_eq!(fault.to_string(), "refused 13 (number) at 3");
/// ```
#[derive(Clone, Copy, Debug, PartialEq, Eq, Hash)]
pub struct Fault {
    /// Why it was refused.
    pub refusal: Refusal,
    /// The record of the tape or the line of the text at fault, counted from 1; 0 where the fault is
    /// of none of them.
    pub place: u64,
}

impl Fault {
    /// What the number that a call answers, and the place that it writes, say.
    pub(crate) fn judged(number: u64, [place]: [u64; 1]) -> Result<(), Fault> {
        Refusal::judged(number).map_err(|refusal| Fault { refusal, place })
    }
}

impl From<Refusal> for Fault {
    /// The refusal at place 0: that of no record and no line.
    fn from(refusal: Refusal) -> Fault {
        Fault { refusal, place: 0 }
    }
}

impl fmt::Display for Fault {
    fn fmt(&self, formatter: &mut fmt::Formatter<'_>) -> fmt::Result {
        write!(formatter, "{} at {}", self.refusal, self.place)
    }
}

impl Error for Fault {}
