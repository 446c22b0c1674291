//! The numbers on the display and their words.

/// Reason why a call is refused; the discriminant is the number displayed.
#[derive(Clone, Copy, Debug, PartialEq, Eq, PartialOrd, Ord)]
pub enum Refusal {
    Limits = 1,
    Still = 2,
    Long = 3,
    Feed = 4,
    Radius = 5,
    Mark = 6,
    Full = 7,
    Empty = 8,
    Ragged = 9,
    Many = 10,
    List = 11,
    Word = 12,
    Number = 13,
    Steps = 14,
    NotFinite = 15,
    Beyond = 16,
}

impl Refusal {
    /// Number on the display: 1 to 16.
    pub fn number(self) -> u64 {
        self as u64
    }

    /// Word that belongs to the number.
    pub fn word(self) -> &'static str {
        match self {
            Refusal::Limits => "limits",
            Refusal::Still => "still",
            Refusal::Long => "long",
            Refusal::Feed => "feed",
            Refusal::Radius => "radius",
            Refusal::Mark => "mark",
            Refusal::Full => "full",
            Refusal::Empty => "empty",
            Refusal::Ragged => "ragged",
            Refusal::Many => "many",
            Refusal::List => "list",
            Refusal::Word => "word",
            Refusal::Number => "number",
            Refusal::Steps => "steps",
            Refusal::NotFinite => "not finite",
            Refusal::Beyond => "beyond",
        }
    }

    /// The refusal of a whole tape when no record is at fault, or of a text when
    /// no line is (place 0).
    pub fn at_no_record(self) -> Fault {
        Fault {
            refusal: self,
            place: 0,
        }
    }
}

/// Refusal of a whole tape or of a text: the reason, and the place from 1 of the
/// record or the line at fault, 0 if none is.
#[derive(Clone, Copy, Debug, PartialEq, Eq)]
pub struct Fault {
    pub refusal: Refusal,
    pub place: u64,
}
