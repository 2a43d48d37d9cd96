//! Why a call was refused.

use std::fmt;

/// A refusal, with the number that the customer's papers give it.
#[derive(Clone, Copy, Debug, PartialEq, Eq, PartialOrd, Ord, Hash)]
#[repr(u16)]
pub enum Refusal {
    /// The record is under 4 or over 1,030 bytes, or its length field is wrong.
    RecordLength = 1,
    /// The record's kind is not 1.
    RecordKind = 2,
    /// The record's body is under 2 bytes or not 2 + 4n bytes.
    RecordBody = 3,
    /// The rows differ in length.
    RowLengths = 4,
    /// The channel, or the [`Board`](crate::Board), has over 256 columns, or over 64 for
    /// a listing.
    TooManyColumns = 5,
    /// A row has a number over 256, or that of a net that is placed, added or dropped is 0
    /// or over 256.
    NetNumber = 6,
    /// A net has a single pin; in a [`Sweep`](crate::Sweep), not exactly two.
    SinglePin = 7,
    /// The layout slice is shorter than [`need`](crate::need) says; in a step of a
    /// [`Sweep`](crate::Sweep), than its [`entries`](crate::Sweep::entries).
    LayoutTooShort = 8,
    /// The net table has under 256 records.
    TableTooShort = 9,
    /// The drawing's width is under the channel's columns or over 511.
    Width = 10,
    /// The drawing has over 511 tracks.
    Tracks = 11,
    /// The drawing's slice is not w × (2t + 1) entries.
    DrawingLength = 12,
    /// An entry is neither 0 nor a net of the channel; the place is its position.
    Entry = 13,
    /// The edge of a pin is 0; the place is its position.
    UnwiredPin = 14,
    /// The last column has a horizontal edge; the place is its position.
    LastColumn = 15,
    /// A net is in more than one piece; the place is the lowest such net.
    Pieces = 16,
    /// A net has one edge at a grid point on a track; the place is the lowest
    /// such net.
    LooseEnd = 17,
    /// The output slice is shorter than the 6 + 4n bytes of a record.
    OutputTooShort = 18,
    /// The edge of a pin carries another net; the place is its position.
    MiswiredPin = 19,
    /// There is a wire at a terminal without a pin, or at an edge past the
    /// channel's columns; the place is its position.
    UnpinnedWire = 20,
    /// The number of a late net, or of one added to a [`Board`](crate::Board), is in use.
    NumberInUse = 21,
    /// A terminal of such a net has a pin, is not right of the last drawn column, lies
    /// outside the channel, or is that of its other pin.
    TerminalTaken = 22,
    /// With a late net the density would be over the tracks.
    OverTracks = 23,
    /// The net to be dropped is not on the [`Board`](crate::Board).
    AbsentNet = 24,
}

impl Refusal {
    /// All refusals in the order of their numbers.
    pub const ALL: [Refusal; 24] = [
        Refusal::RecordLength,
        Refusal::RecordKind,
        Refusal::RecordBody,
        Refusal::RowLengths,
        Refusal::TooManyColumns,
        Refusal::NetNumber,
        Refusal::SinglePin,
        Refusal::LayoutTooShort,
        Refusal::TableTooShort,
        Refusal::Width,
        Refusal::Tracks,
        Refusal::DrawingLength,
        Refusal::Entry,
        Refusal::UnwiredPin,
        Refusal::LastColumn,
        Refusal::Pieces,
        Refusal::LooseEnd,
        Refusal::OutputTooShort,
        Refusal::MiswiredPin,
        Refusal::UnpinnedWire,
        Refusal::NumberInUse,
        Refusal::TerminalTaken,
        Refusal::OverTracks,
        Refusal::AbsentNet,
    ];

    /// The papers' number, 1 to 24.
    pub fn number(self) -> u16 {
        self as u16
    }

    /// The refusal of a number; `None` for 0, which is acceptance, and over 24.
    pub fn from_number(number: u16) -> Option<Refusal> {
        let at = (number as usize).checked_sub(1)?;
        Self::ALL.get(at).copied()
    }
}

impl fmt::Display for Refusal {
    fn fmt(&self, f: &mut fmt::Formatter) -> fmt::Result {
        let reason = match self {
            Refusal::RecordLength => "record of a wrong length",
            Refusal::RecordKind => "record of another kind",
            Refusal::RecordBody => "record body of a wrong length",
            Refusal::RowLengths => "rows of different lengths",
            Refusal::TooManyColumns => "too many columns",
            Refusal::NetNumber => "a net number out of range",
            Refusal::SinglePin => "a net of a wrong number of pins",
            Refusal::LayoutTooShort => "layout slice too short",
            Refusal::TableTooShort => "net table under 256 records",
            Refusal::Width => "width under the columns or over 511",
            Refusal::Tracks => "over 511 tracks",
            Refusal::DrawingLength => "slice of another length than the drawing",
            Refusal::Entry => "an entry that is no net",
            Refusal::UnwiredPin => "a pin without a wire",
            Refusal::LastColumn => "a horizontal edge in the last column",
            Refusal::Pieces => "a net in more than one piece",
            Refusal::LooseEnd => "a loose end",
            Refusal::OutputTooShort => "output slice too short",
            Refusal::MiswiredPin => "a pin with another net's wire",
            Refusal::UnpinnedWire => "a wire at a terminal without a pin",
            Refusal::NumberInUse => "a new net's number in use",
            Refusal::TerminalTaken => "a new net's terminal not free",
            Refusal::OverTracks => "a late net over the tracks",
            Refusal::AbsentNet => "no such net to drop",
        };
        write!(f, "refused {}: {reason}", self.number())
    }
}

impl std::error::Error for Refusal {}
