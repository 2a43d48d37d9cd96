//! A second knock-knee channel router, checker, net report, writer of canonical
//! records, sweep that is driven column by column, channel on the drawing board and
//! writer of the channel with the widest drawing.
//!
//! It follows documents 01 and 02, and for nets of two or three pins the choices
//! in docs/THREE-PIN.md, and shares no code with the library. It keeps to their
//! words and does everything in the plainest way: the state of a sweep is the list
//! of nets on the tracks, for nets of two or three pins with a list of pairs, and
//! every question about it is answered by looking through these lists.

pub mod board;
pub mod check;
pub mod placing;
pub mod record;
pub mod report;
pub mod rows;
pub mod sweep;
pub mod widest;

pub use board::Board;
pub use check::{check, column};
pub use placing::Terminal;
pub use record::{canonical, list, printed};
pub use report::{report, report_drawing};
pub use rows::{density, formula};
pub use sweep::steps::{Started, Stepped, Steps};
pub use sweep::{need, route};
pub use widest::widest;

/// The most columns that a library call takes.
pub const MOST_COLUMNS: usize = 256;
/// The most columns that `knee` takes.
pub const MOST_LISTED: usize = 64;
/// The highest net number.
pub const MOST_NETS: usize = 256;
/// The largest width and the most tracks that the calls take.
pub const LIMIT: usize = 511;

/// The figures of a routed channel.
#[derive(Clone, Copy, Debug, Default, PartialEq, Eq)]
pub struct Figures {
    pub density: usize,
    pub tracks: usize,
    pub width: usize,
}

/// The answer of the checker. The place is an entry's position for 13 to 15, 19
/// and 20 and a net for 16 and 17; column and row are a loose end's.
#[derive(Clone, Copy, Debug, Default, PartialEq, Eq)]
pub struct Checked {
    pub number: u16,
    pub place: usize,
    pub column: usize,
    pub row: usize,
}
