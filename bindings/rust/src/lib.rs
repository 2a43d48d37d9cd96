//! Safe calls of the proved knock-knee channel router.
//!
//! A channel is two rows of 16-bit numbers, one for each column: 0 for no pin,
//! else a net number 1 to 256. A drawing of width w on t tracks is w columns
//! of 2t + 1 entries: the vertical edges from row 0 upward, then the
//! horizontal edges that leave to the right, from track 1 upward.
//!
//! ```
//! let (top, bottom) = ([1, 2], [2, 1]);
//! let mut layout = vec![0; gaxwethi::need(&top, &bottom)?];
//! let drawn = gaxwethi::route(&top, &bottom, &mut layout)?;
//! assert_eq!((drawn.density, drawn.tracks, drawn.width), (2, 2, 3));
//! assert_eq!(layout.len(), drawn.entries());
//! assert!(gaxwethi::check(&top, &bottom, drawn.width, drawn.tracks, &layout).is_ok());
//! assert_eq!(gaxwethi::column(&layout, drawn.width, drawn.tracks, 2), [1, 2, 2, 1, 1]);
//! # Ok::<(), gaxwethi::Refusal>(())
//! ```
//!
//! Where many channels are routed, lend one slice that is always enough: [`route`]
//! says how long it is. A [`Sweep`] is driven column by column and takes late nets. On a
//! [`Board`] nets are added and dropped, and the density is known after each change.
//! [`widest`] writes the channel of two-pin nets with the widest drawing.
//!
//! The library keeps no state, as that of a sweep lies in the [`Sweep`] and that of a
//! board in the [`Board`], so calls from several threads are independent.

mod board;
pub mod raw;
mod refusal;
mod sweep;

pub use board::Board;
pub use refusal::Refusal;
pub use sweep::{Side, Sweep, Terminal};

/// The figures of a routed channel.
#[derive(Clone, Copy, Debug, PartialEq, Eq)]
pub struct Figures {
    /// The most nets that cross a gap.
    pub density: usize,
    /// With density d: d where each net has two pins; 3d/2 rounded down where the
    /// largest net has three pins and no net of three has its first two in one
    /// column; else 2d - 1.
    pub tracks: usize,
    /// The columns of the channel and those added after them, at most half the
    /// tracks rounded down.
    pub width: usize,
}

impl Figures {
    /// The entries of the drawing: it is that much of the layout slice.
    pub fn entries(&self) -> usize {
        self.width * (2 * self.tracks + 1)
    }
}

/// Why a call on a drawing is refused.
#[derive(Clone, Copy, Debug, PartialEq, Eq)]
pub struct Fault {
    pub refusal: Refusal,
    /// The lowest position of a bad entry for refusals 13 to 15, 19 and 20, the
    /// lowest net number for 16 and 17, else 0.
    pub place: usize,
    /// For 17 the column of that net's first loose end, counted from 1; else 0.
    pub column: usize,
    /// For 17 its row, which is its track; else 0.
    pub row: usize,
}

impl std::fmt::Display for Fault {
    fn fmt(&self, f: &mut std::fmt::Formatter) -> std::fmt::Result {
        match self.refusal {
            Refusal::LooseEnd => {
                let Fault { refusal, place, column, row } = self;
                write!(f, "{refusal}, net {place} at column {column}, row {row}")
            }
            Refusal::Pieces => write!(f, "{}, net {}", self.refusal, self.place),
            Refusal::Entry
            | Refusal::UnwiredPin
            | Refusal::MiswiredPin
            | Refusal::UnpinnedWire
            | Refusal::LastColumn => {
                write!(f, "{}, entry {}", self.refusal, self.place)
            }
            _ => self.refusal.fmt(f),
        }
    }
}

impl std::error::Error for Fault {}

/// A record of the net report; zeros for an unused number.
#[repr(C)]
#[derive(Clone, Copy, Debug, Default, PartialEq, Eq)]
pub struct NetRecord {
    /// The column of the first pin, counted from 1.
    pub first: u32,
    /// The column of the last pin.
    pub last: u32,
    /// How many pins the net has.
    pub pins: u32,
    /// How many edges the net has in a drawing; 0 in a report without one.
    pub length: u32,
}

impl NetRecord {
    /// A table as the library takes it: its numbers, four for each record
    /// without padding, and how many they are.
    fn figures(table: &mut [NetRecord]) -> (*mut u32, usize) {
        (table.as_mut_ptr().cast(), 4 * table.len())
    }
}

/// The result for a number of the library: 0 is acceptance.
fn accept<T>(number: u16, value: T) -> Result<T, Refusal> {
    match number {
        0 => Ok(value),
        _ => Err(Refusal::from_number(number).expect("the library's numbers are 0 to 24")),
    }
}

/// The result for the library's answer on a drawing.
fn accept_drawing(answer: raw::Checked) -> Result<(), Fault> {
    let raw::Checked { number, place, column, row } = answer;
    accept(number, ()).map_err(|refusal| Fault { refusal, place, column, row })
}

/// The density of a channel, or refusal 4 to 7.
pub fn density(top: &[u16], bottom: &[u16]) -> Result<usize, Refusal> {
    let (n, m) = (top.len(), bottom.len());
    // SAFETY: each pointer and length is that of a slice that lives through the
    // call, and only the slices lent as mutable are written. So it is below too.
    let r = unsafe { raw::gaxwethi_density(top.as_ptr(), n, bottom.as_ptr(), m) };
    accept(r.number, r.density)
}

/// The length that a layout slice must have to route a channel, or refusal 4 to 7:
/// w × (2t + 1) for the width w that the drawing will have and its tracks t.
///
/// This call is a run of the sweep, without drawing. A slice of (n + t/2 rounded
/// down) × (2t + 1) entries, for n columns, is always enough and is drawn into at
/// once; a shorter one that is long enough costs [`route`] a second run of the
/// sweep, without drawing.
pub fn need(top: &[u16], bottom: &[u16]) -> Result<usize, Refusal> {
    let (n, m) = (top.len(), bottom.len());
    let r = unsafe { raw::gaxwethi_need(top.as_ptr(), n, bottom.as_ptr(), m) };
    accept(r.number, r.length)
}

/// Routes a channel: the drawing is the first [`Figures::entries`] of the
/// layout slice, and what follows keeps its contents. With refusal 4 to 8
/// nothing is written; 8 is a slice shorter than [`need`] says.
///
/// Two channels of two-pin nets with the same density d, whose first k columns
/// agree, get drawings with the same first k columns, k × (2d + 1) entries. The
/// columns added after column n are no part of this, and with larger nets it does
/// not hold.
///
/// A slice of (n + t/2 rounded down) × (2t + 1) entries, for n columns and t
/// tracks, is always enough and is drawn into at once; a shorter one that is long
/// enough costs a second run of the sweep, without drawing.
pub fn route(top: &[u16], bottom: &[u16], layout: &mut [u16]) -> Result<Figures, Refusal> {
    let (n, m, len) = (top.len(), bottom.len(), layout.len());
    let out = layout.as_mut_ptr();
    let r = unsafe { raw::gaxwethi_route(top.as_ptr(), n, bottom.as_ptr(), m, out, len) };
    let figures = Figures { density: r.density, tracks: r.tracks, width: r.width };
    accept(r.number, figures)
}

/// Checks any drawing of a channel by the grid's rules: `Ok` for a solution,
/// else refusal 4 to 7, 10 to 17, 19 or 20 with its place.
pub fn check(
    top: &[u16],
    bottom: &[u16],
    width: usize,
    tracks: usize,
    layout: &[u16],
) -> Result<(), Fault> {
    let (n, m, len) = (top.len(), bottom.len(), layout.len());
    let entries = layout.as_ptr();
    let r = unsafe {
        raw::gaxwethi_check(top.as_ptr(), n, bottom.as_ptr(), m, width, tracks, entries, len)
    };
    accept_drawing(r)
}

/// Fills the first 256 records of a table, one for each net number, with length
/// 0; what follows keeps its contents. With refusal 4 to 7 or 9 nothing is
/// written.
pub fn report(top: &[u16], bottom: &[u16], table: &mut [NetRecord]) -> Result<(), Refusal> {
    let (n, m) = (top.len(), bottom.len());
    let (figures, len) = NetRecord::figures(table);
    let number = unsafe { raw::gaxwethi_report(top.as_ptr(), n, bottom.as_ptr(), m, figures, len) };
    accept(number, ())
}

/// Fills a table as [`report`] does, with the lengths in a drawing that
/// [`check`] passes. With refusal 4 to 7, then 9, then those of [`check`] with
/// their place nothing is written.
pub fn report_drawing(
    top: &[u16],
    bottom: &[u16],
    width: usize,
    tracks: usize,
    layout: &[u16],
    table: &mut [NetRecord],
) -> Result<(), Fault> {
    let (n, m, len) = (top.len(), bottom.len(), layout.len());
    let (top, bottom, entries) = (top.as_ptr(), bottom.as_ptr(), layout.as_ptr());
    let (figures, count) = NetRecord::figures(table);
    let r = unsafe {
        raw::gaxwethi_report_drawing(top, n, bottom, m, width, tracks, entries, len, figures, count)
    };
    accept_drawing(r)
}

/// Column c, counted from 1, of a drawing: its 2t + 1 entries. The part is
/// empty if w or t is over 511, the slice is not w × (2t + 1) entries, or c is
/// not 1 to w.
pub fn column(layout: &[u16], width: usize, tracks: usize, c: usize) -> &[u16] {
    let part = unsafe { raw::gaxwethi_column(layout.len(), width, tracks, c) };
    match part.length {
        0 => &[],
        length => &layout[part.offset..part.offset + length],
    }
}

/// The listing of a record, as `knee` writes it, or refusal 1 to 7, where 5 is
/// over 64 columns.
pub fn list(record: &[u8]) -> Result<String, Refusal> {
    let mut text = vec![0; raw::TEXT];
    // SAFETY: the text has the size that the library expects.
    let r = unsafe { raw::gaxwethi_list(record.as_ptr(), record.len(), text.as_mut_ptr()) };
    accept(r.number, ())?;
    text.truncate(r.length);
    Ok(String::from_utf8(text).expect("a listing is ASCII text"))
}

/// Writes the canonical record of a channel: of kind 1, with the nets renumbered
/// 1, 2, 3 ... in the order of their first pin, column by column, top before
/// bottom. Two channels get equal bytes precisely when a one-to-one renaming of
/// nets turns one into the other.
///
/// The record is the first 6 + 4n bytes of the slice, for n columns, and the answer
/// is how many these are; what follows keeps its contents. With refusal 4 to 7 or 18
/// nothing is written; 18 is a slice that is shorter.
pub fn canonical(top: &[u16], bottom: &[u16], bytes: &mut [u8]) -> Result<usize, Refusal> {
    let (n, m, len) = (top.len(), bottom.len(), bytes.len());
    let out = bytes.as_mut_ptr();
    let r = unsafe { raw::gaxwethi_canonical(top.as_ptr(), n, bottom.as_ptr(), m, out, len) };
    accept(r.number, r.length)
}

/// Writes the channel with the widest drawing into two rows of n entries each: a channel
/// of two-pin nets to which [`route`] adds n/2 columns, rounded down, which is the answer.
/// No channel of two-pin nets with n columns has a wider drawing. For odd n the first
/// column is empty.
///
/// What the rows hold is not read. With refusal 4 or 5 nothing is written.
///
/// ```
/// let (mut top, mut bottom) = ([0; 5], [0; 5]);
/// assert_eq!(gaxwethi::widest(&mut top, &mut bottom), Ok(2));
/// assert_eq!((top, bottom), ([0, 2, 4, 1, 3], [0, 1, 3, 2, 4]));
/// let mut layout = vec![0; gaxwethi::need(&top, &bottom)?];
/// assert_eq!(gaxwethi::route(&top, &bottom, &mut layout)?.width, 5 + 2);
/// # Ok::<(), gaxwethi::Refusal>(())
/// ```
pub fn widest(top: &mut [u16], bottom: &mut [u16]) -> Result<usize, Refusal> {
    let (n, m) = (top.len(), bottom.len());
    let r = unsafe { raw::gaxwethi_widest(top.as_mut_ptr(), n, bottom.as_mut_ptr(), m) };
    accept(r.number, r.added)
}
