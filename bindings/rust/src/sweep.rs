//! A sweep that its caller drives, with late nets.

use crate::{accept, raw, Refusal};

/// A side of a channel.
#[derive(Clone, Copy, Debug, PartialEq, Eq, Hash)]
pub enum Side {
    Top = 0,
    Bottom = 1,
}

/// A place for a pin.
#[derive(Clone, Copy, Debug, PartialEq, Eq, Hash)]
pub struct Terminal {
    /// The column, counted from 1.
    pub column: usize,
    pub side: Side,
}

/// A sweep that is driven column by column, for channels of two-pin nets. Until it is
/// finished, nets may still be placed right of the columns drawn so far.
///
/// The finished drawing is the one that [`route`](crate::route) draws of the channel
/// with all late nets, however the steps are grouped. This holds where each step is
/// lent the slice as the step before left it.
///
/// ```
/// use gaxwethi::{Refusal, Side, Sweep, Terminal};
/// let mut sweep = Sweep::start(&[1, 1, 0, 0], &[0, 0, 0, 0])?;
/// let mut layout = vec![0; sweep.entries()];
/// assert_eq!(sweep.step(&mut layout, 2), Ok(2));
/// let at = |column, side| Terminal { column, side };
/// let late = sweep.place(2, at(2, Side::Bottom), at(4, Side::Bottom));
/// assert_eq!(late, Err(Refusal::TerminalTaken)); // Column 2 is drawn.
/// sweep.place(2, at(3, Side::Top), at(4, Side::Bottom))?;
/// while !sweep.finished() {
///     sweep.step(&mut layout, 1)?;
/// }
/// let (top, bottom) = sweep.rows();
/// assert_eq!((top, bottom), (&[1, 1, 2, 0][..], &[0, 0, 0, 2][..]));
/// let mut whole = vec![0; sweep.entries()];
/// gaxwethi::route(top, bottom, &mut whole)?;
/// assert_eq!(layout, whole);
/// # Ok::<(), gaxwethi::Refusal>(())
/// ```
#[derive(Clone, Debug, PartialEq, Eq)]
pub struct Sweep {
    state: raw::State,
    entries: usize,
    finished: bool,
}

impl Sweep {
    /// Begins the sweep of a channel, on as many tracks as its density, or refusal 4 to
    /// 7, where 7 is any net without exactly two pins.
    pub fn start(top: &[u16], bottom: &[u16]) -> Result<Sweep, Refusal> {
        let mut state = raw::State::default();
        let r = state.start(top, bottom);
        accept(r.number, Sweep { state, entries: r.length, finished: top.is_empty() })
    }

    /// The columns of the channel.
    pub fn columns(&self) -> usize {
        self.state.columns
    }

    /// The tracks of the drawing; late nets do not change them.
    pub fn tracks(&self) -> usize {
        self.state.tracks
    }

    /// The length of the layout slice that every step needs, (n + t/2 rounded down) ×
    /// (2t + 1) for n columns and t tracks: late nets can change the width.
    pub fn entries(&self) -> usize {
        self.entries
    }

    /// The columns drawn so far; of a finished sweep, the width.
    pub fn drawn(&self) -> usize {
        self.state.drawn
    }

    /// The top and the bottom row, with the late nets so far.
    pub fn rows(&self) -> (&[u16], &[u16]) {
        let n = self.columns();
        (&self.state.top[..n], &self.state.bottom[..n])
    }

    /// Whether all columns are drawn, those added after the channel's too.
    pub fn finished(&self) -> bool {
        self.finished
    }

    /// Draws the next columns, or those that are left, into their places: the channel's,
    /// then the added ones. All else in the slice keeps its contents. The answer is the
    /// columns drawn so far.
    ///
    /// A slice shorter than [`entries`](Sweep::entries) is refusal 8, also where nothing
    /// is left to draw; then sweep and slice stay as they are.
    pub fn step(&mut self, layout: &mut [u16], columns: usize) -> Result<usize, Refusal> {
        let r = self.state.step(layout, columns);
        accept(r.number, ())?;
        self.finished = r.finished;
        Ok(r.drawn)
    }

    /// Places a late net at two terminals. With refusal 6, 21, 22 or 23, checked in that
    /// order, the sweep stays as it is.
    pub fn place(&mut self, net: u16, one: Terminal, other: Terminal) -> Result<(), Refusal> {
        let [side1, side2] = [one.side, other.side].map(|side| side as u16);
        accept(self.state.place(net, one.column, side1, other.column, side2), ())
    }
}
