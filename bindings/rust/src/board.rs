//! A channel on the drawing board: nets come and go, and the density is known.

use crate::{accept, raw, Refusal, Terminal};

/// A channel with a fixed number of columns, to which two-pin nets are added and from
/// which they are dropped.
///
/// The count at each gap, the nets with a pin on both sides of it, is stored and mended
/// by each change, never recounted. A refused change leaves the board as it is.
///
/// ```
/// use gaxwethi::{Board, Refusal, Side, Terminal};
/// let mut board = Board::new(4)?;
/// let at = |column, side| Terminal { column, side };
/// board.add(7, at(1, Side::Top), at(3, Side::Bottom))?;
/// board.add(2, at(4, Side::Top), at(2, Side::Top))?;
/// assert_eq!((board.density(), board.counts()), (2, &[1, 2, 1][..]));
/// assert_eq!(board.add(9, at(1, Side::Top), at(4, Side::Bottom)), Err(Refusal::TerminalTaken));
/// board.drop_net(7)?;
/// assert_eq!(board.drop_net(7), Err(Refusal::AbsentNet));
/// assert_eq!((board.top(), board.bottom()), (&[0, 2, 0, 2][..], &[0; 4][..]));
/// assert_eq!([0, 1, 2, 3, 4].map(|gap| board.count(gap)), [0, 0, 1, 1, 0]);
/// # Ok::<(), gaxwethi::Refusal>(())
/// ```
#[derive(Clone, Debug, PartialEq, Eq)]
pub struct Board {
    board: raw::Board,
}

impl Board {
    /// A board without nets, or refusal 5 for over 256 columns.
    pub fn new(columns: usize) -> Result<Board, Refusal> {
        let mut board = raw::Board::default();
        accept(board.start(columns), ())?;
        Ok(Board { board })
    }

    /// The columns of the channel.
    pub fn columns(&self) -> usize {
        self.board.columns
    }

    /// The top row; 0 is no pin.
    pub fn top(&self) -> &[u16] {
        &self.board.top[..self.columns()]
    }

    /// The bottom row.
    pub fn bottom(&self) -> &[u16] {
        &self.board.bottom[..self.columns()]
    }

    /// The counts at the gaps 1 to one less than the columns, in their order.
    pub fn counts(&self) -> &[u16] {
        &self.board.counts[1..self.columns().max(1)]
    }

    /// The largest count; 0 where there is no gap.
    pub fn density(&self) -> u16 {
        self.board.density()
    }

    /// The count at a gap; 0 outside 1 to one less than the columns.
    pub fn count(&self, gap: usize) -> u16 {
        self.board.count(gap)
    }

    /// Adds a net at two terminals, or refusal 6, 21 or 22, checked in that order. A
    /// dropped number may be used again.
    pub fn add(&mut self, net: u16, one: Terminal, other: Terminal) -> Result<(), Refusal> {
        let [side1, side2] = [one.side, other.side].map(|side| side as u16);
        accept(self.board.add(net, one.column, side1, other.column, side2), ())
    }

    /// Drops a net, or refusal 6 or 24, checked in that order.
    pub fn drop_net(&mut self, net: u16) -> Result<(), Refusal> {
        accept(self.board.drop(net), ())
    }
}
