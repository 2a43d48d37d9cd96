//! The channel on the drawing board. It keeps nothing but the rows: each count is
//! counted anew when it is asked for.

use crate::placing::{numbered, placed, used, Rows, Terminal};
use crate::rows::{crossing, density_of, Nets};
use crate::MOST_COLUMNS;

/// A channel of two-pin nets; without more, that without columns.
#[derive(Clone, Debug, Default, PartialEq, Eq)]
pub struct Board {
    rows: Rows,
}

impl Board {
    /// A board without nets, after 0 or the refusal's number. A refused one has no
    /// columns.
    pub fn new(columns: usize) -> (u16, Board) {
        if columns > MOST_COLUMNS {
            return (5, Board::default());
        }
        (0, Board { rows: [vec![0; columns], vec![0; columns]] })
    }

    /// Adds a net with a pin at each of two terminals, which are a column, counted from
    /// 1, and a side, 0 for top and 1 for bottom: 0, or the refusal's number. A refused
    /// net changes nothing.
    pub fn add(&mut self, net: u16, column1: usize, side1: u16, column2: usize, side2: u16) -> u16 {
        let terminals = [(column1, side1), (column2, side2)]
            .map(|(column, side)| Terminal { column, side: side.into() });
        match placed(&self.rows, 0, net, terminals) {
            Ok(rows) => self.rows = rows,
            Err(number) => return number,
        }
        0
    }

    /// Drops a net: 0, or the refusal's number.
    pub fn drop(&mut self, net: u16) -> u16 {
        if !numbered(net) {
            return 6;
        }
        if !used(&self.rows, net) {
            return 24;
        }
        for pin in self.rows.iter_mut().flatten().filter(|pin| **pin == net) {
            *pin = 0;
        }
        0
    }

    /// The largest count over the gaps.
    pub fn density(&self) -> u16 {
        density_of(&self.nets(), self.columns()) as u16
    }

    /// The nets with pins on both sides of a gap; 0 where there is no such gap.
    pub fn count(&self, gap: usize) -> u16 {
        crossing(&self.nets(), gap) as u16
    }

    /// The number of columns.
    pub fn columns(&self) -> usize {
        self.rows[0].len()
    }

    /// The top and the bottom row.
    pub fn rows(&self) -> (&[u16], &[u16]) {
        (&self.rows[0], &self.rows[1])
    }

    fn nets(&self) -> Nets {
        Nets::of(&self.rows[0], &self.rows[1])
    }
}
