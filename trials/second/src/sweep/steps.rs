//! The sweep that is driven column by column, for channels of two-pin nets, with
//! late nets.

use super::Sweep;
use crate::placing::{placed, Rows, Terminal};
use crate::rows::{density_of, nets, Nets};
use crate::MOST_COLUMNS;

/// The answer of a start; the slice is the length that every step needs.
#[derive(Clone, Copy, Debug, Default, PartialEq, Eq)]
pub struct Started {
    pub number: u16,
    pub tracks: usize,
    pub slice: usize,
}

/// The answer of a step: the columns drawn so far, and whether these are all.
#[derive(Clone, Copy, Debug, Default, PartialEq, Eq)]
pub struct Stepped {
    pub number: u16,
    pub drawn: usize,
    pub finished: bool,
}

/// The state of such a sweep; without more, that of the channel without columns.
#[derive(Clone, Debug, Default, PartialEq, Eq)]
pub struct Steps {
    /// The top and the bottom row, with the late nets so far.
    rows: Rows,
    tracks: usize,
    drawn: usize,
    /// The net on each track in the gap right of the last drawn column.
    gap: Vec<u16>,
}

impl Steps {
    /// Begins the sweep of a channel. Refused rows leave the channel without columns.
    pub fn start(&mut self, top: &[u16], bottom: &[u16]) -> Started {
        *self = Steps::default();
        let nets = match nets(top, bottom, MOST_COLUMNS) {
            Ok(nets) if nets.numbers().all(|net| nets.pins(net) == 2) => nets,
            refused => return Started { number: refused.err().unwrap_or(7), ..Started::default() },
        };
        self.rows = [top.to_vec(), bottom.to_vec()];
        self.tracks = density_of(&nets, top.len());
        self.gap = vec![0; self.tracks];
        Started { number: 0, tracks: self.tracks, slice: self.slice() }
    }

    /// Draws the next columns, or those that are left, into their places. A refused
    /// step changes neither the sweep nor the slice.
    pub fn step(&mut self, layout: &mut [u16], columns: usize) -> Stepped {
        if layout.len() < self.slice() {
            return Stepped { number: 8, ..Stepped::default() };
        }
        let places = layout.chunks_exact_mut(2 * self.tracks + 1).skip(self.drawn);
        for place in places.take(columns) {
            if self.finished() {
                break;
            }
            place.copy_from_slice(&self.next_column());
        }
        Stepped { number: 0, drawn: self.drawn, finished: self.finished() }
    }

    /// Places a late net: 0, or the refusal's number. A refused net changes nothing.
    pub fn place(&mut self, net: u16, terminals: [Terminal; 2]) -> u16 {
        let rows = match placed(&self.rows, self.drawn, net, terminals) {
            Ok(rows) => rows,
            Err(number) => return number,
        };
        if density_of(&Nets::of(&rows[0], &rows[1]), rows[0].len()) > self.tracks {
            return 23;
        }
        self.rows = rows;
        0
    }

    /// Whether all columns are drawn, those added too.
    pub fn finished(&self) -> bool {
        self.drawn >= self.rows[0].len() && self.gap.iter().all(|&net| net == 0)
    }

    /// The top and the bottom row, with the late nets so far.
    pub fn rows(&self) -> (&[u16], &[u16]) {
        (&self.rows[0], &self.rows[1])
    }

    /// The tracks of the drawing.
    pub fn tracks(&self) -> usize {
        self.tracks
    }

    /// The columns drawn so far.
    pub fn drawn(&self) -> usize {
        self.drawn
    }

    /// The slice length of document 01's formula.
    fn slice(&self) -> usize {
        (self.rows[0].len() + self.tracks / 2) * (2 * self.tracks + 1)
    }

    /// The pin in the next column of a row; there is none in an added column.
    fn pin(&self, side: usize) -> u16 {
        self.rows[side].get(self.drawn).copied().unwrap_or(0)
    }

    /// Draws the next column: its entries.
    fn next_column(&mut self) -> Vec<u16> {
        let nets = Nets::of(&self.rows[0], &self.rows[1]);
        let mut sweep = Sweep::new(&nets, self.tracks);
        sweep.c = self.drawn + 1;
        sweep.gap[1..].copy_from_slice(&self.gap);
        sweep.leaving[1..].copy_from_slice(&self.gap);
        match (self.pin(0), self.pin(1)) {
            (0, 0) => sweep.empty_column(),
            (top, bottom) => sweep.two_pin_column(top, bottom),
        }
        sweep.close_column();
        self.gap.copy_from_slice(&sweep.gap[1..]);
        self.drawn += 1;
        sweep.entries
    }
}
