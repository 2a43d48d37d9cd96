//! A sweep that its caller drives, for channels of two-pin nets, with late nets. The
//! state lies in the caller's arrays between the calls. Each step copies it there and
//! back: it stands in for the library's, and its speed is no measure.

use super::{Strands, Sweep};
use crate::rows::{densest, nets, Family, Net, Nets};
use crate::set::Set;

/// The state: the rows in 256 places, each net's first and last column, the tracks, the
/// free ones, each net's strands, and the stretched nets.
#[derive(Clone)]
pub struct State {
    pub columns: usize,
    pub tracks: usize,
    pub drawn: usize,
    pub rows: [[u16; 256]; 2],
    pub first: [u16; 257],
    pub last: [u16; 257],
    pub strands: [u16; 512],
    pub free: [u64; 8],
    pub low: [u16; 257],
    pub high: [u16; 257],
    pub many: [u16; 257],
    pub extended: [u64; 8],
}

impl Default for State {
    /// The state of the channel without columns.
    fn default() -> State {
        State {
            columns: 0,
            tracks: 0,
            drawn: 0,
            rows: [[0; 256]; 2],
            first: [0; 257],
            last: [0; 257],
            strands: [0; 512],
            free: [0; 8],
            low: [0; 257],
            high: [0; 257],
            many: [0; 257],
            extended: [0; 8],
        }
    }
}

impl State {
    /// The state before the first column, or refusal 4 to 7.
    pub fn start(top: &[u16], bottom: &[u16]) -> Result<State, u16> {
        let nets = nets(top, bottom, 256)?;
        if nets.iter().any(|net| net.pins > 2) {
            return Err(7);
        }
        let mut state = State { columns: top.len(), ..State::default() };
        for (row, given) in state.rows.iter_mut().zip([top, bottom]) {
            row[..given.len()].copy_from_slice(given);
        }
        state.tracks = densest(top.len(), &nets);
        state.know(&nets);
        let mut free = Set::default();
        (1..=state.tracks).for_each(|track| free.insert(track));
        state.free = free.0;
        Ok(state)
    }

    /// The slice length that each step needs.
    pub fn length(&self) -> usize {
        (self.columns + self.tracks / 2) * (2 * self.tracks + 1)
    }

    /// Draws up to k columns more: how many are drawn, and whether these are all.
    pub fn step(&mut self, layout: &mut [u16], k: usize) -> Result<(usize, bool), u16> {
        if layout.len() < self.length() {
            return Err(8);
        }
        let nets = self.nets();
        let mut sweep = self.resumed(&nets);
        let places = layout.chunks_exact_mut(2 * self.tracks + 1).skip(self.drawn);
        for place in places.take(k) {
            if self.finished(&sweep) {
                break;
            }
            let verticals = sweep.step(self.pin(0), self.pin(1));
            sweep.draw(place, verticals);
            self.drawn += 1;
        }
        let finished = self.finished(&sweep);
        self.keep(&sweep);
        Ok((self.drawn, finished))
    }

    /// Places a late net at two terminals, each a column and a side, or refusal 6, 21, 22
    /// or 23.
    pub fn place(&mut self, net: u16, terminals: [(usize, u16); 2]) -> Result<(), u16> {
        if net == 0 || net > 256 {
            return Err(6);
        }
        if self.rows.as_flattened().contains(&net) {
            return Err(21);
        }
        let mut placed = self.clone();
        for (column, side) in terminals {
            *placed.terminal(column, side).filter(|pin| **pin == 0).ok_or(22u16)? = net;
        }
        let n = self.columns;
        let nets = nets(&placed.rows[0][..n], &placed.rows[1][..n], 256)?;
        if densest(n, &nets) > self.tracks {
            return Err(23);
        }
        placed.know(&nets);
        *self = placed;
        Ok(())
    }

    /// The pin in the next column of a row; there is none in an added column.
    fn pin(&self, side: usize) -> u16 {
        let row = &self.rows[side][..self.columns];
        row.get(self.drawn).copied().unwrap_or(0)
    }

    /// The place of a pin that may still be placed.
    fn terminal(&mut self, column: usize, side: u16) -> Option<&mut u16> {
        let open = self.drawn + 1..self.columns + 1;
        let row = self.rows.get_mut(side as usize)?;
        row.get_mut(column.wrapping_sub(1)).filter(|_| open.contains(&column))
    }

    /// Whether all columns are drawn.
    fn finished(&self, sweep: &Sweep) -> bool {
        self.drawn >= self.columns && sweep.stretched.len() == 0
    }

    /// Takes down the first and last columns of the nets.
    fn know(&mut self, nets: &Nets) {
        self.first = nets.map(|net| net.first);
        self.last = nets.map(|net| net.last);
    }

    /// The nets, by their first and last columns.
    fn nets(&self) -> Nets {
        let mut nets = [Net::default(); 257];
        for (net, (&first, &last)) in nets.iter_mut().zip(self.first.iter().zip(&self.last)) {
            (net.first, net.last) = (first, last);
        }
        nets
    }

    /// The sweep, as it goes on.
    fn resumed<'a>(&self, nets: &'a Nets) -> Sweep<'a> {
        let strands = |net: usize| Strands {
            low: self.low[net].into(),
            high: self.high[net].into(),
            count: self.many[net].into(),
        };
        Sweep {
            nets,
            family: Family::TwoPin,
            t: self.tracks,
            c: self.drawn as u16 + 1,
            tracks: self.strands,
            free: Set(self.free),
            strands: std::array::from_fn(strands),
            stretched: Set(self.extended),
            wide: Set::default(),
            mates: [0; 257],
            lone: Set::default(),
        }
    }

    /// Takes down how the sweep stands.
    fn keep(&mut self, sweep: &Sweep) {
        self.strands = sweep.tracks;
        self.free = sweep.free.0;
        self.low = sweep.strands.map(|net| net.low as u16);
        self.high = sweep.strands.map(|net| net.high as u16);
        self.many = sweep.strands.map(|net| net.count as u16);
        self.extended = sweep.stretched.0;
    }
}
