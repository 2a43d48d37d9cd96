//! The left-to-right sweeps: what their rules share. The rules of each are in a
//! file of their own.

mod many_pin;
pub mod steps;
mod three_pin;
mod two_pin;

use crate::rows::{density_of, nets, tracks_of, Family, Nets};
use crate::{Figures, MOST_COLUMNS};

/// What a pin does to its net; `None` where there is no pin.
#[derive(Clone, Copy, PartialEq, Eq)]
enum Kind {
    None,
    Start,
    End,
    Continue,
}

/// The state of a sweep at one column.
struct Sweep<'a> {
    nets: &'a Nets,
    t: usize,
    /// The column, counted from 1.
    c: usize,
    /// The net on each track in the gap left of the column; place 0 is unused.
    gap: Vec<u16>,
    /// The net on each track in the gap right of the column.
    leaving: Vec<u16>,
    /// The column's vertical edges from row 0 upward.
    vertical: Vec<u16>,
    /// The drawing so far.
    entries: Vec<u16>,
    /// The pairs of nets, each a double and a single one; only one sweep has any.
    pairs: Vec<(u16, u16)>,
}

/// The slice length that routing calls for, w × (2t + 1), or the refusal.
pub fn need(top: &[u16], bottom: &[u16]) -> Result<usize, u16> {
    let nets = nets(top, bottom, MOST_COLUMNS)?;
    let (figures, _) = draw(top, bottom, &nets);
    Ok(figures.width * (2 * figures.tracks + 1))
}

/// Routes a channel into a layout slice: figures, or the refusal's number. A
/// refused call writes nothing, and entries after the drawing stay as they were.
pub fn route(top: &[u16], bottom: &[u16], layout: &mut [u16]) -> Result<Figures, u16> {
    let nets = nets(top, bottom, MOST_COLUMNS)?;
    let (figures, entries) = draw(top, bottom, &nets);
    if layout.len() < entries.len() {
        return Err(8);
    }
    layout[..entries.len()].copy_from_slice(&entries);
    Ok(figures)
}

/// The figures and the drawing of a channel whose rows are not refused.
pub fn draw(top: &[u16], bottom: &[u16], nets: &Nets) -> (Figures, Vec<u16>) {
    let family = nets.family();
    let density = density_of(nets, top.len());
    let tracks = tracks_of(family, density);
    let mut sweep = Sweep::new(nets, tracks);
    for (&top, &bottom) in top.iter().zip(bottom) {
        match family {
            _ if top == 0 && bottom == 0 => sweep.empty_column(),
            Family::TwoPin => sweep.two_pin_column(top, bottom),
            Family::ThreePin => sweep.three_pin_column(top, bottom),
            Family::ManyPin => sweep.many_pin_column(top, bottom),
        }
        sweep.close_column();
    }
    while sweep.stretched().is_some() {
        sweep.empty_column();
        sweep.close_column();
    }
    let width = sweep.c - 1;
    (Figures { density, tracks, width }, sweep.entries)
}

impl<'a> Sweep<'a> {
    fn new(nets: &'a Nets, t: usize) -> Self {
        Sweep {
            nets,
            t,
            c: 1,
            gap: vec![0; t + 1],
            leaving: vec![0; t + 1],
            vertical: vec![0; t + 1],
            entries: Vec::new(),
            pairs: Vec::new(),
        }
    }

    /// Writes the column down and goes on to the next one.
    fn close_column(&mut self) {
        self.entries.extend_from_slice(&self.vertical);
        self.entries.extend_from_slice(&self.leaving[1..]);
        self.vertical.fill(0);
        self.gap.copy_from_slice(&self.leaving);
        self.c += 1;
    }

    // Questions about the gap left of the column.

    fn kind(&self, net: u16) -> Kind {
        if net == 0 {
            Kind::None
        } else if self.nets.first(net) == self.c {
            Kind::Start
        } else if self.nets.last(net) == self.c {
            Kind::End
        } else {
            Kind::Continue
        }
    }

    /// Whether pins of the net follow after this column.
    fn follows(&self, net: u16) -> bool {
        self.nets.last(net) > self.c
    }

    /// The net's strands, lowest track first.
    fn strands(&self, net: u16) -> Vec<usize> {
        (1..=self.t).filter(|&k| self.gap[k] == net).collect()
    }

    fn lowest(&self, net: u16) -> usize {
        (1..=self.t).find(|&k| self.gap[k] == net).unwrap()
    }

    fn highest(&self, net: u16) -> usize {
        (1..=self.t).rfind(|&k| self.gap[k] == net).unwrap()
    }

    /// The lowest free tracks.
    fn free(&self) -> impl Iterator<Item = usize> + '_ {
        (1..=self.t).filter(|&k| self.gap[k] == 0)
    }

    /// The lowest-numbered net that has strands though all its pins lie left.
    fn stretched(&self) -> Option<u16> {
        let here = self.gap.iter().copied().filter(|&net| net != 0);
        here.filter(|&net| self.nets.last(net) < self.c).min()
    }

    /// The lowest-numbered open net with three or more strands.
    fn wide(&self) -> Option<u16> {
        let mut count = [0; crate::MOST_NETS + 1];
        self.gap.iter().for_each(|&net| count[net as usize] += 1);
        let mut here = self.nets.numbers();
        here.find(|&net| count[net as usize] >= 3 && self.nets.last(net) >= self.c)
    }

    // Strokes of the pen.

    /// Draws a net's vertical from one row up to another.
    fn rise(&mut self, net: u16, from: usize, to: usize) {
        for y in from..to {
            assert_eq!(self.vertical[y], 0, "two verticals overlap");
            self.vertical[y] = net;
        }
    }

    /// Draws a top pin's vertical down to a track.
    fn top_to(&mut self, net: u16, track: usize) {
        self.rise(net, track, self.t + 1);
    }

    /// Draws a bottom pin's vertical up to a track.
    fn bottom_to(&mut self, net: u16, track: usize) {
        self.rise(net, 0, track);
    }

    /// Joins all strands of a net.
    fn join(&mut self, net: u16) {
        self.rise(net, self.lowest(net), self.highest(net));
    }

    /// Lets none of a net's strands leave.
    fn drop(&mut self, net: u16) {
        for k in 1..=self.t {
            if self.gap[k] == net {
                self.leaving[k] = 0;
            }
        }
    }

    /// A starting or added top pin on a track.
    fn top_takes(&mut self, net: u16, track: usize) {
        self.top_to(net, track);
        self.leaving[track] = net;
    }

    /// A starting or added bottom pin on a track.
    fn bottom_takes(&mut self, net: u16, track: usize) {
        self.bottom_to(net, track);
        self.leaving[track] = net;
    }

    // What the sweeps share.

    /// A column without pins: the lowest-numbered stretched net is joined.
    fn empty_column(&mut self) {
        if let Some(net) = self.stretched() {
            self.join(net);
            self.drop(net);
        }
    }

    /// One or two starting pins on free tracks, the top one higher.
    fn start_on_free(&mut self, top: u16, bottom: u16) {
        let mut free = self.free();
        let first = free.next().expect("a free track");
        let second = free.next();
        drop(free);
        match (top, bottom) {
            (_, 0) => self.top_takes(top, first),
            (0, _) => self.bottom_takes(bottom, first),
            _ => {
                self.bottom_takes(bottom, first);
                self.top_takes(top, second.expect("a second free track"));
            }
        }
    }

    /// Joins a net; pins of other nets take its outermost tracks.
    fn join_and_take(&mut self, net: u16, top: u16, bottom: u16) {
        let (a, b) = (self.lowest(net), self.highest(net));
        self.join(net);
        self.drop(net);
        match top {
            0 => {}
            _ if top == net => self.top_to(net, b),
            _ => self.top_takes(top, b),
        }
        match bottom {
            0 => {}
            _ if bottom == net => self.bottom_to(net, a),
            _ => self.bottom_takes(bottom, a),
        }
    }

    /// The top net ends; a bottom pin's net gets the lowest of its tracks.
    fn end_top(&mut self, top: u16, bottom: u16) {
        let track = self.lowest(top);
        self.top_to(top, track);
        self.drop(top);
        if bottom != 0 {
            self.bottom_takes(bottom, track);
        }
    }

    /// The bottom net ends; a top pin's net gets the highest of its tracks.
    fn end_bottom(&mut self, top: u16, bottom: u16) {
        let track = self.highest(bottom);
        self.bottom_to(bottom, track);
        self.drop(bottom);
        if top != 0 {
            self.top_takes(top, track);
        }
    }

    /// Both nets end, the bottom one lying below the top one.
    fn end_both(&mut self, top: u16, bottom: u16) {
        self.end_top(top, 0);
        self.end_bottom(0, bottom);
    }

    /// A continuing top net; the bottom net gets one more track.
    fn continue_top(&mut self, top: u16, bottom: u16) {
        let m = self.highest(top);
        let f = self.free().next().expect("a free track");
        self.top_to(top, m);
        if f < m {
            self.bottom_takes(bottom, f);
        } else {
            self.leaving[f] = top;
            self.bottom_takes(bottom, m);
        }
    }

    /// A continuing bottom net; the top net gets one more track.
    fn continue_bottom(&mut self, top: u16, bottom: u16) {
        let l = self.lowest(bottom);
        let f = self.free().next().expect("a free track");
        self.bottom_to(bottom, l);
        if f > l {
            self.top_takes(top, f);
        } else {
            self.leaving[f] = bottom;
            self.top_takes(top, l);
        }
    }
}
