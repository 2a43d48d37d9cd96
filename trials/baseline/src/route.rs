//! The sweeps, with an index of each net's strands and bit sets.

mod many_pin;
pub mod steps;
mod three_pin;
mod two_pin;

use crate::rows::{densest, family, nets, Family, Nets};
use crate::set::Set;
use Verticals::{Five, Three};

/// The rows of a channel that is not refused, and what they settle.
struct Channel<'a> {
    top: &'a [u16],
    bottom: &'a [u16],
    nets: &'a Nets,
    family: Family,
    density: usize,
    tracks: usize,
}

impl<'a> Channel<'a> {
    fn new(top: &'a [u16], bottom: &'a [u16], nets: &'a Nets) -> Self {
        let family = family(top, bottom, nets);
        let density = densest(top.len(), nets);
        let tracks = match family {
            Family::TwoPin => density,
            Family::ThreePin => 3 * density / 2,
            Family::ManyPin => 2 * density - 1,
        };
        Channel { top, bottom, nets, family, density, tracks }
    }

    /// The pins of each column, top and bottom.
    fn columns(&self) -> impl Iterator<Item = (u16, u16)> + 'a {
        self.top.iter().copied().zip(self.bottom.iter().copied())
    }

    /// The entries of a drawing with some columns added.
    fn entries(&self, added: usize) -> usize {
        (self.top.len() + added) * (2 * self.tracks + 1)
    }

    /// The slice length of document 01's formula.
    fn formula(&self) -> usize {
        self.entries(self.tracks / 2)
    }

    /// The slice length that the drawing fills, by a dry run.
    fn need(&self) -> usize {
        let mut sweep = Sweep::new(self);
        for (p, q) in self.columns() {
            sweep.step(p, q);
        }
        self.entries(sweep.stretched.len())
    }

    /// Draws the channel and returns the width.
    fn draw(&self, layout: &mut [u16]) -> usize {
        let mut sweep = Sweep::new(self);
        let mut columns = layout.chunks_exact_mut(2 * self.tracks + 1);
        for ((p, q), column) in self.columns().zip(&mut columns) {
            let verticals = sweep.step(p, q);
            sweep.draw(column, verticals);
        }
        let mut width = self.top.len();
        while let Some(join) = sweep.stretched.lowest() {
            let verticals = sweep.join_stretched(join as u16, 0, 0);
            sweep.draw(columns.next().unwrap(), verticals);
            width += 1;
        }
        width
    }
}

/// What a routed channel reports.
#[derive(Clone, Copy, Default)]
pub struct Figures {
    pub density: usize,
    pub tracks: usize,
    pub width: usize,
}

#[derive(Clone, Copy, PartialEq, Eq)]
enum Kind {
    None,
    Starts,
    Ends,
    Continues,
}

#[derive(Clone, Copy, Default)]
struct Strands {
    low: usize,
    high: usize,
    count: usize,
}

/// The verticals of a column, from the bottom up: nets, and the rows where the
/// next run begins.
enum Verticals {
    Three(u16, usize, u16, usize, u16),
    /// With nothing drawn beside the middle net.
    Five([u16; 3], [usize; 4]),
}

struct Sweep<'a> {
    nets: &'a Nets,
    family: Family,
    t: usize,
    c: u16,
    tracks: [u16; 512],
    free: Set,
    strands: [Strands; 257],
    stretched: Set,
    wide: Set,
    /// The net that each is paired with, 0 for none.
    mates: [u16; 257],
    /// The nets with two strands and no mate.
    lone: Set,
}

impl<'a> Sweep<'a> {
    fn new(channel: &Channel<'a>) -> Self {
        let mut free = Set::default();
        (1..=channel.tracks).for_each(|track| free.insert(track));
        Sweep {
            nets: channel.nets,
            family: channel.family,
            t: channel.tracks,
            c: 1,
            tracks: [0; 512],
            free,
            strands: [Strands::default(); 257],
            stretched: Set::default(),
            wide: Set::default(),
            mates: [0; 257],
            lone: Set::default(),
        }
    }

    fn kind(&self, net: u16) -> Kind {
        let pins = &self.nets[net as usize];
        if net == 0 {
            Kind::None
        } else if pins.first == self.c {
            Kind::Starts
        } else if pins.last == self.c {
            Kind::Ends
        } else {
            Kind::Continues
        }
    }

    fn later(&self, net: u16) -> bool {
        self.nets[net as usize].last > self.c
    }

    /// The second lowest strand of a net with two or more.
    fn second(&self, net: u16) -> usize {
        let Strands { low, high, .. } = self.strands[net as usize];
        (low + 1..high).find(|&track| self.tracks[track] == net).unwrap_or(high)
    }

    fn drop_net(&mut self, net: u16) {
        let strands = self.strands[net as usize];
        if strands.count == 0 {
            return;
        }
        self.strands[net as usize].count = 0;
        if strands.count <= 2 {
            for track in [strands.low, strands.high] {
                self.tracks[track] = 0;
                self.free.insert(track);
            }
            return;
        }
        for track in strands.low..=strands.high {
            if self.tracks[track] == net {
                self.tracks[track] = 0;
                self.free.insert(track);
            }
        }
    }

    fn add(&mut self, track: usize, net: u16) {
        self.tracks[track] = net;
        self.free.remove(track);
        let s = &mut self.strands[net as usize];
        *s = if s.count == 0 {
            Strands { low: track, high: track, count: 1 }
        } else {
            Strands { low: s.low.min(track), high: s.high.max(track), count: s.count + 1 }
        };
    }

    /// Puts a net into the sets of stretched and wide nets where it belongs.
    fn sort(&mut self, net: u16) {
        if net == 0 {
            return;
        }
        let i = net as usize;
        self.stretched.remove(i);
        self.wide.remove(i);
        match (self.later(net), self.strands[i].count) {
            (false, 1..) => self.stretched.insert(i),
            (true, 3..) => self.wide.insert(i),
            _ => {}
        }
    }

    fn draw(&self, out: &mut [u16], v: Verticals) {
        let (vertical, leaving) = out.split_at_mut(self.t + 1);
        match v {
            Three(bottom, low, middle, high, top) => {
                vertical[..low].fill(bottom);
                vertical[low..high].fill(middle);
                vertical[high..].fill(top);
            }
            Five([bottom, middle, top], [low, start, stop, high]) => {
                vertical[..low].fill(bottom);
                vertical[low..start].fill(0);
                vertical[start..stop].fill(middle);
                vertical[stop..high].fill(0);
                vertical[high..].fill(top);
            }
        }
        leaving.copy_from_slice(&self.tracks[1..=self.t]);
    }

    fn join_for_pins(&mut self, join: u16, p: u16, q: u16) -> Verticals {
        let s = self.strands[join as usize];
        let later = self.later(join);
        let second = if later { self.second(join) } else { 0 };
        self.drop_net(join);
        if p != 0 && p != join {
            self.add(s.high, p);
        }
        if q != 0 && q != join {
            self.add(s.low, q);
        }
        if later {
            self.add(second, join);
        }
        self.sort(join);
        Three(q, s.low, join, s.high, p)
    }

    /// Joins a stretched net, which then is no double one.
    fn join_stretched(&mut self, join: u16, p: u16, q: u16) -> Verticals {
        self.lone.remove(join as usize);
        self.join_for_pins(join, p, q)
    }

    fn end_top(&mut self, p: u16, q: u16) -> Verticals {
        let low = self.strands[p as usize].low;
        self.drop_net(p);
        if q != 0 {
            self.add(low, q);
        }
        Three(q, low, 0, low, p)
    }

    fn end_bottom(&mut self, p: u16, q: u16) -> Verticals {
        let high = self.strands[q as usize].high;
        self.drop_net(q);
        if p != 0 {
            self.add(high, p);
        }
        Three(q, high, 0, high, p)
    }

    fn end_both(&mut self, p: u16, q: u16) -> Verticals {
        let (low, high) = (self.strands[p as usize].low, self.strands[q as usize].high);
        if high < low {
            self.drop_net(p);
            self.drop_net(q);
            Three(q, high, 0, low, p)
        } else {
            self.end_top(p, q)
        }
    }

    fn start(&mut self, p: u16, q: u16) -> Verticals {
        let f = self.free.lowest().unwrap();
        match (p, q) {
            (0, q) => {
                self.add(f, q);
                Three(q, f, 0, self.t + 1, 0)
            }
            (p, 0) => {
                self.add(f, p);
                Three(0, 0, 0, f, p)
            }
            (p, q) => {
                let g = self.free.lowest_but(f).unwrap();
                self.add(f, q);
                self.add(g, p);
                Three(q, f, 0, g, p)
            }
        }
    }

    fn continue_top(&mut self, p: u16, q: u16) -> Verticals {
        let s = self.strands[p as usize];
        let f = self.free.lowest().unwrap();
        if f < s.high {
            self.add(f, q);
            return Three(q, f, 0, s.high, p);
        }
        self.drop_net(p);
        self.add(f, p);
        self.add(s.high, q);
        if s.count > 1 {
            self.add(s.low, p);
        }
        Three(q, s.high, 0, s.high, p)
    }

    fn continue_bottom(&mut self, p: u16, q: u16) -> Verticals {
        let s = self.strands[q as usize];
        let f = self.free.lowest().unwrap();
        if s.low < f {
            self.add(f, p);
            return Three(q, s.low, 0, f, p);
        }
        self.drop_net(q);
        self.add(f, q);
        self.add(s.low, p);
        if s.count > 1 {
            self.add(s.high, q);
        }
        Three(q, s.low, 0, s.low, p)
    }

    /// One column of the sweep, up to its drawing: the body of two loops.
    #[inline(always)]
    fn step(&mut self, p: u16, q: u16) -> Verticals {
        let verticals = match self.family {
            _ if p | q == 0 => self.empty_column(),
            Family::TwoPin => self.two_pin(p, q),
            Family::ThreePin => self.three_pin(p, q),
            Family::ManyPin => self.many_pin(p, q),
        };
        self.sort(p);
        self.sort(q);
        self.c += 1;
        verticals
    }

    /// A column without pins: the lowest-numbered stretched net is joined.
    fn empty_column(&mut self) -> Verticals {
        match self.stretched.lowest() {
            Some(join) => self.join_stretched(join as u16, 0, 0),
            None => Three(0, 0, 0, 0, 0),
        }
    }
}

/// The slice length of document 01's formula: always enough, and drawn into at once.
pub fn formula(top: &[u16], bottom: &[u16]) -> Result<usize, u16> {
    let nets = nets(top, bottom, 256)?;
    Ok(Channel::new(top, bottom, &nets).formula())
}

/// The slice length that routing calls for.
pub fn need(top: &[u16], bottom: &[u16]) -> Result<usize, u16> {
    let nets = nets(top, bottom, 256)?;
    Ok(Channel::new(top, bottom, &nets).need())
}

/// Routes a channel into a layout slice. One that is shorter than the formula says
/// costs a dry run first.
pub fn route(top: &[u16], bottom: &[u16], layout: &mut [u16]) -> Result<Figures, u16> {
    let nets = nets(top, bottom, 256)?;
    let channel = Channel::new(top, bottom, &nets);
    if layout.len() < channel.formula() && layout.len() < channel.need() {
        return Err(8);
    }
    let width = channel.draw(layout);
    Ok(Figures { density: channel.density, tracks: channel.tracks, width })
}
