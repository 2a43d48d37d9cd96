//! The rules of channels whose nets have two or three pins, on 3d/2 tracks.

use super::{Kind, Strands, Sweep, Verticals, Verticals::*};
use std::cmp::Reverse;

impl Sweep<'_> {
    pub(super) fn three_pin(&mut self, p: u16, q: u16) -> Verticals {
        let verticals = if p == q { self.full(p) } else { self.pins_of_two(p, q) };
        self.settle(p);
        self.settle(q);
        verticals
    }

    fn full(&mut self, p: u16) -> Verticals {
        self.drop_net(p);
        Three(p, 0, p, 0, p)
    }

    fn pins_of_two(&mut self, p: u16, q: u16) -> Verticals {
        use Kind::*;
        match (self.kind(p), self.kind(q)) {
            (Ends, Ends) => self.end_one_or_both(p, q),
            (Ends, _) => self.end_top(p, q),
            (_, Ends) => self.end_bottom(p, q),
            kinds => match self.stretched.lowest() {
                Some(join) => self.join_stretched(join as u16, p, q),
                Option::None => self.none_ends(p, q, kinds),
            },
        }
    }

    fn none_ends(&mut self, p: u16, q: u16, kinds: (Kind, Kind)) -> Verticals {
        use Kind::*;
        let (m, l) = (self.strands[p as usize].high, self.strands[q as usize].low);
        match kinds {
            (Continues, None) => Three(0, 0, 0, m, p),
            (None, Continues) => Three(q, l, 0, self.t + 1, 0),
            (Continues, Continues) if l < m => Three(q, l, 0, m, p),
            (Continues, Continues) => self.pair_both(p, q),
            (Continues, _) => self.top_beside_double(p, q),
            (_, Continues) => self.bottom_beside_double(p, q),
            _ => self.start_beside_double(p, q),
        }
    }

    fn end_one_or_both(&mut self, p: u16, q: u16) -> Verticals {
        let (ps, qs) = (self.strands[p as usize], self.strands[q as usize]);
        let top_first = (qs.count, p) < (ps.count, q);
        if qs.high < ps.low || top_first {
            self.end_both(p, q)
        } else {
            self.end_bottom(p, q)
        }
    }

    /// The net that ends earlier gets a second strand.
    fn pair_both(&mut self, p: u16, q: u16) -> Verticals {
        if (self.last(p), p) < (self.last(q), q) {
            self.pair(p, q);
            self.continue_bottom(p, q)
        } else {
            self.pair(q, p);
            self.continue_top(p, q)
        }
    }

    fn start_beside_double(&mut self, p: u16, q: u16) -> Verticals {
        let Some(double) = self.latest() else { return self.start(p, q) };
        if let Some(other) = self.other(double) {
            self.pair(other, double);
        }
        let verticals = self.reduce(double, p, q);
        self.mark(double);
        verticals
    }

    fn top_beside_double(&mut self, p: u16, q: u16) -> Verticals {
        let Some(double) = self.beside() else { return self.continue_top(p, q) };
        self.pair(p, double);
        if self.last(p) < self.last(double) {
            self.reduce(double, p, q)
        } else {
            self.continue_top(p, q)
        }
    }

    fn bottom_beside_double(&mut self, p: u16, q: u16) -> Verticals {
        let Some(double) = self.beside() else { return self.continue_bottom(p, q) };
        self.pair(q, double);
        if self.last(q) < self.last(double) {
            self.reduce(double, p, q)
        } else {
            self.continue_bottom(p, q)
        }
    }

    /// Joins a double net; it leaves on one of its tracks, or between two pins on
    /// the middle one of these and the lowest free track.
    fn reduce(&mut self, net: u16, p: u16, q: u16) -> Verticals {
        let Strands { low, high, .. } = self.strands[net as usize];
        if p != 0 && q != 0 {
            return self.three_way(net, p, q);
        }
        self.drop_net(net);
        if p != 0 {
            self.add(low, net);
            self.add(high, p);
        } else {
            self.add(low, q);
            self.add(high, net);
        }
        Three(q, low, net, high, p)
    }

    fn three_way(&mut self, net: u16, p: u16, q: u16) -> Verticals {
        let Strands { low, high, .. } = self.strands[net as usize];
        let f = self.free.lowest().unwrap();
        let [x, y, z] = match f {
            _ if f < low => [f, low, high],
            _ if f < high => [low, f, high],
            _ => [low, high, f],
        };
        self.drop_net(net);
        self.add(x, q);
        self.add(y, net);
        self.add(z, p);
        Five([q, net, p], [x, low, high, z])
    }

    // Pairs.

    fn last(&self, net: u16) -> u16 {
        self.nets[net as usize].last
    }

    /// The unpaired double net that ends last.
    fn latest(&self) -> Option<u16> {
        let later = |&net: &usize| (self.nets[net].last, Reverse(net));
        self.lone.members().max_by_key(later).map(|net| net as u16)
    }

    /// The lowest-numbered other one.
    fn other(&self, latest: u16) -> Option<u16> {
        self.lone.lowest_but(latest as usize).map(|net| net as u16)
    }

    /// The one that a continuing pin is paired with.
    fn beside(&self) -> Option<u16> {
        let latest = self.latest()?;
        self.other(latest).or(Some(latest))
    }

    fn pair(&mut self, a: u16, b: u16) {
        self.mates[a as usize] = b;
        self.mates[b as usize] = a;
        self.lone.remove(a as usize);
        self.lone.remove(b as usize);
    }

    /// Puts a net into the set of unpaired double nets if it is one.
    fn mark(&mut self, net: u16) {
        let i = net as usize;
        self.lone.put(i, self.strands[i].count == 2 && self.mates[i] == 0);
    }

    /// Ends the pair of a net that ends here.
    fn settle(&mut self, net: u16) {
        let mate = self.mates[net as usize];
        if mate != 0 && !self.later(net) {
            self.mates[net as usize] = 0;
            self.mates[mate as usize] = 0;
            self.mark(mate);
        }
        self.mark(net);
    }
}
