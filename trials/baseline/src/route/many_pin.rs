//! The rules of channels on 2d - 1 tracks.

use super::{Kind, Sweep, Verticals, Verticals::Three};

impl Sweep<'_> {
    fn both_pins(&mut self, p: u16, join: Option<usize>) -> Verticals {
        let strands = self.strands[p as usize];
        if strands.count > 0 {
            self.drop_net(p);
            if self.later(p) {
                self.add(strands.low, p);
            }
        } else if self.later(p) {
            if let Some(join) = join {
                return self.join_for_pins(join as u16, p, p);
            }
            let f = self.free.lowest().unwrap();
            self.add(f, p);
        }
        Three(p, 0, p, 0, p)
    }

    pub(super) fn many_pin(&mut self, p: u16, q: u16) -> Verticals {
        use Kind::*;
        let join = self.stretched.lowest().or_else(|| self.wide.lowest());
        if p == q {
            return self.both_pins(p, join);
        }
        if let Some(join) = join {
            return self.join_for_pins(join as u16, p, q);
        }
        let (m, l) = (self.strands[p as usize].high, self.strands[q as usize].low);
        match (self.kind(p), self.kind(q)) {
            (None, Continues) => Three(q, l, 0, self.t + 1, 0),
            (Continues, None) => Three(0, 0, 0, m, p),
            (Ends, Ends) => self.end_both(p, q),
            (Ends, _) => self.end_top(p, q),
            (_, Ends) => self.end_bottom(p, q),
            (Starts | None, Starts | None) => self.start(p, q),
            (Continues, Starts) => self.continue_top(p, q),
            (Starts, Continues) => self.continue_bottom(p, q),
            (Continues, Continues) => self.continue_both(p, q),
        }
    }

    fn continue_both(&mut self, p: u16, q: u16) -> Verticals {
        let (ps, qs) = (self.strands[p as usize], self.strands[q as usize]);
        let (m, l) = (ps.high, qs.low);
        if l < m {
            return Three(q, l, 0, m, p);
        }
        if ps.count > 1 {
            self.drop_net(p);
            self.add(m, p);
            self.add(ps.low, q);
            return Three(q, ps.low, 0, ps.low, p);
        }
        if qs.count > 1 {
            self.drop_net(q);
            self.add(l, q);
            self.add(qs.high, p);
            return Three(q, qs.high, 0, qs.high, p);
        }
        let f = self.free.lowest().unwrap();
        if f < m {
            self.add(f, q);
            return Three(q, f, 0, m, p);
        }
        self.drop_net(p);
        self.add(f, p);
        self.add(m, q);
        Three(q, m, 0, m, p)
    }
}
