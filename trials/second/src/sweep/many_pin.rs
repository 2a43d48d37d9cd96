//! The rules of the channels that neither of the other sweeps draws, on 2d - 1
//! tracks.

use super::{Kind, Sweep};

impl Sweep<'_> {
    /// A column with pins, of a channel with a net of three or more.
    pub(super) fn many_pin_column(&mut self, top: u16, bottom: u16) {
        use Kind::*;
        if top == bottom {
            return self.one_net(top);
        }
        if self.relieve(top, bottom) {
            return;
        }
        match (self.kind(top), self.kind(bottom)) {
            // Rule 3.
            (End, End) if self.highest(bottom) < self.lowest(top) => self.end_both(top, bottom),
            (End, _) => self.end_top(top, bottom),
            (_, End) => self.end_bottom(top, bottom),
            // Rule 4.
            (None | Start, None | Start) => self.start_on_free(top, bottom),
            (Continue, Start) => self.continue_top(top, bottom),
            (Start, Continue) => self.continue_bottom(top, bottom),
            // Rule 5.
            (Continue, None) => self.top_to(top, self.highest(top)),
            (None, Continue) => self.bottom_to(bottom, self.lowest(bottom)),
            (Continue, Continue) => self.continue_both(top, bottom),
        }
    }

    /// Rule 1 of many-pin channels: both pins of one net.
    fn one_net(&mut self, net: u16) {
        let strands = self.strands(net);
        if !strands.is_empty() || self.nets.pins(net) == 2 {
            self.rise(net, 0, self.t + 1);
            self.drop(net);
            if self.follows(net) {
                self.leaving[strands[0]] = net;
            }
        } else if !self.relieve(net, net) {
            let track = self.free().next().expect("a free track");
            self.rise(net, 0, self.t + 1);
            self.leaving[track] = net;
        }
    }

    /// Rule 2 of many-pin channels: whether it fits, and if so its action.
    fn relieve(&mut self, top: u16, bottom: u16) -> bool {
        let Some(net) = self.stretched().or_else(|| self.wide()) else {
            return false;
        };
        self.join_and_take(net, top, bottom);
        if self.follows(net) {
            let second = self.strands(net)[1];
            self.leaving[second] = net;
        }
        true
    }

    /// Rule 5: two continuing pins.
    fn continue_both(&mut self, top: u16, bottom: u16) {
        let (of_top, of_bottom) = (self.strands(top), self.strands(bottom));
        let (m, l) = (self.highest(top), self.lowest(bottom));
        if l < m {
            self.top_to(top, m);
            self.bottom_to(bottom, l);
        } else if of_top.len() == 2 {
            self.top_to(top, of_top[0]);
            self.bottom_takes(bottom, of_top[0]);
        } else if of_bottom.len() == 2 {
            self.bottom_to(bottom, of_bottom[1]);
            self.top_takes(top, of_bottom[1]);
        } else {
            self.continue_top(top, bottom);
        }
    }
}
