//! The rules of channels whose largest net has three pins, on 3d/2 tracks: part
//! (b) of source document 000, with the choices of docs/THREE-PIN.md.

use super::{Kind, Sweep};

impl Sweep<'_> {
    /// A column with pins, of a channel of nets with two or three.
    pub(super) fn three_pin_column(&mut self, top: u16, bottom: u16) {
        if top != bottom {
            self.two_nets(top, bottom);
        } else {
            // Rule 1.
            self.rise(top, 0, self.t + 1);
            self.drop(top);
        }
        let goes_on = |net| self.nets.last(net) > self.c;
        self.pairs.retain(|&(double, single)| goes_on(double) && goes_on(single));
    }

    /// Rules 2 to 4: one pin, or the pins of two nets.
    fn two_nets(&mut self, top: u16, bottom: u16) {
        use Kind::*;
        match (self.stretched(), self.kind(top), self.kind(bottom)) {
            // Rule 4.
            (_, End, End) => self.end_one_or_both(top, bottom),
            (_, End, _) => self.end_top(top, bottom),
            (_, _, End) => self.end_bottom(top, bottom),
            // Rule 2.
            (Some(net), _, _) => self.join_and_take(net, top, bottom),
            // Rule 3.
            (_, Continue, None) => self.top_to(top, self.highest(top)),
            (_, None, Continue) => self.bottom_to(bottom, self.lowest(bottom)),
            (_, Continue, Continue) => self.go_on_both(top, bottom),
            (_, Continue, Start) => self.go_on_top(top, bottom),
            (_, Start, Continue) => self.go_on_bottom(top, bottom),
            (_, None | Start, None | Start) => self.start(top, bottom),
        }
    }

    /// The unpaired nets with two strands, lowest number first.
    fn unpaired_doubles(&self) -> Vec<u16> {
        let paired = |net| self.pairs.iter().any(|&(a, b)| a == net || b == net);
        let double = |&net: &u16| self.strands(net).len() == 2 && !paired(net);
        self.nets.numbers().filter(double).collect()
    }

    /// Of these the one that ends last, and the lowest-numbered other one.
    fn latest_and_other(&self) -> (Option<u16>, Option<u16>) {
        let doubles = self.unpaired_doubles();
        let Some(end) = doubles.iter().map(|&net| self.nets.last(net)).max() else {
            return (None, None);
        };
        let latest = doubles.iter().copied().find(|&net| self.nets.last(net) == end);
        let other = doubles.iter().copied().find(|&net| Some(net) != latest);
        (latest, other)
    }

    /// A double net is joined and keeps one track. Its own two, and with two pins
    /// the lowest free one, go from the bottom up to the bottom pin's net, to
    /// itself and to the top pin's net.
    fn reduce(&mut self, net: u16, top: u16, bottom: u16) {
        let mut tracks = self.strands(net);
        if top != 0 && bottom != 0 {
            tracks.push(self.free().next().expect("a free track"));
            tracks.sort();
        }
        self.join(net);
        self.drop(net);
        if bottom != 0 {
            self.bottom_takes(bottom, tracks.remove(0));
        }
        self.leaving[tracks[0]] = net;
        if top != 0 {
            self.top_takes(top, tracks[1]);
        }
    }

    /// Rule 3: one or two starting pins.
    fn start(&mut self, top: u16, bottom: u16) {
        let (latest, other) = self.latest_and_other();
        match latest {
            None => self.start_on_free(top, bottom),
            Some(net) => self.reduce(net, top, bottom),
        }
        if let (Some(single), Some(double)) = (latest, other) {
            self.pairs.push((double, single));
        }
    }

    /// Rule 3: a continuing top pin opposite a starting one.
    fn go_on_top(&mut self, top: u16, bottom: u16) {
        let (latest, other) = self.latest_and_other();
        match other.or(latest) {
            Some(net) if self.nets.last(top) < self.nets.last(net) => {
                self.reduce(net, top, bottom);
                self.pairs.push((top, net));
            }
            double => {
                self.continue_top(top, bottom);
                self.pairs.extend(double.map(|net| (net, top)));
            }
        }
    }

    /// Rule 3: a continuing bottom pin opposite a starting one.
    fn go_on_bottom(&mut self, top: u16, bottom: u16) {
        let (latest, other) = self.latest_and_other();
        match other.or(latest) {
            Some(net) if self.nets.last(bottom) < self.nets.last(net) => {
                self.reduce(net, top, bottom);
                self.pairs.push((bottom, net));
            }
            double => {
                self.continue_bottom(top, bottom);
                self.pairs.extend(double.map(|net| (net, bottom)));
            }
        }
    }

    /// Rule 3: two continuing pins.
    fn go_on_both(&mut self, top: u16, bottom: u16) {
        let (m, l) = (self.highest(top), self.lowest(bottom));
        if l < m {
            self.top_to(top, m);
            self.bottom_to(bottom, l);
        } else if (self.nets.last(top), top) < (self.nets.last(bottom), bottom) {
            self.continue_bottom(top, bottom);
            self.pairs.push((top, bottom));
        } else {
            self.continue_top(top, bottom);
            self.pairs.push((bottom, top));
        }
    }

    /// Rule 4: two ending pins.
    fn end_one_or_both(&mut self, top: u16, bottom: u16) {
        let (of_top, of_bottom) = (self.strands(top).len(), self.strands(bottom).len());
        if self.highest(bottom) < self.lowest(top) {
            self.end_both(top, bottom);
        } else if of_top > of_bottom || (of_top == of_bottom && top < bottom) {
            self.end_top(top, bottom);
        } else {
            self.end_bottom(top, bottom);
        }
    }
}
