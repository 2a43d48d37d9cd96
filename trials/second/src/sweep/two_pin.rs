//! The rules of channels of two-pin nets, on d tracks.

use super::{Kind, Sweep};

impl Sweep<'_> {
    /// A column with pins, of a channel whose nets have two pins each.
    pub(super) fn two_pin_column(&mut self, top: u16, bottom: u16) {
        use Kind::*;
        // Rule 1.
        if top == bottom {
            return self.rise(top, 0, self.t + 1);
        }
        match (self.kind(top), self.kind(bottom)) {
            // Rule 2.
            (None | Start, None | Start) => match self.stretched() {
                Some(net) => self.join_and_take(net, top, bottom),
                Option::None => self.start_on_free(top, bottom),
            },
            // Rule 4.
            (End, End) if self.lowest(bottom) < self.lowest(top) => self.end_both(top, bottom),
            (End, End) => self.end_top(top, bottom),
            // Rule 3.
            (End, _) => self.end_top(top, bottom),
            (_, End) => self.end_bottom(top, bottom),
            _ => unreachable!("a net of two pins does not continue"),
        }
    }
}
