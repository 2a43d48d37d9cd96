//! The rules of channels of two-pin nets, on d tracks.

use super::{Kind, Sweep, Verticals, Verticals::Three};

impl Sweep<'_> {
    pub(super) fn two_pin(&mut self, p: u16, q: u16) -> Verticals {
        use Kind::*;
        if p == q {
            return Three(p, 0, p, 0, p);
        }
        match (self.kind(p), self.kind(q)) {
            (Starts | None, Starts | None) => match self.stretched.lowest() {
                Some(join) => self.join_for_pins(join as u16, p, q),
                Option::None => self.start(p, q),
            },
            (Ends, Ends) => self.end_both(p, q),
            (Ends, _) => self.end_top(p, q),
            _ => self.end_bottom(p, q),
        }
    }
}
