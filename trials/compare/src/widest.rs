//! The channel with the widest drawing, written by both into rows of all lengths, and that
//! no drawing of two-pin nets is wider.

use crate::compare::{split, Tally};
use crate::library;
use crate::random::{Channel, Rng};
use gaxwethi::raw::{Routed, Widest};
use second::rows::Family;
use second::MOST_COLUMNS;

/// What must come up among the rows.
pub const KINDS: [&str; 7] = [
    "refused with 4",
    "4 where 5 applies too",
    "refused with 5",
    "no columns",
    "256 columns",
    "odd",
    "even",
];

impl Tally {
    fn on_widest(&mut self, kind: &str) {
        let kind = KINDS.iter().position(|&other| other == kind).expect("one of the kinds");
        self.widest[kind] += 1;
    }

    /// The channel into rows of some lengths, with anything in them and an entry behind
    /// each: the answer, all that the rows hold afterwards, and the library's own drawing.
    pub fn widest(&mut self, rng: &mut Rng, n: usize, m: usize) {
        let [top, bottom] = [n, m].map(|length| (0..=length).map(|_| rng.next() as u16).collect());
        let mut ours = Channel { top, bottom };
        let mut theirs = ours.clone();
        let (number, added) = split(second::widest(&mut ours.top[..n], &mut ours.bottom[..m]));
        let library = library::widest(&mut theirs.top[..n], &mut theirs.bottom[..m]);
        let call = format!("widest, rows of {n} and {m} entries");
        let c = Channel { top: Vec::new(), bottom: Vec::new() };
        self.same(&call, &c, number, Widest { number, added }, library);
        for (row, ours, theirs) in
            [("top", &ours.top, &theirs.top), ("bottom", &ours.bottom, &theirs.bottom)]
        {
            let place = ours.iter().zip(theirs).position(|(a, b)| a != b);
            self.same(&format!("{call}, first different {row} entry"), &c, number, None, place);
        }
        self.count_widest(number, n, m);
        if number == 0 {
            theirs.top.truncate(n);
            theirs.bottom.truncate(m);
            self.as_wide(&theirs);
        }
    }

    /// Counts what the lengths of the rows were.
    fn count_widest(&mut self, number: u16, n: usize, m: usize) {
        let met = [
            ("refused with 4", number == 4),
            ("4 where 5 applies too", number == 4 && n > MOST_COLUMNS && m > MOST_COLUMNS),
            ("refused with 5", number == 5),
            ("no columns", number == 0 && n == 0),
            ("256 columns", number == 0 && n == MOST_COLUMNS),
            ("odd", number == 0 && n % 2 == 1),
            ("even", number == 0 && n % 2 == 0),
        ];
        met.iter().filter(|(_, met)| *met).for_each(|(kind, _)| self.on_widest(kind));
    }

    /// Sees that the library draws the channel that it wrote with half as many columns
    /// more.
    fn as_wide(&mut self, c: &Channel) {
        let (n, half) = (c.top.len(), c.top.len() / 2);
        let mut layout = vec![0; (n + half) * (4 * half + 1)];
        let figures = Routed { number: 0, density: 2 * half, tracks: 2 * half, width: n + half };
        let library = library::route(&c.top, &c.bottom, &mut layout);
        self.same("route, the widest channel", c, 0, figures, library);
    }

    /// Sees that the library's drawing of an accepted channel adds no more than half as many
    /// columns, if its nets have two pins.
    pub fn no_wider(&mut self, c: &Channel) {
        let nets = second::rows::nets(&c.top, &c.bottom, MOST_COLUMNS);
        if !nets.is_ok_and(|nets| nets.family() == Family::TwoPin) {
            return;
        }
        let n = c.top.len();
        let mut layout = vec![0; second::formula(&c.top, &c.bottom).unwrap_or(0)];
        let width = library::route(&c.top, &c.bottom, &mut layout).width;
        self.same("route, no wider than n + n/2", c, 0, true, width <= n + n / 2);
    }
}

/// The lengths of two rows: mostly equal and up to 256.
pub fn lengths(rng: &mut Rng) -> (usize, usize) {
    let n = match rng.under(20) {
        0 => rng.pick(&[0, 1, 255, 256]),
        1 | 2 => rng.pick(&[257, 258, 300, 511, 512, 65_536, 65_792]),
        _ => rng.from(0, 256),
    };
    let m = match rng.under(10) {
        0 => rng.pick(&[n + 1, n.saturating_sub(1), n / 2]),
        1 => rng.from(0, 600),
        _ => n,
    };
    (n, m)
}
