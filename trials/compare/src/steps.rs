//! Driven sweeps: steps of all sizes and late nets, through both routers.

use crate::compare::Tally;
use crate::library;
use crate::random::{Channel, Rng};
use gaxwethi::raw::{Routed, Started, State, Stepped};
use second::{Steps, Terminal, MOST_COLUMNS};

/// What must come up in driven sweeps. A 22 is counted where it has one reason alone.
pub const KINDS: [&str; 18] = [
    "starts refused",
    "larger nets refused",
    "short slices",
    "short slices after the end",
    "steps after the end",
    "late nets",
    "6",
    "21",
    "22 column 0",
    "22 right of column n",
    "22 drawn column",
    "22 a pin there",
    "22 another side",
    "22 twice the same",
    "23",
    "sweeps finished",
    "with late nets",
    "of another width",
];

/// A sweep of both routers.
struct Sweep {
    ours: Steps,
    theirs: State,
    our_layout: Vec<u16>,
    their_layout: Vec<u16>,
    /// The slice length that each step needs.
    need: usize,
    late_nets: usize,
}

impl Tally {
    fn count(&mut self, kind: &str) {
        let kind = KINDS.iter().position(|&other| other == kind).expect("one of the kinds");
        self.driven[kind] += 1;
    }

    /// A driven sweep of a channel, from its start to its end and beyond. Refused rows
    /// leave one of the channel without columns.
    pub fn driven(&mut self, rng: &mut Rng, c: &Channel) {
        let mut sweep = self.start(rng, c);
        let pace = rng.pick(&[1, 1, 2, 5, c.top.len().max(1)]);
        let late = rng.pick(&[0, 20, 50, 70]);
        let mut beyond = rng.under(4);
        while beyond > 0 || !sweep.ours.finished() {
            beyond -= sweep.ours.finished() as usize;
            match rng.percent(late) {
                true => self.late_net(rng, c, &mut sweep),
                false => self.step(rng, c, &mut sweep, pace),
            }
        }
        self.finished(c, &sweep);
    }

    /// The start, on a state with anything in it, and slices with room for more.
    fn start(&mut self, rng: &mut Rng, c: &Channel) -> Sweep {
        let (mut ours, mut theirs) = (Steps::default(), made_up(rng));
        let second::Started { number, tracks, slice } = ours.start(&c.top, &c.bottom);
        let library = theirs.start(&c.top, &c.bottom);
        self.same("start", c, number, Started { number, tracks, length: slice }, library);
        let accepted = second::rows::nets(&c.top, &c.bottom, MOST_COLUMNS).is_ok();
        match number {
            0 => {}
            7 if accepted => self.count("larger nets refused"),
            _ => self.count("starts refused"),
        }
        let layout = marked(slice + rng.pick(&[0, 1, 40]));
        let (our_layout, their_layout) = (layout.clone(), layout);
        let sweep = Sweep { ours, theirs, our_layout, their_layout, need: slice, late_nets: 0 };
        self.states(c, number, &sweep);
        sweep
    }

    /// A step of about that many columns at most, into a slice long enough or too short.
    fn step(&mut self, rng: &mut Rng, c: &Channel, sweep: &mut Sweep, pace: usize) {
        let (need, most) = (sweep.need, sweep.our_layout.len());
        let room = match rng.under(20) {
            0 | 1 if need > 0 => need - 1,
            2 if need > 0 => rng.under(need),
            _ => rng.from(need, most),
        };
        let k = match rng.percent(1) {
            true => rng.pick(&[256, 512, 65_536, usize::MAX]),
            false => rng.from(0, pace),
        };
        let (ended, before) = (sweep.ours.finished(), sweep.theirs.clone());
        let ours = sweep.ours.step(&mut sweep.our_layout[..room], k);
        let second::Stepped { number, drawn, finished } = ours;
        let library = sweep.theirs.step(&mut sweep.their_layout[..room], k);
        let call = format!("step of {k} columns after {} in {room} entries", before.drawn);
        self.same(&call, c, number, Stepped { number, drawn, finished }, library);
        let place = different(&sweep.our_layout, &sweep.their_layout);
        self.same("step, first different entry", c, number, None, place);
        self.kept(c, number, &before, sweep);
        match (number, ended) {
            (0, true) if k > 0 => self.count("steps after the end"),
            (0, _) => {}
            (_, true) => self.count("short slices after the end"),
            (_, false) => self.count("short slices"),
        }
    }

    /// A late net, or one that is refused.
    fn late_net(&mut self, rng: &mut Rng, c: &Channel, sweep: &mut Sweep) {
        let (rows, drawn) = (<[_; 2]>::from(sweep.ours.rows()), sweep.ours.drawn());
        let (net, terminals) = new_net(rng, rows, drawn);
        let (before, reason) = (sweep.theirs.clone(), reason(rows, drawn, terminals));
        let number = sweep.ours.place(net, terminals);
        let [one, other] = terminals;
        let (side1, side2) = (one.side as u16, other.side as u16);
        let library = sweep.theirs.place(net, one.column, side1, other.column, side2);
        let call = format!("late net {net} at {terminals:?} after {} columns", before.drawn);
        self.same(&call, c, number, number, library);
        self.kept(c, number, &before, sweep);
        match number {
            0 => self.count("late nets"),
            22 => reason.into_iter().for_each(|kind| self.count(kind)),
            _ => self.count(&number.to_string()),
        }
        sweep.late_nets += (number == 0) as usize;
    }

    /// That a refused call leaves the state, and what else the state tells.
    fn kept(&mut self, c: &Channel, number: u16, before: &State, sweep: &Sweep) {
        if number != 0 {
            self.same("state kept", c, number, true, sweep.theirs == *before);
        }
        self.states(c, number, sweep);
    }

    /// Columns, tracks, drawn columns and rows of two states.
    fn states(&mut self, c: &Channel, number: u16, sweep: &Sweep) {
        let (ours, theirs) = (&sweep.ours, &sweep.theirs);
        let (top, bottom) = ours.rows();
        let n = theirs.columns.min(MOST_COLUMNS);
        let ours = ([top.len(), ours.tracks(), ours.drawn()], top, bottom);
        let sizes = [theirs.columns, theirs.tracks, theirs.drawn];
        self.same("state", c, number, ours, (sizes, &theirs.top[..n], &theirs.bottom[..n]));
    }

    /// The finished drawing beside the library's own of the channel with the late nets.
    fn finished(&mut self, c: &Channel, sweep: &Sweep) {
        let (top, bottom) = sweep.ours.rows();
        let (tracks, width) = (sweep.ours.tracks(), sweep.ours.drawn());
        let mut routed = marked(sweep.their_layout.len());
        let library = library::route(top, bottom, &mut routed);
        let figures = Routed { number: 0, density: tracks, tracks, width };
        self.same("route after a sweep", c, 0, figures, library);
        let place = different(&routed, &sweep.their_layout);
        self.same("sweep, first entry that is not one call's", c, 0, None, place);
        self.no_wider(&Channel { top: top.to_vec(), bottom: bottom.to_vec() });
        if top.is_empty() {
            return;
        }
        self.count("sweeps finished");
        if sweep.late_nets > 0 {
            self.count("with late nets");
            if second::need(&c.top, &c.bottom) != Ok(width * (2 * tracks + 1)) {
                self.count("of another width");
            }
        }
    }
}

/// A slice of that many entries, with something in it.
fn marked(room: usize) -> Vec<u16> {
    (0..room).map(|i| 40000 + (i % 9999) as u16).collect()
}

/// The first place where two slices differ.
fn different(one: &[u16], other: &[u16]) -> Option<usize> {
    if one == other {
        return None;
    }
    one.iter().zip(other).position(|(a, b)| a != b)
}

/// A state with anything in it.
fn made_up(rng: &mut Rng) -> State {
    let size = rng.pick(&[0, 1, 256, 300, usize::MAX]);
    State::filled(size, rng.pick(&[0, 1, 256, u16::MAX]), rng.pick(&[0, 2, u64::MAX]))
}

/// A new net beside those in the rows, of which some columns are drawn: mostly one with a
/// free number at two free terminals, often close together.
pub fn new_net(rng: &mut Rng, rows: [&[u16]; 2], drawn: usize) -> (u16, [Terminal; 2]) {
    let n = rows[0].len();
    let open: Vec<Terminal> = (drawn + 1..=n)
        .flat_map(|column| [0, 1].map(|side| Terminal { column, side }))
        .filter(|place| rows[place.side][place.column - 1] == 0)
        .collect();
    let anywhere = |rng: &mut Rng| Terminal { column: rng.from(0, n + 1), side: rng.under(2) };
    let mut terminals = match open.len() {
        0 | 1 => [anywhere(rng), anywhere(rng)],
        count => {
            let one = rng.under(count);
            let reach = rng.pick(&[1, 2, 5, count]);
            let other = (one + rng.from(1, reach)) % count;
            [open[one], open[other]]
        }
    };
    if rng.percent(50) {
        terminals.swap(0, 1);
    }
    if rng.percent(25) {
        let [one, other] = &mut terminals;
        match rng.under(7) {
            0 => one.column = rng.pick(&[0, n + 1, n + 2, 257, usize::MAX]),
            1 => one.column = rng.from(0, drawn),
            2 | 3 => one.side = rng.pick(&[2, 3, 256, 65_534, 65_535]),
            4 => *one = *other,
            _ => *one = anywhere(rng),
        }
    }
    (new_number(rng, &rows.concat()), terminals)
}

/// The number of a new net beside the pins of a channel: mostly one that is free.
fn new_number(rng: &mut Rng, pins: &[u16]) -> u16 {
    match rng.under(20) {
        0 => rng.pick(&[0, 257, 258, 512, 32_768, 65_535]),
        1 if !pins.is_empty() => rng.pick(pins),
        2 => rng.pick(&[1, 256]),
        _ => {
            let least = rng.from(1, 256) as u16;
            (least..=256).chain(1..least).find(|net| !pins.contains(net)).unwrap_or(least)
        }
    }
}

/// Why two terminals are not allowed, if there is one reason alone.
pub fn reason(rows: [&[u16]; 2], drawn: usize, terminals: [Terminal; 2]) -> Option<&'static str> {
    let mut reasons = Vec::new();
    for Terminal { column, side } in terminals {
        let pin = rows.get(side).and_then(|row| row.get(column.wrapping_sub(1)));
        let met = [
            ("22 another side", side > 1),
            ("22 column 0", column == 0),
            ("22 right of column n", column > rows[0].len()),
            ("22 drawn column", (1..=drawn.min(rows[0].len())).contains(&column)),
            ("22 a pin there", pin.is_some_and(|&net| net != 0)),
        ];
        reasons.extend(met.iter().filter(|(_, met)| *met).map(|(kind, _)| *kind));
    }
    if terminals[0] == terminals[1] {
        reasons.push("22 twice the same");
    }
    reasons.dedup();
    (reasons.len() == 1).then(|| reasons[0])
}
