//! One trial: every call on one random channel, through both routers.

use crate::boards;
use crate::damage::{self, Drawing};
use crate::library;
use crate::random::{self, Channel, Rng};
use crate::steps::KINDS;
use crate::widest;
use gaxwethi::raw::{Canonical, Checked, Density, Listed, Need, Part, Routed, TEXT};
use second::rows::Family;
use std::fmt::Debug;

/// What was compared, and where the two differ.
pub struct Tally {
    pub channels: u64,
    pub calls: u64,
    /// How often each number was the answer, 0 to 24.
    pub numbers: [u64; 25],
    /// How often the checker refused each kind of wrong pin edge.
    pub pin_faults: [u64; PIN_FAULTS.len()],
    /// How many channels each sweep draws: two-pin, three-pin, many-pin.
    pub sweeps: [u64; 3],
    /// Of each sweep, how many pairs of channels of equal density begin alike, and how
    /// many of them are drawn differently there.
    pub beginnings: [[u64; 2]; 3],
    /// How often each kind of call of a driven sweep came up.
    pub driven: [u64; KINDS.len()],
    /// How often each kind of what happens on a board came up.
    pub boards: [u64; boards::KINDS.len()],
    /// How often each kind of rows for the widest channel came up.
    pub widest: [u64; widest::KINDS.len()],
    pub differences: u64,
    /// The first differences, in words.
    pub shown: Vec<String>,
    text: Box<[u8; TEXT]>,
}

const SHOWN: usize = 3;
const MARK: u8 = 0xa5;
/// The numbers of a net table.
const TABLE: usize = 4 * 256;

/// The kinds of wrong pin edges: number, terminal, whether there are tracks. Past
/// column n there is no top one without tracks, where the bottom one comes first.
pub const PIN_FAULTS: [&str; 15] = [
    "14 bottom, t = 0",
    "14 top, t = 0",
    "19 bottom, t = 0",
    "19 top, t = 0",
    "20 bottom, t = 0",
    "20 top, t = 0",
    "20 past n, t = 0",
    "14 bottom, t > 0",
    "14 top, t > 0",
    "19 bottom, t > 0",
    "19 top, t > 0",
    "20 bottom, t > 0",
    "20 top, t > 0",
    "20 bottom past n, t > 0",
    "20 top past n, t > 0",
];

/// The kind of the wrong pin edge for which a drawing is refused.
fn pin_fault(c: &Channel, d: &Drawing, answer: second::Checked) -> Option<usize> {
    let number = Some(answer.number).filter(|number| [14, 19, 20].contains(number))?;
    let (column, row) = (answer.place / (2 * d.t + 1), answer.place % (2 * d.t + 1));
    let bottom = row == 0 && c.bottom.get(column) != Some(&d.entries[answer.place]);
    let terminal = match (bottom, column < c.top.len()) {
        (true, true) => " bottom",
        (false, true) => " top",
        (_, false) if d.t == 0 => " past n",
        (true, false) => " bottom past n",
        (false, false) => " top past n",
    };
    let tracks = if d.t == 0 { "t = 0" } else { "t > 0" };
    let kind = format!("{number}{terminal}, {tracks}");
    PIN_FAULTS.iter().position(|&other| other == kind)
}

impl Tally {
    pub fn new() -> Tally {
        Tally {
            channels: 0,
            calls: 0,
            numbers: [0; 25],
            pin_faults: [0; PIN_FAULTS.len()],
            sweeps: [0; 3],
            beginnings: [[0; 2]; 3],
            driven: [0; KINDS.len()],
            boards: [0; boards::KINDS.len()],
            widest: [0; widest::KINDS.len()],
            differences: 0,
            shown: Vec::new(),
            text: vec![MARK; TEXT].into_boxed_slice().try_into().unwrap(),
        }
    }

    /// Adds the counts of another tally.
    pub fn add(&mut self, other: Tally) {
        self.channels += other.channels;
        self.calls += other.calls;
        self.differences += other.differences;
        self.shown.extend(other.shown);
        self.numbers.iter_mut().zip(other.numbers).for_each(|(a, b)| *a += b);
        self.pin_faults.iter_mut().zip(other.pin_faults).for_each(|(a, b)| *a += b);
        self.sweeps.iter_mut().zip(other.sweeps).for_each(|(a, b)| *a += b);
        self.driven.iter_mut().zip(other.driven).for_each(|(a, b)| *a += b);
        self.boards.iter_mut().zip(other.boards).for_each(|(a, b)| *a += b);
        self.widest.iter_mut().zip(other.widest).for_each(|(a, b)| *a += b);
        let theirs = other.beginnings.as_flattened();
        self.beginnings.as_flattened_mut().iter_mut().zip(theirs).for_each(|(a, b)| *a += b);
    }

    /// Compares two answers; `number` is the second router's.
    pub fn same<T: PartialEq + Debug>(
        &mut self,
        call: &str,
        c: &Channel,
        number: u16,
        ours: T,
        library: T,
    ) {
        self.calls += 1;
        self.numbers[number as usize] += 1;
        if ours == library {
            return;
        }
        self.differences += 1;
        if self.shown.len() < SHOWN {
            let mut text = format!("{call}: second {ours:?}, library {library:?}");
            text.truncate(600);
            self.shown.push(format!("{text}\n  top {:?}\n  bottom {:?}", c.top, c.bottom));
        }
    }

    /// Runs one trial: all small channels first, then random ones.
    pub fn trial(&mut self, seed: u64, trial: u64) {
        let rng = &mut Rng::of(seed, trial);
        let mut c = random::small(trial).unwrap_or_else(|| random::any(rng));
        if c.top.len() > 3 && rng.percent(12) {
            damage::rows(rng, &mut c);
        }
        self.channels += 1;
        if let Ok(nets) = second::rows::nets(&c.top, &c.bottom, second::MOST_COLUMNS) {
            self.sweeps[nets.family() as usize] += 1;
        }
        self.counts(&c);
        self.routes(rng, &c);
        self.no_wider(&c);
        self.reports(rng, &c);
        self.drawings(rng, &c);
        self.lists(rng, &c);
        self.records(rng, &c);
        self.beginnings(rng, &c);
        if rng.percent(1) {
            let full = random::full(rng);
            self.records(rng, &full);
            self.no_wider(&full);
        }
        self.driven(rng, &c);
        let roomy = random::roomy(rng);
        self.driven(rng, &roomy);
        if rng.under(3) == 0 {
            self.board(rng);
            self.made_up_board(rng);
        }
        if trial <= second::MOST_COLUMNS as u64 {
            self.widest(rng, trial as usize, trial as usize);
        }
        if rng.under(3) == 0 {
            let (n, m) = widest::lengths(rng);
            self.widest(rng, n, m);
        }
    }

    /// Density and need.
    fn counts(&mut self, c: &Channel) {
        let (number, density) = split(second::density(&c.top, &c.bottom));
        let library = library::density(&c.top, &c.bottom);
        self.same("density", c, number, Density { number, density }, library);
        let (number, length) = split(second::need(&c.top, &c.bottom));
        let library = library::need(&c.top, &c.bottom);
        self.same("need", c, number, Need { number, length }, library);
    }

    /// Routing into slices of different lengths.
    fn routes(&mut self, rng: &mut Rng, c: &Channel) {
        for room in rooms(rng, c) {
            let mut ours: Vec<u16> = (0..room).map(|i| 40000 + (i % 9999) as u16).collect();
            let mut theirs = ours.clone();
            let (number, figures) = split(second::route(&c.top, &c.bottom, &mut ours));
            let second::Figures { density, tracks, width } = figures;
            let library = library::route(&c.top, &c.bottom, &mut theirs);
            self.same("route", c, number, Routed { number, density, tracks, width }, library);
            let place = ours.iter().zip(&theirs).position(|(a, b)| a != b);
            self.same("layout, first different entry", c, number, None, place);
        }
    }

    /// The reports without a drawing, into tables just long enough, too short
    /// and longer.
    fn reports(&mut self, rng: &mut Rng, c: &Channel) {
        for room in [TABLE, short_room(rng), long_room(rng)] {
            let mut ours = table(room);
            let mut theirs = ours.clone();
            let (number, ()) = split(second::report(&c.top, &c.bottom, &mut ours));
            let library = library::report(&c.top, &c.bottom, &mut theirs);
            self.same("report", c, number, number, library);
            self.tables(c, number, &ours, &theirs);
        }
    }

    /// The whole contents of two tables.
    fn tables(&mut self, c: &Channel, number: u16, ours: &[u32], theirs: &[u32]) {
        let place = ours.iter().zip(theirs).position(|(a, b)| a != b);
        self.same("table, first different number", c, number, None, place);
    }

    /// The checkers on a drawing, and the reports on it.
    fn drawing(&mut self, rng: &mut Rng, c: &Channel, d: &Drawing) {
        let ours = second::check(&c.top, &c.bottom, d.w, d.t, &d.entries);
        let library = library::check(&c.top, &c.bottom, d.w, d.t, &d.entries);
        let call = format!("check, w {} t {}", d.w, d.t);
        self.same(&call, c, ours.number, checked(ours), library);
        if let Some(kind) = pin_fault(c, d, ours) {
            self.pin_faults[kind] += 1;
        }
        self.report_drawing(rng, c, d);
    }

    /// The reports on a drawing, into a table of any of these lengths.
    fn report_drawing(&mut self, rng: &mut Rng, c: &Channel, d: &Drawing) {
        let room = match rng.under(4) {
            0 => short_room(rng),
            1 => long_room(rng),
            _ => TABLE,
        };
        let mut ours = table(room);
        let mut theirs = ours.clone();
        let answer = second::report_drawing(&c.top, &c.bottom, d.w, d.t, &d.entries, &mut ours);
        let library = library::report_drawing(&c.top, &c.bottom, d.w, d.t, &d.entries, &mut theirs);
        let call = format!("report on a drawing, w {} t {}", d.w, d.t);
        self.same(&call, c, answer.number, checked(answer), library);
        self.tables(c, answer.number, &ours, &theirs);
    }

    /// The library's drawing, damaged ones, some with more wire, scribbles, meshes
    /// and, of a channel much like this, one without tracks.
    fn drawings(&mut self, rng: &mut Rng, c: &Channel) {
        let mut entries = vec![0; second::need(&c.top, &c.bottom).unwrap_or(6)];
        let routed = library::route(&c.top, &c.bottom, &mut entries);
        let (w, t) = (routed.width, routed.tracks);
        let used = w.saturating_mul(t.saturating_mul(2).saturating_add(1));
        if used > entries.len() {
            return; // Wrong figures: `routes` has told of them.
        }
        entries.truncate(used);
        let mut drawing = Drawing { w, t, entries };
        self.columns(rng, c, &drawing);
        self.drawing(rng, c, &drawing);
        if rng.percent(20) {
            drawing.widen(rng.from(1, 3));
            drawing.heighten(drawing.t);
            self.drawing(rng, c, &drawing);
        }
        let large = drawing.entries.len() > 20_000;
        for _ in 0..if large { 1 } else { 4 } {
            let mut damaged = drawing.clone();
            damage::drawing(rng, c, &mut damaged);
            self.drawing(rng, c, &damaged);
        }
        for _ in 0..if large { 1 } else { 3 } {
            let grown = damage::grown(rng, &drawing);
            self.drawing(rng, c, &grown);
        }
        if c.top.len() <= 6 {
            for _ in 0..6 {
                let scribble = damage::scribble(rng, c);
                self.drawing(rng, c, &scribble);
            }
            if let Some(mesh) = damage::mesh(rng, c) {
                self.drawing(rng, c, &mesh);
            }
            let (flat, drawing) = damage::flat(rng, c);
            self.drawing(rng, &flat, &drawing);
        }
    }

    /// Single columns, and measures that leave an empty part.
    fn columns(&mut self, rng: &mut Rng, c: &Channel, d: &Drawing) {
        let strange = [0, 1, 511, 512, usize::MAX, usize::MAX / 2 + 1];
        for _ in 0..4 {
            let mut measures = [d.entries.len(), d.w, d.t, rng.from(0, d.w + 1)];
            if rng.percent(25) {
                measures[rng.under(4)] = rng.pick(&strange);
            }
            let [len, w, t, at] = measures;
            let ours = second::column(len, w, t, at).unwrap_or(0..0);
            let ours = Part { offset: ours.start, length: ours.len() };
            let library = library::column(len, w, t, at);
            let call = format!("column {at} of {len} entries, w {w} t {t}");
            self.same(&call, c, 0, ours, library);
        }
    }

    /// The listings of the channel's record and of damaged ones.
    fn lists(&mut self, rng: &mut Rng, c: &Channel) {
        let record = damage::record(c);
        self.listing(c, &record);
        if rng.percent(40) {
            let mut damaged = record;
            damage::bytes(rng, &mut damaged);
            self.listing(c, &damaged);
        }
    }

    /// The listing's answer, its text, and that the bytes after it are kept: on
    /// refusal, where the listing is empty, the whole text.
    fn listing(&mut self, c: &Channel, record: &[u8]) {
        let (number, ours) = split(second::list(record));
        let length = ours.len();
        let library = library::list(record, &mut self.text);
        let theirs = String::from_utf8_lossy(&self.text[..length]).into_owned();
        let spilt = self.text[length..].iter().position(|&byte| byte != MARK);
        self.text.fill(MARK);
        self.same("list", c, number, Listed { number, length }, library);
        self.same("list, text", c, number, ours, theirs);
        let place = spilt.map(|place| length + place);
        self.same("list, first byte written after the text", c, number, None, place);
    }

    /// The canonical record into slices too short, just long enough and longer.
    fn records(&mut self, rng: &mut Rng, c: &Channel) {
        let need = 6 + 4 * c.top.len();
        let shorter = need - if rng.percent(80) { 1 } else { rng.from(1, need) };
        for room in [shorter, need, need + rng.from(1, 40)] {
            let mut ours: Vec<u8> = (0..room).map(|_| rng.next() as u8).collect();
            let mut theirs = ours.clone();
            let (number, length) = split(second::canonical(&c.top, &c.bottom, &mut ours));
            let library = library::canonical(&c.top, &c.bottom, &mut theirs);
            self.same("canonical", c, number, Canonical { number, length }, library);
            let place = ours.iter().zip(&theirs).position(|(a, b)| a != b);
            self.same("record, first different byte", c, number, None, place);
        }
        if second::rows::nets(&c.top, &c.bottom, second::MOST_COLUMNS).is_ok() {
            self.spellings(rng, c);
        }
    }

    /// The library's record beside those of the channel under other numbers, of the
    /// rows that are read back, and of a channel with other nets.
    fn spellings(&mut self, rng: &mut Rng, c: &Channel) {
        let record = written(c);
        let renamed = written(&random::renamed(rng, c)) == record;
        self.same("canonical, equal bytes after a renaming", c, 0, true, renamed);
        let again = second::record::rows(&record)
            .is_ok_and(|(top, bottom)| written(&Channel { top, bottom }) == record);
        self.same("canonical, equal bytes from the rows read back", c, 0, true, again);
        if let Some(other) = damage::pins(rng, c) {
            let equal = written(&other) == record;
            self.same("canonical, equal bytes of other nets", c, 0, false, equal);
        }
    }

    /// The first columns of the library's drawings of the channel and of another that
    /// begins alike, is drawn by the same sweep and has the same density: with two-pin
    /// nets they are the same.
    fn beginnings(&mut self, rng: &mut Rng, c: &Channel) {
        let Some((family, density)) = measured(c).filter(|_| !c.top.is_empty()) else { return };
        let k = rng.from(1, c.top.len());
        let fits = |o: &Channel| o != c && measured(o) == Some((family, density));
        let Some(other) = (0..4).map(|_| random::other_end(rng, c, k)).find(fits) else { return };
        let alike = first_columns(c, k) == first_columns(&other, k);
        let [pairs, different] = &mut self.beginnings[family as usize];
        *pairs += 1;
        *different += !alike as u64;
        if family == Family::TwoPin {
            let call = format!("route, the first {k} columns as of {other:?}");
            self.same(&call, c, 0, true, alike);
            self.no_wider(&other);
        }
    }
}

/// The family and the density of an accepted channel.
fn measured(c: &Channel) -> Option<(Family, usize)> {
    let nets = second::rows::nets(&c.top, &c.bottom, second::MOST_COLUMNS).ok()?;
    Some((nets.family(), second::density(&c.top, &c.bottom).ok()?))
}

/// The first k columns of the library's drawing of an accepted channel.
fn first_columns(c: &Channel, k: usize) -> Vec<u16> {
    let mut drawn = vec![0; second::formula(&c.top, &c.bottom).unwrap_or(0)];
    let tracks = library::route(&c.top, &c.bottom, &mut drawn).tracks;
    drawn.truncate(k.saturating_mul(tracks.saturating_mul(2).saturating_add(1)));
    drawn
}

/// What the library leaves in a slice of just the length of a channel's record.
fn written(c: &Channel) -> Vec<u8> {
    let mut record = vec![MARK; 6 + 4 * c.top.len()];
    library::canonical(&c.top, &c.bottom, &mut record);
    record
}

/// The lengths of slices: too short, just long enough, up to that of document 01's
/// formula, and longer.
fn rooms(rng: &mut Rng, c: &Channel) -> Vec<usize> {
    let need = second::need(&c.top, &c.bottom).unwrap_or(0);
    let formula = second::formula(&c.top, &c.bottom).unwrap_or(0);
    let shorter = need.saturating_sub(if rng.percent(80) { 1 } else { rng.under(need + 1) });
    let between = rng.from(need, formula);
    let longer = formula + rng.from(1, 40);
    let mut rooms = vec![shorter, need, between, formula.saturating_sub(1), formula, longer];
    rooms.sort();
    rooms.dedup();
    rooms
}

/// A table of that many numbers, with something in it.
fn table(room: usize) -> Vec<u32> {
    (0..room).map(|i| 0xa5a5_0000 + i as u32).collect()
}

/// The length of a table that is too short.
fn short_room(rng: &mut Rng) -> usize {
    rng.pick(&[0, 4, TABLE - 4, TABLE - 3, TABLE - 2, TABLE - 1])
}

/// The length of a table with room for more.
fn long_room(rng: &mut Rng) -> usize {
    TABLE + rng.from(1, 16)
}

/// The second checker's answer in the library's form.
fn checked(answer: second::Checked) -> Checked {
    let second::Checked { number, place, column, row } = answer;
    Checked { number, place, column, row }
}

/// The number and the figures of an answer: zeros on refusal.
pub fn split<T: Default>(answer: Result<T, u16>) -> (u16, T) {
    match answer {
        Ok(figures) => (0, figures),
        Err(number) => (number, T::default()),
    }
}
