//! Channels on the drawing board: lists of changes of all kinds, through both.

use crate::compare::Tally;
use crate::library;
use crate::random::{self, Channel, Rng};
use crate::steps::{new_net, reason};
use gaxwethi::raw::{Board, Density};
use second::rows::{crossing, Nets};
use second::{Terminal, MOST_COLUMNS};

/// What must come up on boards. A 22 is counted where it has one reason alone.
pub const KINDS: [&str; 26] = [
    "starts refused",
    "boards without columns",
    "boards of 256 columns",
    "nets added",
    "in one column",
    "from column 1 to column n",
    "net 256",
    "numbers used again",
    "6 added",
    "21",
    "22 column 0",
    "22 right of column n",
    "22 a pin there",
    "22 another side",
    "22 twice the same",
    "nets dropped",
    "dropped from one column",
    "6 dropped",
    "24",
    "24 of a net dropped before",
    "boards filled",
    "256 nets",
    "boards emptied",
    "made-up boards changed",
    "made-up boards refused",
    "made-up boards begun anew",
];

/// Gaps far outside.
const FAR: [usize; 6] = [255, 256, 257, 65_535, 65_537, usize::MAX];

/// A change of a board.
#[derive(Clone, Copy, Debug)]
enum Change {
    Add(u16, [Terminal; 2]),
    Drop(u16),
}

impl Change {
    fn on_second(self, board: &mut second::Board) -> u16 {
        match self {
            Change::Add(net, [one, other]) => {
                board.add(net, one.column, one.side as u16, other.column, other.side as u16)
            }
            Change::Drop(net) => board.drop(net),
        }
    }

    fn on_library(self, board: &mut Board) -> u16 {
        match self {
            Change::Add(net, [one, other]) => {
                board.add(net, one.column, one.side as u16, other.column, other.side as u16)
            }
            Change::Drop(net) => board.drop(net),
        }
    }
}

/// How a list of changes is made.
struct Habits {
    /// The chance of a drop, in percent.
    drops: usize,
    /// The nets dropped so far.
    dropped: Vec<u16>,
}

impl Tally {
    fn on_board(&mut self, kind: &str) {
        let kind = KINDS.iter().position(|&other| other == kind).expect("one of the kinds");
        self.boards[kind] += 1;
    }

    /// A list of changes on a board, from its start on; now and then one that fills a
    /// board of 256 columns.
    pub fn board(&mut self, rng: &mut Rng) {
        let large = rng.under(1500) == 0;
        let n = match rng.under(50) {
            _ if large => 256,
            0 => rng.pick(&[257, 258, 300, 512, 65_535, 65_536, 65_792, usize::MAX]),
            _ => random::columns(rng),
        };
        let (mut ours, mut theirs) = self.begin(rng, n);
        let drops = if large { 5 } else { rng.pick(&[5, 30, 50, 60]) };
        let mut habits = Habits { drops, dropped: Vec::new() };
        let length = if large { 900 } else { rng.pick(&[4, 12, 30, 100]) };
        for _ in 0..length {
            self.change(rng, &mut ours, &mut theirs, &mut habits);
        }
        let c = channel(&ours);
        let density = Density { number: 0, density: ours.density().into() };
        self.same("density of a board's rows", &c, 0, density, library::density(&c.top, &c.bottom));
    }

    /// The start, on a board with anything in it.
    fn begin(&mut self, rng: &mut Rng, n: usize) -> (second::Board, Board) {
        let (number, ours) = second::Board::new(n);
        let mut theirs = made_up(rng);
        let library = theirs.start(n);
        let call = format!("board of {n} columns");
        self.same(&call, &channel(&ours), number, number, library);
        match (number, n) {
            (0, 0) => self.on_board("boards without columns"),
            (0, 256) => self.on_board("boards of 256 columns"),
            (0, _) => {}
            _ => self.on_board("starts refused"),
        }
        self.alike(&call, number, &ours, &theirs);
        (ours, theirs)
    }

    /// A change of the boards.
    fn change(
        &mut self,
        rng: &mut Rng,
        ours: &mut second::Board,
        theirs: &mut Board,
        habits: &mut Habits,
    ) {
        let change = a_change(rng, <[_; 2]>::from(ours.rows()), habits);
        let (old, before) = (ours.clone(), theirs.clone());
        let number = change.on_second(ours);
        let library = change.on_library(theirs);
        let call = format!("{change:?}");
        self.same(&call, &channel(&old), number, number, library);
        if number != 0 {
            self.same("board kept", &channel(&old), number, true, *theirs == before);
        }
        self.alike(&call, number, ours, theirs);
        self.count_change(change, number, &old, ours, &habits.dropped);
        if let (Change::Drop(net), 0) = (change, number) {
            habits.dropped.push(net);
        }
    }

    /// Density, the counts at all gaps and some outside, and the whole arrays.
    fn alike(&mut self, call: &str, number: u16, ours: &second::Board, theirs: &Board) {
        let (c, n) = (channel(ours), ours.columns());
        let nets = Nets::of(&c.top, &c.bottom);
        let gaps = || (0..n + 2).chain(FAR);
        let counts: Vec<u16> = gaps().map(|gap| crossing(&nets, gap) as u16).collect();
        let library: Vec<u16> = gaps().map(|gap| theirs.count(gap)).collect();
        let mut whole = Board { columns: n, ..Board::default() };
        whole.top[..n].copy_from_slice(&c.top);
        whole.bottom[..n].copy_from_slice(&c.bottom);
        whole.counts[..n].copy_from_slice(&counts[..n]);
        let after = format!("after {call}");
        self.same(&format!("counts {after}"), &c, number, counts, library);
        self.same(&format!("density {after}"), &c, number, ours.density(), theirs.density());
        self.same(&format!("board {after}"), &c, number, &whole, theirs);
    }

    /// Counts what a change was.
    fn count_change(
        &mut self,
        change: Change,
        number: u16,
        old: &second::Board,
        new: &second::Board,
        dropped: &[u16],
    ) {
        let rows = <[_; 2]>::from(old.rows());
        match (change, number) {
            (Change::Add(net, [one, other]), 0) => {
                self.on_board("nets added");
                let columns = [one.column.min(other.column), one.column.max(other.column)];
                let pins = <[_; 2]>::from(new.rows()).concat();
                let met = [
                    ("in one column", columns[0] == columns[1]),
                    ("from column 1 to column n", columns == [1, old.columns()]),
                    ("net 256", net == 256),
                    ("numbers used again", dropped.contains(&net)),
                    ("boards filled", !pins.contains(&0)),
                    ("256 nets", pins.len() == 2 * MOST_COLUMNS && !pins.contains(&0)),
                ];
                met.iter().filter(|(_, met)| *met).for_each(|(kind, _)| self.on_board(kind));
            }
            (Change::Add(_, terminals), 22) => {
                reason(rows, 0, terminals).into_iter().for_each(|kind| self.on_board(kind));
            }
            (Change::Add(..), 6) => self.on_board("6 added"),
            (Change::Add(..), _) => self.on_board(&number.to_string()),
            (Change::Drop(net), 0) => {
                self.on_board("nets dropped");
                let [top, bottom] = rows;
                if top.iter().zip(bottom).any(|pins| pins == (&net, &net)) {
                    self.on_board("dropped from one column");
                }
                if *new == second::Board::new(old.columns()).1 {
                    self.on_board("boards emptied");
                }
            }
            (Change::Drop(_), 6) => self.on_board("6 dropped"),
            (Change::Drop(net), _) => {
                self.on_board("24");
                if dropped.contains(&net) {
                    self.on_board("24 of a net dropped before");
                }
            }
        }
    }

    /// Changes and questions on a board that no call left: they end, a refused change
    /// leaves it, a question too, and a start makes it a board without nets.
    pub fn made_up_board(&mut self, rng: &mut Rng) {
        let mut board = made_up(rng);
        let mut habits = Habits { drops: 50, dropped: vec![1, 256] };
        for _ in 0..rng.under(6) {
            let n = board.columns.min(MOST_COLUMNS);
            let rows = [&board.top[..n], &board.bottom[..n]];
            let c = Channel { top: rows[0].to_vec(), bottom: rows[1].to_vec() };
            let change = a_change(rng, rows, &mut habits);
            let before = board.clone();
            let refused = change.on_library(&mut board) != 0;
            let kept = board == before;
            let kind = if refused { "made-up boards refused" } else { "made-up boards changed" };
            self.on_board(kind);
            self.same(&format!("made-up board kept by {change:?}"), &c, 0, true, kept || !refused);
            let before = board.clone();
            board.density();
            board.count(rng.pick(&[0, 1, n, n + 1, 256, usize::MAX]));
            self.same("made-up board kept by a question", &c, 0, true, board == before);
        }
        let columns = random::columns(rng);
        let begun = (board.start(columns), board);
        let empty = Board { columns, ..Board::default() };
        self.on_board("made-up boards begun anew");
        let c = Channel { top: Vec::new(), bottom: Vec::new() };
        self.same(&format!("made-up board begun with {columns}"), &c, 0, (0, empty), begun);
    }
}

/// The channel on a board.
fn channel(board: &second::Board) -> Channel {
    let (top, bottom) = board.rows();
    Channel { top: top.to_vec(), bottom: bottom.to_vec() }
}

/// A change of a board with these rows: mostly a new net at free terminals, or one that
/// is there to drop.
fn a_change(rng: &mut Rng, rows: [&[u16]; 2], habits: &mut Habits) -> Change {
    if rng.percent(habits.drops) {
        return Change::Drop(a_drop(rng, rows, &habits.dropped));
    }
    let (mut net, terminals) = new_net(rng, rows, 0);
    if rng.percent(20) && !habits.dropped.is_empty() {
        net = rng.pick(&habits.dropped);
    }
    Change::Add(net, terminals)
}

/// The number of a net to drop.
fn a_drop(rng: &mut Rng, rows: [&[u16]; 2], dropped: &[u16]) -> u16 {
    let pins = rows.concat();
    let nets: Vec<u16> = pins.into_iter().filter(|&net| net != 0).collect();
    match rng.under(20) {
        0 => rng.pick(&[0, 257, 258, 512, 32_768, 65_535]),
        1 => rng.pick(&[1, 2, 255, 256]),
        2 if !dropped.is_empty() => rng.pick(dropped),
        _ if !nets.is_empty() => rng.pick(&nets),
        _ => rng.from(1, 256) as u16,
    }
}

/// A board with anything in it.
fn made_up(rng: &mut Rng) -> Board {
    let columns = match rng.percent(50) {
        true => rng.pick(&[0, 1, 255, 256, 257, 300, 65_536, usize::MAX]),
        false => rng.from(2, 40),
    };
    let mut board = Board { columns, ..Board::default() };
    let highest = rng.pick(&[0, 1, 3, 40, 300, 65_535]);
    let rows = [&mut board.top, &mut board.bottom, &mut board.counts];
    rows.into_iter().for_each(|row| row.fill_with(|| rng.from(0, highest) as u16));
    board
}
