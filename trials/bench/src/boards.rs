//! Channels on the drawing board: how many changes, and questions for the density, the
//! library and idiomatic Rust answer in a second.

use crate::channels::under;
use crate::{medians, GROUPS};
use gaxwethi::{Side, Terminal};

/// A change of a board; terminals are a column and a side.
#[derive(Clone, Copy)]
enum Change {
    Add(u16, (usize, u16), (usize, u16)),
    Drop(u16),
}

/// A list of changes that are all accepted, half of them drops: nets on half of the
/// terminals, then nets that come and go, and in the end all go.
struct List {
    columns: usize,
    changes: Vec<Change>,
}

/// A board as some changes left it, on both sides.
struct Snapshot {
    library: gaxwethi::Board,
    rust: baseline::Board,
}

/// What is measured: the name, and the seconds of the library and of Rust for one.
type Row = (&'static str, Vec<f64>);

/// The lists of a row of the table, in all groups, and the changes of a list.
const LISTS: usize = 16;
const CHANGES: usize = 1024;

/// One in so many boards is asked in the row of the questions alone.
const APART: usize = 16;

/// Takes one out of a list at random.
fn take<T>(state: &mut u64, list: &mut Vec<T>) -> T {
    let at = under(state, list.len());
    list.swap_remove(at)
}

fn list(state: &mut u64, columns: usize) -> List {
    let mut free: Vec<_> = (1..=columns).flat_map(|column| [(column, 0), (column, 1)]).collect();
    let mut numbers: Vec<u16> = (1..=256).collect();
    let mut nets = Vec::new();
    let mut changes = Vec::new();
    while changes.len() < CHANGES {
        let rising = changes.len() < columns / 2;
        let falling = changes.len() + nets.len() >= CHANGES;
        let adds = rising || under(state, 2) == 0;
        if !nets.is_empty() && (falling || free.is_empty() || !adds) {
            let (net, one, other) = take(state, &mut nets);
            changes.push(Change::Drop(net));
            numbers.push(net);
            free.extend([one, other]);
        } else {
            let net = take(state, &mut numbers);
            let (one, other) = (take(state, &mut free), take(state, &mut free));
            changes.push(Change::Add(net, one, other));
            nets.push((net, one, other));
        }
    }
    List { columns, changes }
}

fn terminal((column, side): (usize, u16)) -> Terminal {
    Terminal { column, side: if side == 0 { Side::Top } else { Side::Bottom } }
}

/// A change on the library's board: whether it is accepted.
fn on_library(board: &mut gaxwethi::Board, change: &Change) -> bool {
    match *change {
        Change::Add(net, one, other) => board.add(net, terminal(one), terminal(other)).is_ok(),
        Change::Drop(net) => board.drop_net(net).is_ok(),
    }
}

/// The same on Rust's.
fn on_rust(board: &mut baseline::Board, change: &Change) -> bool {
    match *change {
        Change::Add(net, one, other) => board.add(net, one, other).is_ok(),
        Change::Drop(net) => board.drop(net).is_ok(),
    }
}

/// Makes all changes of a list on both sides and sees that they are accepted, that the
/// boards are the same after each, and that the last is empty; some are kept.
fn snapshots(list: &List) -> Vec<Snapshot> {
    let mut library = gaxwethi::Board::new(list.columns).unwrap();
    let mut rust = baseline::Board::new(list.columns).unwrap();
    let mut kept = Vec::new();
    for (at, change) in list.changes.iter().enumerate() {
        assert!(on_library(&mut library, change) && on_rust(&mut rust, change), "refused");
        assert_eq!((library.top(), library.bottom()), (&rust.rows[0][..], &rust.rows[1][..]));
        assert_eq!(library.counts(), &rust.counts[1..]);
        if at % APART == 0 {
            kept.push(Snapshot { library: library.clone(), rust: rust.clone() });
        }
    }
    assert_eq!(Ok(library), gaxwethi::Board::new(list.columns));
    kept
}

/// The changes alone, from an empty board on.
fn changes(lists: &[List], repetitions: usize) -> Vec<f64> {
    let library = |list: &List| {
        let mut board = gaxwethi::Board::new(list.columns).unwrap();
        list.changes.iter().filter(|change| on_library(&mut board, change)).count()
    };
    let rust = |list: &List| {
        let mut board = baseline::Board::new(list.columns).unwrap();
        list.changes.iter().filter(|change| on_rust(&mut board, change)).count()
    };
    medians(vec![Box::new(library), Box::new(rust)], lists, repetitions)
}

/// The changes, and after each the density.
fn changes_and_questions(lists: &[List], repetitions: usize) -> Vec<f64> {
    let library = |list: &List| {
        let mut board = gaxwethi::Board::new(list.columns).unwrap();
        let mut changed = |change| {
            on_library(&mut board, change);
            usize::from(board.density())
        };
        list.changes.iter().map(&mut changed).sum()
    };
    let rust = |list: &List| {
        let mut board = baseline::Board::new(list.columns).unwrap();
        let mut changed = |change| {
            on_rust(&mut board, change);
            usize::from(board.density())
        };
        list.changes.iter().map(&mut changed).sum()
    };
    medians(vec![Box::new(library), Box::new(rust)], lists, repetitions)
}

/// The density alone, of different boards.
fn questions(boards: &[Snapshot], repetitions: usize) -> Vec<f64> {
    let library = |boards: &Snapshot| boards.library.density().into();
    let rust = |boards: &Snapshot| boards.rust.density().into();
    medians(vec![Box::new(library), Box::new(rust)], boards, repetitions)
}

/// The rows for boards of that many columns.
fn rows(columns: usize, repetitions: usize) -> [Row; 3] {
    let mut state = 0x9e37_79b9_7f4a_7c15 ^ columns as u64;
    let lists: Vec<List> = (0..LISTS).map(|_| list(&mut state, columns)).collect();
    let boards: Vec<Snapshot> = lists.iter().flat_map(snapshots).collect();
    let each = |times: Vec<f64>| times.into_iter().map(|time| time / CHANGES as f64).collect();
    [
        ("changes", each(changes(&lists, repetitions))),
        ("density questions", questions(&boards, repetitions)),
        ("changes, each with a question", each(changes_and_questions(&lists, repetitions))),
    ]
}

/// A number in a second, in millions.
fn rate(seconds: f64) -> String {
    format!("{:.1} million", 1e-6 / seconds)
}

/// The table of boards.
pub fn print(repetitions: usize) {
    println!(
        "\nBoards, beside idiomatic Rust; {LISTS} lists of {CHANGES} changes, half of them drops,"
    );
    println!("in {GROUPS} groups. The ratio is that of the times:\n");
    println!("| in a second | n | library | Rust | library / Rust |");
    println!("|---|---|---|---|---|");
    let sizes = [16, 64, 256];
    let tables = sizes.map(|n| rows(n, repetitions));
    for row in 0..tables[0].len() {
        for (n, table) in sizes.iter().zip(&tables) {
            let (name, times) = &table[row];
            let (library, rust) = (times[0], times[1]);
            println!(
                "| {name} | {n} | {} | {} | {:.2} |",
                rate(library),
                rate(rust),
                library / rust
            );
        }
    }
}
