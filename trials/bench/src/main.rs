//! Times the library beside idiomatic Rust of the same algorithm and beside a
//! plain fill of the layout, in one run, and prints a table in Markdown; then its
//! driven sweep beside its own routing in one call, and its boards and the channel with
//! the widest drawing beside Rust.
//!
//! `bench [REPETITIONS [COLUMNS]]`: each repetition times every side in turn, so
//! that a disturbance of the machine falls on all of them; the medians count. A
//! sample goes over different channels with COLUMNS columns in all, as a planner
//! does; with 256, each sample repeats one channel of 256 columns.

mod boards;
mod channels;

use channels::{cases, Case};
use gaxwethi::raw::State;
use gaxwethi::NetRecord;
use std::hint::black_box;
use std::time::Instant;

/// Some work on a channel, or on another case; what it returns says that the sides agree.
type Side<'a, C = Case> = Box<dyn FnMut(&C) -> usize + 'a>;

/// A measurement of some channels, with that many repetitions: a time for each side.
type Measure = fn(&[Case], usize) -> Vec<f64>;

/// What is measured, in the order of the table.
const CALLS: [(&str, Measure); 7] = [
    ("density", density),
    ("need", need),
    ("route", route),
    ("route, slice of the need", route_fitting),
    ("check", check),
    ("report", report),
    ("canonical", canonical),
];

/// The channels of a row of the table are measured in this many groups.
const GROUPS: usize = 4;

/// A group has this many columns in all where no other number is given: 64 channels of 256 columns.
const COLUMNS: usize = 16384;

/// The seconds that one sample takes at least. It is far less than the time
/// that a busy machine gives a program in one go, so most samples are whole.
const SAMPLE: f64 = 0.0001;

/// Seconds for each channel of some passes over the cases.
fn sample<C>(side: &mut Side<C>, cases: &[C], passes: usize) -> f64 {
    let start = Instant::now();
    for _ in 0..passes {
        for case in cases {
            black_box(side(black_box(case)));
        }
    }
    start.elapsed().as_secs_f64() / (passes * cases.len()) as f64
}

/// The median time of each side for each channel of a group.
fn of_group<C>(sides: &mut [Side<C>], group: &[C], repetitions: usize) -> Vec<f64> {
    let mut passes = Vec::new();
    for side in sides.iter_mut() {
        let once = (0..9).map(|_| sample(side, group, 1)).fold(f64::MAX, f64::min);
        passes.push((SAMPLE / (once * group.len() as f64)).ceil() as usize);
    }
    let mut times = vec![Vec::new(); sides.len()];
    for turn in 0..repetitions {
        for k in 0..sides.len() {
            let side = (turn + k) % sides.len();
            times[side].push(sample(&mut sides[side], group, passes[side]));
        }
    }
    let median = |mut list: Vec<f64>| {
        list.sort_by(f64::total_cmp);
        list[list.len() / 2]
    };
    times.into_iter().map(median).collect()
}

/// The time of each side: the mean of its medians over groups of channels.
fn medians<C>(mut sides: Vec<Side<C>>, cases: &[C], repetitions: usize) -> Vec<f64> {
    for case in cases {
        assert_eq!(sides[0](case), sides[1](case), "the sides disagree");
    }
    let groups = cases.chunks(cases.len().div_ceil(GROUPS));
    let of_groups: Vec<_> = groups.map(|g| of_group(&mut sides, g, repetitions)).collect();
    let sum = |side: usize| of_groups.iter().map(|times| times[side]).sum::<f64>();
    let mean = |side| sum(side) / of_groups.len() as f64;
    (0..sides.len()).map(mean).collect()
}

/// A number made of all entries of a drawing.
fn digest(entries: &[u16]) -> usize {
    entries.iter().fold(0, |h, &x| usize::wrapping_mul(h ^ x as usize, 0x0100_0000_01b3))
}

fn density(cases: &[Case], repetitions: usize) -> Vec<f64> {
    let library = |c: &Case| gaxwethi::density(&c.top, &c.bottom).unwrap();
    let rust = |c: &Case| baseline::density(&c.top, &c.bottom).unwrap();
    medians(vec![Box::new(library), Box::new(rust)], cases, repetitions)
}

fn need(cases: &[Case], repetitions: usize) -> Vec<f64> {
    let library = |c: &Case| gaxwethi::need(&c.top, &c.bottom).unwrap();
    let rust = |c: &Case| baseline::need(&c.top, &c.bottom).unwrap();
    medians(vec![Box::new(library), Box::new(rust)], cases, repetitions)
}

/// Routing into slices of the formula's length, which are drawn into at once.
fn route(cases: &[Case], repetitions: usize) -> Vec<f64> {
    route_into(|case| case.room, cases, repetitions)
}

/// Routing into slices of just the length that is needed.
fn route_fitting(cases: &[Case], repetitions: usize) -> Vec<f64> {
    route_into(|case| case.drawing.len(), cases, repetitions)
}

/// Routing into slices of some length, and a fill of as many entries as the drawing
/// has.
fn route_into(length: fn(&Case) -> usize, cases: &[Case], repetitions: usize) -> Vec<f64> {
    let most = cases.iter().map(length).max().unwrap();
    let [mut one, mut other, mut filled] = [(); 3].map(|()| vec![0u16; most]);
    for case in cases {
        gaxwethi::route(&case.top, &case.bottom, &mut one[..length(case)]).unwrap();
        let size = case.drawing.len();
        assert_eq!(digest(&one[..size]), digest(&case.drawing), "the drawings differ");
    }
    let library =
        |c: &Case| gaxwethi::route(&c.top, &c.bottom, &mut one[..length(c)]).unwrap().width;
    let rust =
        |c: &Case| baseline::route(&c.top, &c.bottom, &mut other[..length(c)]).unwrap().width;
    let fill = |c: &Case| {
        filled[..c.drawing.len()].fill(black_box(7));
        black_box(&filled);
        c.width
    };
    medians(vec![Box::new(library), Box::new(rust), Box::new(fill)], cases, repetitions)
}

fn check(cases: &[Case], repetitions: usize) -> Vec<f64> {
    let library = |c: &Case| {
        gaxwethi::check(&c.top, &c.bottom, c.width, c.tracks, &c.drawing).is_ok() as usize
    };
    let rust = |c: &Case| {
        let answer = baseline::check(&c.top, &c.bottom, c.width, c.tracks, &c.drawing);
        (answer.number == 0) as usize
    };
    medians(vec![Box::new(library), Box::new(rust)], cases, repetitions)
}

/// The report on a drawing; a side returns the length of net 1.
fn report(cases: &[Case], repetitions: usize) -> Vec<f64> {
    let library = |c: &Case, table: &mut [NetRecord]| {
        gaxwethi::report_drawing(&c.top, &c.bottom, c.width, c.tracks, &c.drawing, table).unwrap();
        table[0].length as usize
    };
    let rust = |c: &Case, figures: &mut [u32]| {
        baseline::report_drawing(&c.top, &c.bottom, c.width, c.tracks, &c.drawing, figures);
        figures[3] as usize
    };
    let (mut table, mut figures) = ([NetRecord::default(); 256], [0; 4 * 256]);
    for case in cases {
        library(case, &mut table);
        rust(case, &mut figures);
        let records = table.iter().flat_map(|r| [r.first, r.last, r.pins, r.length]);
        assert!(records.eq(figures), "the reports differ");
    }
    let library = |c: &Case| library(c, &mut table);
    let rust = |c: &Case| rust(c, &mut figures);
    medians(vec![Box::new(library), Box::new(rust)], cases, repetitions)
}

/// The canonical record into slices of just its length.
fn canonical(cases: &[Case], repetitions: usize) -> Vec<f64> {
    let length = |c: &Case| 6 + 4 * c.top.len();
    let most = cases.iter().map(length).max().unwrap();
    let [mut one, mut other] = [(); 2].map(|()| vec![0; most]);
    for case in cases {
        let (one, other) = (&mut one[..length(case)], &mut other[..length(case)]);
        gaxwethi::canonical(&case.top, &case.bottom, one).unwrap();
        baseline::canonical(&case.top, &case.bottom, other).unwrap();
        assert_eq!(one, other, "the records differ");
    }
    let library = |c: &Case| gaxwethi::canonical(&c.top, &c.bottom, &mut one[..length(c)]).unwrap();
    let rust = |c: &Case| baseline::canonical(&c.top, &c.bottom, &mut other[..length(c)]).unwrap();
    medians(vec![Box::new(library), Box::new(rust)], cases, repetitions)
}

/// A driven sweep from its start to its end, in steps of that many columns: the width.
fn drive(state: &mut State, case: &Case, layout: &mut [u16], columns: usize) -> usize {
    state.start(&case.top, &case.bottom);
    loop {
        let answer = state.step(layout, columns);
        if answer.number != 0 || answer.finished {
            return answer.drawn;
        }
    }
}

/// A driven sweep in single steps, then in one big step, then routing in one call, all
/// into slices of the formula's length.
fn driven(cases: &[Case], repetitions: usize) -> Vec<f64> {
    let most = cases.iter().map(|case| case.room).max().unwrap();
    let [mut one, mut other, mut third] = [(); 3].map(|()| vec![0u16; most]);
    let [mut first, mut second] = [(); 2].map(|()| State::default());
    for case in cases {
        drive(&mut first, case, &mut one[..case.room], 1);
        drive(&mut second, case, &mut other[..case.room], usize::MAX);
        let size = case.drawing.len();
        let drawn = [&one, &other].map(|layout| digest(&layout[..size]));
        assert_eq!(drawn, [digest(&case.drawing); 2], "the drawings differ");
    }
    let singly = |c: &Case| drive(&mut first, c, &mut one[..c.room], 1);
    let at_once = |c: &Case| drive(&mut second, c, &mut other[..c.room], usize::MAX);
    let route = |c: &Case| gaxwethi::route(&c.top, &c.bottom, &mut third[..c.room]).unwrap().width;
    medians(vec![Box::new(singly), Box::new(at_once), Box::new(route)], cases, repetitions)
}

/// The table of driven sweeps.
fn print_driven(columns: usize, repetitions: usize) {
    println!("\nA driven sweep, its start included, beside routing in one call:\n");
    println!("| sweep | n | pins | library | route | library / route | goal |");
    println!("|---|---|---|---|---|---|---|");
    let times = [16, 64, 256].map(|n| (n, driven(&cases(n, 2, GROUPS * columns / n), repetitions)));
    let rows = [("steps, one by one", "at most 8"), ("one big step", "at most 1.5")];
    for (k, (sweep, goal)) in rows.into_iter().enumerate() {
        for (n, times) in &times {
            let (library, route) = (times[k], times[2]);
            println!(
                "| {sweep} | {n} | 2 | {} | {} | {:.2} | {goal} |",
                shown(library),
                shown(route),
                library / route
            );
        }
    }
}

/// Writing the channel with the widest drawing into rows of some numbers of columns.
fn widest(columns: &[usize], repetitions: usize) -> Vec<f64> {
    let [mut top, mut bottom, mut above, mut below] = [[7; 256]; 4];
    for &n in columns {
        gaxwethi::widest(&mut top[..n], &mut bottom[..n]).unwrap();
        baseline::widest(&mut above[..n], &mut below[..n]).unwrap();
        assert_eq!((top, bottom), (above, below), "the channels differ");
    }
    let library = |&n: &usize| gaxwethi::widest(&mut top[..n], &mut bottom[..n]).unwrap();
    let rust = |&n: &usize| baseline::widest(&mut above[..n], &mut below[..n]).unwrap();
    medians(vec![Box::new(library), Box::new(rust)], columns, repetitions)
}

/// The table of the widest channels.
fn print_widest(repetitions: usize) {
    println!("\nThe channel with the widest drawing, written beside idiomatic Rust:\n");
    println!("| call | n | library | Rust | library / Rust |");
    println!("|---|---|---|---|---|");
    for n in [16, 64, 256] {
        let times = widest(&[n; GROUPS], repetitions);
        let (library, rust) = (times[0], times[1]);
        println!("| widest | {n} | {} | {} | {:.2} |", shown(library), shown(rust), library / rust);
    }
}

/// A time in a fitting unit.
fn shown(seconds: f64) -> String {
    match seconds * 1e9 {
        ns if ns < 10_000.0 => format!("{ns:.0} ns"),
        ns => format!("{:.1} µs", ns / 1000.0),
    }
}

fn main() {
    let number = |k: usize, other: usize| {
        std::env::args().nth(k).map_or(other, |x| x.parse().expect("a number"))
    };
    let (repetitions, columns) = (number(1, 51), number(2, COLUMNS));
    println!("# Benchmarks\n");
    println!("The library beside idiomatic Rust of the same algorithm, and beside a plain fill of");
    println!(
        "the drawing's entries. Times are for one channel, medians of {repetitions} interleaved"
    );
    println!("repetitions in one run of this command, in the root of the repository:\n");
    println!("    cargo run --release --manifest-path trials/Cargo.toml -p bench -- {repetitions} {columns}\n");
    println!("| call | n | pins | library | Rust | library / Rust | fill | library / fill |");
    println!("|---|---|---|---|---|---|---|---|");
    for (call, measure) in CALLS {
        for n in [16, 64, 256] {
            for (pins, most) in [("2", 2), ("2 or 3", 3), ("2 to 5", 5)] {
                let times = measure(&cases(n, most, GROUPS * columns / n), repetitions);
                let (library, rust) = (times[0], times[1]);
                let fill = times.get(2).map_or(["–".into(), "–".into()], |fill| {
                    [shown(*fill), format!("{:.2}", library / fill)]
                });
                println!(
                    "| {call} | {n} | {pins} | {} | {} | {:.2} | {} | {} |",
                    shown(library),
                    shown(rust),
                    library / rust,
                    fill[0],
                    fill[1]
                );
            }
        }
    }
    print_driven(columns, repetitions);
    boards::print(repetitions);
    print_widest(repetitions);
}
