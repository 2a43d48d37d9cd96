//! Tries millions of random channels on all cores and shows the densest:
//! `planner [CHANNELS [COLUMNS [PINS]]]`, with nets of two up to PINS pins.

use std::io::Write;
use std::sync::atomic::{AtomicU64, Ordering};
use std::time::{Duration, Instant};

/// The densest channel that a worker has met.
#[derive(Clone, Default)]
struct Best {
    figures: Option<gaxwethi::Figures>,
    top: Vec<u16>,
    bottom: Vec<u16>,
}

impl Best {
    /// Density first, then width: the denser and the narrower is better.
    fn rank(&self) -> (usize, usize) {
        self.figures.map_or((0, 0), |f| (f.density, usize::MAX - f.width))
    }
}

/// A random number under a bound (xorshift).
fn under(state: &mut u64, bound: usize) -> usize {
    *state ^= *state << 13;
    *state ^= *state >> 7;
    *state ^= *state << 17;
    (*state % bound as u64) as usize
}

/// Puts nets of two to `pins` pins on random places of a full channel.
fn random_rows(
    state: &mut u64,
    pins: usize,
    places: &mut [u16],
    top: &mut [u16],
    bottom: &mut [u16],
) {
    for i in (1..places.len()).rev() {
        places.swap(i, under(state, i + 1));
    }
    let (mut net, mut left, mut rest) = (0, 0, places.len());
    for &place in places.iter() {
        if left == 0 {
            left = if rest <= pins + 1 { rest } else { 2 + under(state, pins - 1) };
            net += 1;
        }
        left -= 1;
        rest -= 1;
        let row = if place % 2 == 0 { &mut *top } else { &mut *bottom };
        row[place as usize / 2] = net;
    }
}

/// The length of a slice that any channel of that many columns, one or more, is
/// drawn into at once. At most as many nets as columns cross a gap, so the tracks
/// are at most one less than twice the columns.
fn room(columns: usize) -> usize {
    let tracks = 2 * columns - 1;
    (columns + tracks / 2) * (2 * tracks + 1)
}

/// Routes channels until the work is done.
fn work(seed: u64, channels: u64, columns: usize, pins: usize, done: &AtomicU64) -> Best {
    const SHARE: u64 = 100;
    let mut state = seed;
    let mut places: Vec<u16> = (0..2 * columns as u16).collect();
    let (mut top, mut bottom) = (vec![0; columns], vec![0; columns]);
    let mut layout = vec![0; room(columns)];
    let mut best = Best::default();
    while done.fetch_add(SHARE, Ordering::Relaxed) < channels {
        for _ in 0..SHARE {
            random_rows(&mut state, pins, &mut places, &mut top, &mut bottom);
            let figures = gaxwethi::route(&top, &bottom, &mut layout);
            let figures = figures.expect("the rows are right and there is room");
            let met = Best { figures: Some(figures), ..Best::default() };
            if met.rank() > best.rank() {
                best = Best { top: top.clone(), bottom: bottom.clone(), ..met };
            }
        }
    }
    best
}

/// Shows the line of progress.
fn progress(done: &AtomicU64, channels: u64, start: Instant) {
    let count = done.load(Ordering::Relaxed).min(channels);
    let rate = count as f64 / start.elapsed().as_secs_f64();
    eprint!("\r{count} of {channels} channels, {rate:.0} per second ");
    std::io::stderr().flush().ok();
}

fn show(best: &Best) {
    let Some(figures) = best.figures else { return };
    let gaxwethi::Figures { density, tracks, width } = figures;
    println!("densest: density {density} tracks {tracks} width {width}");
    for (name, row) in [("top", &best.top), ("bottom", &best.bottom)] {
        let row: Vec<String> = row.iter().map(u16::to_string).collect();
        println!("{name} {}", row.join(" "));
    }
    let mut layout = vec![0; gaxwethi::need(&best.top, &best.bottom).unwrap()];
    gaxwethi::route(&best.top, &best.bottom, &mut layout).unwrap();
    match gaxwethi::check(&best.top, &best.bottom, width, tracks, &layout) {
        Ok(()) => println!("the checker passes its drawing"),
        Err(fault) => println!("the checker: {fault}"),
    }
}

fn main() {
    let mut arguments = std::env::args().skip(1).map(|x| x.parse().expect("a number"));
    let channels = arguments.next().unwrap_or(2_000_000);
    let columns = arguments.next().unwrap_or(24).clamp(1, 256) as usize;
    let pins = arguments.next().unwrap_or(3).clamp(2, 512) as usize;
    let cores = std::thread::available_parallelism().map_or(1, |n| n.get());
    let (done, start) = (&AtomicU64::new(0), Instant::now());
    let best = std::thread::scope(|scope| {
        let seeds = (1..=cores as u64).map(|i| i.wrapping_mul(0x9e37_79b9_7f4a_7c15));
        let workers: Vec<_> = seeds
            .map(|seed| scope.spawn(move || work(seed, channels, columns, pins, done)))
            .collect();
        while !workers.iter().all(|worker| worker.is_finished()) {
            progress(done, channels, start);
            std::thread::sleep(Duration::from_millis(100));
        }
        let found = workers.into_iter().map(|worker| worker.join().unwrap());
        found.max_by_key(Best::rank).unwrap_or_default()
    });
    progress(done, channels, start);
    eprintln!();
    let seconds = start.elapsed().as_secs_f64();
    let rate = channels as f64 / seconds;
    println!("{channels} channels of {columns} columns on {cores} cores: {rate:.0} per second");
    show(&best);
}
