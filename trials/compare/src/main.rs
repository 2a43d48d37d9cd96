//! Trials: `trials [CHANNELS [SEED]]` runs the library beside the second
//! router and checker on random channels and compares everything that the
//! calls hand back or write. The run is the same for the same seed on any
//! number of cores. Status 1 says that something differed.

mod boards;
mod compare;
mod damage;
mod library;
mod random;
mod steps;
mod widest;

use compare::{Tally, PIN_FAULTS};
use std::process::ExitCode;
use std::sync::atomic::{AtomicU64, Ordering};
use steps::KINDS;

const CHANNELS: u64 = 120_000;
const SEED: u64 = 20_241_016;

/// Runs trials until all are taken.
fn work(next: &AtomicU64, channels: u64, seed: u64) -> Tally {
    let mut tally = Tally::new();
    loop {
        let trial = next.fetch_add(1, Ordering::Relaxed);
        if trial >= channels {
            return tally;
        }
        tally.trial(seed, trial);
        if trial % 20_000 == 19_999 {
            eprintln!("{} channels tried", trial + 1);
        }
    }
}

fn main() -> ExitCode {
    let mut arguments = std::env::args().skip(1).map(|x| x.parse().expect("a number"));
    let channels = arguments.next().unwrap_or(CHANNELS);
    let seed = arguments.next().unwrap_or(SEED);
    let cores = std::thread::available_parallelism().map_or(1, |n| n.get());
    let start = std::time::Instant::now();
    let next = AtomicU64::new(0);
    let mut all = Tally::new();
    std::thread::scope(|scope| {
        let workers: Vec<_> =
            (0..cores).map(|_| scope.spawn(|| work(&next, channels, seed))).collect();
        workers.into_iter().for_each(|worker| all.add(worker.join().unwrap()));
    });
    all.shown.iter().take(5).for_each(|text| println!("{text}"));
    let answers: Vec<String> =
        all.numbers.iter().enumerate().map(|(n, count)| format!("{n}: {count}")).collect();
    println!("answers by number: {}", answers.join(", "));
    let [two, three, many] = all.sweeps;
    println!("channels by sweep: two-pin {two}, three-pin {three}, many-pin {many}");
    let untried = all.numbers.iter().filter(|&&count| count == 0).count();
    let faults: Vec<String> = PIN_FAULTS
        .iter()
        .zip(all.pin_faults)
        .map(|(kind, count)| format!("{kind}: {count}"))
        .collect();
    println!("wrong pin edges: {}", faults.join(", "));
    let unseen = all.pin_faults.iter().filter(|&&count| count == 0).count();
    let [[pairs, _], others @ ..] = all.beginnings;
    let told = pairs > 0 && others.iter().all(|[_, different]| *different > 0);
    let [two, three, many] = all.beginnings.map(|[pairs, other]| format!("{other} of {pairs}"));
    println!("begun alike, drawn otherwise: two-pin {two}, three-pin {three}, many-pin {many}");
    let driven: Vec<String> =
        KINDS.iter().zip(all.driven).map(|(kind, count)| format!("{kind}: {count}")).collect();
    println!("driven sweeps: {}", driven.join(", "));
    let undriven = all.driven.iter().filter(|&&count| count == 0).count();
    let boards: Vec<String> = boards::KINDS
        .iter()
        .zip(all.boards)
        .map(|(kind, count)| format!("{kind}: {count}"))
        .collect();
    println!("boards: {}", boards.join(", "));
    let unchanged = all.boards.iter().filter(|&&count| count == 0).count();
    let widest: Vec<String> = widest::KINDS
        .iter()
        .zip(all.widest)
        .map(|(kind, count)| format!("{kind}: {count}"))
        .collect();
    println!("widest channels: {}", widest.join(", "));
    let unwritten = all.widest.iter().filter(|&&count| count == 0).count();
    println!(
        "seed {seed}: {} channels, {} answers compared, {} differences, {:.0} s",
        all.channels,
        all.calls,
        all.differences,
        start.elapsed().as_secs_f64()
    );
    if untried > 0 {
        println!("{untried} of the numbers 0 to 24 never came up: try more channels");
    }
    if unseen > 0 {
        println!("{unseen} of the wrong pin edges never came up: try more channels");
    }
    if !told {
        println!(
            "no two-pin pairs that begin alike, or no others drawn otherwise: try more channels"
        );
    }
    if undriven > 0 {
        println!("{undriven} of the kinds in driven sweeps never came up: try more channels");
    }
    if unchanged > 0 {
        println!("{unchanged} of the kinds on boards never came up: try more channels");
    }
    if unwritten > 0 {
        println!("{unwritten} of the kinds of widest channels never came up: try more channels");
    }
    let unmet = undriven > 0 || unchanged > 0 || unwritten > 0;
    let untold = untried > 0 || unseen > 0 || !told || unmet;
    ExitCode::from((all.differences > 0 || untold) as u8)
}
