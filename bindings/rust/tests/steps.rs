//! Driven sweeps: the worked ones of `tools/cases/job10-steps.txt` and
//! `tools/cases/job10-13-short.txt`, other sides than the two, and made-up states.

mod worked;

use gaxwethi::*;
use worked::{all_words, cases, lines, numbers, sum, words};

/// What stands in a slice before a call; no drawing has such an entry.
const KEPT: u16 = 999;

/// The refusal of a number, if it is one.
fn refusal(number: usize) -> Option<Refusal> {
    Refusal::from_number(number.try_into().unwrap())
}

/// A terminal as a case has it.
fn terminal(column: usize, side: usize) -> Terminal {
    Terminal { column, side: [Side::Top, Side::Bottom][side] }
}

/// Sees that a step draws up to a column, is finished at the width and not before, and
/// changes just the columns that it draws.
fn stepped(sweep: &mut Sweep, layout: &mut [u16], k: usize, drawn: usize, width: usize) {
    let (kept, each) = (layout.to_vec(), 2 * sweep.tracks() + 1);
    let (left, right) = (each * sweep.drawn(), each * drawn);
    assert_eq!(sweep.step(layout, k), Ok(drawn));
    assert_eq!((sweep.drawn(), sweep.finished()), (drawn, drawn == width));
    assert!(layout[..left] == kept[..left] && layout[right..] == kept[right..]);
}

/// Sees that a slice one entry too short is refused, and that sweep and slice stay.
fn refused_step(sweep: &mut Sweep, layout: &mut [u16], k: usize, number: usize) {
    let (before, kept) = (sweep.clone(), layout.to_vec());
    let short = sweep.entries() - 1;
    assert_eq!(sweep.step(&mut layout[..short], k).err(), refusal(number));
    assert!(*sweep == before && layout == kept);
}

/// Sees that a late net has the worked number; a refused one leaves the sweep.
fn placed(sweep: &mut Sweep, late: &[usize]) {
    let before = sweep.clone();
    let (one, other) = (terminal(late[1], late[2]), terminal(late[3], late[4]));
    let answer = sweep.place(late[0].try_into().unwrap(), one, other);
    assert_eq!(answer.err(), refusal(late[5]));
    assert!(answer.is_ok() || *sweep == before);
}

/// Sees that a refused start leaves a state of the channel without columns, whatever
/// stood there before.
fn refused_start(case: &str, number: usize) {
    let (top, bottom) = (words(case, "top"), words(case, "bottom"));
    assert_eq!(Sweep::start(&top, &bottom).err(), refusal(number), "{case}");
    let mut state = raw::State::filled(2, 1, 1);
    let refused = raw::Started { number: number as u16, tracks: 0, length: 0 };
    assert_eq!(state.start(&top, &bottom), refused, "{case}");
    assert_eq!((state.columns, state.tracks, state.drawn), (0, 0, 0), "{case}");
    let nothing = raw::Stepped { number: 0, drawn: 0, finished: true };
    assert_eq!(state.step(&mut [], 9), nothing, "{case}");
    assert_eq!(state.place(1, 1, 0, 1, 1), 22, "{case}");
}

/// Sees that a sweep is driven as worked out: the answers, then the rows with the late
/// nets and the drawing, which is that of the one call.
fn driven(case: &str) {
    let [number, tracks, length] = lines(case, "start").next().unwrap().try_into().unwrap();
    if number != 0 {
        return refused_start(case, number);
    }
    let (tops, bottoms): (Vec<_>, Vec<_>) =
        all_words(case, "top").zip(all_words(case, "bottom")).unzip();
    let width = lines(case, "finished").next().unwrap()[0];
    let mut sweep = Sweep::start(&tops[0], &bottoms[0]).unwrap();
    assert_eq!((sweep.tracks(), sweep.entries()), (tracks, length), "{case}");
    assert_eq!((sweep.columns(), sweep.drawn()), (tops[0].len(), 0), "{case}");
    assert_eq!(sweep.rows(), (&tops[0][..], &bottoms[0][..]), "{case}");
    assert_eq!(sweep.finished(), width == 0, "{case}");
    let mut layout = vec![KEPT; length + 1];
    for line in case.lines().skip(3).take_while(|line| !line.starts_with("finished ")) {
        let given = numbers(line);
        match line.split(' ').next().unwrap() {
            "step" => stepped(&mut sweep, &mut layout, given[0], given[1], width),
            "short" => refused_step(&mut sweep, &mut layout, given[0], given[1]),
            "place" => placed(&mut sweep, &given),
            _ => panic!("no call: {line}"),
        }
    }
    assert!(sweep.finished(), "{case}");
    assert_eq!(sweep.rows(), (&tops[1][..], &bottoms[1][..]), "{case}");
    let (drawn, behind) = layout.split_at(width * (2 * tracks + 1));
    assert!(behind.iter().all(|&entry| entry == KEPT), "written outside the drawing:\n{case}");
    assert_eq!(lines(case, "sum").next(), Some(vec![sum(drawn)]), "{case}");
    if lines(case, "layout").next().is_some() {
        assert!(drawn == words(case, "layout"), "another layout:\n{case}");
    }
    let mut whole = vec![0; drawn.len()];
    let figures = Figures { density: tracks, tracks, width };
    assert_eq!(route(&tops[1], &bottoms[1], &mut whole), Ok(figures), "{case}");
    assert!(drawn == whole, "another drawing in one call:\n{case}");
}

#[test]
fn worked_steps() {
    let text = include_str!("../../../tools/cases/job10-steps.txt");
    assert_eq!(cases(text).map(driven).count(), 641);
}

#[test]
fn worked_short_slices() {
    let text = include_str!("../../../tools/cases/job10-13-short.txt");
    let sweeps = cases(text).filter(|case| !case.starts_with("game "));
    assert_eq!(sweeps.map(driven).count(), 83);
}

/// The width of a channel, without and with a net that is placed at two terminals after
/// the first column.
fn widths(top: &[u16], bottom: &[u16], one: Terminal, other: Terminal) -> [usize; 2] {
    [false, true].map(|late| {
        let mut sweep = Sweep::start(top, bottom).unwrap();
        let mut layout = vec![KEPT; sweep.entries()];
        assert_eq!(sweep.step(&mut layout, 1), Ok(1));
        if late {
            assert_eq!(sweep.place(9, one, other), Ok(()));
        }
        sweep.step(&mut layout, usize::MAX).unwrap()
    })
}

#[test]
fn late_nets_change_the_width() {
    let wider = widths(&[1, 0, 0], &[2, 2, 1], terminal(2, 0), terminal(3, 0));
    assert_eq!(wider, [3, 4]);
    let narrower = widths(&[0, 1, 0, 1], &[0, 0, 2, 2], terminal(2, 1), terminal(3, 0));
    assert_eq!(narrower, [5, 4]);
}

#[test]
fn numbers_in_their_order() {
    let mut sweep = Sweep::start(&[1, 1, 0, 0], &[0, 0, 0, 0]).unwrap();
    let (first, last) = (terminal(1, 1), terminal(4, 0));
    let before = sweep.clone();
    for net in [0, 257, u16::MAX] {
        assert_eq!(sweep.place(net, first, first), Err(Refusal::NetNumber));
    }
    assert_eq!(sweep.place(1, first, first), Err(Refusal::NumberInUse));
    for taken in [first, terminal(0, 0), terminal(5, 0), terminal(1, 0)] {
        assert_eq!(sweep.place(2, first, taken), Err(Refusal::TerminalTaken));
        assert_eq!(sweep.place(2, taken, first), Err(Refusal::TerminalTaken));
    }
    assert_eq!(sweep.place(2, first, last), Err(Refusal::OverTracks));
    assert_eq!(sweep, before);
    assert_eq!(sweep.place(256, terminal(3, 0), last), Ok(()));
    assert_eq!(sweep.rows(), (&[1, 1, 256, 256][..], &[0; 4][..]));
}

#[test]
fn other_sides() {
    let mut state = raw::State::default();
    state.start(&[1, 1, 0, 0], &[0, 0, 0, 0]);
    let before = state.clone();
    for side in [2, 3, 256, 32_768, u16::MAX] {
        assert_eq!(state.place(2, 3, side, 4, 1), 22);
        assert_eq!(state.place(2, 3, 0, 4, side), 22);
        assert_eq!(state.place(2, 3, side, 4, side), 22);
        assert_eq!(state.place(1, 3, side, 4, 1), 21);
        assert_eq!(state.place(0, 3, side, 4, 1), 6);
    }
    assert_eq!(state, before);
    assert_eq!(state.place(2, 3, 0, 4, 1), 0);
    assert_eq!((state.top[2], state.bottom[3]), (2, 2));
}

/// Steps and places on a copy of a state that nothing is promised of, but that the calls
/// end, and that refused ones leave all as it is.
fn ends(state: &raw::State) {
    for (length, k) in [(0, 1), (1, usize::MAX), (3000, 2), (200_000, usize::MAX)] {
        let mut lent = state.clone();
        let mut layout = vec![KEPT; length];
        let answer = lent.step(&mut layout, k);
        assert!([0, 8].contains(&answer.number));
        if answer.number == 8 {
            assert_eq!((answer.drawn, answer.finished), (0, false));
            assert!(lent == *state && layout.iter().all(|&entry| entry == KEPT));
        }
    }
    for (column, side) in [(0, 0), (1, 1), (256, 0), (257, 1), (usize::MAX, 2)] {
        let mut lent = state.clone();
        let number = lent.place(7, column, side, 3, 1);
        assert!([0, 21, 22, 23].contains(&number));
        assert!(number == 0 || lent == *state);
    }
}

#[test]
fn made_up_states() {
    let sizes = [0, 1, 2, 100, 255, 256, 257, 510, 511, 512, 65_536, usize::MAX];
    for (number, word) in [(0, 0), (1, 2), (7, 1), (256, u64::MAX), (257, 5), (u16::MAX, u64::MAX)]
    {
        for size in sizes {
            ends(&raw::State::filled(size, number, word));
        }
        for (columns, tracks, drawn) in [
            (256, 2, 0),
            (256, 256, 255),
            (0, 256, 0),
            (256, 0, 300),
            (usize::MAX, 3, 0),
            (3, usize::MAX, 0),
            (3, 3, usize::MAX),
            (300, 16, 0),
        ] {
            let filled = raw::State::filled(0, number, word);
            ends(&raw::State { columns, tracks, drawn, ..filled });
        }
    }
}

#[test]
fn changed_states() {
    // A state from before a step, and one with members of another.
    let mut state = raw::State::default();
    let mut layout = vec![KEPT; state.start(&[1, 2], &[2, 1]).length];
    let older = state.clone();
    state.step(&mut layout, 1);
    ends(&older);
    ends(&raw::State { drawn: older.drawn, ..state.clone() });
    ends(&raw::State { free: older.free, extended: [u64::MAX; 8], ..state.clone() });
    ends(&raw::State { first: state.last, last: state.first, ..state.clone() });
    ends(&raw::State { low: [512; 257], high: [0; 257], many: [2; 257], ..state });
}

#[test]
fn random_states() {
    // Random numbers (xorshift): mostly low ones, some near the highest.
    let mut seed = 0x9e37_79b9_7f4a_7c15u64;
    let mut any = || {
        seed ^= seed << 13;
        seed ^= seed >> 7;
        seed ^= seed << 17;
        let few = seed >> 40;
        [few % 2, few % 9, few % 300, few % 600, few, !0 - few % 2][(seed % 6) as usize]
    };
    for _ in 0..500 {
        let mut state = raw::State::default();
        let sizes = [&mut state.columns, &mut state.tracks, &mut state.drawn];
        sizes.into_iter().for_each(|size| *size = any() as usize);
        let (columns, nets) = (any() as usize % 257, any() as usize % 258);
        let rows = [&mut state.top, &mut state.bottom];
        rows.into_iter().for_each(|row| row[..columns].fill_with(|| any() as u16));
        let tables = [&mut state.first, &mut state.last, &mut state.low, &mut state.high];
        tables.into_iter().for_each(|table| table[..nets].fill_with(|| any() as u16));
        state.many[..nets].fill_with(|| any() as u16);
        state.strands.fill_with(|| any() as u16);
        let sets = [&mut state.free, &mut state.extended];
        sets.into_iter().for_each(|set| set.fill_with(&mut any));
        ends(&state);
    }
}
