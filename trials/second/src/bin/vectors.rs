//! Compares the second router, checker, net report, canonical record, sweep column by
//! column, drawing board and widest channel with files of worked cases: `vectors FILE
//! ...`, where the names end in routes.txt, needs.txt, checks.txt, listings.txt,
//! reports.txt, long.txt, records.txt, pairs.txt, steps.txt, short.txt, boards.txt or
//! widest.txt. A case ends at an empty line; cases of games are skipped. With a file of
//! widest channels, those of all numbers of columns are drawn and checked too.

use second::rows::Family;
use second::{Board, Checked, Started, Stepped, Steps, Terminal, MOST_COLUMNS, MOST_NETS};
use std::process::ExitCode;
use std::str::FromStr;

/// The numbers of a line; words are passed over.
fn numbers<T: FromStr>(line: &str) -> Vec<T> {
    let number = |x: &&str| !x.starts_with(|c: char| c.is_alphabetic());
    let parse = |x: &str| x.parse().unwrap_or_else(|_| panic!("{x:?} in {line:?}"));
    line.split_whitespace().filter(number).map(parse).collect()
}

/// The lines of a case that begin with a word, as numbers.
fn lines<'a, T: FromStr>(case: &'a [&str], word: &'a str) -> impl Iterator<Item = Vec<T>> + 'a {
    case.iter().filter(move |line| line.split(' ').next() == Some(word)).map(|line| numbers(line))
}

/// The first of these lines.
fn values<T: FromStr>(case: &[&str], word: &str) -> Vec<T> {
    lines(case, word).next().unwrap_or_else(|| panic!("no line {word:?} in {case:?}"))
}

/// The top or the bottom rows of a case with more than one channel.
fn rows(case: &[&str], word: &str) -> Vec<Vec<u16>> {
    lines(case, word).collect()
}

/// A run of equal entries: 5x199 is the entry 5, 199 times.
struct Run {
    entry: u16,
    times: usize,
}

impl FromStr for Run {
    type Err = std::num::ParseIntError;

    fn from_str(text: &str) -> Result<Run, Self::Err> {
        let (entry, times) = text.split_once('x').unwrap_or((text, "1"));
        Ok(Run { entry: entry.parse()?, times: times.parse()? })
    }
}

/// The entries of a drawing.
fn layout(case: &[&str]) -> Vec<u16> {
    let runs = values::<Run>(case, "layout").into_iter();
    runs.flat_map(|run| std::iter::repeat_n(run.entry, run.times)).collect()
}

/// The sum over all entries of (position + 1) × entry, modulo 2^32.
fn sum(entries: &[u16]) -> u32 {
    let product = |(i, &entry): (u32, &u16)| i.wrapping_mul(entry.into());
    (1..).zip(entries).map(product).fold(0, u32::wrapping_add)
}

/// Whether a drawing is a case's, by the sum and the layout, or the one it has.
fn drawing_agrees(case: &[&str], drawn: &[u16]) -> bool {
    let by_sum = lines::<u32>(case, "sum").next().map(|wanted| wanted == [sum(drawn)]);
    let by_layout = lines::<Run>(case, "layout").next().map(|_| layout(case) == drawn);
    assert!(by_sum.is_some() || by_layout.is_some(), "no drawing in {case:?}");
    by_sum != Some(false) && by_layout != Some(false)
}

fn route_agrees(case: &[&str]) -> bool {
    let (top, bottom) = (values(case, "top"), values(case, "bottom"));
    if let Some(refused) = lines::<u16>(case, "refused").next() {
        let answers = [second::need(&top, &bottom), second::density(&top, &bottom)];
        return answers.iter().all(|&answer| answer == Err(refused[0]))
            && second::route(&top, &bottom, &mut []) == Err(refused[0]);
    }
    let figures = values::<usize>(case, "density");
    let Ok(need) = second::need(&top, &bottom) else {
        return false;
    };
    let mut drawn = vec![0; need];
    let got = second::route(&top, &bottom, &mut drawn);
    let wanted = second::Figures { density: figures[0], tracks: figures[1], width: figures[2] };
    got == Ok(wanted)
        && second::density(&top, &bottom) == Ok(wanted.density)
        && drawing_agrees(case, &drawn)
        && second::check(&top, &bottom, wanted.width, wanted.tracks, &drawn) == Checked::default()
}

/// Whether the need, or the rows' refusal, and the answers for some slices agree.
fn need_agrees(case: &[&str]) -> bool {
    let (top, bottom) = (values(case, "top"), values(case, "bottom"));
    let wanted = match lines(case, "refused").next() {
        Some(refused) => Err(refused[0]),
        None => Ok(values::<usize>(case, "need")[0]),
    };
    let slices: Vec<_> = lines::<usize>(case, "slice").collect();
    second::need(&top, &bottom) == wanted
        && !slices.is_empty()
        && slices.iter().all(|slice| slice_agrees(&top, &bottom, slice[0], slice[1]))
}

/// Whether routing into a slice of some length answers a number, and draws a
/// solution if that is 0. A refused call leaves the slice as it was, any other what
/// stands behind the drawing.
fn slice_agrees(top: &[u16], bottom: &[u16], length: usize, number: usize) -> bool {
    const KEPT: u16 = 999;
    let kept = |entries: &[u16]| entries.iter().all(|&entry| entry == KEPT);
    let mut slice = vec![KEPT; length];
    match second::route(top, bottom, &mut slice) {
        Ok(second::Figures { tracks, width, .. }) => {
            let (drawn, behind) = slice.split_at(width * (2 * tracks + 1));
            let passed = second::check(top, bottom, width, tracks, drawn) == Checked::default();
            number == 0 && passed && kept(behind)
        }
        Err(refused) => number == refused as usize && kept(&slice),
    }
}

/// The width and the tracks of a drawing. A width of -1, one less than no
/// columns, is the largest number here.
fn measures(size: &[isize]) -> (usize, usize) {
    (size[0] as usize, size[1] as usize)
}

/// Whether an answer is a case's. One without column and row is from before Job 1,
/// when a loose end passed, and Job 8, when 14 stood for 19 and 20 too.
fn answer_agrees(case: &[&str], got: Checked) -> bool {
    let wanted = values::<usize>(case, "number");
    let (number, place) = (got.number as usize, got.place);
    if wanted.len() > 2 {
        return wanted == [number, place, got.column, got.row];
    }
    wanted
        == match number {
            17 => [0, 0],
            19 | 20 => [14, place],
            _ => [number, place],
        }
}

fn check_agrees(case: &[&str]) -> bool {
    let (top, bottom) = (values(case, "top"), values(case, "bottom"));
    let (w, t) = measures(&values(case, "width"));
    answer_agrees(case, second::check(&top, &bottom, w, t, &layout(case)))
}

/// Whether the report agrees, with the whole contents of the table.
fn report_agrees(case: &[&str]) -> bool {
    const KEPT: u32 = 70_007;
    let (top, bottom) = (values(case, "top"), values(case, "bottom"));
    let mut wanted = vec![KEPT; 4 * values::<usize>(case, "table")[0]];
    let mut figures = wanted.clone();
    let got = match lines(case, "width").next() {
        Some(size) => {
            let (w, t) = measures(&size);
            second::report_drawing(&top, &bottom, w, t, &layout(case), &mut figures)
        }
        None => {
            let number = second::report(&top, &bottom, &mut figures).err().unwrap_or(0);
            Checked { number, ..Checked::default() }
        }
    };
    if values::<u16>(case, "number")[0] == 0 {
        wanted[..4 * MOST_NETS].fill(0);
    }
    for net in lines::<u32>(case, "net") {
        let record = 4 * (net[0] as usize - 1);
        wanted[record..record + 4].copy_from_slice(&net[1..]);
    }
    answer_agrees(case, got) && figures == wanted
}

/// The bytes that a case has in hexadecimal after a word, if it has that line.
fn bytes(case: &[&str], word: &str) -> Option<Vec<u8>> {
    let hex = case.iter().find_map(|line| line.strip_prefix(word))?.trim();
    let byte = |i| u8::from_str_radix(&hex[i..i + 2], 16).expect("hexadecimal digits");
    Some((0..hex.len()).step_by(2).map(byte).collect())
}

fn listing_agrees(case: &[&str]) -> bool {
    let record = bytes(&case[..1], "record").expect("a record");
    let wanted: String = case[1..].iter().map(|line| format!("{line}\n")).collect();
    second::printed(&record) == wanted
}

/// Whether the canonical record agrees, with the whole contents of the slice.
fn record_agrees(case: &[&str]) -> bool {
    const KEPT: u8 = 0xa5;
    let (top, bottom) = (values(case, "top"), values(case, "bottom"));
    let mut slice = vec![KEPT; values::<usize>(case, "slice")[0]];
    let got = second::canonical(&top, &bottom, &mut slice);
    let record = bytes(case, "bytes").unwrap_or_default();
    let wanted = match values(case, "number")[0] {
        0 => Ok(record.len()),
        number => Err(number),
    };
    let (written, behind) = slice.split_at(record.len());
    got == wanted && written == record && behind.iter().all(|&byte| byte == KEPT)
}

/// The density of a channel of two-pin nets, and the first k columns of its drawing.
fn first_columns(top: &[u16], bottom: &[u16], k: usize) -> Option<(usize, Vec<u16>)> {
    let nets = second::rows::nets(top, bottom, MOST_COLUMNS).ok()?;
    let mut drawn = vec![0; second::need(top, bottom).ok()?];
    let figures = second::route(top, bottom, &mut drawn).ok()?;
    drawn.truncate(k * (2 * figures.tracks + 1));
    (nets.family() == Family::TwoPin && k <= top.len()).then_some((figures.density, drawn))
}

/// Whether two channels of two-pin nets and equal density, whose first columns agree,
/// have the worked ones there in their drawings, both the same.
fn pair_agrees(case: &[&str]) -> bool {
    let (tops, bottoms) = (rows(case, "top"), rows(case, "bottom"));
    let k = values::<usize>(case, "same")[0];
    let [one, other] = [0, 1].map(|i| first_columns(&tops[i], &bottoms[i], k));
    let agree = |rows: &[Vec<u16>]| rows[0].iter().zip(&rows[1]).take(k).all(|(p, q)| p == q);
    one.as_ref().is_some_and(|(_, drawn)| values::<u32>(case, "sum") == [sum(drawn)])
        && one == other
        && agree(&tops)
        && agree(&bottoms)
}

/// Whether a step agrees, finished at the width and not before, and changes just the
/// columns that it draws.
fn step_agrees(steps: &mut Steps, layout: &mut [u16], step: &[usize], width: usize) -> bool {
    let (kept, entries) = (layout.to_vec(), 2 * steps.tracks() + 1);
    let (left, right) = (steps.drawn() * entries, step[1] * entries);
    let got = steps.step(layout, step[0]);
    got == Stepped { number: 0, drawn: step[1], finished: step[1] == width }
        && layout[..left] == kept[..left]
        && layout[right..] == kept[right..]
}

/// Whether a step with a slice one entry too short is refused, and changes neither the
/// sweep nor the slice.
fn short_step_agrees(steps: &mut Steps, layout: &mut [u16], step: &[usize]) -> bool {
    let (before, kept) = (steps.clone(), layout.to_vec());
    let lent = layout.len() - 1;
    let got = steps.step(&mut layout[..lent], step[0]);
    got == Stepped { number: step[1] as u16, ..Stepped::default() }
        && *steps == before
        && layout == kept
}

/// Whether a late net is answered as in a case; a refused one changes nothing.
fn place_agrees(steps: &mut Steps, place: &[usize]) -> bool {
    let before = steps.clone();
    let terminal = |i: usize| Terminal { column: place[i], side: place[i + 1] };
    let number = steps.place(place[0] as u16, [terminal(1), terminal(3)]);
    number as usize == place[5] && (number == 0 || *steps == before)
}

/// Whether a sweep driven as in a case gives its answers, and at the end its channel
/// with all late nets and its drawing, the one-call router's.
fn steps_agree(case: &[&str]) -> bool {
    const KEPT: u16 = 999;
    let (tops, bottoms) = (rows(case, "top"), rows(case, "bottom"));
    // Another channel before, of which nothing must stay.
    let mut steps = Steps::default();
    steps.start(&[1, 2], &[2, 1]);
    steps.step(&mut [0; 15], 1);
    let started = steps.start(&tops[0], &bottoms[0]);
    let start = values::<usize>(case, "start");
    let wanted = Started { number: start[0] as u16, tracks: start[1], slice: start[2] };
    if started != wanted || started.number != 0 {
        return started == wanted && case.len() == 3 && steps == Steps::default();
    }
    let width = values::<usize>(case, "finished")[0];
    let mut layout = vec![KEPT; started.slice];
    let mut calls = case[3..].iter().take_while(|line| !line.starts_with("finished "));
    let agree = calls.all(|line| {
        let given = numbers::<usize>(line);
        match line.split(' ').next() {
            Some("step") => step_agrees(&mut steps, &mut layout, &given, width),
            Some("short") => short_step_agrees(&mut steps, &mut layout, &given),
            Some("place") => place_agrees(&mut steps, &given),
            _ => panic!("no call: {line:?}"),
        }
    });
    if !agree {
        return false;
    }
    let (drawn, behind) = layout.split_at(width * (2 * started.tracks + 1));
    let mut routed = vec![0; drawn.len()];
    let figures = second::route(&tops[1], &bottoms[1], &mut routed);
    steps.finished()
        && steps.rows() == (&tops[1], &bottoms[1])
        && drawing_agrees(case, drawn)
        && behind.iter().all(|&entry| entry == KEPT)
        && figures.is_ok_and(|f| (f.tracks, f.width) == (started.tracks, width))
        && routed == drawn
}

/// Whether a board's answer agrees; a refused change leaves it as it was.
fn call_agrees(board: &mut Board, line: &str) -> bool {
    let before = board.clone();
    let given = numbers::<u16>(line);
    let (got, wanted) = match (line.split(' ').next(), &given[..]) {
        (Some("density"), &[density]) => return board.density() == density,
        (Some("count"), &[gap, count]) => return board.count(gap.into()) == count,
        (Some("drop"), &[net, number]) => (board.drop(net), number),
        (Some("add"), &[net, column1, side1, column2, side2, number]) => {
            (board.add(net, column1.into(), side1, column2.into(), side2), number)
        }
        _ => panic!("no call: {line:?}"),
    };
    got == wanted && (got == 0 || *board == before)
}

/// Whether a board with the changes of a case gives its answers.
fn board_agrees(case: &[&str]) -> bool {
    let start = values::<u16>(case, "board");
    let (number, mut board) = Board::new(start[0].into());
    let empty = vec![0; if number == 0 { start[0].into() } else { 0 }];
    number == start[1]
        && board.rows() == (&empty, &empty)
        && case[1..].iter().all(|line| call_agrees(&mut board, line))
}

/// Whether a channel has two-pin nets, no pin in its first column if its columns are odd in
/// number, and a solution as its drawing, of that width.
fn drawn_as_wide(top: &[u16], bottom: &[u16], width: usize) -> bool {
    let Ok(nets) = second::rows::nets(top, bottom, MOST_COLUMNS) else {
        return false;
    };
    let (figures, drawn) = second::sweep::draw(top, bottom, &nets);
    let first_empty = top.len() % 2 == 0 || top[0] == 0 && bottom[0] == 0;
    nets.family() == Family::TwoPin
        && first_empty
        && figures.width == width
        && second::check(top, bottom, width, figures.tracks, &drawn) == Checked::default()
}

/// Whether rows of two lengths, with anything in them, are written or refused with a
/// number; refused ones stay as they were.
fn lent_rows_agree(n: usize, m: usize, number: usize) -> bool {
    let kept = [vec![257; n], vec![1; m]];
    let [mut top, mut bottom] = kept.clone();
    match second::widest(&mut top, &mut bottom) {
        Ok(added) => number == 0 && added == n / 2 && drawn_as_wide(&top, &bottom, n + added),
        Err(refused) => number == refused as usize && [top, bottom] == kept,
    }
}

/// Whether rows are written or refused as in a case. Where it has the channel, just that
/// is written, and its drawing has the worked width.
fn widest_agrees(case: &[&str]) -> bool {
    if let Some(rows) = lines::<usize>(case, "rows").next() {
        return lent_rows_agree(rows[0], rows[1], rows[2]);
    }
    let [n, width] = ["columns", "width"].map(|word| values::<usize>(case, word)[0]);
    let [mut top, mut bottom] = [vec![257; n], vec![1; n]];
    second::widest(&mut top, &mut bottom) == Ok(n / 2)
        && top == values::<u16>(case, "top")
        && bottom == values::<u16>(case, "bottom")
        && width == n + n / 2
        && drawn_as_wide(&top, &bottom, width)
}

/// Writes, draws and checks the widest channels of 0 to 256 columns; whether each adds
/// half as many columns, rounded down.
fn all_widest() -> bool {
    let agrees = |n: &usize| {
        let [mut top, mut bottom] = [vec![u16::MAX; *n], vec![7; *n]];
        second::widest(&mut top, &mut bottom) == Ok(n / 2)
            && drawn_as_wide(&top, &bottom, n + n / 2)
    };
    let different = (0..=MOST_COLUMNS).filter(|n| !agrees(n)).count();
    println!("widest channels of 0 to {MOST_COLUMNS} columns: {different} different");
    different == 0
}

/// Whether a case of a file agrees, by the end of the file's name.
fn kind(file: &str) -> fn(&[&str]) -> bool {
    match file {
        _ if file.ends_with("routes.txt") => route_agrees,
        _ if file.ends_with("needs.txt") => need_agrees,
        _ if file.ends_with("checks.txt") => check_agrees,
        _ if file.ends_with("listings.txt") => listing_agrees,
        _ if file.ends_with("reports.txt") || file.ends_with("long.txt") => report_agrees,
        _ if file.ends_with("records.txt") => record_agrees,
        _ if file.ends_with("pairs.txt") => pair_agrees,
        _ if file.ends_with("steps.txt") || file.ends_with("short.txt") => steps_agree,
        _ if file.ends_with("boards.txt") => board_agrees,
        _ if file.ends_with("widest.txt") => widest_agrees,
        _ => panic!("{file}: no kind of worked cases has this name"),
    }
}

/// Whether a case is of Job 13, which is skipped.
fn is_game(case: &[&str]) -> bool {
    case[0].starts_with("game ")
}

/// Runs the cases of a file; returns whether there are some and all agree.
fn run(file: &str) -> bool {
    let text = std::fs::read_to_string(file).expect("a file of cases");
    let lines: Vec<&str> = text.lines().collect();
    let cases: Vec<_> = lines.split(|line| line.is_empty()).filter(|c| !c.is_empty()).collect();
    let (games, cases): (Vec<_>, Vec<_>) = cases.into_iter().partition(|c| is_game(c));
    let agrees = kind(file);
    let different = cases.iter().filter(|case| !agrees(case)).count();
    print!("{file}: {} cases, {different} different", cases.len());
    match games.len() {
        0 => println!(),
        skipped => println!(", {skipped} games skipped"),
    }
    !cases.is_empty() && different == 0
}

fn main() -> ExitCode {
    let files: Vec<String> = std::env::args().skip(1).collect();
    let bad = files.iter().filter(|file| !run(file)).count();
    let widest = !files.iter().any(|file| file.ends_with("widest.txt")) || all_widest();
    ExitCode::from((files.is_empty() || bad > 0 || !widest) as u8)
}
