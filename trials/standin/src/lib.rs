//! The baseline behind the library's C calls: it stands in for the library
//! where the trials themselves are tried out on planted faults.

use baseline::{Board, State};
use std::panic::{catch_unwind, AssertUnwindSafe};
use std::slice::{from_raw_parts, from_raw_parts_mut};

const TEXT: usize = 131_072;

#[repr(C)]
pub struct Figure {
    number: u16,
    value: usize,
}

#[repr(C)]
pub struct Routed {
    number: u16,
    density: usize,
    tracks: usize,
    width: usize,
}

#[repr(C)]
pub struct Checked {
    number: u16,
    place: usize,
    column: usize,
    row: usize,
}

#[repr(C)]
pub struct Listed {
    number: u16,
    length: usize,
}

#[repr(C)]
pub struct Part {
    offset: usize,
    length: usize,
}

#[repr(C)]
pub struct Started {
    number: u16,
    tracks: usize,
    length: usize,
}

#[repr(C)]
pub struct Stepped {
    number: u16,
    drawn: usize,
    finished: bool,
}

/// The number that a call answers with where a planted fault made it panic.
const PANIC: u16 = 99;

fn guarded<T>(call: impl FnOnce() -> Result<T, u16>) -> Result<T, u16> {
    catch_unwind(AssertUnwindSafe(call)).unwrap_or(Err(PANIC))
}

fn figure(call: impl FnOnce() -> Result<usize, u16>) -> Figure {
    match guarded(call) {
        Ok(value) => Figure { number: 0, value },
        Err(number) => Figure { number, value: 0 },
    }
}

fn checked(call: impl FnOnce() -> baseline::Checked) -> Checked {
    match guarded(|| Ok(call())) {
        Ok(c) => Checked { number: c.number, place: c.place, column: c.column, row: c.row },
        Err(number) => Checked { number, place: 0, column: 0, row: 0 },
    }
}

/// # Safety
/// As in `include/gaxwethi.h`; so it is for all calls below.
#[no_mangle]
pub unsafe extern "C" fn gaxwethi_density(
    top: *const u16,
    n: usize,
    bottom: *const u16,
    m: usize,
) -> Figure {
    let (top, bottom) = (from_raw_parts(top, n), from_raw_parts(bottom, m));
    figure(|| baseline::density(top, bottom))
}

/// # Safety
#[no_mangle]
pub unsafe extern "C" fn gaxwethi_need(
    top: *const u16,
    n: usize,
    bottom: *const u16,
    m: usize,
) -> Figure {
    let (top, bottom) = (from_raw_parts(top, n), from_raw_parts(bottom, m));
    figure(|| baseline::need(top, bottom))
}

/// # Safety
#[no_mangle]
pub unsafe extern "C" fn gaxwethi_route(
    top: *const u16,
    n: usize,
    bottom: *const u16,
    m: usize,
    layout: *mut u16,
    len: usize,
) -> Routed {
    let (top, bottom) = (from_raw_parts(top, n), from_raw_parts(bottom, m));
    let layout = from_raw_parts_mut(layout, len);
    match guarded(|| baseline::route(top, bottom, layout)) {
        Ok(f) => Routed { number: 0, density: f.density, tracks: f.tracks, width: f.width },
        Err(number) => Routed { number, density: 0, tracks: 0, width: 0 },
    }
}

/// # Safety
#[no_mangle]
pub unsafe extern "C" fn gaxwethi_check(
    top: *const u16,
    n: usize,
    bottom: *const u16,
    m: usize,
    w: usize,
    t: usize,
    layout: *const u16,
    len: usize,
) -> Checked {
    let (top, bottom) = (from_raw_parts(top, n), from_raw_parts(bottom, m));
    let layout = from_raw_parts(layout, len);
    checked(|| baseline::check(top, bottom, w, t, layout))
}

/// # Safety
#[no_mangle]
pub unsafe extern "C" fn gaxwethi_report(
    top: *const u16,
    n: usize,
    bottom: *const u16,
    m: usize,
    figures: *mut u32,
    len: usize,
) -> u16 {
    let (top, bottom) = (from_raw_parts(top, n), from_raw_parts(bottom, m));
    let figures = from_raw_parts_mut(figures, len);
    guarded(|| baseline::report(top, bottom, figures)).err().unwrap_or(0)
}

/// # Safety
#[no_mangle]
pub unsafe extern "C" fn gaxwethi_report_drawing(
    top: *const u16,
    n: usize,
    bottom: *const u16,
    m: usize,
    w: usize,
    t: usize,
    layout: *const u16,
    len: usize,
    figures: *mut u32,
    count: usize,
) -> Checked {
    let (top, bottom) = (from_raw_parts(top, n), from_raw_parts(bottom, m));
    let layout = from_raw_parts(layout, len);
    let figures = from_raw_parts_mut(figures, count);
    checked(|| baseline::report_drawing(top, bottom, w, t, layout, figures))
}

#[no_mangle]
pub extern "C" fn gaxwethi_column(len: usize, w: usize, t: usize, c: usize) -> Part {
    let (offset, length) = baseline::column(len, w, t, c);
    Part { offset, length }
}

/// # Safety
#[no_mangle]
pub unsafe extern "C" fn gaxwethi_list(record: *const u8, len: usize, text: *mut u8) -> Listed {
    let (record, text) = (from_raw_parts(record, len), from_raw_parts_mut(text, TEXT));
    match guarded(|| baseline::list(record, text)) {
        Ok(length) => Listed { number: 0, length },
        Err(number) => Listed { number, length: 0 },
    }
}

/// # Safety
#[no_mangle]
pub unsafe extern "C" fn gaxwethi_canonical(
    top: *const u16,
    n: usize,
    bottom: *const u16,
    m: usize,
    bytes: *mut u8,
    len: usize,
) -> Figure {
    let (top, bottom) = (from_raw_parts(top, n), from_raw_parts(bottom, m));
    let bytes = from_raw_parts_mut(bytes, len);
    figure(|| baseline::canonical(top, bottom, bytes))
}

/// # Safety
#[no_mangle]
pub unsafe extern "C" fn gaxwethi_widest(
    top: *mut u16,
    n: usize,
    bottom: *mut u16,
    m: usize,
) -> Figure {
    let (top, bottom) = (from_raw_parts_mut(top, n), from_raw_parts_mut(bottom, m));
    figure(|| baseline::widest(top, bottom))
}

/// # Safety
#[no_mangle]
pub unsafe extern "C" fn gaxwethi_sweep_start(
    top: *const u16,
    n: usize,
    bottom: *const u16,
    m: usize,
    columns: &mut usize,
    tracks: &mut usize,
    drawn: &mut usize,
    upper: &mut [u16; 256],
    lower: &mut [u16; 256],
    first: &mut [u16; 257],
    last: &mut [u16; 257],
    strands: &mut [u16; 512],
    free: &mut [u64; 8],
    low: &mut [u16; 257],
    high: &mut [u16; 257],
    many: &mut [u16; 257],
    extended: &mut [u64; 8],
) -> Started {
    let (top, bottom) = (from_raw_parts(top, n), from_raw_parts(bottom, m));
    let (number, state) = match guarded(|| State::start(top, bottom)) {
        Ok(state) => (0, state),
        Err(number) => (number, State::default()),
    };
    (*columns, *tracks, *drawn) = (state.columns, state.tracks, state.drawn);
    [*upper, *lower] = state.rows;
    (*first, *last) = (state.first, state.last);
    (*strands, *free) = (state.strands, state.free);
    (*low, *high, *many) = (state.low, state.high, state.many);
    *extended = state.extended;
    Started { number, tracks: state.tracks, length: state.length() }
}

/// # Safety
#[no_mangle]
pub unsafe extern "C" fn gaxwethi_sweep_step(
    columns: usize,
    tracks: usize,
    drawn: &mut usize,
    upper: &[u16; 256],
    lower: &[u16; 256],
    first: &[u16; 257],
    last: &[u16; 257],
    strands: &mut [u16; 512],
    free: &mut [u64; 8],
    low: &mut [u16; 257],
    high: &mut [u16; 257],
    many: &mut [u16; 257],
    extended: &mut [u64; 8],
    layout: *mut u16,
    len: usize,
    k: usize,
) -> Stepped {
    let layout = from_raw_parts_mut(layout, len);
    let mut state = State {
        columns,
        tracks,
        drawn: *drawn,
        rows: [*upper, *lower],
        first: *first,
        last: *last,
        strands: *strands,
        free: *free,
        low: *low,
        high: *high,
        many: *many,
        extended: *extended,
    };
    let answer = guarded(|| state.step(layout, k));
    (*drawn, *strands, *free) = (state.drawn, state.strands, state.free);
    (*low, *high, *many) = (state.low, state.high, state.many);
    *extended = state.extended;
    match answer {
        Ok((drawn, finished)) => Stepped { number: 0, drawn, finished },
        Err(number) => Stepped { number, drawn: 0, finished: false },
    }
}

/// # Safety
#[no_mangle]
pub unsafe extern "C" fn gaxwethi_sweep_place(
    columns: usize,
    tracks: usize,
    drawn: usize,
    upper: &mut [u16; 256],
    lower: &mut [u16; 256],
    first: &mut [u16; 257],
    last: &mut [u16; 257],
    net: u16,
    column1: usize,
    side1: u16,
    column2: usize,
    side2: u16,
) -> u16 {
    let mut state = State {
        columns,
        tracks,
        drawn,
        rows: [*upper, *lower],
        first: *first,
        last: *last,
        ..State::default()
    };
    let answer = guarded(|| state.place(net, [(column1, side1), (column2, side2)]));
    [*upper, *lower] = state.rows;
    (*first, *last) = (state.first, state.last);
    answer.err().unwrap_or(0)
}

/// The board in the lent arrays; made-up columns are cut.
fn lent(columns: usize, top: &[u16; 256], bottom: &[u16; 256], counts: &[u16; 256]) -> Board {
    let n = columns.min(256);
    Board { rows: [top[..n].into(), bottom[..n].into()], counts: counts[..n].into() }
}

/// Writes a board into the lent arrays; what lies behind it stays.
fn keep(board: &Board, top: &mut [u16; 256], bottom: &mut [u16; 256], counts: &mut [u16; 256]) {
    let n = board.counts.len();
    top[..n].copy_from_slice(&board.rows[0]);
    bottom[..n].copy_from_slice(&board.rows[1]);
    counts[..n].copy_from_slice(&board.counts);
}

/// # Safety
#[no_mangle]
pub unsafe extern "C" fn gaxwethi_board_start(
    n: usize,
    columns: &mut usize,
    top: &mut [u16; 256],
    bottom: &mut [u16; 256],
    counts: &mut [u16; 256],
) -> u16 {
    let (number, board) = match guarded(|| Board::new(n)) {
        Ok(board) => (0, board),
        Err(number) => (number, Board::default()),
    };
    (*columns, *top, *bottom, *counts) = (board.counts.len(), [0; 256], [0; 256], [0; 256]);
    keep(&board, top, bottom, counts);
    number
}

/// # Safety
#[no_mangle]
pub unsafe extern "C" fn gaxwethi_board_add(
    columns: usize,
    top: &mut [u16; 256],
    bottom: &mut [u16; 256],
    counts: &mut [u16; 256],
    net: u16,
    column1: usize,
    side1: u16,
    column2: usize,
    side2: u16,
) -> u16 {
    let mut board = lent(columns, top, bottom, counts);
    let answer = guarded(|| board.add(net, (column1, side1), (column2, side2)));
    keep(&board, top, bottom, counts);
    answer.err().unwrap_or(0)
}

/// # Safety
#[no_mangle]
pub unsafe extern "C" fn gaxwethi_board_drop(
    columns: usize,
    top: &mut [u16; 256],
    bottom: &mut [u16; 256],
    counts: &mut [u16; 256],
    net: u16,
) -> u16 {
    let mut board = lent(columns, top, bottom, counts);
    let answer = guarded(|| board.drop(net));
    keep(&board, top, bottom, counts);
    answer.err().unwrap_or(0)
}

/// # Safety
#[no_mangle]
pub unsafe extern "C" fn gaxwethi_board_density(columns: usize, counts: &[u16; 256]) -> u16 {
    let board = lent(columns, &[0; 256], &[0; 256], counts);
    guarded(|| Ok(board.density())).unwrap_or(PANIC)
}

/// # Safety
#[no_mangle]
pub unsafe extern "C" fn gaxwethi_board_count(
    columns: usize,
    counts: &[u16; 256],
    gap: usize,
) -> u16 {
    let board = lent(columns, &[0; 256], &[0; 256], counts);
    guarded(|| Ok(board.count(gap))).unwrap_or(PANIC)
}
