//! The library on the worked canonical records, `tools/cases/job6-records.txt`.

mod worked;

use gaxwethi::*;
use worked::{bytes, cases, lines, words};

const CASES: &str = include_str!("../../../tools/cases/job6-records.txt");

/// The two rows of a channel.
type Rows = (Vec<u16>, Vec<u16>);

/// The rows of a case.
fn rows(case: &str) -> Rows {
    (words(case, "top"), words(case, "bottom"))
}

/// Sees that a case has the worked number, length and record, that all behind the
/// record stays, and the whole slice where the call is refused.
fn tried(case: &str) {
    let (top, bottom) = rows(case);
    let [number, length] = ["number", "slice"].map(|word| lines(case, word).next().unwrap()[0]);
    let record = bytes(case, "bytes").unwrap_or_default();
    for kept in [0x5a, 0xa5] {
        let mut slice = vec![kept; length + 1];
        let (out, n, m) = (slice.as_mut_ptr(), top.len(), bottom.len());
        // SAFETY: pointers and lengths are those of live slices.
        let r =
            unsafe { raw::gaxwethi_canonical(top.as_ptr(), n, bottom.as_ptr(), m, out, length) };
        assert_eq!((r.number as usize, r.length), (number, record.len()), "{case}");
        let (written, behind) = slice.split_at(record.len());
        assert!(written == record, "another record:\n{case}");
        assert!(behind.iter().all(|&byte| byte == kept), "written outside the record:\n{case}");
    }
}

#[test]
fn worked_records() {
    assert_eq!(cases(CASES).map(tried).count(), 1085);
}

/// The channels that are written.
fn accepted() -> impl Iterator<Item = Rows> {
    cases(CASES).filter(|case| bytes(case, "bytes").is_some()).map(rows)
}

/// The record that the library writes, into a slice of just its length.
fn written(top: &[u16], bottom: &[u16]) -> Vec<u8> {
    let mut record = vec![0; 6 + 4 * top.len()];
    assert_eq!(canonical(top, bottom, &mut record), Ok(record.len()));
    record
}

/// The rows with their nets renumbered in the order of their first pin.
fn renamed(top: &[u16], bottom: &[u16]) -> Rows {
    let mut nets = vec![0];
    for net in top.iter().zip(bottom).flat_map(|(&above, &below)| [above, below]) {
        if !nets.contains(&net) {
            nets.push(net);
        }
    }
    let number = |net: &u16| nets.iter().position(|other| other == net).unwrap() as u16;
    (top.iter().map(number).collect(), bottom.iter().map(number).collect())
}

/// The rows of a record.
fn read(record: &[u8]) -> Rows {
    let word = |pair: &[u8]| u16::from_le_bytes([pair[0], pair[1]]);
    let (top, bottom) = record[6..].split_at((record.len() - 6) / 2);
    (top.chunks(2).map(word).collect(), bottom.chunks(2).map(word).collect())
}

/// The drawing of a channel, with its figures.
fn drawn(top: &[u16], bottom: &[u16]) -> (Figures, Vec<u16>) {
    let mut layout = vec![0; need(top, bottom).unwrap()];
    (route(top, bottom, &mut layout).unwrap(), layout)
}

#[test]
fn read_back_and_written_again() {
    let tried = |(top, bottom): Rows| {
        let record = written(&top, &bottom);
        let rows = read(&record);
        assert_eq!(rows, renamed(&top, &bottom));
        assert_eq!(written(&rows.0, &rows.1), record);
        let [a, b] = [drawn(&top, &bottom).0, drawn(&rows.0, &rows.1).0];
        assert_eq!((a.density, a.tracks), (b.density, b.tracks));
    };
    assert_eq!(accepted().map(tried).count(), 707);
}

#[test]
fn renamed_channel_of_another_width() {
    let (top, bottom) = ([4, 3, 5, 1, 4, 2, 3], [1, 6, 0, 6, 5, 0, 2]);
    let (above, below) = read(&written(&top, &bottom));
    assert_eq!(drawn(&top, &bottom).0, Figures { density: 5, tracks: 5, width: 9 });
    assert_eq!(drawn(&above, &below).0, Figures { density: 5, tracks: 5, width: 8 });
}

/// The listing of a channel, made of its drawing.
fn listing(top: &[u16], bottom: &[u16]) -> String {
    let (Figures { density, tracks, width }, layout) = drawn(top, bottom);
    let text = |entries: &[u16]| entries.iter().map(|x| format!(" {x}")).collect::<String>();
    let line = |c: usize| {
        let (vertical, horizontal) = column(&layout, width, tracks, c).split_at(tracks + 1);
        format!("{c}:{} |{}\n", text(vertical), text(horizontal))
    };
    let lines: String = (1..=width).map(line).collect();
    format!("density {density} tracks {tracks} width {width}\n{lines}")
}

#[test]
fn listed_as_the_renamed_channel() {
    let listed = |(top, bottom): &Rows| {
        let (above, below) = renamed(top, bottom);
        let wanted = match top.len() {
            0..=64 => Ok(listing(&above, &below)),
            _ => Err(Refusal::TooManyColumns),
        };
        assert_eq!(list(&written(top, bottom)), wanted);
        wanted.is_ok()
    };
    assert_eq!(accepted().filter(listed).count(), 662);
}
