//! The channel with the widest drawing: the worked ones of `tools/cases/job12-widest.txt`,
//! those of all numbers of columns, and refused rows.

mod worked;

use gaxwethi::*;
use worked::{cases, lines, words};

/// What rows may hold before a call.
const HELD: [fn(usize) -> u16; 3] = [|_| 1, |_| u16::MAX, |place| (place % 300) as u16];

/// Sees that rows of two lengths, with something in them, are answered by a number, and
/// that an entry behind each row stays, of refused rows all entries; returns the rows.
fn called(n: usize, m: usize, held: fn(usize) -> u16, number: u16) -> (Vec<u16>, Vec<u16>) {
    let kept = [n + 1, m + 1].map(|length| (0..length).map(held).collect::<Vec<_>>());
    let [mut top, mut bottom] = kept.clone();
    // SAFETY: the pointers are good for one entry more than the lengths.
    let answer = unsafe { raw::gaxwethi_widest(top.as_mut_ptr(), n, bottom.as_mut_ptr(), m) };
    let added = if number == 0 { n / 2 } else { 0 };
    assert_eq!(answer, raw::Widest { number, added }, "{n} and {m} entries");
    assert!(number == 0 || [&top, &bottom] == [&kept[0], &kept[1]], "refused and written");
    assert_eq!([top.pop(), bottom.pop()], [Some(held(n)), Some(held(m))], "written outside");
    (top, bottom)
}

/// Sees that a channel has the nets 1 to 2h of two pins each, for h half its columns, and no
/// other pin; an empty first column if these are odd in number; and a drawing of h columns
/// more, which passes the checker.
fn adds_half(top: &[u16], bottom: &[u16]) {
    let (n, half) = (top.len(), top.len() / 2);
    let pins = |net: u16| top.iter().chain(bottom).filter(|&&pin| pin == net).count();
    assert!((1..=2 * half as u16).all(|net| pins(net) == 2));
    assert_eq!(pins(0), 2 * (n % 2));
    assert!(n % 2 == 0 || (top[0], bottom[0]) == (0, 0));
    let mut layout = vec![0; need(top, bottom).unwrap()];
    let figures = Figures { density: 2 * half, tracks: 2 * half, width: n + half };
    assert_eq!(route(top, bottom, &mut layout), Ok(figures));
    assert_eq!(check(top, bottom, figures.width, figures.tracks, &layout), Ok(()));
}

/// Sees that a worked case's lengths have its number, or that its channel is written, the
/// drawing of which has the worked width.
fn tried(case: &str) {
    if let Some(rows) = lines(case, "rows").next() {
        let [n, m, number] = rows.try_into().unwrap();
        for held in HELD {
            called(n, m, held, number.try_into().unwrap());
        }
        return;
    }
    let [n, width] = ["columns", "width"].map(|word| lines(case, word).next().unwrap()[0]);
    for held in HELD {
        let (top, bottom) = called(n, n, held, 0);
        assert_eq!((&top, &bottom), (&words(case, "top"), &words(case, "bottom")));
        let mut layout = vec![0; need(&top, &bottom).unwrap()];
        assert_eq!(route(&top, &bottom, &mut layout).unwrap().width, width, "{case}");
    }
}

#[test]
fn worked_channels() {
    let text = include_str!("../../../tools/cases/job12-widest.txt");
    assert_eq!(cases(text).map(tried).count(), 54);
}

#[test]
fn every_number_of_columns() {
    for n in 0..=256 {
        let rows = HELD.map(|held| called(n, n, held, 0));
        rows.iter().for_each(|(top, bottom)| adds_half(top, bottom));
    }
}

#[test]
fn refused_rows() {
    for held in HELD {
        for (n, m) in [(0, 1), (1, 0), (2, 3), (255, 256), (256, 257), (257, 256), (300, 1)] {
            called(n, m, held, 4);
        }
        // 4 comes before 5.
        for (n, m) in [(257, 258), (258, 257), (512, 65_536), (65_792, 65_536)] {
            called(n, m, held, 4);
        }
        for n in [257, 258, 512, 65_536, 65_792] {
            called(n, n, held, 5);
        }
    }
    assert_eq!(widest(&mut [1], &mut []), Err(Refusal::RowLengths));
    assert_eq!(widest(&mut [1; 257], &mut [1; 257]), Err(Refusal::TooManyColumns));
}

#[test]
fn written_again() {
    // Over its own rows, and over those of a channel that is drawn otherwise.
    let (mut top, mut bottom) = ([1, 2, 3, 3], [1, 2, 4, 4]);
    for _ in 0..2 {
        assert_eq!(widest(&mut top, &mut bottom), Ok(2));
        assert_eq!((top, bottom), ([2, 4, 1, 3], [1, 3, 2, 4]));
    }
}
