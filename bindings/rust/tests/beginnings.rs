//! Channels with the same beginning: the worked pairs, `tools/cases/job9-pairs.txt`,
//! and pairs of which nothing is promised.

mod worked;

use gaxwethi::*;
use worked::{all_words, cases, lines, sum};

/// The figures of a channel, and the first k columns of its drawing.
fn first_columns(top: &[u16], bottom: &[u16], k: usize) -> (Figures, Vec<u16>) {
    let mut layout = vec![0; need(top, bottom).unwrap()];
    let figures = route(top, bottom, &mut layout).unwrap();
    layout.truncate(k * (2 * figures.tracks + 1));
    (figures, layout)
}

/// Sees that two drawings have the same first columns, as worked out.
fn drawn_alike(case: &str) {
    let tops: Vec<_> = all_words(case, "top").collect();
    let bottoms: Vec<_> = all_words(case, "bottom").collect();
    let k = lines(case, "same").next().unwrap()[0];
    assert_eq!((&tops[0][..k], &bottoms[0][..k]), (&tops[1][..k], &bottoms[1][..k]), "{case}");
    let (one, columns) = first_columns(&tops[0], &bottoms[0], k);
    let (other, other_columns) = first_columns(&tops[1], &bottoms[1], k);
    assert_eq!((one.density, one.tracks), (other.density, other.tracks), "{case}");
    assert_eq!((one.tracks, columns.len()), (one.density, k * (2 * one.density + 1)), "{case}");
    assert!(columns == other_columns, "other columns:\n{case}");
    assert_eq!(lines(case, "sum").next(), Some(vec![sum(&columns)]), "{case}");
}

#[test]
fn worked_pairs() {
    let text = include_str!("../../../tools/cases/job9-pairs.txt");
    assert_eq!(cases(text).map(drawn_alike).count(), 1808);
}

#[test]
fn larger_nets() {
    // The first two columns agree, and so do density and tracks. In the second column
    // of the first pair net 2 or net 1 ends; of the second pair net 1 goes on or ends.
    let (one, columns) = first_columns(&[1, 1, 1], &[2, 2, 1], 2);
    let (other, other_columns) = first_columns(&[1, 1, 2], &[2, 2, 2], 2);
    assert_eq!((one, other), (Figures { density: 2, tracks: 3, width: 3 }, one));
    assert_eq!(columns, [2, 0, 1, 1, 2, 1, 0, 2, 1, 1, 1, 1, 1, 0]);
    assert_eq!(other_columns, [2, 0, 1, 1, 2, 1, 0, 2, 2, 1, 1, 2, 2, 0]);
    let (one, columns) = first_columns(&[1, 0, 1], &[2, 1, 2], 2);
    let (other, other_columns) = first_columns(&[1, 0, 2], &[2, 1, 2], 2);
    assert_eq!((one, other), (Figures { density: 2, tracks: 3, width: 3 }, one));
    assert_eq!(columns, [2, 0, 1, 1, 2, 1, 0, 1, 1, 0, 0, 2, 1, 0]);
    assert_eq!(other_columns, [2, 0, 1, 1, 2, 1, 0, 1, 1, 0, 0, 2, 0, 0]);
}

#[test]
fn another_density() {
    // Of two-pin nets, the first column the same.
    assert_eq!(first_columns(&[1, 1], &[0, 0], 1).1, [0, 1, 1]);
    assert_eq!(first_columns(&[1, 2, 1], &[0, 0, 2], 1).1, [0, 1, 1, 1, 0]);
}
