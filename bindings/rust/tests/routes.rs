//! The library on the worked routes and listings, `tools/cases/job3-7-*.txt`, and on
//! the worked needs, `tools/cases/job5-needs.txt`.

mod worked;

use gaxwethi::*;
use worked::{bytes, cases, lines, sum, words};

/// What stands in a slice before a call; no drawing has such an entry.
const KEPT: u16 = 999;

/// The refusal of a case, if it is refused.
fn refusal(case: &str) -> Option<Refusal> {
    let number = lines(case, "refused").next()?[0];
    Some(Refusal::from_number(number.try_into().unwrap()).unwrap())
}

/// Sees that rows are refused by each call, and that routing leaves its slice.
fn refused(case: &str, refusal: Refusal) {
    let (top, bottom) = (words(case, "top"), words(case, "bottom"));
    let mut slice = [KEPT; 1000];
    assert_eq!(density(&top, &bottom), Err(refusal), "{case}");
    assert_eq!(need(&top, &bottom), Err(refusal), "{case}");
    assert_eq!(route(&top, &bottom, &mut slice), Err(refusal), "{case}");
    assert_eq!(slice, [KEPT; 1000], "{case}");
}

/// Sees that a channel is drawn as worked out, in a slice of just the needed
/// length and in one of document 01's formula.
fn drawn(case: &str) {
    let (top, bottom) = (words(case, "top"), words(case, "bottom"));
    let [d, t, w] = lines(case, "density").next().unwrap().try_into().unwrap();
    let figures = Figures { density: d, tracks: t, width: w };
    assert_eq!(density(&top, &bottom), Ok(d), "{case}");
    assert_eq!(need(&top, &bottom), Ok(figures.entries()), "{case}");
    for length in [figures.entries(), (top.len() + t / 2) * (2 * t + 1)] {
        let (answer, layout) = routed(case, length);
        assert_eq!(answer, Ok(figures), "{case}");
        assert_eq!(check(&top, &bottom, w, t, &layout), Ok(()), "{case}");
        assert_eq!(lines(case, "sum").next(), Some(vec![sum(&layout)]), "{case}");
        if lines(case, "layout").next().is_some() {
            assert!(layout == words(case, "layout"), "another layout:\n{case}");
        }
    }
}

/// The answer of routing into a slice of some length, and the drawing. Sees that all
/// behind it stays, and the whole slice where the call is refused.
fn routed(case: &str, length: usize) -> (Result<Figures, Refusal>, Vec<u16>) {
    let (top, bottom) = (words(case, "top"), words(case, "bottom"));
    let mut slice = vec![KEPT; length + 1];
    let answer = route(&top, &bottom, &mut slice[..length]);
    let behind = slice.split_off(answer.map_or(0, |figures| figures.entries()));
    assert!(behind.iter().all(|&entry| entry == KEPT), "written outside the drawing:\n{case}");
    (answer, slice)
}

#[test]
fn worked_routes() {
    let tried = |case: &str| match refusal(case) {
        Some(number) => refused(case, number),
        None => drawn(case),
    };
    let text = include_str!("../../../tools/cases/job3-7-routes.txt");
    assert_eq!(cases(text).map(tried).count(), 1235);
}

/// Sees that need and routing answer as worked out, and that an accepted drawing is
/// a solution.
fn needed(case: &str) {
    let (top, bottom) = (words(case, "top"), words(case, "bottom"));
    let wanted = refusal(case).map_or_else(|| Ok(lines(case, "need").next().unwrap()[0]), Err);
    assert_eq!(need(&top, &bottom), wanted, "{case}");
    for slice in lines(case, "slice") {
        let [length, number] = slice.try_into().unwrap();
        let (answer, layout) = routed(case, length);
        let got = answer.map_or_else(|refusal| refusal.number().into(), |_| 0);
        assert_eq!(got, number, "{case}");
        if let Ok(Figures { tracks, width, .. }) = answer {
            assert_eq!(check(&top, &bottom, width, tracks, &layout), Ok(()), "{case}");
        }
    }
}

#[test]
fn worked_needs() {
    let text = include_str!("../../../tools/cases/job5-needs.txt");
    assert_eq!(cases(text).map(needed).count(), 1670);
    assert_eq!(cases(text).flat_map(|case| lines(case, "slice")).count(), 6882);
}

#[test]
fn worked_listings() {
    let tried = |case: &str| {
        let (_, text) = case.split_once('\n').unwrap();
        let listing = refusal(case).map_or_else(|| Ok(format!("{text}\n")), Err);
        assert_eq!(list(&bytes(case, "record").unwrap()), listing, "{case}");
    };
    let text = include_str!("../../../tools/cases/job3-7-listings.txt");
    assert_eq!(cases(text).map(tried).count(), 361);
}
