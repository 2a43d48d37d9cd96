//! The library on the worked cases of the checker, `tools/cases/job1-8-checks.txt`.

mod worked;

use gaxwethi::*;
use worked::{cases, lines, words};

/// Number, place, column and row of the library's answer.
fn answer(case: &str) -> [usize; 4] {
    let (top, bottom) = (words(case, "top"), words(case, "bottom"));
    let size = lines(case, "width").next().unwrap();
    let Err(fault) = check(&top, &bottom, size[0], size[1], &words(case, "layout")) else {
        return [0; 4];
    };
    [fault.refusal.number().into(), fault.place, fault.column, fault.row]
}

#[test]
fn worked_checks() {
    let text = include_str!("../../../tools/cases/job1-8-checks.txt");
    let tried = |case: &str| {
        let wanted = lines(case, "number").next().unwrap();
        assert_eq!(answer(case), wanted[..], "{case}");
    };
    assert_eq!(cases(text).map(tried).count(), 1898);
}
