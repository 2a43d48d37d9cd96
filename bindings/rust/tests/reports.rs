//! The library on the worked cases of the net report, `tools/cases/job2-*.txt`.

mod worked;

use gaxwethi::*;
use worked::{cases, lines, words};

/// What stands in a table before a call.
const KEPT: NetRecord = NetRecord { first: 6, last: 7, pins: 8, length: 9 };

/// Number, place, column and row of the library's answer.
fn answer(case: &str, table: &mut [NetRecord]) -> [usize; 4] {
    let (top, bottom) = (words(case, "top"), words(case, "bottom"));
    let reported = match lines(case, "width").next() {
        Some(size) => {
            report_drawing(&top, &bottom, size[0], size[1], &words(case, "layout"), table)
        }
        None => {
            let plain = |refusal| Fault { refusal, place: 0, column: 0, row: 0 };
            report(&top, &bottom, table).map_err(plain)
        }
    };
    let Err(fault) = reported else { return [0; 4] };
    [fault.refusal.number().into(), fault.place, fault.column, fault.row]
}

/// The worked answer.
fn wanted(case: &str) -> [usize; 4] {
    lines(case, "number").next().unwrap().try_into().unwrap()
}

/// What a table must hold after a case.
fn filled(case: &str, records: usize) -> Vec<NetRecord> {
    let mut table = vec![KEPT; records];
    if wanted(case)[0] == 0 {
        table[..256].fill(NetRecord::default());
    }
    for line in lines(case, "net") {
        let [net, first, last, pins, length] = line.try_into().unwrap();
        let [first, last, pins, length] = [first, last, pins, length].map(|x| x as u32);
        table[net - 1] = NetRecord { first, last, pins, length };
    }
    table
}

/// Runs the cases of a text and counts them.
fn run(text: &str) -> usize {
    let tried = |case: &str| {
        let records = lines(case, "table").next().unwrap()[0];
        let mut table = vec![KEPT; records];
        assert_eq!(answer(case, &mut table), wanted(case), "{case}");
        assert!(table == filled(case, records), "another table:\n{case}");
    };
    cases(text).map(tried).count()
}

#[test]
fn worked_reports() {
    assert_eq!(run(include_str!("../../../tools/cases/job2-reports.txt")), 1573);
}

#[test]
fn lengths_over_16_bits() {
    assert_eq!(run(include_str!("../../../tools/cases/job2-long.txt")), 2);
}
