//! Boards: the worked ones of `tools/cases/job11-boards.txt`, other sides than the two,
//! and made-up boards.

mod worked;

use gaxwethi::*;
use std::collections::BTreeSet;
use worked::{cases, numbers};

/// The refusal of a number, if it is one.
fn refusal(number: usize) -> Option<Refusal> {
    Refusal::from_number(number.try_into().unwrap())
}

/// A terminal as a case has it.
fn terminal(column: usize, side: usize) -> Terminal {
    Terminal { column, side: [Side::Top, Side::Bottom][side] }
}

/// A net as a case has it.
fn net(number: usize) -> u16 {
    number.try_into().unwrap()
}

/// Sees that the stored counts are those of the channel as it is, and the density too.
fn counted(board: &Board) {
    let (top, bottom) = (board.top(), board.bottom());
    let pins = |net: &u16| *net != 0;
    let crosses = |gap: usize| {
        let right = [&top[gap..], &bottom[gap..]].concat();
        let left: BTreeSet<u16> =
            top[..gap].iter().chain(&bottom[..gap]).copied().filter(pins).collect();
        left.iter().filter(|net| right.contains(net)).count() as u16
    };
    let counts: Vec<u16> = (1..board.columns()).map(crosses).collect();
    assert_eq!(board.counts(), counts);
    assert_eq!(board.density(), counts.iter().copied().max().unwrap_or(0));
    assert_eq!(density(top, bottom), Ok(board.density().into()));
    let asked = |gap: usize| board.count(gap);
    assert!((1..board.columns()).map(asked).eq(counts));
    let outside = [0, board.columns(), board.columns() + 1, 256, 257, 65_536, usize::MAX];
    assert!(outside.map(asked).iter().all(|&count| count == 0));
}

/// Sees that a change has the worked number; a refused one leaves the board.
fn changed(
    board: &mut Board,
    number: usize,
    change: impl FnOnce(&mut Board) -> Result<(), Refusal>,
) {
    let before = board.clone();
    let answer = change(board);
    assert_eq!(answer.err(), refusal(number));
    assert!(answer.is_ok() || *board == before);
    counted(board);
}

/// Sees that a refused start leaves a board without columns, whatever stood there before.
fn refused_start(columns: usize, number: usize) {
    assert_eq!(Board::new(columns).err(), refusal(number));
    let mut board = raw::Board::filled(2, 1, 1);
    assert_eq!(usize::from(board.start(columns)), number);
    assert_eq!(board, raw::Board::default());
    assert_eq!((board.density(), board.count(1)), (0, 0));
    assert_eq!((board.add(1, 1, 0, 1, 1), board.drop(1)), (22, 24));
}

/// Sees that a board is changed and asked as worked out; returns the numbers that came up.
fn tried(case: &str) -> Vec<usize> {
    let mut lines = case.lines();
    let [columns, number] = numbers(lines.next().unwrap()).try_into().unwrap();
    if number != 0 {
        refused_start(columns, number);
        assert_eq!(lines.next(), None, "{case}");
        return vec![number];
    }
    let mut board = Board::new(columns).unwrap();
    assert_eq!((board.columns(), board.top().len()), (columns, columns));
    counted(&board);
    let mut came_up = vec![0];
    for line in lines {
        let given = numbers(line);
        match (line.split(' ').next().unwrap(), &given[..]) {
            ("add", &[number, column1, side1, column2, side2, answer]) => {
                let (one, other) = (terminal(column1, side1), terminal(column2, side2));
                changed(&mut board, answer, |board| board.add(net(number), one, other));
                came_up.push(answer);
            }
            ("drop", &[number, answer]) => {
                changed(&mut board, answer, |board| board.drop_net(net(number)));
                came_up.push(answer);
            }
            ("density", &[density]) => assert_eq!(usize::from(board.density()), density, "{case}"),
            ("count", &[gap, count]) => assert_eq!(usize::from(board.count(gap)), count, "{case}"),
            _ => panic!("no call: {line}"),
        }
    }
    came_up
}

#[test]
fn worked_boards() {
    let text = include_str!("../../../tools/cases/job11-boards.txt");
    let answers: Vec<Vec<usize>> = cases(text).map(tried).collect();
    assert_eq!(answers.len(), 104);
    let came_up: BTreeSet<usize> = answers.concat().into_iter().collect();
    assert!(came_up.into_iter().eq([0, 5, 6, 21, 22, 24]));
}

#[test]
fn numbers_in_their_order() {
    let mut board = Board::new(4).unwrap();
    let (first, last) = (terminal(1, 1), terminal(4, 0));
    assert_eq!(board.add(1, terminal(1, 0), terminal(2, 0)), Ok(()));
    let before = board.clone();
    for net in [0, 257, u16::MAX] {
        assert_eq!(board.add(net, first, first), Err(Refusal::NetNumber));
        assert_eq!(board.drop_net(net), Err(Refusal::NetNumber));
    }
    assert_eq!(board.add(1, first, first), Err(Refusal::NumberInUse));
    for taken in [first, terminal(0, 0), terminal(5, 0), terminal(1, 0), terminal(usize::MAX, 1)] {
        assert_eq!(board.add(2, first, taken), Err(Refusal::TerminalTaken));
        assert_eq!(board.add(2, taken, first), Err(Refusal::TerminalTaken));
    }
    for net in [2, 256] {
        assert_eq!(board.drop_net(net), Err(Refusal::AbsentNet));
    }
    assert_eq!(board, before);
    assert_eq!(board.add(256, last, first), Ok(()));
    assert_eq!((board.top(), board.bottom()), (&[1, 1, 0, 256][..], &[256, 0, 0, 0][..]));
    assert_eq!((board.counts(), board.density()), (&[2, 1, 1][..], 2));
}

#[test]
fn a_dropped_number_again() {
    let mut board = Board::new(3).unwrap();
    let empty = board.clone();
    for _ in 0..3 {
        assert_eq!(board.add(5, terminal(1, 0), terminal(3, 1)), Ok(()));
        assert_eq!(board.counts(), [1, 1]);
        assert_eq!(board.drop_net(5), Ok(()));
        assert_eq!(board, empty);
        assert_eq!(board.drop_net(5), Err(Refusal::AbsentNet));
    }
    // Both pins in one column are open at no gap.
    assert_eq!(board.add(5, terminal(2, 1), terminal(2, 0)), Ok(()));
    assert_eq!((board.counts(), board.density()), (&[0, 0][..], 0));
    assert_eq!(board.drop_net(5), Ok(()));
    assert_eq!(board, empty);
}

#[test]
fn a_full_board() {
    // The nets 1 to 256, from each end to the other.
    let mut board = Board::new(256).unwrap();
    for net in 1..=256 {
        let column = usize::from(net);
        assert_eq!(board.add(net, terminal(column, 0), terminal(257 - column, 1)), Ok(()));
    }
    counted(&board);
    assert_eq!((board.density(), board.count(128), board.count(255)), (256, 256, 2));
    for net in 1..=256 {
        assert_eq!(board.add(net, terminal(1, 0), terminal(2, 0)), Err(Refusal::NumberInUse));
        assert_eq!(board.drop_net(net), Ok(()));
    }
    assert_eq!(Ok(board), Board::new(256));
}

#[test]
fn starts() {
    for columns in [0, 1, 2, 255, 256] {
        let mut board = raw::Board::filled(7, 300, u16::MAX);
        assert_eq!(board.start(columns), 0);
        assert_eq!(board, raw::Board { columns, ..raw::Board::default() });
    }
    for columns in [257, 258, 512, 65_536, 65_537, usize::MAX] {
        refused_start(columns, 5);
    }
}

#[test]
fn other_sides() {
    let mut board = raw::Board::default();
    assert_eq!((board.start(4), board.add(1, 1, 0, 2, 0)), (0, 0));
    let before = board.clone();
    for side in [2, 3, 256, 32_768, u16::MAX] {
        assert_eq!(board.add(2, 3, side, 4, 1), 22);
        assert_eq!(board.add(2, 3, 0, 4, side), 22);
        assert_eq!(board.add(2, 3, side, 4, side), 22);
        assert_eq!(board.add(1, 3, side, 4, 1), 21);
        assert_eq!(board.add(0, 3, side, 4, 1), 6);
    }
    assert_eq!(board, before);
    assert_eq!(board.add(2, 3, 0, 4, 1), 0);
    assert_eq!((board.top[2], board.bottom[3], board.counts[3]), (2, 2, 1));
}

/// Changes and asks a copy of a board that nothing is promised of, but that the calls end,
/// and that refused ones leave all as it is.
fn ends(board: &raw::Board) {
    for (column, side) in [(0, 0), (1, 1), (200, 0), (256, 0), (257, 1), (usize::MAX, 2)] {
        let mut lent = board.clone();
        let number = lent.add(7, column, side, 3, 1);
        assert!([0, 21, 22].contains(&number));
        assert!(number == 0 || lent == *board);
    }
    for net in [0, 1, 7, 256, 257, u16::MAX] {
        let mut lent = board.clone();
        let number = lent.drop(net);
        assert!([0, 6, 24].contains(&number));
        assert!(number == 0 || lent == *board);
    }
    let mut asked = board.clone();
    asked.density();
    for gap in [0, 1, 2, 255, 256, 257, 65_536, usize::MAX] {
        asked.count(gap);
    }
    assert_eq!(asked, *board);
    assert_eq!(asked.start(256), 0);
    assert_eq!(asked, raw::Board { columns: 256, ..raw::Board::default() });
}

#[test]
fn made_up_boards() {
    for columns in [0, 1, 2, 100, 255, 256, 257, 511, 512, 65_536, usize::MAX] {
        for number in [0, 1, 7, 256, 257, u16::MAX] {
            for count in [0, 1, 300, u16::MAX] {
                ends(&raw::Board::filled(columns, number, count));
            }
        }
    }
}

#[test]
fn random_boards() {
    // Random numbers (xorshift): mostly low ones, some near the highest.
    let mut seed = 0x9e37_79b9_7f4a_7c15u64;
    let mut any = || {
        seed ^= seed << 13;
        seed ^= seed >> 7;
        seed ^= seed << 17;
        let few = seed >> 40;
        [few % 2, few % 9, few % 300, few % 600, few, !0 - few % 2][(seed % 6) as usize]
    };
    for _ in 0..500 {
        let mut board = raw::Board { columns: any() as usize, ..raw::Board::default() };
        let places = any() as usize % 257;
        let rows = [&mut board.top, &mut board.bottom, &mut board.counts];
        rows.into_iter().for_each(|row| row[..places].fill_with(|| any() as u16));
        ends(&board);
    }
}
