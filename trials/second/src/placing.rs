//! A net that is placed into a channel of two-pin nets.

use crate::MOST_NETS;

/// A terminal: the column, counted from 1, and the side, 0 for top and 1 for bottom.
#[derive(Clone, Copy, Debug, PartialEq, Eq)]
pub struct Terminal {
    pub column: usize,
    pub side: usize,
}

/// The top and the bottom row.
pub type Rows = [Vec<u16>; 2];

/// Whether a net may have this number: if not, it is a 6.
pub fn numbered(net: u16) -> bool {
    (1..=MOST_NETS).contains(&net.into())
}

/// Whether a net has a pin in the rows.
pub fn used(rows: &Rows, net: u16) -> bool {
    rows.iter().flatten().any(|&other| other == net)
}

/// The rows with a net more, right of the columns that are drawn, or its refusal: 6, 21
/// or 22.
pub fn placed(rows: &Rows, drawn: usize, net: u16, terminals: [Terminal; 2]) -> Result<Rows, u16> {
    let open = |Terminal { column, side }| {
        column > drawn && rows.get(side).and_then(|row| row.get(column - 1)) == Some(&0)
    };
    if !numbered(net) {
        return Err(6);
    }
    if used(rows, net) {
        return Err(21);
    }
    if terminals[0] == terminals[1] || !terminals.into_iter().all(open) {
        return Err(22);
    }
    let mut rows = rows.clone();
    for Terminal { column, side } in terminals {
        rows[side][column - 1] = net;
    }
    Ok(rows)
}
