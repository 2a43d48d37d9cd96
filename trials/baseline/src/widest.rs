//! Writing the channel with the widest drawing.

/// Every second number from the first on.
fn count(pins: &mut [u16], first: u16) {
    pins.iter_mut().zip(0..).for_each(|(pin, k): (_, u16)| *pin = first + 2 * k);
}

/// Writes the channel into two rows and returns the columns that its drawing adds; with
/// refusal 4 or 5 nothing is written.
pub fn widest(top: &mut [u16], bottom: &mut [u16]) -> Result<usize, u16> {
    if top.len() != bottom.len() {
        return Err(4);
    }
    if top.len() > 256 {
        return Err(5);
    }
    let (half, odd) = (top.len() / 2, top.len() % 2);
    for (row, [begun, ended]) in [(top, [2, 1]), (bottom, [1, 2])] {
        let (empty, full) = row.split_at_mut(odd);
        let (left, right) = full.split_at_mut(half);
        empty.fill(0);
        count(left, begun);
        count(right, ended);
    }
    Ok(half)
}
