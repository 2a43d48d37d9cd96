//! The channel of two-pin nets with the widest drawing.

use crate::rows::lengths;
use crate::MOST_COLUMNS;

/// Writes the channel into two rows of n entries each, whatever they hold: two nets begin
/// in each column of the first half and end crossed in the second; for odd n a column
/// without pins comes first. The answer is the number of columns that its drawing adds,
/// n/2 rounded down, or refusal 4 or 5; a refused call leaves the rows as they were.
pub fn widest(top: &mut [u16], bottom: &mut [u16]) -> Result<usize, u16> {
    lengths(top, bottom, MOST_COLUMNS)?;
    let half = top.len() / 2;
    let mut columns = vec![(0, 0); top.len() % 2];
    for pair in 1..=half as u16 {
        columns.push((2 * pair, 2 * pair - 1));
    }
    for pair in 1..=half as u16 {
        columns.push((2 * pair - 1, 2 * pair));
    }
    for (i, (above, below)) in columns.into_iter().enumerate() {
        top[i] = above;
        bottom[i] = below;
    }
    Ok(half)
}
