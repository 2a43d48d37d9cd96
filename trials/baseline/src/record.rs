//! Writing the canonical record.

use crate::rows::nets;

/// Writes the record of a channel whose nets are renumbered in the order of their
/// first pin and returns its length; with refusal 4 to 7 or 18 nothing is written.
pub fn canonical(top: &[u16], bottom: &[u16], bytes: &mut [u8]) -> Result<usize, u16> {
    nets(top, bottom, 256)?;
    let n = top.len();
    let record = bytes.get_mut(..6 + 4 * n).ok_or(18u16)?;
    let (head, rows) = record.split_at_mut(6);
    for (place, word) in head.chunks_exact_mut(2).zip([4 + 4 * n as u16, 1, n as u16]) {
        place.copy_from_slice(&word.to_le_bytes());
    }
    let (above, below) = rows.split_at_mut(2 * n);
    let places = above.chunks_exact_mut(2).zip(below.chunks_exact_mut(2));
    let (mut numbers, mut last) = ([0; 257], 0u16);
    let mut number = |net: u16| {
        let number = &mut numbers[net as usize];
        if net != 0 && *number == 0 {
            last += 1;
            *number = last;
        }
        number.to_le_bytes()
    };
    for ((&p, &q), (above, below)) in top.iter().zip(bottom).zip(places) {
        above.copy_from_slice(&number(p));
        below.copy_from_slice(&number(q));
    }
    Ok(record.len())
}
