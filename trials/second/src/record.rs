//! Records and listings: what `knee` reads and writes, and the canonical record.

use crate::rows::nets;
use crate::sweep::draw;
use crate::{MOST_COLUMNS, MOST_LISTED};
use std::fmt::Write;

/// The two rows of a record, or refusal 1, 2 or 3.
pub fn rows(record: &[u8]) -> Result<(Vec<u16>, Vec<u16>), u16> {
    let number = |at: usize| record[at] as u16 | (record[at + 1] as u16) << 8;
    if record.len() < 4 || record.len() > 1030 || number(0) as usize != record.len() - 2 {
        return Err(1);
    }
    if number(2) != 1 {
        return Err(2);
    }
    let body = record.len() - 4;
    if body < 2 {
        return Err(3);
    }
    let n = number(4) as usize;
    if body != 2 + 4 * n {
        return Err(3);
    }
    let row = |from: usize| (0..n).map(|i| number(from + 2 * i)).collect();
    Ok((row(6), row(6 + 2 * n)))
}

/// What `knee` writes for a record: its listing, or the line that says it is
/// refused.
pub fn printed(record: &[u8]) -> String {
    list(record).unwrap_or_else(|number| format!("refused {number}\n"))
}

/// The listing of a record: the figures and a line for each column; or refusal
/// 1 to 7.
pub fn list(record: &[u8]) -> Result<String, u16> {
    let (top, bottom) = rows(record)?;
    let nets = nets(&top, &bottom, MOST_LISTED)?;
    let (figures, entries) = draw(&top, &bottom, &nets);
    let mut text =
        format!("density {} tracks {} width {}\n", figures.density, figures.tracks, figures.width);
    let each = 2 * figures.tracks + 1;
    for (i, column) in entries.chunks(each).enumerate() {
        let (vertical, horizontal) = column.split_at(figures.tracks + 1);
        write!(text, "{}:", i + 1).unwrap();
        vertical.iter().for_each(|x| write!(text, " {x}").unwrap());
        text.push_str(" |");
        horizontal.iter().for_each(|x| write!(text, " {x}").unwrap());
        text.push('\n');
    }
    Ok(text)
}

/// The nets of a channel in the order of their first pin: column by column, top
/// before bottom.
fn by_first_pin(top: &[u16], bottom: &[u16]) -> Vec<u16> {
    let mut order = Vec::new();
    for column in 0..top.len() {
        for net in [top[column], bottom[column]] {
            if net != 0 && !order.contains(&net) {
                order.push(net);
            }
        }
    }
    order
}

/// Writes a channel as a record of kind 1 into the first bytes of a slice, its nets
/// renumbered 1, 2, 3 in the order of their first pin. The answer is the number of
/// bytes, or refusal 4 to 7, then 18; a refused call leaves the slice as it was.
pub fn canonical(top: &[u16], bottom: &[u16], output: &mut [u8]) -> Result<usize, u16> {
    nets(top, bottom, MOST_COLUMNS)?;
    let n = top.len();
    if output.len() < 6 + 4 * n {
        return Err(18);
    }
    let order = by_first_pin(top, bottom);
    let number = |net: &u16| order.iter().position(|other| other == net).map_or(0, |i| i + 1);
    let mut words = vec![4 + 4 * n, 1, n];
    words.extend(top.iter().chain(bottom).map(number));
    for (i, word) in words.iter().enumerate() {
        output[2 * i] = (word % 256) as u8;
        output[2 * i + 1] = (word / 256) as u8;
    }
    Ok(2 * words.len())
}
