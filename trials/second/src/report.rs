//! The net report, without and with a drawing: refusals 4 to 7, then 9, then
//! those of the checker.

use crate::check::{check, Drawing};
use crate::rows::{nets, Nets};
use crate::{Checked, MOST_COLUMNS, MOST_NETS};

/// The numbers of a record: first column, last column, pins, length.
const RECORD: usize = 4;

/// The nets to report into a table of some numbers, or refusal 4 to 7 or 9.
fn reported(top: &[u16], bottom: &[u16], room: usize) -> Result<Nets, u16> {
    let nets = nets(top, bottom, MOST_COLUMNS)?;
    if room / RECORD < MOST_NETS {
        return Err(9);
    }
    Ok(nets)
}

/// Fills the first 256 records, given the length of each net.
fn fill(nets: &Nets, lengths: &[usize], figures: &mut [u32]) {
    for (i, record) in figures.chunks_exact_mut(RECORD).take(MOST_NETS).enumerate() {
        let net = i as u16 + 1;
        let filled = match nets.pins(net) {
            0 => [0; RECORD],
            pins => [nets.first(net), nets.last(net), pins, lengths[net as usize]],
        };
        for (slot, value) in record.iter_mut().zip(filled) {
            *slot = value as u32;
        }
    }
}

/// The report without a drawing, in which the lengths are 0. A refused call
/// leaves the table as it was.
pub fn report(top: &[u16], bottom: &[u16], figures: &mut [u32]) -> Result<(), u16> {
    let nets = reported(top, bottom, figures.len())?;
    fill(&nets, &[0; MOST_NETS + 1], figures);
    Ok(())
}

/// The report on a drawing. A refused call leaves the table as it was.
pub fn report_drawing(
    top: &[u16],
    bottom: &[u16],
    w: usize,
    t: usize,
    entries: &[u16],
    figures: &mut [u32],
) -> Checked {
    let nets = match reported(top, bottom, figures.len()) {
        Ok(nets) => nets,
        Err(number) => return Checked { number, ..Checked::default() },
    };
    let checked = check(top, bottom, w, t, entries);
    if checked == Checked::default() {
        fill(&nets, &Drawing { w, t, entries }.lengths(), figures);
    }
    checked
}
