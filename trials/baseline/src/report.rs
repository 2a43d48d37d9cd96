//! The net report, without and with a drawing.

use crate::check::{check_nets, Checked};
use crate::rows::{nets, Nets};

/// The nets to report, or refusal 4 to 7 or 9.
fn reported(top: &[u16], bottom: &[u16], figures: &[u32]) -> Result<Nets, u16> {
    let nets = nets(top, bottom, 256)?;
    if figures.len() < 4 * 256 {
        return Err(9);
    }
    Ok(nets)
}

/// Fills the table of first column, last column, pins and length of nets 1 to
/// 256.
fn fill(nets: &Nets, lengths: &[u32; 257], figures: &mut [u32]) {
    let facts = nets.iter().zip(lengths).skip(1);
    for (record, (net, &length)) in figures.chunks_exact_mut(4).zip(facts) {
        let [first, last, pins] = [net.first, net.last, net.pins].map(u32::from);
        record.copy_from_slice(&[first, last, pins, length]);
    }
}

/// How often each number stands in a layout. Four tables in turn, so that no
/// count waits for the one before.
fn lengths(layout: &[u16]) -> [u32; 257] {
    let mut tables = [[0; 257]; 4];
    for entries in layout.chunks(4) {
        for (table, &net) in tables.iter_mut().zip(entries) {
            table[net as usize] += 1;
        }
    }
    std::array::from_fn(|net| tables.iter().map(|table| table[net]).sum())
}

/// The report without a drawing.
pub fn report(top: &[u16], bottom: &[u16], figures: &mut [u32]) -> Result<(), u16> {
    let nets = reported(top, bottom, figures)?;
    fill(&nets, &[0; 257], figures);
    Ok(())
}

/// The report on a drawing that the checker passes.
pub fn report_drawing(
    top: &[u16],
    bottom: &[u16],
    w: usize,
    t: usize,
    layout: &[u16],
    figures: &mut [u32],
) -> Checked {
    let nets = match reported(top, bottom, figures) {
        Ok(nets) => nets,
        Err(number) => return Checked::refused(number, 0),
    };
    let checked = check_nets(&nets, top, bottom, w, t, layout);
    if checked.number == 0 {
        fill(&nets, &lengths(layout), figures);
    }
    checked
}
