//! Reading a record and writing the listing.

use crate::{formula, route, rows::nets};
use std::io::Write;

fn rows(record: &[u8]) -> Result<(Vec<u16>, Vec<u16>), u16> {
    let words: Vec<u16> =
        record.chunks_exact(2).map(|b| u16::from_le_bytes([b[0], b[1]])).collect();
    if !(4..=1030).contains(&record.len()) || words[0] as usize != record.len() - 2 {
        return Err(1);
    }
    if words[1] != 1 {
        return Err(2);
    }
    let n = *words.get(2).ok_or(3u16)? as usize;
    if record.len() != 6 + 4 * n {
        return Err(3);
    }
    Ok((words[3..3 + n].to_vec(), words[3 + n..].to_vec()))
}

fn listing(record: &[u8], text: &mut &mut [u8]) -> Result<(), u16> {
    let (top, bottom) = rows(record)?;
    nets(&top, &bottom, 64)?;
    let mut layout = vec![0; formula(&top, &bottom)?];
    let figures = route(&top, &bottom, &mut layout)?;
    let (d, t, w) = (figures.density, figures.tracks, figures.width);
    writeln!(text, "density {d} tracks {t} width {w}").unwrap();
    for (c, column) in layout.chunks(2 * t + 1).take(w).enumerate() {
        write!(text, "{}:", c + 1).unwrap();
        for (k, entry) in column.iter().enumerate() {
            let bar = if k == t { " |" } else { "" };
            write!(text, " {entry}{bar}").unwrap();
        }
        writeln!(text).unwrap();
    }
    Ok(())
}

/// Writes the listing of a record and returns its length; with refusal 1 to 7
/// nothing is written.
pub fn list(record: &[u8], text: &mut [u8]) -> Result<usize, u16> {
    let room = text.len();
    let mut rest = text;
    listing(record, &mut rest)?;
    Ok(room - rest.len())
}
