//! A channel on the drawing board: two-pin nets come and go, and the count at each gap is
//! stored and mended by each change.

/// A terminal: a column, counted from 1, and a side, 0 for top and 1 for bottom.
pub type Terminal = (usize, u16);

#[derive(Clone, Debug, Default, PartialEq, Eq)]
pub struct Board {
    /// The top and the bottom row.
    pub rows: [Vec<u16>; 2],
    /// The count at each gap, by its number; there is no gap 0.
    pub counts: Vec<u16>,
}

impl Board {
    /// A board without nets, or refusal 5.
    pub fn new(columns: usize) -> Result<Board, u16> {
        if columns > 256 {
            return Err(5);
        }
        Ok(Board { rows: [vec![0; columns], vec![0; columns]], counts: vec![0; columns] })
    }

    /// Adds a net at two terminals, or refusal 6, 21 or 22.
    pub fn add(&mut self, net: u16, one: Terminal, other: Terminal) -> Result<(), u16> {
        if net == 0 || net > 256 {
            return Err(6);
        }
        if self.rows.iter().any(|row| row.contains(&net)) {
            return Err(21);
        }
        if one == other || !self.is_free(one) || !self.is_free(other) {
            return Err(22);
        }
        for (column, side) in [one, other] {
            self.rows[side as usize][column - 1] = net;
        }
        let (first, last) = (one.0.min(other.0), one.0.max(other.0));
        self.counts[first..last].iter_mut().for_each(|count| *count += 1);
        Ok(())
    }

    /// Drops a net, or refusal 6 or 24.
    pub fn drop(&mut self, net: u16) -> Result<(), u16> {
        if net == 0 || net > 256 {
            return Err(6);
        }
        let rows = self.rows.iter();
        let columns = rows.clone().filter_map(|row| row.iter().position(|&pin| pin == net));
        let first = columns.min().ok_or(24u16)?;
        let columns = rows.filter_map(|row| row.iter().rposition(|&pin| pin == net));
        let last = columns.max().unwrap_or(first);
        self.counts[first + 1..=last].iter_mut().for_each(|count| *count -= 1);
        for row in &mut self.rows {
            row.iter_mut().filter(|pin| **pin == net).for_each(|pin| *pin = 0);
        }
        Ok(())
    }

    /// The largest count.
    pub fn density(&self) -> u16 {
        self.counts.iter().copied().max().unwrap_or(0)
    }

    /// The count at a gap; 0 where there is none.
    pub fn count(&self, gap: usize) -> u16 {
        self.counts.get(gap).copied().unwrap_or(0)
    }

    /// Whether a net may have a pin at a terminal.
    fn is_free(&self, (column, side): Terminal) -> bool {
        let row = self.rows.get(side as usize);
        row.and_then(|row| row.get(column.wrapping_sub(1))) == Some(&0)
    }
}
