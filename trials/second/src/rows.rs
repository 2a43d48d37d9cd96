//! What the rows alone settle: refusals 4 to 7, family, density, tracks, and
//! document 01's formula for the length of a layout slice.

use crate::{MOST_COLUMNS, MOST_NETS};

/// The families of channels; each has its own sweep and its own tracks.
#[derive(Clone, Copy, Debug, PartialEq, Eq)]
pub enum Family {
    /// Each net has two pins.
    TwoPin,
    /// The largest net has three pins, and no net of three its first two in one
    /// column.
    ThreePin,
    /// All others.
    ManyPin,
}

/// Where the pins of each net lie.
#[derive(Debug)]
pub struct Nets {
    /// For each number, the columns of its pins in rising order, counted from 1.
    columns: Vec<Vec<usize>>,
}

impl Nets {
    /// Gathers the pins of two rows whose numbers are all 0 to 256.
    pub fn of(top: &[u16], bottom: &[u16]) -> Nets {
        let mut columns = vec![Vec::new(); MOST_NETS + 1];
        for (i, (&a, &b)) in top.iter().zip(bottom).enumerate() {
            for net in [a, b] {
                if net != 0 {
                    columns[net as usize].push(i + 1);
                }
            }
        }
        Nets { columns }
    }

    /// The number of pins of a net.
    pub fn pins(&self, net: u16) -> usize {
        self.columns[net as usize].len()
    }

    /// The column of a net's first pin.
    pub fn first(&self, net: u16) -> usize {
        self.columns[net as usize][0]
    }

    /// The column of a net's last pin.
    pub fn last(&self, net: u16) -> usize {
        *self.columns[net as usize].last().unwrap()
    }

    /// The numbers in use, in rising order.
    pub fn numbers(&self) -> impl Iterator<Item = u16> + '_ {
        (1..=MOST_NETS as u16).filter(|&net| self.pins(net) > 0)
    }

    /// The channel's family.
    pub fn family(&self) -> Family {
        let largest = self.numbers().map(|net| self.pins(net)).max().unwrap_or(0);
        let together = |pins: &Vec<usize>| pins.len() == 3 && pins[0] == pins[1];
        match largest {
            0..=2 => Family::TwoPin,
            3 if !self.columns.iter().any(together) => Family::ThreePin,
            _ => Family::ManyPin,
        }
    }
}

/// Refusal 4 or 5, if the rows meet one by their lengths.
pub fn lengths(top: &[u16], bottom: &[u16], most: usize) -> Result<(), u16> {
    if top.len() != bottom.len() {
        return Err(4);
    }
    if top.len() > most {
        return Err(5);
    }
    Ok(())
}

/// The number of the refusal that the rows meet, 4 to 7, or the nets.
pub fn nets(top: &[u16], bottom: &[u16], most: usize) -> Result<Nets, u16> {
    lengths(top, bottom, most)?;
    if top.iter().chain(bottom).any(|&x| x as usize > MOST_NETS) {
        return Err(6);
    }
    let nets = Nets::of(top, bottom);
    let single = nets.numbers().any(|net| nets.pins(net) == 1);
    if single {
        return Err(7);
    }
    Ok(nets)
}

/// The count of nets with a pin in the columns up to a gap and one after it.
pub fn crossing(nets: &Nets, gap: usize) -> usize {
    nets.numbers().filter(|&net| nets.first(net) <= gap && nets.last(net) > gap).count()
}

/// The largest count, over the gaps, of nets with pins on both sides.
pub fn density_of(nets: &Nets, n: usize) -> usize {
    (1..n).map(|gap| crossing(nets, gap)).max().unwrap_or(0)
}

/// The tracks of a channel of density d.
pub fn tracks_of(family: Family, d: usize) -> usize {
    match family {
        Family::TwoPin => d,
        Family::ThreePin => 3 * d / 2,
        Family::ManyPin => 2 * d - 1,
    }
}

/// The density of a channel, or its refusal.
pub fn density(top: &[u16], bottom: &[u16]) -> Result<usize, u16> {
    let nets = nets(top, bottom, MOST_COLUMNS)?;
    Ok(density_of(&nets, top.len()))
}

/// The slice length of document 01's formula, or the refusal. No drawing is longer.
pub fn formula(top: &[u16], bottom: &[u16]) -> Result<usize, u16> {
    let nets = nets(top, bottom, MOST_COLUMNS)?;
    let t = tracks_of(nets.family(), density_of(&nets, top.len()));
    Ok((top.len() + t / 2) * (2 * t + 1))
}
