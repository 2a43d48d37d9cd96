//! The channels that are measured: every place has a pin where that is possible.

/// A channel with its drawing.
pub struct Case {
    pub top: Vec<u16>,
    pub bottom: Vec<u16>,
    /// The slice length of document 01's formula.
    pub room: usize,
    pub width: usize,
    pub tracks: usize,
    pub drawing: Vec<u16>,
}

/// A random number under a bound (xorshift).
pub fn under(state: &mut u64, bound: usize) -> usize {
    *state ^= *state << 13;
    *state ^= *state >> 7;
    *state ^= *state << 17;
    (*state % bound as u64) as usize
}

/// A channel of n columns whose nets have two to `most` pins.
fn rows(state: &mut u64, n: usize, most: usize) -> (Vec<u16>, Vec<u16>) {
    let mut nets = Vec::with_capacity(2 * n);
    let mut net = 0;
    while nets.len() + 2 <= 2 * n {
        let pins = (2 + under(state, most - 1)).min(2 * n - nets.len());
        net += 1;
        nets.extend(std::iter::repeat_n(net, pins));
    }
    nets.resize(2 * n, 0);
    for i in (1..nets.len()).rev() {
        nets.swap(i, under(state, i + 1));
    }
    if most == 3 {
        part_first_pins(&mut nets, n);
    }
    let bottom = nets.split_off(n);
    (nets, bottom)
}

/// Parts the first two pins of each net of three that has them in one column: one
/// goes to the column of the third. The top row comes first, then the bottom row.
fn part_first_pins(nets: &mut [u16], n: usize) {
    for c in 0..n {
        if nets[c] != nets[c + n] {
            continue;
        }
        let third = (c + 1..n).flat_map(|k| [k, k + n]).find(|&i| nets[i] == nets[c]);
        if let Some(third) = third {
            nets.swap(c, (third + n) % (2 * n));
        }
    }
}

/// Some channels, the same in every run.
pub fn cases(n: usize, most: usize, count: usize) -> Vec<Case> {
    let mut state = 0x9e37_79b9_7f4a_7c15 ^ (1000 * most + n) as u64;
    let mut make = || {
        let (top, bottom) = rows(&mut state, n, most);
        let room = baseline::formula(&top, &bottom).unwrap();
        let mut drawing = vec![0; room];
        let drawn = baseline::route(&top, &bottom, &mut drawing).unwrap();
        drawing.truncate(drawn.width * (2 * drawn.tracks + 1));
        Case { top, bottom, room, width: drawn.width, tracks: drawn.tracks, drawing }
    };
    (0..count).map(|_| make()).collect()
}
