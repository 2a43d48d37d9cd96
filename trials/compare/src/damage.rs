//! Damage to rows, drawings and records.

use crate::random::{Channel, Rng};

/// A drawing that is given to the checkers.
#[derive(Clone)]
pub struct Drawing {
    pub w: usize,
    pub t: usize,
    pub entries: Vec<u16>,
}

impl Drawing {
    fn each(&self) -> usize {
        2 * self.t + 1
    }

    /// Adds empty columns on the right.
    pub fn widen(&mut self, by: usize) {
        self.w += by;
        self.entries.resize(self.w * self.each(), 0);
    }

    /// Adds an empty track under track y + 1: below all others for 0, above
    /// them for t.
    pub fn heighten(&mut self, y: usize) {
        let mut entries = Vec::new();
        for column in self.entries.chunks(self.each()) {
            let (vertical, leaving) = column.split_at(self.t + 1);
            entries.extend_from_slice(&vertical[..=y]);
            entries.extend_from_slice(&vertical[y..]);
            entries.extend_from_slice(&leaving[..y]);
            entries.push(0);
            entries.extend_from_slice(&leaving[y..]);
        }
        self.t += 1;
        self.entries = entries;
    }

    /// Sets the pin edges right and takes the last column's horizontal edges away.
    fn bound(&mut self, channel: &Channel) {
        let (t, each) = (self.t, self.each());
        for (c, column) in self.entries.chunks_mut(each).enumerate() {
            column[0] = channel.bottom.get(c).copied().unwrap_or(0);
            column[t] = channel.top.get(c).copied().unwrap_or(0);
        }
        let kept = self.entries.len().saturating_sub(t);
        self.entries[kept..].fill(0);
    }

    /// The positions of the edges.
    fn edges(&self) -> Vec<usize> {
        (0..self.entries.len()).filter(|&i| self.entries[i] != 0).collect()
    }
}

/// An entry that may be blank, a net of the channel, or a stranger.
fn entry(rng: &mut Rng, channel: &Channel) -> u16 {
    let all: Vec<u16> = channel.top.iter().chain(&channel.bottom).copied().collect();
    match rng.under(20) {
        0 => rng.from(1, 256) as u16,
        1 => rng.pick(&[256, 257, 258, 511, 512, 32768, 65535]),
        2..9 => 0,
        _ if all.is_empty() => 0,
        _ => rng.pick(&all),
    }
}

/// Damages a drawing, or only its measures.
pub fn drawing(rng: &mut Rng, channel: &Channel, drawing: &mut Drawing) {
    let (w, t, each, len) = (drawing.w, drawing.t, drawing.each(), drawing.entries.len());
    match rng.under(16) {
        0 => {
            drawing.w = rng.pick(&[w + 1, w.wrapping_sub(1), 511, 512, usize::MAX, usize::MAX / 2])
        }
        1 => {
            drawing.t = rng.pick(&[t + 1, t.wrapping_sub(1), 511, 512, usize::MAX, usize::MAX / 2])
        }
        2 => drawing.entries.truncate(len.saturating_sub(rng.from(1, 3))),
        3 => drawing.entries.push(0),
        4 => {
            drawing.w = channel.top.len();
            drawing.entries.truncate(drawing.w * each);
        }
        5 => {
            drawing.w = w.saturating_sub(1);
            drawing.entries.truncate(drawing.w * each);
        }
        _ if len == 0 => {}
        6 if t > 0 => {
            let place = len - rng.from(1, t);
            drawing.entries[place] = entry(rng, channel);
        }
        7 => {
            let place = rng.under(w) * each + rng.pick(&[0, t]);
            drawing.entries[place] = entry(rng, channel);
        }
        8 => {
            let (a, b) = (rng.under(len), rng.under(len));
            drawing.entries.swap(a, b);
        }
        9 | 10 => {
            erase(rng, drawing);
        }
        _ => {
            for _ in 0..rng.pick(&[1, 1, 1, 2, 3, 5]) {
                let place = rng.under(len);
                drawing.entries[place] = entry(rng, channel);
            }
        }
    }
}

/// Takes away an edge.
fn erase(rng: &mut Rng, drawing: &mut Drawing) {
    let edges = drawing.edges();
    if !edges.is_empty() {
        drawing.entries[rng.pick(&edges)] = 0;
    }
}

/// Adds wire to a net, from a grid point of it on a track through entries that
/// are 0 or its own: a stub, a spur that runs to the rim, or a loop. A solution
/// stays one but for loose ends.
fn grow(rng: &mut Rng, drawing: &mut Drawing) {
    let (w, t, each) = (drawing.w, drawing.t, drawing.each());
    let edges = drawing.edges();
    if t == 0 || edges.is_empty() {
        return;
    }
    let edge = rng.pick(&edges);
    let net = drawing.entries[edge];
    let (mut c, mut y) = match (edge / each, edge % each) {
        (c, k) if k <= t => (c, (k + rng.under(2)).clamp(1, t)),
        (c, k) => (c + rng.under(2), k - t),
    };
    let turning = rng.pick(&[0, 0, 40]);
    let mut way = rng.under(4);
    for _ in 0..rng.pick(&[1, 2, 4, 600]) {
        if rng.percent(turning) {
            way = rng.under(4);
        }
        let (entry, point) = match way {
            0 if c + 1 < w => (c * each + t + y, (c + 1, y)),
            1 if c > 0 => ((c - 1) * each + t + y, (c - 1, y)),
            2 if y < t => (c * each + y, (c, y + 1)),
            3 if y > 1 => (c * each + y - 1, (c, y - 1)),
            _ => return,
        };
        if drawing.entries[entry] != 0 && drawing.entries[entry] != net {
            return;
        }
        drawing.entries[entry] = net;
        (c, y) = point;
    }
}

/// A drawing with more wire, and perhaps with more room for it or an edge gone.
pub fn grown(rng: &mut Rng, drawing: &Drawing) -> Drawing {
    let mut grown = drawing.clone();
    grown.widen(rng.under(3));
    for _ in 0..rng.under(3) {
        grown.heighten(rng.from(0, grown.t));
    }
    for _ in 0..rng.from(1, 4) {
        grow(rng, &mut grown);
    }
    if rng.percent(15) {
        erase(rng, &mut grown);
    }
    grown
}

/// A drawing at random whose pin edges and last column are right: whether it
/// is a solution rests on the pieces and the loose ends of its nets.
pub fn scribble(rng: &mut Rng, channel: &Channel) -> Drawing {
    let n = channel.top.len();
    let (w, t) = (n + rng.under(3), rng.under(5));
    let mut nets: Vec<u16> = channel.top.iter().chain(&channel.bottom).copied().collect();
    nets.retain(|&net| net != 0);
    let mut drawing = Drawing { w, t, entries: vec![0; w * (2 * t + 1)] };
    let blank = rng.pick(&[0, 10, 30, 60]);
    if !nets.is_empty() {
        for entry in &mut drawing.entries {
            *entry = if rng.percent(blank) { 0 } else { rng.pick(&nets) };
        }
    }
    drawing.bound(channel);
    drawing
}

/// A drawing that is full of a channel's first net: a solution if the channel
/// has no other. Now and then that net has over 65,535 edges.
pub fn mesh(rng: &mut Rng, channel: &Channel) -> Option<Drawing> {
    let net = *channel.top.iter().chain(&channel.bottom).find(|&&net| net != 0)?;
    let (more, t) = if rng.percent(2) { (200, 200) } else { (rng.under(9), rng.under(9)) };
    let w = channel.top.len() + more;
    let mut drawing = Drawing { w, t, entries: vec![net; w * (2 * t + 1)] };
    drawing.bound(channel);
    Some(drawing)
}

/// A drawing without tracks, and its channel: most columns have two pins of one net
/// and its edge; at some one of the three is another net of the channel or gone,
/// past the channel too.
pub fn flat(rng: &mut Rng, channel: &Channel) -> (Channel, Drawing) {
    let mut rows = [channel.top.clone(), channel.top.clone()];
    let other = |rng: &mut Rng| if rng.percent(40) { 0 } else { rng.pick(&channel.top) };
    for c in 0..channel.top.len() {
        if rng.percent(25) {
            rows[rng.under(2)][c] = other(rng);
        }
    }
    let mut entries = rows[rng.under(2)].clone();
    entries.resize(entries.len() + rng.under(3), 0);
    for entry in &mut entries {
        if rng.percent(10) && !channel.top.is_empty() {
            *entry = other(rng);
        }
    }
    let [top, bottom] = rows;
    (Channel { top, bottom }, Drawing { w: entries.len(), t: 0, entries })
}

/// Damages rows so that most are refused.
pub fn rows(rng: &mut Rng, channel: &mut Channel) {
    for _ in 0..rng.from(1, 2) {
        let row = if rng.percent(50) { &mut channel.top } else { &mut channel.bottom };
        match rng.under(8) {
            0 => row.push(rng.under(4) as u16),
            1 => drop(row.pop()),
            2 => {
                let n = rng.from(254, 260);
                channel.top.resize(n, 0);
                channel.bottom.resize(n, 0);
            }
            3 | 4 if !row.is_empty() => {
                let place = rng.under(row.len());
                row[place] = rng.pick(&[256, 257, 258, 512, 513, 32769, 65535]);
            }
            _ if !row.is_empty() => {
                let place = rng.under(row.len());
                row[place] = rng.under(257) as u16;
            }
            _ => {}
        }
    }
}

/// A channel with other nets that is not refused either: one place set to another
/// number or to 0, or two places exchanged. Each net keeps a pin where it was, so no
/// renaming turns one channel into the other.
pub fn pins(rng: &mut Rng, channel: &Channel) -> Option<Channel> {
    let n = channel.top.len();
    let slots = [&channel.top[..], &channel.bottom].concat();
    let changed = |_| {
        let mut top = slots.clone();
        let (a, b) = (rng.under(2 * n), rng.under(2 * n));
        match rng.under(6) {
            0 => top.swap(a, b),
            1 | 2 => top[a] = 0,
            _ => top[a] = slots[b],
        }
        let differs = top != slots;
        let bottom = top.split_off(n);
        let taken = second::rows::nets(&top, &bottom, second::MOST_COLUMNS).is_ok();
        (differs && taken).then_some(Channel { top, bottom })
    };
    (0..if n == 0 { 0 } else { 16 }).find_map(changed)
}

/// The record of a channel.
pub fn record(channel: &Channel) -> Vec<u8> {
    let n = channel.top.len() as u16;
    let body = channel.top.iter().chain(&channel.bottom).copied();
    let length = 4 + 2 * (channel.top.len() + channel.bottom.len()) as u16;
    let words = [length, 1, n].into_iter().chain(body);
    words.flat_map(u16::to_le_bytes).collect()
}

/// Writes the right length into a record.
fn measure(record: &mut [u8]) {
    if record.len() >= 2 {
        let length = (record.len() - 2) as u16;
        record[..2].copy_from_slice(&length.to_le_bytes());
    }
}

/// Damages a record.
pub fn bytes(rng: &mut Rng, record: &mut Vec<u8>) {
    let place = rng.under(record.len());
    match rng.under(9) {
        0 => record.truncate(place),
        1 => record.push(rng.under(256) as u8),
        2 => record[place] = rng.under(256) as u8,
        3 => record[rng.pick(&[0, 1])] ^= 1 << rng.under(8),
        4 => record[rng.pick(&[2, 3])] ^= 1 << rng.under(8),
        5 if record.len() > 5 => record[rng.pick(&[4, 5])] ^= 1 << rng.under(8),
        6 => {
            record.truncate(rng.from(0, 7));
            measure(record);
        }
        7 => {
            record.resize(rng.from(1024, 1036), 0);
            let n = (record.len() - 6) / 4;
            record[4..6].copy_from_slice(&(n as u16).to_le_bytes());
            measure(record);
        }
        _ => {
            let by = rng.from(1, 4);
            let length = if rng.percent(50) { record.len() + by } else { record.len() - by };
            record.resize(length, 0);
            measure(record);
        }
    }
}
