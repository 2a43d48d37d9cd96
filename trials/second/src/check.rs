//! The checker: refusals 10 to 17, 19 and 20 by the grid's rules alone, and the
//! view of one column.

use crate::rows::{nets, Nets};
use crate::{Checked, LIMIT, MOST_COLUMNS, MOST_NETS};
use std::ops::Range;

/// A drawing: width, tracks and entries.
pub struct Drawing<'a> {
    pub w: usize,
    pub t: usize,
    pub entries: &'a [u16],
}

impl Drawing<'_> {
    /// Entries in a column.
    fn each(&self) -> usize {
        2 * self.t + 1
    }

    /// The position of the vertical edge from row y upward, columns from 0.
    fn vertical(&self, c: usize, y: usize) -> usize {
        c * self.each() + y
    }

    /// The position of the edge leaving to the right on track y.
    fn horizontal(&self, c: usize, y: usize) -> usize {
        c * self.each() + self.t + y
    }

    /// The two grid points, (column, row), that an entry's edge joins.
    fn ends(&self, position: usize) -> [(usize, usize); 2] {
        let (c, k) = (position / self.each(), position % self.each());
        if k <= self.t {
            [(c, k), (c, k + 1)]
        } else {
            [(c, k - self.t), (c + 1, k - self.t)]
        }
    }

    /// The positions of the edges at a grid point.
    fn edges_at(&self, (c, y): (usize, usize)) -> Vec<usize> {
        let mut at = Vec::with_capacity(4);
        if c < self.w {
            if y > 0 {
                at.push(self.vertical(c, y - 1));
            }
            if y <= self.t {
                at.push(self.vertical(c, y));
            }
        }
        if (1..=self.t).contains(&y) {
            if c < self.w {
                at.push(self.horizontal(c, y));
            }
            if c > 0 {
                at.push(self.horizontal(c - 1, y));
            }
        }
        at
    }

    /// The edges of each net, counted over the grid; place 0 has the blanks.
    pub fn lengths(&self) -> Vec<usize> {
        let mut lengths = vec![0; MOST_NETS + 1];
        for c in 0..self.w {
            let vertical = (0..=self.t).map(|y| self.vertical(c, y));
            let leaving = (1..=self.t).map(|y| self.horizontal(c, y));
            for position in vertical.chain(leaving) {
                lengths[self.entries[position] as usize] += 1;
            }
        }
        lengths
    }

    /// The number of edges that hang together with the one at a position.
    fn piece(&self, position: usize, seen: &mut [bool]) -> usize {
        let net = self.entries[position];
        let mut waiting = vec![position];
        let mut size = 0;
        seen[position] = true;
        while let Some(edge) = waiting.pop() {
            size += 1;
            for point in self.ends(edge) {
                for next in self.edges_at(point) {
                    if self.entries[next] == net && !seen[next] {
                        seen[next] = true;
                        waiting.push(next);
                    }
                }
            }
        }
        size
    }
}

/// The check of a drawing; zeros for a solution.
pub fn check(top: &[u16], bottom: &[u16], w: usize, t: usize, entries: &[u16]) -> Checked {
    let refused = |number, place| Checked { number, place, ..Checked::default() };
    let nets = match nets(top, bottom, MOST_COLUMNS) {
        Ok(nets) => nets,
        Err(number) => return refused(number, 0),
    };
    let n = top.len();
    if w < n || w > LIMIT {
        return refused(10, 0);
    }
    if t > LIMIT {
        return refused(11, 0);
    }
    if entries.len() != w * (2 * t + 1) {
        return refused(12, 0);
    }
    let drawing = Drawing { w, t, entries };
    if let Some(place) = strange_entry(&drawing, &nets) {
        return refused(13, place);
    }
    if let Some((number, place)) = wrong_pin_edge(&drawing, top, bottom) {
        return refused(number, place);
    }
    if let Some(place) = edge_beyond(&drawing) {
        return refused(15, place);
    }
    if let Some(net) = broken_net(&drawing) {
        return refused(16, net as usize);
    }
    match loose_end(&drawing) {
        Some((net, (c, row))) => Checked { number: 17, place: net as usize, column: c + 1, row },
        None => Checked::default(),
    }
}

/// The lowest position of an entry that is neither 0 nor a net.
fn strange_entry(drawing: &Drawing, nets: &Nets) -> Option<usize> {
    let strange = |&x: &u16| x != 0 && (x as usize > MOST_NETS || nets.pins(x) == 0);
    drawing.entries.iter().position(strange)
}

/// The number and the lowest position of a pin edge that differs from its pin. In
/// a drawing without tracks the bottom pin comes first.
fn wrong_pin_edge(drawing: &Drawing, top: &[u16], bottom: &[u16]) -> Option<(u16, usize)> {
    for c in 0..drawing.w {
        let pins = [(0, bottom), (drawing.t, top)];
        for (row, pins) in pins {
            let position = drawing.vertical(c, row);
            let edge = drawing.entries[position];
            match pins.get(c) {
                Some(&pin) if pin == edge => {}
                None if edge == 0 => {}
                None | Some(0) => return Some((20, position)),
                Some(_) if edge == 0 => return Some((14, position)),
                Some(_) => return Some((19, position)),
            }
        }
    }
    None
}

/// The lowest position of a horizontal edge in the last column.
fn edge_beyond(drawing: &Drawing) -> Option<usize> {
    if drawing.w == 0 {
        return None;
    }
    (1..=drawing.t)
        .map(|y| drawing.horizontal(drawing.w - 1, y))
        .find(|&position| drawing.entries[position] != 0)
}

/// The lowest number of a net whose edges are more than one piece.
fn broken_net(drawing: &Drawing) -> Option<u16> {
    let mut first = vec![None; MOST_NETS + 1];
    let mut count = vec![0; MOST_NETS + 1];
    for (position, &net) in drawing.entries.iter().enumerate() {
        count[net as usize] += 1;
        first[net as usize].get_or_insert(position);
    }
    let mut seen = vec![false; drawing.entries.len()];
    (1..=MOST_NETS as u16).find(|&net| {
        let net = net as usize;
        first[net].is_some_and(|at| drawing.piece(at, &mut seen) != count[net])
    })
}

/// The lowest number of a net with one edge at a grid point on a track, and its
/// first such point by column and then row.
fn loose_end(drawing: &Drawing) -> Option<(u16, (usize, usize))> {
    let mut found: Option<(u16, (usize, usize))> = None;
    for point in (0..drawing.w).flat_map(|c| (1..=drawing.t).map(move |y| (c, y))) {
        let met: Vec<u16> = drawing.edges_at(point).iter().map(|&p| drawing.entries[p]).collect();
        for &net in met.iter().filter(|&&net| net != 0) {
            let edges = met.iter().filter(|&&other| other == net).count();
            if edges == 1 && found.is_none_or(|(lowest, _)| net < lowest) {
                found = Some((net, point));
            }
        }
    }
    found
}

/// The part of a layout slice of that length that is column c, counted from 1;
/// `None` for the empty part.
pub fn column(len: usize, w: usize, t: usize, c: usize) -> Option<Range<usize>> {
    if w > LIMIT || t > LIMIT || len != w * (2 * t + 1) || c < 1 || c > w {
        return None;
    }
    let each = 2 * t + 1;
    Some((c - 1) * each..c * each)
}
