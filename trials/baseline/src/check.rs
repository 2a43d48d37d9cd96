//! A checker in one pass, with labels and a union-find over them.

use crate::rows::{nets, Nets};

/// A net with a single edge at a grid point.
struct LooseEnd {
    net: u16,
    column: usize,
    row: usize,
}

/// The labels of the pieces found so far, how many each net has, and the first
/// loose end of the lowest net that has any.
struct Pieces {
    parent: Vec<u32>,
    count: [u32; 257],
    loose: Option<LooseEnd>,
}

impl Pieces {
    fn fresh(&mut self, net: u16) -> u32 {
        self.count[net as usize] += 1;
        self.parent.push(self.parent.len() as u32);
        self.parent.len() as u32 - 1
    }

    fn root(&mut self, mut label: u32) -> u32 {
        while self.parent[label as usize] != label {
            let up = self.parent[self.parent[label as usize] as usize];
            self.parent[label as usize] = up;
            label = up;
        }
        label
    }

    fn merge(&mut self, net: u16, a: u32, b: u32) {
        let (a, b) = (self.root(a), self.root(b));
        if a != b {
            self.parent[a as usize] = b;
            self.count[net as usize] -= 1;
        }
    }

    /// Notes a grid point where some net has a single edge.
    #[cold]
    fn note(&mut self, edges: [u16; 4], column: usize, row: usize) {
        let count = |net| edges.iter().filter(|&&edge| edge == net).count();
        let lowest = edges.into_iter().filter(|&net| net != 0 && count(net) == 1).min();
        let Some(net) = lowest else { return };
        if self.loose.as_ref().is_none_or(|loose| net < loose.net) {
            self.loose = Some(LooseEnd { net, column, row });
        }
    }
}

/// Whether some net has a single one of the four edges at a grid point.
fn some_single([a, b, c, d]: [u16; 4]) -> bool {
    let (ab, ac, ad, bc, bd, cd) = (a == b, a == c, a == d, b == c, b == d, c == d);
    (a != 0) & !(ab | ac | ad)
        | (b != 0) & !(ab | bc | bd)
        | (c != 0) & !(ac | bc | cd)
        | (d != 0) & !(ad | bd | cd)
}

/// Goes over a drawing for pieces and loose ends.
fn pieces(w: usize, t: usize, layout: &[u16]) -> Pieces {
    let mut pieces = Pieces { parent: Vec::with_capacity(w + 256), count: [0; 257], loose: None };
    let mut strands = vec![(0u16, 0u32); t + 1];
    for (column, entries) in (1..).zip(layout.chunks_exact(2 * t + 1)) {
        let (vertical, leaving) = entries.split_at(t + 1);
        let mut below = match vertical[0] {
            0 => (0, 0),
            net => (net, pieces.fresh(net)),
        };
        let points = vertical[1..].iter().zip(leaving).zip(&mut strands);
        for (row, ((&up, &right), strand)) in (1..).zip(points) {
            let left = *strand;
            let crossing = below.0 == up && left.0 == right && up != right;
            if crossing {
                continue;
            }
            let edges = [below.0, up, left.0, right];
            if some_single(edges) {
                pieces.note(edges, column, row);
            }
            if below.0 != 0 && below.0 == left.0 {
                pieces.merge(below.0, below.1, left.1);
            }
            let above = label(&mut pieces, up, below, left, (0, 0));
            *strand = label(&mut pieces, right, below, left, above);
            below = above;
        }
    }
    pieces
}

/// The label of an edge that leaves a grid point, given the other edges there.
fn label(pieces: &mut Pieces, net: u16, a: (u16, u32), b: (u16, u32), c: (u16, u32)) -> (u16, u32) {
    if net == 0 {
        return (0, 0);
    }
    match [a, b, c].into_iter().find(|edge| edge.0 == net) {
        Some(edge) => edge,
        None => (net, pieces.fresh(net)),
    }
}

/// The answer of the checker: zeros for a solution.
#[derive(Clone, Copy, Debug, Default, PartialEq, Eq)]
pub struct Checked {
    pub number: u16,
    pub place: usize,
    pub column: usize,
    pub row: usize,
}

impl Checked {
    pub fn refused(number: u16, place: usize) -> Checked {
        Checked { number, place, ..Checked::default() }
    }
}

/// Checks a drawing.
pub fn check(top: &[u16], bottom: &[u16], w: usize, t: usize, layout: &[u16]) -> Checked {
    match nets(top, bottom, 256) {
        Ok(nets) => check_nets(&nets, top, bottom, w, t, layout),
        Err(number) => Checked::refused(number, 0),
    }
}

/// The number of an edge that is not the pin at its terminal, 0 for none.
fn pin_fault(pin: u16, edge: u16) -> u16 {
    match (pin, edge) {
        (0, _) => 20,
        (_, 0) => 14,
        _ => 19,
    }
}

/// Checks a drawing of rows that are accepted, with their nets.
pub fn check_nets(
    nets: &Nets,
    top: &[u16],
    bottom: &[u16],
    w: usize,
    t: usize,
    layout: &[u16],
) -> Checked {
    let refused = Checked::refused;
    if w < top.len() || w > 511 {
        return refused(10, 0);
    }
    if t > 511 {
        return refused(11, 0);
    }
    let each = 2 * t + 1;
    if layout.len() != w * each {
        return refused(12, 0);
    }
    let known: [bool; 257] = std::array::from_fn(|x| x == 0 || nets[x].pins > 0);
    let strange = |&x: &u16| !known.get(x as usize).copied().unwrap_or(false);
    if let Some(place) = layout.iter().position(strange) {
        return refused(13, place);
    }
    let pin = |row: &[u16], c: usize| row.get(c).copied().unwrap_or(0);
    for (c, column) in layout.chunks_exact(each).enumerate() {
        if column[0] != pin(bottom, c) {
            return refused(pin_fault(pin(bottom, c), column[0]), c * each);
        }
        if column[t] != pin(top, c) {
            return refused(pin_fault(pin(top, c), column[t]), c * each + t);
        }
    }
    let end = layout.len() - layout.len().min(t);
    if let Some(place) = layout[end..].iter().position(|&x| x != 0) {
        return refused(15, end + place);
    }
    let Pieces { count, loose, .. } = pieces(w, t, layout);
    if let Some(net) = count.iter().position(|&count| count > 1) {
        return refused(16, net);
    }
    match loose {
        Some(LooseEnd { net, column, row }) => {
            Checked { number: 17, place: net.into(), column, row }
        }
        None => Checked::default(),
    }
}

/// Offset and length of a column in a layout slice of that length.
pub fn column(len: usize, w: usize, t: usize, c: usize) -> (usize, usize) {
    let each = t.saturating_mul(2).saturating_add(1);
    let fits = w <= 511 && t <= 511 && len == w * each && (1..=w).contains(&c);
    if fits {
        ((c - 1) * each, each)
    } else {
        (0, 0)
    }
}
