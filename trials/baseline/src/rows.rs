//! Row check, family and density.

/// First column, last column and pins of a net.
#[derive(Clone, Copy, Default)]
pub struct Net {
    pub first: u16,
    pub last: u16,
    pub pins: u16,
}

/// The nets by number; place 0 stays empty.
pub type Nets = [Net; 257];

/// The nets of two rows, or refusal 4 to 7.
pub fn nets(top: &[u16], bottom: &[u16], most: usize) -> Result<Nets, u16> {
    if top.len() != bottom.len() {
        return Err(4);
    }
    if top.len() > most {
        return Err(5);
    }
    if top.iter().chain(bottom).any(|&x| x > 256) {
        return Err(6);
    }
    let mut nets = [Net::default(); 257];
    for (column, (&p, &q)) in (1..).zip(top.iter().zip(bottom)) {
        for x in [p, q] {
            let net = &mut nets[x as usize];
            if net.pins == 0 {
                net.first = column;
            }
            net.last = column;
            net.pins += 1;
        }
    }
    nets[0] = Net::default();
    if nets.iter().any(|net| net.pins == 1) {
        return Err(7);
    }
    Ok(nets)
}

/// The families of channels, by the sweep that draws them.
#[derive(Clone, Copy, PartialEq, Eq)]
pub enum Family {
    TwoPin,
    ThreePin,
    ManyPin,
}

/// The family of a channel. The columns are looked through only where the largest
/// net has three pins.
pub fn family(top: &[u16], bottom: &[u16], nets: &Nets) -> Family {
    let over = |most| nets.iter().any(|net| net.pins > most);
    let together = |(column, (&p, &q)): (u16, (&u16, &u16))| {
        let net = &nets[p as usize];
        p == q && net.pins == 3 && net.first == column
    };
    if !over(2) {
        Family::TwoPin
    } else if over(3) || (1..).zip(top.iter().zip(bottom)).any(together) {
        Family::ManyPin
    } else {
        Family::ThreePin
    }
}

/// The largest number of nets that cross a gap.
pub fn densest(n: usize, nets: &Nets) -> usize {
    let mut change = [0i32; 257];
    for net in nets.iter().filter(|net| net.first < net.last) {
        change[net.first as usize] += 1;
        change[net.last as usize] -= 1;
    }
    let (mut here, mut most) = (0, 0);
    for &by in change.iter().take(n).skip(1) {
        here += by;
        most = most.max(here);
    }
    most as usize
}

/// The density of a channel.
pub fn density(top: &[u16], bottom: &[u16]) -> Result<usize, u16> {
    let nets = nets(top, bottom, 256)?;
    Ok(densest(top.len(), &nets))
}
