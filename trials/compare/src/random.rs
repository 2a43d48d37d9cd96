//! Random numbers and random channels.

/// A generator of random numbers (splitmix64).
pub struct Rng(u64);

impl Rng {
    /// The generator of one trial, so that a run does not depend on threads.
    pub fn of(seed: u64, trial: u64) -> Rng {
        let mut rng = Rng(seed ^ trial.wrapping_mul(0xd134_2543_de82_ef95));
        rng.next();
        rng
    }

    pub fn next(&mut self) -> u64 {
        self.0 = self.0.wrapping_add(0x9e37_79b9_7f4a_7c15);
        let x = (self.0 ^ (self.0 >> 30)).wrapping_mul(0xbf58_476d_1ce4_e5b9);
        let x = (x ^ (x >> 27)).wrapping_mul(0x94d0_49bb_1331_11eb);
        x ^ (x >> 31)
    }

    /// A number under a bound, which is at least 1.
    pub fn under(&mut self, bound: usize) -> usize {
        (self.next() % bound as u64) as usize
    }

    /// A number from one to another, both possible.
    pub fn from(&mut self, low: usize, high: usize) -> usize {
        low + self.under(high - low + 1)
    }

    pub fn percent(&mut self, chance: usize) -> bool {
        self.under(100) < chance
    }

    pub fn shuffle<T>(&mut self, list: &mut [T]) {
        for i in (1..list.len()).rev() {
            list.swap(i, self.under(i + 1));
        }
    }

    pub fn pick<T: Copy>(&mut self, list: &[T]) -> T {
        list[self.under(list.len())]
    }
}

/// The two rows of a channel.
#[derive(Clone, Debug, PartialEq)]
pub struct Channel {
    pub top: Vec<u16>,
    pub bottom: Vec<u16>,
}

/// The channels of up to three columns with numbers 0 to 3, one for each index
/// under 1 + 16 + 256 + 4096; most of them are refused.
pub fn small(mut index: u64) -> Option<Channel> {
    for n in 0..=3 {
        let count = 16u64.pow(n);
        if index < count {
            let number = |i: u32| ((index >> (2 * i)) & 3) as u16;
            let top = (0..n).map(number).collect();
            let bottom = (n..2 * n).map(number).collect();
            return Some(Channel { top, bottom });
        }
        index -= count;
    }
    None
}

/// A number of columns: mostly few, now and then up to 256.
pub fn columns(rng: &mut Rng) -> usize {
    match rng.under(1000) {
        0..100 => rng.under(4),
        100..600 => rng.under(17),
        600..850 => rng.under(41),
        850..970 => rng.under(65),
        970..994 => rng.from(65, 128),
        994..999 => rng.from(129, 256),
        _ => 256,
    }
}

/// Net numbers in random order: low ones, or any up to 256.
fn numbers(rng: &mut Rng, most: usize) -> Vec<u16> {
    let last = if rng.percent(50) { most.clamp(1, 256) } else { 256 };
    let mut numbers: Vec<u16> = (1..=last as u16).collect();
    rng.shuffle(&mut numbers);
    numbers
}

/// A channel that is not refused, of one of eight families, some with more empty
/// columns.
pub fn any(rng: &mut Rng) -> Channel {
    let n = columns(rng);
    let mut slots = vec![0; 2 * n];
    match rng.under(9) {
        0 => spread(rng, &mut slots, 2, 2, 100),
        1 => {
            let most = rng.from(3, 8);
            spread(rng, &mut slots, 2, most, 100)
        }
        2 => halves(rng, &mut slots),
        3 => {
            let most = rng.from(2, 5);
            let share = rng.from(5, 60);
            spread(rng, &mut slots, 2, most, share)
        }
        4 => {
            let most = rng.pick(&[2, 2, 3, 5]);
            local(rng, &mut slots, most)
        }
        5 => few(rng, &mut slots),
        6 | 7 => threes(rng, &mut slots),
        _ => pairs(rng, &mut slots),
    }
    mend(rng, &mut slots);
    if rng.percent(40) {
        add_empty_columns(rng, &mut slots);
    }
    channel(&slots)
}

/// The channel of these places, column by column, top before bottom.
fn channel(slots: &[u16]) -> Channel {
    let top = slots.iter().step_by(2).copied().collect();
    let bottom = slots.iter().skip(1).step_by(2).copied().collect();
    Channel { top, bottom }
}

/// A channel of two-pin nets, mostly with room for more of them: spread, local or dense,
/// some taken away, some with more empty columns.
pub fn roomy(rng: &mut Rng) -> Channel {
    let mut slots = vec![0; 2 * columns(rng)];
    match rng.under(3) {
        0 => {
            let share = rng.from(5, 100);
            spread(rng, &mut slots, 2, 2, share)
        }
        1 => local(rng, &mut slots, 2),
        _ => halves(rng, &mut slots),
    }
    let share = rng.pick(&[0, 10, 40]);
    for gone in (1..=256).filter(|_| rng.percent(share)).collect::<Vec<u16>>() {
        slots.iter_mut().filter(|net| **net == gone).for_each(|net| *net = 0);
    }
    if rng.percent(40) {
        add_empty_columns(rng, &mut slots);
    }
    channel(&slots)
}

/// A channel of 256 nets, the most that there can be.
pub fn full(rng: &mut Rng) -> Channel {
    let mut top: Vec<u16> = (1..=256).flat_map(|net| [net, net]).collect();
    rng.shuffle(&mut top);
    let bottom = top.split_off(256);
    Channel { top, bottom }
}

/// A channel under other net numbers, by a random one-to-one renaming.
pub fn renamed(rng: &mut Rng, channel: &Channel) -> Channel {
    let names = numbers(rng, 256);
    let name = |&net: &u16| if net == 0 { 0 } else { names[net as usize - 1] };
    let [top, bottom] = [&channel.top, &channel.bottom].map(|row| row.iter().map(name).collect());
    Channel { top, bottom }
}

/// A channel with the first k columns of another, of which there is one at least, and
/// after them other ones: places exchanged, a place given to a net from before them,
/// nets that start there under other numbers, columns added, some of them with a net.
pub fn other_end(rng: &mut Rng, channel: &Channel, k: usize) -> Channel {
    let (mut top, mut bottom) = (channel.top.clone(), channel.bottom.clone());
    let begun: Vec<u16> = [&top[..k], &bottom[..k]].concat();
    let mut fresh = numbers(rng, 256);
    fresh.retain(|net| !top.contains(net) && !bottom.contains(net));
    let mut end: Vec<u16> = top.drain(k..).chain(bottom.drain(k..)).collect();
    let places = end.len();
    for _ in 0..rng.pick(&[0, 1, 2, places]).min(places) {
        end.swap(rng.under(places), rng.under(places));
    }
    if places > 0 && rng.percent(40) {
        end[rng.under(places)] = rng.pick(&begun);
    }
    for _ in 0..rng.under(4) {
        let old = rng.pick(&[&end[..], &[0]].concat());
        if let Some(new) = fresh.pop().filter(|_| old != 0 && !begun.contains(&old)) {
            end.iter_mut().filter(|net| **net == old).for_each(|net| *net = new);
        }
    }
    let (above, below) = end.split_at(places / 2);
    top.extend(above);
    bottom.extend(below);
    for _ in 0..rng.under(4).min(256 - top.len()) {
        let net = fresh.pop().filter(|_| rng.percent(50)).unwrap_or(0);
        top.push(net);
        bottom.push(net);
    }
    Channel { top, bottom }
}

/// Nets of some pins each, spread over a share of the places.
fn spread(rng: &mut Rng, slots: &mut [u16], least: usize, most: usize, share: usize) {
    let mut places: Vec<usize> = (0..slots.len()).collect();
    rng.shuffle(&mut places);
    places.truncate(slots.len() * share / 100);
    let mut left = &places[..];
    for net in numbers(rng, slots.len() / 2) {
        let pins = rng.from(least, most);
        if left.len() < pins {
            break;
        }
        left[..pins].iter().for_each(|&place| slots[place] = net);
        left = &left[pins..];
    }
}

/// The densest: each net has its first pin left and its last pin right.
fn halves(rng: &mut Rng, slots: &mut [u16]) {
    let half = slots.len() / 2;
    let mut nets = numbers(rng, half);
    nets.truncate(half);
    for part in slots.chunks_mut(half.max(1)) {
        rng.shuffle(&mut nets);
        part.iter_mut().zip(&nets).for_each(|(slot, &net)| *slot = net);
    }
}

/// Nets whose pins lie close together.
fn local(rng: &mut Rng, slots: &mut [u16], most: usize) {
    let reach = rng.from(2, 12);
    for net in numbers(rng, slots.len()) {
        let Some(from) = slots.len().checked_sub(reach) else { return };
        let from = rng.from(0, from);
        let mut places: Vec<usize> = (from..from + reach).filter(|&i| slots[i] == 0).collect();
        rng.shuffle(&mut places);
        let pins = rng.from(2, most);
        if places.len() >= pins {
            places[..pins].iter().for_each(|&place| slots[place] = net);
        }
    }
}

/// Nets of two or three pins, dense, sparse, local or in stages. The last two pins
/// of a net of three often share a column; the first two now and then, which is
/// left to the sweep of other channels.
fn threes(rng: &mut Rng, slots: &mut [u16]) {
    let least = rng.from(2, 3);
    match rng.under(5) {
        0 => spread(rng, slots, least, 3, 100),
        1 => {
            let share = rng.from(20, 80);
            spread(rng, slots, least, 3, share)
        }
        2 => local(rng, slots, 3),
        _ => stages(rng, slots),
    }
    let often = rng.pick(&[0, 10, 50]);
    bring_together(slots, |_| rng.percent(often));
    if !rng.percent(8) {
        bring_together(slots, |early| early);
    }
}

/// Brings the last two pins of some nets of three together in one column: of those
/// that are chosen by whether the first two share one.
fn bring_together(slots: &mut [u16], mut chosen: impl FnMut(bool) -> bool) {
    for net in 1..=256 {
        let places: Vec<usize> = (0..slots.len()).filter(|&i| slots[i] == net).collect();
        if let [first, second, third] = places[..] {
            if chosen(first ^ 1 == second) {
                slots.swap(second, third ^ 1);
            }
        }
    }
}

/// What a place holds.
#[derive(Clone, Copy)]
enum Pin {
    Starts,
    GoesOn,
    Ends,
    Absent,
}

/// Nets of two or three pins, pin by pin from the left: now pins mostly start, now
/// they go on or end.
fn stages(rng: &mut Rng, slots: &mut [u16]) {
    use Pin::*;
    let moods = [
        [Starts, Starts, Starts, GoesOn],
        [GoesOn, GoesOn, Ends, Ends],
        [Starts, GoesOn, Ends, Absent],
    ];
    let mut mood = moods[0];
    let mut fresh = numbers(rng, slots.len() / 2);
    let (mut once, mut twice) = (Vec::new(), Vec::new());
    for place in 0..slots.len() {
        if rng.percent(20) {
            mood = rng.pick(&moods);
        }
        // The places that are not needed to end the nets.
        let spare = slots.len() - place - once.len() - twice.len();
        let two = twice.is_empty() || !once.is_empty() && rng.percent(30);
        let net = match if spare == 0 { Ends } else { rng.pick(&mood) } {
            Starts if spare > 1 => fresh.pop().inspect(|&net| once.push(net)),
            GoesOn => take(rng, &mut once).inspect(|&net| twice.push(net)),
            Ends => take(rng, if two { &mut once } else { &mut twice }),
            _ => None,
        };
        slots[place] = net.unwrap_or(0);
    }
}

/// Takes one out of a list, often the first.
fn take(rng: &mut Rng, list: &mut Vec<u16>) -> Option<u16> {
    if list.is_empty() {
        return None;
    }
    let chosen = if rng.percent(60) { 0 } else { rng.under(list.len()) };
    Some(list.remove(chosen))
}

/// A few nets with very many pins.
fn few(rng: &mut Rng, slots: &mut [u16]) {
    let mut nets = numbers(rng, 9);
    nets.truncate(rng.from(1, 9));
    let blank = rng.pick(&[0, 10, 50]);
    for slot in slots {
        *slot = if rng.percent(blank) { 0 } else { rng.pick(&nets) };
    }
}

/// Many columns with both pins of one net.
fn pairs(rng: &mut Rng, slots: &mut [u16]) {
    few(rng, slots);
    for column in slots.chunks_mut(2) {
        if rng.percent(40) {
            column[1] = column[0];
        }
    }
}

/// Takes away, or doubles, the pins of nets with one pin.
fn mend(rng: &mut Rng, slots: &mut [u16]) {
    let mut pins = [0; 257];
    slots.iter().for_each(|&net| pins[net as usize] += 1);
    for i in 0..slots.len() {
        let net = slots[i] as usize;
        if net == 0 || pins[net] != 1 {
            continue;
        }
        let blank = (0..slots.len()).filter(|&j| slots[j] == 0).nth(rng.under(4));
        match blank {
            Some(place) => slots[place] = slots[i],
            None => slots[i] = 0,
        }
        pins[net] = 2;
    }
}

/// Puts empty columns between the others, up to 256 in all.
fn add_empty_columns(rng: &mut Rng, slots: &mut Vec<u16>) {
    for _ in 0..rng.from(1, 1 + slots.len() / 4) {
        let at = 2 * rng.from(0, slots.len() / 2);
        let columns = rng.from(1, 2).min(256 - slots.len() / 2);
        slots.splice(at..at, vec![0; 2 * columns]);
    }
}
