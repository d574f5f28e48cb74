//! Folds with a house table (request C-14): right tables, calls with chosen faults, and tables that are damaged at random.
use crate::folds::{channels, out_of_range, FORMATS};
use crate::mixer::FoldGains;
use crate::numbers;
use crate::refused::{off, off32};
use crate::rng::{Rng, ODD};
use reference::mix::downmix::applies;

/// A source and a destination.
pub type Pair = [u32; 2];

/// Every two formats.
pub fn pairs() -> impl Iterator<Item = Pair> {
    (0..49).map(|i| [i / 7, i % 7])
}

/// Whether a table has an entry for two formats: what the reference's own text says.
pub fn covered([src, dst]: Pair) -> bool {
    applies(FORMATS[src as usize], FORMATS[dst as usize])
}

/// How many gains an entry has: a row for each channel of the destination, a column for each of the source.
pub fn size([src, dst]: Pair) -> usize {
    channels(src) * channels(dst)
}

#[derive(Clone)]
pub struct Entry {
    pub pair: Pair,
    pub gains: Vec<f32>,
}

impl Entry {
    pub fn new(r: &mut Rng, pair: Pair) -> Self {
        Entry { pair, gains: (0..size(pair)).map(|_| numbers::table_gain(r)).collect() }
    }
}

/// Entry after entry, and what is lent behind them: an odd number, and gains that no entry has.
#[derive(Clone, Default)]
pub struct Table {
    pub entries: Vec<Entry>,
    pub stray: Option<u32>,
    pub rest: Vec<f32>,
}

/// The orders of a right table's entries.
#[derive(Clone, Copy, Debug, PartialEq)]
pub enum Order {
    Listed,
    Reverse,
    Shuffled,
}

pub const ORDERS: [Order; 3] = [Order::Listed, Order::Reverse, Order::Shuffled];

/// The pairs that a right table covers, in an order.
pub fn order(r: &mut Rng, order: Order) -> Vec<Pair> {
    let mut list: Vec<Pair> = pairs().filter(|p| covered(*p)).collect();
    match order {
        Order::Listed => {}
        Order::Reverse => list.reverse(),
        Order::Shuffled => (1..list.len()).for_each(|i| list.swap(i, r.below(i + 1))),
    }
    list
}

impl Table {
    /// One that is right. What lies behind its entries is not.
    pub fn right(r: &mut Rng, by: Order) -> Self {
        let entries = order(r, by).into_iter().map(|p| Entry::new(r, p)).collect();
        let (any, rest) = (r.below(7) as u32, r.pick(&[0, 0, 1, 3, 200]));
        let stray = r.pick(&[None, None, Some(any), Some(99), Some(u32::MAX)]);
        Table { entries, stray, rest: (0..rest).map(|_| r.pick(&numbers::NO_TABLE_GAINS)).collect() }
    }

    pub fn pairs(&self) -> Vec<u32> {
        self.entries.iter().flat_map(|e| e.pair).chain(self.stray).collect()
    }

    pub fn gains(&self) -> Vec<f32> {
        self.entries.iter().flat_map(|e| &e.gains).chain(&self.rest).copied().collect()
    }

    /// How many gains the entries have.
    pub fn need(&self) -> usize {
        self.entries.iter().map(|e| e.gains.len()).sum()
    }

    pub fn entry(&self, pair: Pair) -> Option<&Entry> {
        self.entries.iter().find(|e| e.pair == pair)
    }

    /// With one more entry, anywhere.
    pub fn put(&mut self, r: &mut Rng, e: Entry) {
        self.entries.insert(r.below(self.entries.len() + 1), e);
    }
}

/// A fold with a table, as it is asked for.
#[derive(Clone)]
pub struct Asked {
    pub src: u32,
    pub dst: u32,
    pub gains: FoldGains,
    pub normalise: bool,
    pub pairs: Vec<u32>,
    pub table: Vec<f32>,
    /// The length of the area for the matrix.
    pub area: usize,
}

impl Asked {
    /// In an area that just fits, or is longer.
    pub fn new(r: &mut Rng, pair: Pair, gains: FoldGains, normalise: bool, t: &Table) -> Self {
        let area = size(pair) + r.pick(&[0, 0, 1, 9]);
        Asked { src: pair[0], dst: pair[1], gains, normalise, pairs: t.pairs(), table: t.gains(), area }
    }

    /// Any pair.
    pub fn any(r: &mut Rng, t: &Table) -> Self {
        let pair = [r.below(7) as u32, r.below(7) as u32];
        let (gains, normalise) = (numbers::gains(r), r.percent(50));
        Asked::new(r, pair, gains, normalise, t)
    }
}

/// What can be wrong with a fold and with its table.
#[derive(Clone, Copy, Debug, PartialEq, Eq)]
pub enum Wrong {
    OwnFormat,
    OwnGain,
    OwnArea,
    Format,
    Short,
    Gain,
    Missing,
    Twice,
    NotCovered,
}

/// Each with its number, in the order in which they are found.
pub const WRONG: [(Wrong, u32); 9] = [
    (Wrong::OwnFormat, 16),
    (Wrong::OwnGain, 17),
    (Wrong::OwnArea, 2),
    (Wrong::Format, 16),
    (Wrong::Short, 2),
    (Wrong::Gain, 17),
    (Wrong::Missing, 19),
    (Wrong::Twice, 20),
    (Wrong::NotCovered, 21),
];

fn no_format(r: &mut Rng) -> u32 {
    r.pick(&[7, 8, 255, u32::MAX])
}

/// Two formats of which one at least there is not.
fn no_pair(r: &mut Rng, [src, dst]: Pair) -> Pair {
    match r.below(3) {
        0 => [no_format(r), dst],
        1 => [src, no_format(r)],
        _ => [no_format(r), no_format(r)],
    }
}

/// A fold with these faults and no other.
pub fn with(r: &mut Rng, wrong: &[Wrong]) -> Asked {
    let t = entries_with(r, wrong);
    let mut a = Asked::any(r, &t);
    if wrong.contains(&Wrong::Short) {
        a.table.truncate(a.table.len() - r.pick(&[1, 1, 2, 500]));
    }
    if wrong.contains(&Wrong::Gain) {
        let at = r.below(a.table.len());
        a.table[at] = r.pick(&numbers::NO_TABLE_GAINS);
    }
    if wrong.contains(&Wrong::OwnArea) {
        let (need, any) = (size([a.src, a.dst]), r.below(size([a.src, a.dst])));
        a.area = r.pick(&[need - 1, need - 1, any, 0]);
    }
    if wrong.contains(&Wrong::OwnFormat) {
        [a.src, a.dst] = no_pair(r, [a.src, a.dst]);
    }
    while wrong.contains(&Wrong::OwnGain) && !out_of_range(&a.gains) {
        a.gains = numbers::any_gains(r);
    }
    a
}

/// The entries of a table with these faults, and no gains behind them. A pair that is there twice has other gains the second time.
fn entries_with(r: &mut Rng, wrong: &[Wrong]) -> Table {
    let by = r.pick(&ORDERS);
    let mut t = Table { rest: Vec::new(), ..Table::right(r, by) };
    let not_covered: Vec<Pair> = pairs().filter(|p| !covered(*p)).collect();
    let other = r.pick(&not_covered);
    if wrong.contains(&Wrong::Missing) {
        t.entries.remove(r.below(t.entries.len()));
    }
    let both = wrong.contains(&Wrong::NotCovered) && r.percent(30);
    if wrong.contains(&Wrong::Twice) {
        let pair = if both { other } else { t.entries[r.below(t.entries.len())].pair };
        let e = Entry::new(r, pair);
        t.put(r, e);
    }
    if wrong.contains(&Wrong::NotCovered) {
        let e = Entry::new(r, other);
        t.put(r, e);
    }
    if wrong.contains(&Wrong::Format) {
        let e = Entry { pair: no_pair(r, other), gains: vec![1.0; r.pick(&[0, 1, 12])] };
        t.put(r, e);
    }
    t
}

/// A right table with one to three things changed at random, or any few numbers.
pub fn damaged(r: &mut Rng) -> Asked {
    let by = r.pick(&ORDERS);
    let t = Table::right(r, by);
    let mut a = Asked::any(r, &t);
    if r.percent(10) {
        a.pairs = (0..r.below(60)).map(|_| r.below(7) as u32).collect();
    }
    for _ in 0..r.range(1, 3) {
        match r.below(3) {
            0 => damage_gains(r, &mut a),
            _ => damage_pairs(r, &mut a.pairs),
        }
    }
    match r.below(20) {
        0 => a.src = off32(r, a.src),
        1 => a.dst = off32(r, a.dst),
        2 => a.gains = numbers::any_gains(r),
        3 => a.area = off(r, a.area) % 1000,
        _ => {}
    }
    a
}

/// Entries that change places, a number that is another one, one more or one less, entries left out and entries again.
fn damage_pairs(r: &mut Rng, pairs: &mut Vec<u32>) {
    let n = pairs.len();
    let (i, k) = (r.below(n / 2), r.below(n / 2));
    match r.below(9) {
        _ if n < 2 => pairs.push(3),
        0..=2 => (0..2).for_each(|c| pairs.swap(2 * i + c, 2 * k + c)),
        3 => pairs[i] = off32(r, pairs[i]),
        4 => pairs[i] = r.below(7) as u32,
        5 => drop(pairs.remove(i)),
        6 => pairs.insert(i, r.below(8) as u32),
        7 => drop(pairs.drain(2 * i..2 * i + 2)),
        _ => pairs.extend_from_within(2 * i..2 * i + 2),
    }
}

/// A gain that is another one, gains left out at the end, and more of them.
fn damage_gains(r: &mut Rng, a: &mut Asked) {
    let n = a.table.len();
    match r.below(3) {
        0 if n > 0 => a.table[r.below(n)] = f32::from_bits(r.pick(&ODD)),
        1 => a.table.truncate(n.saturating_sub(r.pick(&[1, 2, 200]))),
        _ => a.table.extend((0..300).map(|_| numbers::table_gain(r))),
    }
}
