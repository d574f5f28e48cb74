//! Records of folds with a house table. All tables have their gains in one list, of which a call is lent a part, so that the file has it once.
use crate::folds::{channels, gains_of, FORMATS};
use crate::mixer::Status;
use crate::numbers;
use crate::paper;
use crate::recorded::Case;
use crate::recorded_folds::numbers_of;
use crate::rng::Rng;
use crate::tables::{order, pairs, size, Asked, Order, Pair, ORDERS};
use crate::tape::{bits, Kind};
use reference::mix::format::{self, Laws};

const ORDERED: [&str; 3] = ["table in order", "table in reverse", "table shuffled"];
const BY_ENTRY: &str = "table, a fold by an entry";
const DIVIDED: &str = "table, a fold by an entry, normalise, a row whose sum is above 1";
const BUILT_IN: &str = "table, a fold of a pair that it does not cover";
const JUST: &str = "table, just as many gains as its entries have";
const REST: &str = "table, a NaN behind the gains of its entries";
const STRAY: &str = "table, a last odd number that is no format";
const LONGER: &str = "table, an area longer than the matrix";

/// What folds with a table that are accepted must show.
pub const TAKEN: &[&str] = &[ORDERED[0], ORDERED[1], ORDERED[2], BY_ENTRY, DIVIDED, BUILT_IN, JUST, REST, STRAY, LONGER];

/// What those that are refused must show, their numbers, and what is wrong. The first one is lent all gains, so that the file has the parts of the others.
pub const REFUSED: [(&str, u32, fn(&mut Asked, &Gains)); 24] = [
    ("table refused, its first gain -0", 17, |a, g| a.table = g.list.clone()),
    ("table refused, the fold's own source", 16, |a, _| a.src = 7),
    ("table refused, the fold's own destination", 16, |a, _| a.dst = u32::MAX),
    ("table refused, the fold's own source, before a gain of its own", 16, |a, _| (a.src, a.gains.centre) = (7, f64::NAN)),
    ("table refused, a gain of the fold's own", 17, |a, _| a.gains.lfe = -0.0),
    ("table refused, a gain of the fold's own, before its area", 17, |a, _| (a.gains.lfe, a.area) = (-0.0, a.area - 1)),
    ("table refused, an area one place short", 2, |a, _| a.area -= 1),
    ("table refused, an area one place short, before a format of the table", 2, |a, _| (a.area, a.pairs[0]) = (a.area - 1, 7)),
    ("table refused, a source", 16, |a, _| a.pairs[0] = 7),
    ("table refused, a destination", 16, |a, _| a.pairs[1] = 7),
    ("table refused, a destination, before gains too few", 16, |a, g| (a.pairs[1], a.table) = (7, g.just()[1..].to_vec())),
    ("table refused, one gain too few", 2, |a, g| a.table = g.just()[1..].to_vec()),
    ("table refused, one gain too few, before a gain", 2, |a, g| a.table = g.list[..g.need - 1].to_vec()),
    ("table refused, its last gain NaN", 17, |a, g| a.table = g.last(0).to_vec()),
    ("table refused, a gain above 16, before a pair left out", 17, |a, _| (a.pairs, a.table) = (vec![2, 0], vec![ABOVE, 1.0, 1.0])),
    ("table refused, a pair left out", 19, |a, _| drop(a.pairs.drain(..2))),
    ("table refused, a pair without its last number", 19, |a, _| a.pairs.truncate(a.pairs.len() - 1)),
    ("table refused, no pairs", 19, |a, _| a.pairs.clear()),
    ("table refused, a pair left out, before a pair twice", 19, |a, g| {
        a.pairs.drain(..2);
        g.more(a, &[3, 0]);
    }),
    ("table refused, a pair twice", 20, |a, g| g.more(a, &[2, 0])),
    ("table refused, a pair twice that is not covered", 20, |a, g| g.more(a, &[0, 0, 0, 0])),
    ("table refused, a pair twice, before one that is not covered", 20, |a, g| g.more(a, &[2, 0, 1, 0])),
    ("table refused, 5.1 to 5.1.4", 21, |a, g| g.more(a, &[3, 5])),
    ("table refused, stereo to mono", 21, |a, g| g.more(a, &[1, 0])),
];

/// The least gain above 16.
const ABOVE: f32 = f32::from_bits(0x4180_0001);

/// The gains of all tables: −0, those of the entries and some more, and NaN.
pub struct Gains {
    list: Vec<f32>,
    /// How many the entries of a right table have.
    need: usize,
}

impl Gains {
    fn new(r: &mut Rng) -> Self {
        let need = order(r, Order::Listed).into_iter().map(size).sum();
        let right = (0..need + 200).map(|_| numbers::table_gain(r));
        Gains { list: [-0.0].into_iter().chain(right).chain([f32::NAN]).collect(), need }
    }

    fn just(&self) -> &[f32] {
        &self.list[1..=self.need]
    }

    /// As many as a right table has, the last one of them NaN, or that one behind them.
    fn last(&self, behind: usize) -> &[f32] {
        &self.list[self.list.len() - self.need - behind..]
    }

    /// Entries behind those of a table, and all gains that are from +0 to 16.
    fn more(&self, a: &mut Asked, pairs: &[u32]) {
        a.pairs.extend(pairs);
        a.table = self.list[1..self.list.len() - 1].to_vec();
    }
}

pub fn all(c: &mut Case, seed: u64) {
    let mut r = Rng::new(seed);
    let gains = Gains::new(&mut r);
    let orders = ORDERS.map(|by| order(&mut r, by).concat());
    let base = Asked {
        src: 3,
        dst: 1,
        gains: gains_of(&Laws::default()),
        normalise: false,
        pairs: orders[0].clone(),
        table: gains.just().to_vec(),
        area: size([3, 1]),
    };
    refused(c, &gains, &base);
    for normalise in [false, true] {
        for (i, pair) in pairs().enumerate() {
            let by = (i + normalise as usize) % ORDERS.len();
            let asked = Asked { src: pair[0], dst: pair[1], normalise, pairs: orders[by].clone(), ..base.clone() };
            c.reached.push(ORDERED[by]);
            taken(c, &gains, asked, i);
        }
    }
}

/// Call i: the table with something behind it, or the area, now and then.
fn taken(c: &mut Case, gains: &Gains, mut a: Asked, i: usize) {
    let pair = [a.src, a.dst];
    let (stray, rest, longer) = (i % 5 == 0, i % 3 == 0, i % 7 == 3);
    a.pairs.extend(stray.then_some(99));
    if rest {
        a.table = gains.last(1).to_vec();
    }
    a.area = size(pair) + if longer { 2 } else { 0 };
    let matrix = matrix(&a, pair);
    let mut after = vec![7.5; a.area];
    after[..matrix.len()].copy_from_slice(&matrix);
    push(c, &a, Status::default(), &after);
    let by_entry = entry(&a, pair).is_some();
    let loud = matrix.chunks(channels(a.src)).any(|row| row.iter().sum::<f32>() > 1.0);
    let when = [
        (by_entry, BY_ENTRY),
        (by_entry && a.normalise && loud, DIVIDED),
        (!by_entry, BUILT_IN),
        (!rest, JUST),
        (rest, REST),
        (stray, STRAY),
        (longer, LONGER),
    ];
    c.reached.extend(when.iter().filter(|w| w.0).map(|w| w.1));
}

/// The gains of the entry for a pair.
fn entry(a: &Asked, pair: Pair) -> Option<&[f32]> {
    let mut rest = &a.table[..];
    for p in a.pairs.chunks_exact(2) {
        let (own, behind) = rest.split_at(size([p[0], p[1]]));
        if p == pair {
            return Some(own);
        }
        rest = behind;
    }
    None
}

/// The table's entry, else the reference's fold.
fn matrix(a: &Asked, pair: Pair) -> Vec<f32> {
    let mut laws = Laws::default();
    laws.downmix.normalise = a.normalise;
    let [src, dst] = pair.map(|n| FORMATS[n as usize]);
    entry(a, pair).map_or_else(|| format::width_matrix(src, dst, &laws), |gains| gains.to_vec())
}

/// A call of each kind that is refused, every second one for mono to mono, which no table covers.
fn refused(c: &mut Case, gains: &Gains, base: &Asked) {
    for (i, (name, number, spoil)) in REFUSED.into_iter().enumerate() {
        let mut a = base.clone();
        if i % 2 == 1 {
            (a.src, a.dst, a.area, a.normalise) = (0, 0, 1, true);
        }
        spoil(&mut a, gains);
        if paper::width_with(&a, None) == paper::refused(number) {
            push(c, &a, Status { number, place: 0 }, &vec![7.5; a.area]);
            c.reached.push(name);
        }
    }
}

fn push(c: &mut Case, a: &Asked, status: Status, after: &[f32]) {
    let areas = vec![a.pairs.clone(), bits(&a.table), bits(&vec![7.5; a.area]), bits(after)];
    c.push(Kind::WidthMatrixWith, status, areas, numbers_of(a.src, a.dst, &a.gains, a.normalise));
}
