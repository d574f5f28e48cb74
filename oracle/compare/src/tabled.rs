//! The part of `oracle folds` with a house table. For a covered pair the reference is the table itself, for any other the Rust's fold where a law gives
//! the gains, else the definition. Whether a table is right is known of how it was made, and asked of `paper.rs` too.
use crate::folds::{gains_of, law, FORMATS};
use crate::judge::{same, untouched, words, Fault, Found, Judge};
use crate::mapping;
use crate::mixer::{self, Status};
use crate::numbers::{self, NO_TABLE_GAINS};
use crate::paper::{self, refused, Answer};
use crate::rng::Rng;
use crate::tables::{self, covered, pairs, Asked, Entry, Order, Pair, Table, ORDERS, WRONG};
use reference::mix::format;

/// How many damaged tables a case has.
const DAMAGED: usize = 100;

/// Some of everything.
pub fn case(j: &mut Judge, r: &mut Rng) -> Found {
    for order in ORDERS {
        right(j, r, order)?;
    }
    chosen(j, r)?;
    entries(j, r)?;
    gains(j, r)?;
    lengths(j, r)?;
    for _ in 0..DAMAGED {
        let a = tables::damaged(r);
        let answer = paper::width_with(&a, None);
        j.counts.tables.damaged += 1;
        j.counts.tables.damaged_taken += answer.is_ok() as u64;
        judge(j, &a, answer).map_err(|e| with_pairs(&a, "damaged", e))?;
    }
    Ok(())
}

/// A right table: every pair with both flags, by gains that a law gives and by any gains.
fn right(j: &mut Judge, r: &mut Rng, order: Order) -> Found {
    let t = Table::right(r, order);
    j.counts.tables.right(order, &t);
    let (mut laws, any) = (law(r), numbers::gains(r));
    for (pair, normalise) in pairs().flat_map(|p| [(p, false), (p, true)]) {
        let [src, dst] = pair.map(|n| FORMATS[n as usize]);
        laws.downmix.normalise = normalise;
        let by_law = || format::width_matrix(src, dst, &laws);
        let defined = || mapping::matrix(src.labels(), dst.labels(), &any, normalise);
        let entry = |built_in: &dyn Fn() -> Vec<f32>| t.entry(pair).map_or_else(built_in, |e| e.gains.clone());
        for (own, matrix) in [(gains_of(&laws), entry(&by_law)), (any, entry(&defined))] {
            let a = Asked::new(r, pair, own, normalise, &t);
            known(j, &a, Ok(matrix)).map_err(|e| with_pairs(&a, "right", e))?;
        }
    }
    Ok(())
}

/// Every choice of the nine faults: the first of them answers.
fn chosen(j: &mut Judge, r: &mut Rng) -> Found {
    for choice in 1..1 << WRONG.len() {
        let here: Vec<_> = (0..WRONG.len()).filter(|i| choice >> i & 1 == 1).map(|i| WRONG[i]).collect();
        let wrong: Vec<_> = here.iter().map(|w| w.0).collect();
        j.counts.tables.several += (here.len() > 1) as u64;
        known(j, &tables::with(r, &wrong), refused(here[0].1)).map_err(|e| format!("{wrong:?}: {e}"))?;
    }
    Ok(())
}

/// Each covered pair left out, each pair twice, each other pair added, and each number of the entries one that is no format.
fn entries(j: &mut Judge, r: &mut Rng) -> Found {
    for pair in pairs() {
        let once = Table { rest: Vec::new(), ..Table::right(r, Order::Shuffled) };
        let mut less = once.clone();
        less.entries.retain(|e| e.pair != pair);
        let more = with_another(r, &once, pair);
        let twice = with_another(r, &more, pair);
        let cases = if covered(pair) { [(less, 19), (more, 20)] } else { [(more, 21), (twice, 20)] };
        for (t, number) in cases {
            let a = Asked::any(r, &t);
            known(j, &a, refused(number)).map_err(|e| with_pairs(&a, &format!("for {pair:?}"), e))?;
        }
    }
    let t = Table { stray: None, ..Table::right(r, Order::Shuffled) };
    for at in 0..t.pairs().len() {
        let mut a = Asked::any(r, &t);
        a.pairs[at] = r.pick(&[7, 8, u32::MAX]);
        known(j, &a, refused(16)).map_err(|e| with_pairs(&a, "no format", e))?;
    }
    Ok(())
}

/// The table with another entry for a pair, anywhere.
fn with_another(r: &mut Rng, t: &Table, pair: Pair) -> Table {
    let (mut t, e) = (t.clone(), Entry::new(r, pair));
    t.put(r, e);
    t
}

fn with_pairs(a: &Asked, what: &str, difference: String) -> String {
    let [src, dst] = [a.src, a.dst];
    format!("{what}, {src} to {dst}, normalise {}: {difference}; table of {:?}", a.normalise, a.pairs)
}

/// What the fold of an accepted call writes, by the table that it was made of.
fn matrix(a: &Asked, t: &Table) -> Answer<Vec<f32>> {
    let labels = |n: u32| FORMATS[n as usize].labels();
    let built_in = || mapping::matrix(labels(a.src), labels(a.dst), &a.gains, a.normalise);
    Ok(t.entry([a.src, a.dst]).map_or_else(built_in, |e| e.gains.clone()))
}

/// One gain too few, just as many, one more that is no gain; and each value that is no gain, at the first place, the last one and any other.
fn gains(j: &mut Judge, r: &mut Rng) -> Found {
    let t = Table { rest: vec![f32::NAN], ..Table::right(r, Order::Shuffled) };
    let need = t.need();
    for len in [0, need - 1, need, need + 1] {
        let mut a = Asked::any(r, &t);
        a.table.truncate(len);
        let answer = if len < need { refused(2) } else { matrix(&a, &t) };
        known(j, &a, answer).map_err(|e| format!("{len} gains: {e}"))?;
    }
    for bad in NO_TABLE_GAINS {
        for at in [0, need - 1, r.below(need)] {
            let mut a = Asked::any(r, &t);
            a.table.truncate(need);
            a.table[at] = bad;
            known(j, &a, refused(17)).map_err(|e| format!("{bad:?} at {at}: {e}"))?;
        }
    }
    Ok(())
}

/// Lists that end within an entry or before it, none at all, and long ones.
fn lengths(j: &mut Judge, r: &mut Rng) -> Found {
    let t = Table { stray: None, ..Table::right(r, Order::Shuffled) };
    let need = t.pairs().len();
    for len in [0, 1, 2, need - 2, need - 1] {
        let mut a = Asked::any(r, &t);
        a.pairs.truncate(len);
        known(j, &a, refused(19)).map_err(|e| format!("{len} numbers: {e}"))?;
    }
    let many = r.range(2, 3000);
    for (pair, gains, number) in [([0, 0], many, 20), ([0, 0], many - 1, 2), ([6, 6], many, 2)] {
        let mut a = Asked::any(r, &Table { rest: vec![0.5; gains], ..t.clone() });
        a.pairs.extend(vec![pair; many].concat());
        known(j, &a, refused(number)).map_err(|e| format!("{many} times {pair:?} more, {gains} gains more: {e}"))?;
    }
    Ok(())
}

/// A call whose answer is known. What `paper.rs` makes of the words must be the same.
fn known(j: &mut Judge, a: &Asked, answer: Answer<Vec<f32>>) -> Found {
    let defined = paper::width_with(a, None);
    let bits = |x: &Answer<Vec<f32>>| x.clone().map(|m| m.iter().map(|x| x.to_bits()).collect::<Vec<_>>());
    same("the definition's own answer (in the place of the port's)", &bits(&answer), &bits(&defined))?;
    judge(j, a, answer)
}

/// The faults that ask a test wrongly, or take another entry.
const PLANTED: [Fault; 10] = [
    Fault::TableFirst,
    Fault::TableStray,
    Fault::TableMinusZero,
    Fault::TableRest,
    Fault::TableAll,
    Fault::TableCovers,
    Fault::TableOrder,
    Fault::TableOffset,
    Fault::TableTurned,
    Fault::TableDivided,
];

/// The answer; planted, another one where it differs.
fn planted(j: &mut Judge, a: &Asked, right: Answer<Vec<f32>>) -> Answer<Vec<f32>> {
    let mut answer = right;
    if let Some(fault) = j.fault.filter(|f| PLANTED.contains(f)) {
        let wrong = paper::width_with(a, Some(fault));
        if j.plants_if(wrong != answer, fault) {
            answer = wrong;
        }
    }
    match &mut answer {
        Ok(matrix) if j.plants_if(covered([a.src, a.dst]), Fault::TableBit) => matrix[0] = f32::from_bits(matrix[0].to_bits() ^ 1),
        Err(status) if j.plants(Fault::TableNumber) => status.number += 1,
        _ => {}
    }
    answer
}

/// What the areas of a call are after it: the matrix's, and the two lists of the table.
struct Lent {
    matrix: Vec<f32>,
    pairs: Vec<u32>,
    table: Vec<f32>,
}

impl Lent {
    /// The matrix's area has NaNs of different bits.
    fn new(a: &Asked) -> Self {
        let matrix = (0..a.area as u32).map(|i| f32::from_bits(0x7f80_0001 + i)).collect();
        Lent { matrix, pairs: a.pairs.clone(), table: a.table.clone() }
    }

    fn plant(&mut self, j: &mut Judge, accepted: bool) {
        if j.plants_if(!accepted && !self.matrix.is_empty(), Fault::TableKept) {
            self.matrix[0] = f32::from_bits(self.matrix[0].to_bits() ^ 1);
        }
        if j.plants_if(!self.pairs.is_empty(), Fault::TablePairs) {
            self.pairs[0] ^= 1;
        }
        if j.plants_if(!self.table.is_empty(), Fault::TableGains) {
            self.table[0] = f32::from_bits(self.table[0].to_bits() ^ 1);
        }
    }
}

/// The port's call, and every byte of what it was lent.
fn judge(j: &mut Judge, a: &Asked, right: Answer<Vec<f32>>) -> Found {
    j.counts.tables.answer(a, &right);
    let answer = planted(j, a, right);
    let (mut want, mut port) = (Lent::new(a), Lent::new(a));
    want.plant(j, answer.is_ok());
    let status = mixer::width_matrix_with(a.src, a.dst, a.gains, a.normalise, &mut port.pairs, &mut port.table, &mut port.matrix);
    match answer {
        Ok(matrix) => {
            j.counts.calls += 1;
            j.counts.folds += 1;
            same("width_matrix_with", &Status::default(), &status)?;
            want.matrix[..matrix.len()].copy_from_slice(&matrix);
        }
        Err(answer) => j.refusal("width_matrix_with", answer, status)?,
    }
    untouched("matrix", &want.matrix, &port.matrix)?;
    words("pairs of the table", &want.pairs, &port.pairs)?;
    untouched("gains of the table", &want.table, &port.table)
}
