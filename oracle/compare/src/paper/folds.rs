//! A fold with a table, by the words of request C-14.
use super::{test, Answer, CHANNELS};
use crate::folds::{out_of_range, FORMATS};
use crate::judge::Fault;
use crate::mapping;
use crate::tables::{covered, pairs, Asked, Pair};
use std::collections::BTreeMap;

/// Highest gain of a table.
const LOUDEST: f32 = 16.0;

fn is_format(n: u32) -> bool {
    (n as usize) < CHANNELS.len()
}

fn no_format(pair: &Pair) -> bool {
    !pair.iter().all(|n| is_format(*n))
}

/// The gains of an entry: destination rows, source columns.
fn size([src, dst]: Pair) -> usize {
    CHANNELS[dst as usize] * CHANNELS[src as usize]
}

/// The fold's own tests.
pub fn own_fault(a: &Asked) -> Answer<()> {
    test(no_format(&[a.src, a.dst]), 16)?;
    test(out_of_range(&a.gains), 17)?;
    test(a.area < size([a.src, a.dst]), 2)
}

/// The answer, and where it is accepted the matrix. A planted fault asks one of the tests, or takes the entry, as it should not.
pub fn width_with(a: &Asked, wrong: Option<Fault>) -> Answer<Vec<f32>> {
    let listed = entries(&a.pairs, wrong);
    if wrong == Some(Fault::TableFirst) && listed.iter().any(no_format) {
        test(is_format(a.src) && is_format(a.dst) && !out_of_range(&a.gains), 16)?;
    }
    own_fault(a)?;
    let table = table(&listed, &a.table, wrong)?;
    match table.get(&[a.src, a.dst]) {
        Some(entry) => Ok(entry_with(a, entry, wrong)),
        None => Ok(mapping::matrix(labels(a.src), labels(a.dst), &a.gains, a.normalise)),
    }
}

fn labels(format: u32) -> &'static [&'static str] {
    FORMATS[format as usize].labels()
}

/// Two numbers an entry; a last odd one is ignored.
fn entries(numbers: &[u32], wrong: Option<Fault>) -> Vec<Pair> {
    let mut list: Vec<Pair> = numbers.chunks_exact(2).map(|p| [p[0], p[1]]).collect();
    if wrong == Some(Fault::TableStray) && numbers.len() % 2 == 1 {
        list.push([numbers[numbers.len() - 1], 0]);
    }
    list
}

fn in_range(gain: f32, wrong: Option<Fault>) -> bool {
    let minus_zero = gain == 0.0 && wrong == Some(Fault::TableMinusZero);
    (0.0..=LOUDEST).contains(&gain) && (gain.is_sign_positive() || minus_zero)
}

/// The pairs that have to have an entry.
fn to_cover(wrong: Option<Fault>) -> Vec<Pair> {
    let flipped = |p: &Pair| wrong == Some(Fault::TableCovers) && *p == [3, 4];
    pairs().filter(|p| covered(*p) != flipped(p) || wrong == Some(Fault::TableAll)).collect()
}

/// A table's tests, and the gains of each pair.
fn table<'a>(listed: &[Pair], gains: &'a [f32], wrong: Option<Fault>) -> Answer<BTreeMap<Pair, &'a [f32]>> {
    test(listed.iter().any(no_format), 16)?;
    let need: usize = listed.iter().map(|p| size(*p)).sum();
    test(gains.len() < need, 2)?;
    let tested = if wrong == Some(Fault::TableRest) { gains } else { &gains[..need] };
    test(!tested.iter().all(|g| in_range(*g, wrong)), 17)?;
    let mut times: BTreeMap<Pair, u32> = BTreeMap::new();
    listed.iter().for_each(|p| *times.entry(*p).or_default() += 1);
    let cover = to_cover(wrong);
    test(cover.iter().any(|p| !times.contains_key(p)), 19)?;
    let (twice, other) = (times.values().any(|n| *n > 1), times.keys().any(|p| !cover.contains(p)));
    test(other && wrong == Some(Fault::TableOrder), 21)?;
    test(twice, 20)?;
    test(other, 21)?;
    let (mut table, mut rest) = (BTreeMap::new(), gains);
    for (i, p) in listed.iter().enumerate() {
        let (own, behind) = rest.split_at(size(*p));
        table.insert(*p, if wrong == Some(Fault::TableOffset) { &gains[i..][..own.len()] } else { own });
        rest = behind;
    }
    Ok(table)
}

/// An entry, whatever normalise says.
fn entry_with(a: &Asked, entry: &[f32], wrong: Option<Fault>) -> Vec<f32> {
    let columns = CHANNELS[a.src as usize];
    let rows = entry.len() / columns;
    let most = entry.chunks(columns).map(|row| row.iter().sum::<f32>()).fold(0.0, f32::max);
    match wrong {
        Some(Fault::TableTurned) => (0..entry.len()).map(|i| entry[i % columns * rows + i / columns]).collect(),
        Some(Fault::TableDivided) if a.normalise && most > 1.0 => entry.iter().map(|x| x / most).collect(),
        _ => entry.to_vec(),
    }
}
