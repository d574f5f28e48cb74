//! Records of formats, balances, folds and the rounding.
use crate::branches;
use crate::folds::{channels, gains_of, law, out_of_range, FORMATS, LABELS};
use crate::mapping;
use crate::mixer::{FoldGains, Status};
use crate::numbers;
use crate::recorded::Case;
use crate::rng::Rng;
use crate::tape::{bits, double, Kind};
use reference::mix::format::{self, Downmix};
use reference::mix::model::Db;

/// Some of everything.
pub fn all(c: &mut Case, seed: u64) {
    let mut r = Rng::new(seed);
    formats(c);
    for x in numbers::roundings(&mut r).into_iter().step_by(23) {
        c.push(Kind::ToF32, Status::default(), vec![], [&double(x)[..], &bits(&[x as f32])].concat());
    }
    for b in numbers::balances(&mut r) {
        balance(c, &mut r, b);
    }
    for normalise in [false, true] {
        for quiet in [false, true] {
            by_law(c, &mut r, normalise, quiet);
        }
        let gains = numbers::gains(&mut r);
        for (src, dst) in pairs() {
            let matrix = mapping::matrix(FORMATS[src].labels(), FORMATS[dst].labels(), &gains, normalise);
            width(c, src, dst, &gains, normalise, &matrix);
        }
    }
}

/// Every two formats.
fn pairs() -> impl Iterator<Item = (usize, usize)> {
    (0..49).map(|i| (i / 7, i % 7))
}

/// Folds by gains that a law of the reference gives: with every level, or without centre, surrounds and LFE.
fn by_law(c: &mut Case, r: &mut Rng, normalise: bool, quiet: bool) {
    let mut laws = law(r);
    let level = |db: f64| Db(if quiet { f64::NEG_INFINITY } else { db });
    laws.downmix = Downmix { centre_db: level(-3.0), surround_db: level(-4.5), lfe_db: level(-6.0), normalise };
    let gains = gains_of(&laws);
    for (src, dst) in pairs() {
        let matrix = format::width_matrix(FORMATS[src], FORMATS[dst], &laws);
        width(c, src, dst, &gains, normalise, &matrix);
        c.reached.extend(branches::fold(FORMATS[src].labels(), FORMATS[dst].labels(), &gains, normalise));
    }
}

/// Calls that are refused.
pub fn refusals(c: &mut Case, seed: u64) {
    let mut r = Rng::new(seed);
    (0..400).for_each(|_| refused(c, &mut r));
}

fn formats(c: &mut Case) {
    for f in 0..9u32 {
        let labels = FORMATS.get(f as usize).map_or(&[][..], |f| f.labels());
        for n in 0..17 {
            let label = labels.get(n).map_or(15, |l| LABELS.iter().position(|x| x == l).unwrap());
            let index = LABELS.get(n).and_then(|l| labels.iter().position(|x| x == l));
            let at = index.unwrap_or(labels.len());
            let numbers = [f as usize, n, labels.len(), label, at, index.is_some() as usize];
            c.push(Kind::Labels, Status::default(), vec![], numbers.map(|n| n as u32).to_vec());
        }
    }
}

fn balance(c: &mut Case, r: &mut Rng, b: f64) {
    let (left, right) = format::balance_gains(b);
    c.push(Kind::BalanceGains, Status::default(), vec![], [b, left, right].into_iter().flat_map(double).collect());
    let f = r.below(7);
    let gains = [format::balance_of(FORMATS[f], b), vec![7.5]].concat();
    let free = bits(&vec![7.5; gains.len()]);
    c.push(Kind::BalanceOf, Status::default(), vec![free, bits(&gains)], [&[f as u32][..], &double(b)].concat());
    for w in numbers::widths(r).into_iter().step_by(3) {
        let numbers = [vec![w, b], format::stereo_matrix(w, b).to_vec()].concat();
        c.push(Kind::StereoMatrix, Status::default(), vec![], numbers.into_iter().flat_map(double).collect());
    }
}

pub fn numbers_of(src: u32, dst: u32, g: &FoldGains, normalise: bool) -> Vec<u32> {
    let gains = [g.pan_left, g.pan_right, g.mono_sum, g.centre, g.surround, g.lfe];
    [src, dst, normalise as u32].into_iter().chain(gains.into_iter().flat_map(double)).collect()
}

fn width(c: &mut Case, src: usize, dst: usize, g: &FoldGains, normalise: bool, matrix: &[f32]) {
    let free = bits(&vec![7.5; matrix.len()]);
    c.push(Kind::WidthMatrix, Status::default(), vec![free, bits(matrix)], numbers_of(src as u32, dst as u32, g, normalise));
}

/// 16, 17 and 2 in this order.
fn refused(c: &mut Case, r: &mut Rng) {
    let format = |r: &mut Rng| r.pick(&[0, 3, 6, 7, 8, u32::MAX]);
    let (src, dst, b, w) = (format(r), format(r), numbers::any_balance(r), numbers::any_width(r));
    let (gains, short) = (numbers::any_gains(r), r.percent(50) as usize);
    let number = |format: bool, range: bool| [(format, 16), (range, 17), (short == 1, 2)].iter().find(|t| t.0).map(|t| t.1);
    let status = |number: u32| Status { number, place: 0 };
    if let Some(n) = number(src > 6 || dst > 6, out_of_range(&gains)) {
        let area = bits(&vec![7.5; channels(src) * channels(dst) - short]);
        c.push(Kind::WidthMatrix, status(n), vec![area.clone(), area], numbers_of(src, dst, &gains, r.percent(50)));
    }
    if let Some(n) = number(src > 6, !b.is_finite()) {
        let area = bits(&vec![7.5; channels(src) - short]);
        c.push(Kind::BalanceOf, status(n), vec![area.clone(), area], [&[src][..], &double(b)].concat());
    }
    if !b.is_finite() {
        c.push(Kind::BalanceGains, status(17), vec![], [b, 0.0, 0.0].into_iter().flat_map(double).collect());
    }
    if !b.is_finite() || !(-2.0..=2.0).contains(&w) {
        c.push(Kind::StereoMatrix, status(17), vec![], [w, b, 0.0, 0.0, 0.0, 0.0].into_iter().flat_map(double).collect());
    }
}
