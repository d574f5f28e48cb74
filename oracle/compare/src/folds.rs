//! `oracle folds`: formats, balances, folds, also with a table (`tabled.rs`), and the rounding, by the bits.
use crate::judge::{doubles, floats, same, untouched, Fault, Found, Judge};
use crate::mixer::{self, FoldGains, GainsReply, Status, StereoReply};
use crate::numbers;
use crate::rng::Rng;
use crate::tabled;
use reference::mix::format::{self, peek, Downmix, Format, Laws, MonoSum, PanLaw};
use reference::mix::model::Db;

pub const FORMATS: [Format; 7] =
    [Format::Mono, Format::Stereo, Format::Lcr, Format::Surround51, Format::Surround71, Format::Surround514, Format::Surround714];

/// The labels by their numbers.
pub const LABELS: [&str; 15] = ["M", "L", "R", "C", "LFE", "Ls", "Rs", "Lss", "Rss", "Lrs", "Rrs", "Ltf", "Rtf", "Ltr", "Rtr"];

/// The case of a seed: some of everything.
pub fn case(j: &mut Judge, seed: u64) -> Found {
    let mut r = Rng::new(seed);
    formats(j)?;
    for x in numbers::roundings(&mut r) {
        rounding(j, x).map_err(|e| format!("{x:?} ({:#x}): {e}", x.to_bits()))?;
    }
    for b in numbers::balances(&mut r) {
        balance(j, &mut r, b).map_err(|e| format!("balance {b:?} ({:#x}): {e}", b.to_bits()))?;
    }
    let laws = law(&mut r);
    let (gains, normalise) = (numbers::gains(&mut r), r.percent(50));
    for src in 0..7 {
        for dst in 0..7 {
            let at = |e: String| format!("fold of format {src} to {dst}: {e}");
            by_law(j, src, dst, &laws).map_err(at)?;
            by_definition(j, src, dst, gains, normalise).map_err(at)?;
        }
    }
    refused(j, &mut r)?;
    tabled::case(j, &mut r)
}

fn flip(x: &mut f32) {
    *x = f32::from_bits(x.to_bits() ^ 1);
}

fn formats(j: &mut Judge) -> Found {
    for f in 0..9u32 {
        let labels = FORMATS.get(f as usize).map_or(&[][..], |f| f.labels());
        same("channels", &labels.len(), &mixer::format_channels(f))?;
        for channel in 0..14 {
            let mut label = labels.get(channel).map_or(15, |l| LABELS.iter().position(|x| x == l).unwrap()) as u32;
            if j.plants(Fault::Label) {
                label += 1;
            }
            same("label", &label, &mixer::format_label(f, channel))?;
        }
        for label in 0..17 {
            let index = LABELS.get(label).and_then(|l| labels.iter().position(|x| x == l));
            same("index", &index.unwrap_or(labels.len()), &mixer::format_index(f, label as u32))?;
            same("has", &index.is_some(), &mixer::format_has(f, label as u32))?;
        }
    }
    j.counts.calls += 9 * (1 + 14 + 2 * 17);
    Ok(())
}

/// The reference rounds by the machine.
fn rounding(j: &mut Judge, x: f64) -> Found {
    let mut rounded = x as f32;
    if j.plants_if(rounded.is_finite(), Fault::RoundBit) {
        flip(&mut rounded);
    }
    if j.plants_if(rounded.is_nan(), Fault::RoundNan) {
        rounded = 0.0;
    }
    j.counts.calls += 1;
    floats("rounded", &[rounded], &[mixer::to_f32(x)])
}

fn balance(j: &mut Judge, r: &mut Rng, b: f64) -> Found {
    let (mut left, right) = format::balance_gains(b);
    if j.plants(Fault::BalanceBit) {
        left = f64::from_bits(left.to_bits() ^ 1);
    }
    let reply = mixer::balance_gains(b);
    same("balance_gains", &Status::default(), &reply.status)?;
    doubles("balance_gains", &[left, right], &[reply.left, reply.right])?;
    for f in 0..7u32 {
        let mut gains = format::balance_of(FORMATS[f as usize], b);
        if j.plants(Fault::BalanceOfBit) {
            flip(&mut gains[0]);
        }
        gains.push(7.5);
        let mut area = vec![7.5; gains.len()];
        same("balance_of", &Status::default(), &mixer::balance_of(f, b, &mut area))?;
        floats("balance_of", &gains, &area)?;
    }
    for w in numbers::widths(r) {
        let mut matrix = format::stereo_matrix(w, b);
        if j.plants(Fault::StereoSign) {
            matrix[3] = -matrix[3];
        }
        let s = mixer::stereo_matrix(w, b);
        same("stereo_matrix", &Status::default(), &s.status)?;
        let got = [s.left_from_left, s.left_from_right, s.right_from_left, s.right_from_right];
        doubles(&format!("stereo_matrix of width {w:?}"), &matrix, &got)?;
        j.counts.calls += 1;
    }
    j.counts.calls += 8;
    Ok(())
}

/// Levels at the ends of the reference's ranges and between them.
pub fn law(r: &mut Rng) -> Laws {
    let mut level = |most: f64| {
        let any = -40.0 + (most + 40.0) * r.unit64();
        Db(r.pick(&[f64::NEG_INFINITY, -3.0, most, -40.0, any, any, any]))
    };
    let (centre_db, surround_db, lfe_db) = (level(0.0), level(0.0), level(10.0));
    Laws {
        pan: r.pick(&[PanLaw::Zero, PanLaw::Minus3, PanLaw::Minus4_5, PanLaw::Minus6]),
        mono_sum: r.pick(&[MonoSum::Minus3, MonoSum::Minus6]),
        downmix: Downmix { centre_db, surround_db, lfe_db, normalise: r.percent(50) },
        set: None,
    }
}

/// The gains that the reference works out from its laws, by its own functions.
pub fn gains_of(laws: &Laws) -> FoldGains {
    let (pan_left, pan_right) = format::pan_gains(0.0, laws.pan);
    FoldGains {
        pan_left,
        pan_right,
        mono_sum: peek::sum_of(laws.mono_sum),
        centre: peek::level_of(laws.downmix.centre_db),
        surround: peek::level_of(laws.downmix.surround_db),
        lfe: peek::level_of(laws.downmix.lfe_db),
    }
}

fn by_law(j: &mut Judge, src: usize, dst: usize, laws: &Laws) -> Found {
    let mut matrix = format::width_matrix(FORMATS[src], FORMATS[dst], laws);
    let g = gains_of(laws);
    let defined = crate::mapping::matrix(FORMATS[src].labels(), FORMATS[dst].labels(), &g, laws.downmix.normalise);
    floats("the definition's own fold (in the place of the port's)", &matrix, &defined)?;
    if j.plants(Fault::FoldBit) {
        flip(&mut matrix[0]);
    }
    width(j, src, dst, g, laws.downmix.normalise, matrix).map_err(|e| format!("{laws:?}: {e}"))
}

/// Gains that no law need give, by the table of the fold's rules.
fn by_definition(j: &mut Judge, src: usize, dst: usize, g: FoldGains, normalise: bool) -> Found {
    let mut matrix = crate::mapping::matrix(FORMATS[src].labels(), FORMATS[dst].labels(), &g, normalise);
    if j.plants(Fault::DefinedFoldBit) {
        flip(&mut matrix[0]);
    }
    width(j, src, dst, g, normalise, matrix).map_err(|e| format!("{g:?}, normalise {normalise}: {e}"))
}

fn width(j: &mut Judge, src: usize, dst: usize, g: FoldGains, normalise: bool, mut matrix: Vec<f32>) -> Found {
    j.counts.calls += 1;
    j.counts.folds += 1;
    matrix.push(7.5);
    let mut area = vec![7.5; matrix.len()];
    same("width_matrix", &Status::default(), &mixer::width_matrix(src as u32, dst as u32, g, normalise, &mut area))?;
    floats("width_matrix", &matrix, &area)
}

fn refusal(j: &mut Judge, call: &str, number: u32, port: Status) -> Found {
    let number = if j.plants(Fault::FoldNumber) { number + 1 } else { number };
    j.refusal(call, Status { number, place: 0 }, port)
}

/// The channels of a format; 1 where there is none.
pub fn channels(format: u32) -> usize {
    FORMATS.get(format as usize).map_or(1, |f| f.channels())
}

/// Number 17: a gain is not from +0 to 16.
pub fn out_of_range(g: &FoldGains) -> bool {
    let gains = [g.pan_left, g.pan_right, g.mono_sum, g.centre, g.surround, g.lfe];
    gains.iter().any(|g| !(g.is_sign_positive() && (0.0..=16.0).contains(g)))
}

/// 16, 17 and 2 in this order: each with the later ones as well or without.
fn refused(j: &mut Judge, r: &mut Rng) -> Found {
    for _ in 0..20 {
        let format = |r: &mut Rng| r.pick(&[0, 3, 6, 7, 8, u32::MAX]);
        let (src, dst, b, w) = (format(r), format(r), numbers::any_balance(r), numbers::any_width(r));
        let (gains, short) = (numbers::any_gains(r), r.percent(50) as usize);
        let number = |format: bool, range: bool| [(format, 16), (range, 17), (short == 1, 2)].iter().find(|t| t.0).map(|t| t.1);
        if let Some(n) = number(src > 6 || dst > 6, out_of_range(&gains)) {
            let mut area = vec![7.5; channels(src) * channels(dst) - short];
            refusal(j, "width_matrix", n, mixer::width_matrix(src, dst, gains, r.percent(50), &mut area))?;
            untouched("matrix after a refusal", &vec![7.5; area.len()], &area)?;
        }
        if let Some(n) = number(src > 6, !b.is_finite()) {
            let mut area = vec![7.5; channels(src) - short];
            refusal(j, "balance_of", n, mixer::balance_of(src, b, &mut area))?;
            untouched("gains after a refusal", &vec![7.5; area.len()], &area)?;
        }
        let status = Status { number: 17, place: 0 };
        if !b.is_finite() {
            refusal(j, "balance_gains", 17, mixer::balance_gains(b).status)?;
            same("refused balance_gains", &GainsReply { status, ..GainsReply::default() }, &mixer::balance_gains(b))?;
        }
        if !b.is_finite() || !(-2.0..=2.0).contains(&w) {
            refusal(j, "stereo_matrix", 17, mixer::stereo_matrix(w, b).status)?;
            same("refused stereo_matrix", &StereoReply { status, ..StereoReply::default() }, &mixer::stereo_matrix(w, b))?;
        }
    }
    Ok(())
}
