//! The fold by linear gains, for gains that no law of the reference gives. Document 01 has the rules 'as in `fold`' of the reference: here they
//! are a table of what a label turns into where the destination lacks it. `folds.rs` holds it to the reference wherever a law gives the gains.
use crate::mixer::FoldGains;
use std::f64::consts::FRAC_1_SQRT_2;

/// A row for each label of the destination, a column for each of the source, rounded.
pub fn matrix(src: &[&str], dst: &[&str], g: &FoldGains, normalise: bool) -> Vec<f32> {
    let columns = src.len();
    let mut m = vec![0f64; dst.len() * columns];
    for (s, label) in src.iter().enumerate() {
        for (d, gain) in ends(label, dst, 1.0, g) {
            m[d * columns + s] += gain;
        }
    }
    if normalise && columns > 2 && dst.len() < columns {
        let sum = |row: &[f64]| row.iter().fold(0.0, |sum, x| sum + x.abs());
        let most = m.chunks(columns).map(sum).fold(0.0, f64::max);
        if most > 1.0 {
            m.iter_mut().for_each(|x| *x /= most);
        }
    }
    m.iter().map(|x| *x as f32).collect()
}

/// Where a label ends in the destination, and with which gain, from the source outward.
fn ends(label: &str, dst: &[&str], gain: f64, g: &FoldGains) -> Vec<(usize, f64)> {
    match dst.iter().position(|l| *l == label) {
        Some(d) => vec![(d, gain)],
        None => turns(label, dst, g).into_iter().flat_map(|(l, x)| ends(l, dst, gain * x, g)).collect(),
    }
}

/// What the labels of the source turn into on their way, as 'C to L and R'.
pub fn ways(src: &[&str], dst: &[&str], g: &FoldGains) -> Vec<String> {
    src.iter().flat_map(|label| way(label, dst, g)).collect()
}

fn way(label: &str, dst: &[&str], g: &FoldGains) -> Vec<String> {
    if dst.contains(&label) {
        return vec!["a label that both have".to_string()];
    }
    if label == "LFE" && g.lfe == 0.0 {
        return vec!["LFE dropped".to_string()];
    }
    let to = turns(label, dst, g);
    let names: Vec<&str> = to.iter().map(|t| t.0).collect();
    let own = format!("{label} to {}", names.join(" and "));
    std::iter::once(own).chain(names.into_iter().flat_map(|l| way(l, dst, g))).collect()
}

/// The labels that a missing one turns into.
fn turns(label: &str, dst: &[&str], g: &FoldGains) -> Vec<(&'static str, f64)> {
    let half = FRAC_1_SQRT_2;
    let first_of = |wish: (&'static str, f64), other: (&'static str, f64)| vec![if dst.contains(&wish.0) { wish } else { other }];
    match label {
        "M" if dst.contains(&"C") => vec![("C", 1.0)],
        "M" => vec![("L", g.pan_left), ("R", g.pan_right)],
        "L" | "R" => vec![("M", g.mono_sum)],
        "C" => vec![("L", g.centre), ("R", g.centre)],
        "LFE" => vec![("L", g.lfe), ("R", g.lfe)],
        "Ls" => first_of(("Lss", 1.0), ("L", g.surround)),
        "Rs" => first_of(("Rss", 1.0), ("R", g.surround)),
        "Lss" | "Lrs" => vec![("Ls", half)],
        "Rss" | "Rrs" => vec![("Rs", half)],
        "Ltf" => vec![("L", half)],
        "Rtf" => vec![("R", half)],
        "Ltr" => first_of(("Lrs", half), ("Ls", half)),
        _ => first_of(("Rrs", half), ("Rs", half)),
    }
}
