//! f64s to try, in and out of their ranges, and f32s for tables of folds.
use crate::mixer::FoldGains;
use crate::rng::Rng;

/// Linear gains from +0 to 16, among them subnormals and ties of the rounding.
pub fn gains(r: &mut Rng) -> FoldGains {
    let mut g = || {
        let x = r.next();
        let any = 16.0 * r.unit64();
        let edges = [0.0, 16.0, 1.0, f64::from_bits(x >> 12), f64::from_bits(x % 0x4030_0000_0000_0001)];
        let tie = f64::from_bits(0x3ff0_0000_0000_0000 | (x >> 41) << 29 | 1 << 28);
        r.pick(&[edges[0], edges[1], edges[2], edges[3], edges[4], tie, any, any])
    };
    FoldGains { pan_left: g(), pan_right: g(), mono_sum: g(), centre: g(), surround: g(), lfe: g() }
}

/// The same, most times with one gain out of range.
pub fn any_gains(r: &mut Rng) -> FoldGains {
    let mut all = gains(r);
    let bad = r.pick(&[-0.0, 16f64.next_up(), f64::NAN, -f64::NAN, f64::INFINITY, f64::NEG_INFINITY, -1.0, -5e-324]);
    match r.below(8) {
        0 => all.pan_left = bad,
        1 => all.pan_right = bad,
        2 => all.mono_sum = bad,
        3 => all.centre = bad,
        4 => all.surround = bad,
        5 => all.lfe = bad,
        _ => {}
    }
    all
}

/// A linear gain of a table, from +0 to 16, its ends and subnormals among them.
pub fn table_gain(r: &mut Rng) -> f32 {
    let any = f32::from_bits(r.below(0x4180_0001) as u32);
    let loud = 16.0 * r.unit().abs();
    r.pick(&[0.0, 16.0, 1.0, f32::from_bits(1), any, any, loud, loud, loud, loud])
}

/// What no gain of a table may be: −0, negative, above 16, infinite or a NaN, a signalling one too.
pub const NO_TABLE_GAINS: [f32; 11] = [
    -0.0,
    -f32::from_bits(1),
    -1.0,
    f32::from_bits(0x4180_0001),
    17.0,
    f32::MAX,
    f32::INFINITY,
    f32::NEG_INFINITY,
    f32::NAN,
    f32::from_bits(0xffc0_0000),
    f32::from_bits(0x7f80_0001),
];

/// Around every power of two that the rounding can see, its spacing and its ties; then anything.
pub fn roundings(r: &mut Rng) -> Vec<f64> {
    let mut v = vec![0.0, 1.0, f64::NAN, f64::INFINITY, f64::MIN_POSITIVE, f64::from_bits(1), f64::MAX];
    for e in (-160..=130).chain([-1022, -1000, -500, 500, 1023]) {
        let p = 2f64.powi(e);
        let half = 2f64.powi((e.max(-126) - 24).max(-1022));
        for k in 0..4 {
            let x = p + k as f64 * half;
            v.extend([x, x.next_up(), x.next_down()]);
        }
        v.extend([p.next_down(), p - half, (p - half).next_up(), (p - half).next_down()]);
    }
    let over = f32::MAX as f64 + 2f64.powi(103);
    v.extend([f32::MAX as f64, over, over.next_down(), over.next_up()]);
    for _ in 0..200 {
        v.push(f64::from_bits(r.next()));
        let e = 1023 - 152 + r.next() % (152 + 130);
        v.push(f64::from_bits(e << 52 | r.next() >> 12 & r.pick(&[!0, !0 << 28, !0 << 29, !0 << 27])));
    }
    let negative: Vec<f64> = v.iter().map(|x| -x).collect();
    [v, negative].concat()
}

/// Finite balances.
pub fn balances(r: &mut Rng) -> Vec<f64> {
    let mut v = vec![0.0, -0.0, 0.5, -0.5, 1.0, -1.0, 2.0, -2.0, 1e300, -1e300, 1e-300, 5e-324, f64::MAX, f64::MIN];
    v.extend([1f64.next_down(), 1f64.next_up(), -1f64.next_down(), -1f64.next_up(), 1e-16, -1e-16, 0.1]);
    for _ in 0..10 {
        v.push(2.4 * r.unit64() - 1.2);
        v.push(f64::from_bits(r.next()));
    }
    v.retain(|x| x.is_finite());
    v
}

/// Widths from −2 to 2.
pub fn widths(r: &mut Rng) -> Vec<f64> {
    let any = 4.0 * r.unit64() - 2.0;
    vec![0.0, -0.0, 1.0, -1.0, 2.0, -2.0, 0.5, 1f64.next_up(), 1f64.next_down(), -1f64.next_up(), 1e-17, 5e-324, 0.3, any]
}

pub fn any_balance(r: &mut Rng) -> f64 {
    r.pick(&[0.3, f64::NAN, -f64::NAN, f64::INFINITY, f64::NEG_INFINITY])
}

pub fn any_width(r: &mut Rng) -> f64 {
    r.pick(&[0.3, f64::NAN, 2f64.next_up(), -2f64.next_up(), f64::INFINITY, f64::NEG_INFINITY, 1e300])
}
