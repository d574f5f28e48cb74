//! Numbers from a seed: the same on every machine.

/// xoshiro256**, seeded by splitmix64.
#[derive(Clone)]
pub struct Rng([u64; 4]);

impl Rng {
    pub fn new(seed: u64) -> Self {
        let mut z = seed;
        let mut next = || {
            z = z.wrapping_add(0x9e37_79b9_7f4a_7c15);
            let mut x = z;
            x = (x ^ (x >> 30)).wrapping_mul(0xbf58_476d_1ce4_e5b9);
            x = (x ^ (x >> 27)).wrapping_mul(0x94d0_49bb_1331_11eb);
            x ^ (x >> 31)
        };
        Self([next(), next(), next(), next()])
    }

    pub fn next(&mut self) -> u64 {
        let s = &mut self.0;
        let r = s[1].wrapping_mul(5).rotate_left(7).wrapping_mul(9);
        let t = s[1] << 17;
        s[2] ^= s[0];
        s[3] ^= s[1];
        s[1] ^= s[2];
        s[0] ^= s[3];
        s[2] ^= t;
        s[3] = s[3].rotate_left(45);
        r
    }

    /// 0 to n − 1; 0 where n is 0.
    pub fn below(&mut self, n: usize) -> usize {
        (((self.next() >> 32) as u128 * n as u128) >> 32) as usize
    }

    /// lo to hi, both included.
    pub fn range(&mut self, lo: usize, hi: usize) -> usize {
        lo + self.below(hi - lo + 1)
    }

    pub fn percent(&mut self, p: usize) -> bool {
        self.below(100) < p
    }

    pub fn pick<T: Copy>(&mut self, list: &[T]) -> T {
        list[self.below(list.len())]
    }

    /// −1 to 1.
    pub fn unit(&mut self) -> f32 {
        ((self.next() >> 40) as i64 - (1 << 23)) as f32 / (1 << 23) as f32
    }

    /// 0 to 1, without 1.
    pub fn unit64(&mut self) -> f64 {
        (self.next() >> 11) as f64 / (1u64 << 53) as f64
    }
}

/// Floats at the edges: NaNs (a signalling one too), infinities, zeros, the ends of the subnormal and the normal numbers, and around 1.
pub const ODD: [u32; 16] = [
    0x7fc0_0000,
    0xffc0_0000,
    0x7f80_0001,
    0x7f80_0000,
    0xff80_0000,
    0x0000_0000,
    0x8000_0000,
    0x0000_0001,
    0x8000_0001,
    0x007f_ffff,
    0x0080_0000,
    0x7f7f_ffff,
    0xff7f_ffff,
    0x3f80_0000,
    0xbf80_0000,
    0x3f80_0001,
];

/// How wild the samples and gains of a case are.
#[derive(Clone, Copy, PartialEq)]
pub enum Wild {
    Tame,
    Tiny,
    Signed,
    All,
}

impl Wild {
    pub fn sample(self, r: &mut Rng) -> f32 {
        match (self, r.below(10)) {
            (Wild::Tame, 0) => r.pick(&[0.0, -0.0, 1.0, -1.0, 0.5]),
            (Wild::Tiny, 0..=2) => f32::from_bits(r.pick(&[0, 0x8000_0000])),
            (Wild::Tiny, 3..=5) => f32::from_bits(r.pick(&[0, 0x8000_0000]) | r.below(0x0080_0000) as u32),
            (Wild::Tiny, 6 | 7) => f32::from_bits(r.pick(&[0, 0x8000_0000]) | r.below(0x0c00_0000) as u32),
            (Wild::Signed, 0..=2) => 0.0,
            (Wild::Signed, 3..=5) => -0.0,
            (Wild::Signed, 6 | 7) => r.unit() * r.pick(&[1e-30f32, 1e30, 1e-42, 3e38]),
            (Wild::All, 0) => f32::from_bits(r.next() as u32),
            (Wild::All, 1 | 2) => f32::from_bits(r.pick(&ODD)),
            _ => r.unit(),
        }
    }

    pub fn gain(self, r: &mut Rng) -> f32 {
        match (r.below(10), self) {
            (0 | 1, _) => 0.0,
            (2, _) => -0.0,
            (3, _) => 1.0,
            (4, _) => r.pick(&[-1.0, 0.5, 2.0, 0.25, 0.707_106_77]),
            (5, Wild::All) => f32::from_bits(r.pick(&ODD)),
            (5, Wild::Tiny | Wild::Signed) => r.unit() * 2f32.powi(r.range(1, 40) as i32 - 20),
            (6, Wild::Tiny) => f32::from_bits(r.below(0x0c00_0000) as u32),
            _ => 2.0 * r.unit(),
        }
    }

    pub fn gains(self, r: &mut Rng, n: usize) -> Vec<f32> {
        let (alike, v) = (r.percent(10), self.gain(r));
        (0..n).map(|_| if alike { v } else { self.gain(r) }).collect()
    }
}
