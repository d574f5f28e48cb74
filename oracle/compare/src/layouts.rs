//! Random layouts that the plan check accepts, of every shape that the limits allow.
use crate::mixer::{Plan, Span};
use crate::paper::{self, Tables, MAX_RAMP, MAX_STEPS};
use crate::plan::{span, Call, Layout, NodeCall, Step};
use crate::rng::{Rng, Wild};

/// A case's numbers: they come from one seed.
pub struct Gen {
    pub r: Rng,
    pub wild: Wild,
    pub block: usize,
    /// Which nodes are safe, and how many of a hundred: from numbers of their own, so that a case is otherwise what it would be without them.
    safes: Rng,
    safe_of_100: usize,
}

impl Gen {
    pub fn new(seed: u64) -> Self {
        let mut r = Rng::new(seed);
        let wild = r.pick(&[Wild::Tame, Wild::Tame, Wild::Tiny, Wild::Signed, Wild::All]);
        let block = match r.below(10) {
            0..=5 => r.range(1, 8),
            6..=8 => r.pick(&[1, 2, 16, 31, 32, 33, 48, 64, 100, 127, 128, 256]),
            _ => r.pick(&[480, 511, 512, 960, 1000, 1023, 1024]),
        };
        let mut safes = Rng::new(!seed);
        let safe_of_100 = safes.pick(&[0, 0, 33, 33, 90]);
        Gen { r, wild, block, safes, safe_of_100 }
    }

    /// Ramps around the block, and the longest ones.
    pub fn ramp(&mut self) -> u32 {
        let b = self.block as u32;
        match self.r.below(16) {
            0..=3 => 0,
            4 => 1,
            5 => b - 1,
            6 => b,
            7 => b + 1,
            8 => 2 * b,
            9 => 2 * b + 1,
            10 => 3 * b - 1,
            11 => MAX_RAMP,
            12 => MAX_RAMP - 1,
            13 => 48_000,
            _ => self.r.range(1, 6 * self.block) as u32,
        }
    }

    pub fn safe(&mut self) -> u32 {
        self.safes.percent(self.safe_of_100) as u32
    }

    /// One that somebody else writes.
    pub fn other_safe(&mut self) -> u32 {
        self.safes.below(2) as u32
    }

    pub fn node_len(&mut self) -> usize {
        let any = self.r.range(0, 24);
        self.r.pick(&[0, 1, 1, 2, 4, 4, 6, 24, any, any])
    }

    pub fn id(&mut self, used: &[u32]) -> u32 {
        loop {
            let (any, small) = (self.r.next() as u32, self.r.below(100) as u32);
            let id = self.r.pick(&[0, u32::MAX, 0x8000_0000, any, any, small, small, small]);
            if !used.contains(&id) {
                return id;
            }
        }
    }

    pub fn slot(&mut self) -> u32 {
        let any = self.r.below(32) as u32;
        self.r.pick(&[0, 0, 1, 2, 3, any, 31])
    }

    pub fn input(&mut self) -> u32 {
        let any = self.r.below(256) as u32;
        self.r.pick(&[0, 0, 1, 2, 3, 63, 64, any, 255])
    }

    pub fn channel(&mut self) -> u32 {
        let any = self.r.next() as u32;
        self.r.pick(&[0, 0, 0, 1, 1, 2, 5, any, u32::MAX])
    }

    fn span(&mut self, table: usize) -> Span {
        let len = match self.r.below(20) {
            0 | 1 => 0,
            2..=7 => 1,
            8..=13 => 2,
            14 | 15 => self.r.range(3, 6),
            16 | 17 => self.r.range(3, 12),
            18 => self.r.range(12, 26),
            _ => self.r.below(table + 1),
        };
        let len = len.min(table);
        span(self.r.below(table - len + 1), len)
    }

    /// A layout; with `like`, often one whose nodes have the same lens, so that an adoption takes them.
    pub fn layout(&mut self, like: Option<&Layout>) -> Layout {
        let large = self.r.percent(3);
        let mut l = Layout { block: self.block, ..Layout::default() };
        self.buffers(&mut l, large);
        let weights = if large { self.r.range(1023, 1024) } else { self.r.pick(&[0, 1, 4, 8, 16, 40, 100]) };
        l.coefficients = (0..weights).map(|_| self.wild.gain(&mut self.r)).collect();
        self.nodes(&mut l, like, large);
        self.steps(&mut l, large);
        self.calls(&mut l, &Plan::default());
        if l.own_index {
            l.calls.push(Call::Index(l.index.clone()));
        }
        if self.r.percent(25) {
            self.inserts(&mut l);
        }
        l
    }

    fn buffers(&mut self, l: &mut Layout, large: bool) {
        l.buffers = match self.r.below(50) {
            0 => 0,
            _ if large && (self.block <= 64 || self.r.percent(20)) => self.r.pick(&[64, 255, 256]),
            _ => self.r.range(1, if self.block > 64 { 12 } else { 24 }),
        };
        l.index = (0..l.buffers as u32).collect();
        l.own_index = self.r.percent(35) && l.buffers > 0;
        if l.own_index {
            let entries = if large { 1024 } else { self.r.range(0, 3 * l.buffers) };
            let (mut last, again) = (0, self.r.pick(&[0, 30, 60]));
            l.index.clear();
            for _ in 0..entries {
                last = if self.r.percent(again) { last } else { self.r.below(l.buffers) as u32 };
                l.index.push(last);
            }
        }
    }

    pub fn nodes(&mut self, l: &mut Layout, like: Option<&Layout>, large: bool) {
        let count = if large { self.r.range(63, 64) } else { self.r.pick(&[0, 1, 1, 2, 3, 4, 8]) };
        let lens: Vec<usize> = match like {
            Some(old) if self.r.percent(70) => old.nodes.iter().map(|n| n.values.len()).collect(),
            _ => (0..count).map(|_| self.node_len()).collect(),
        };
        let mut ids = Vec::new();
        for len in lens {
            ids.push(self.id(&ids));
            let values = self.wild.gains(&mut self.r, len);
            l.nodes.push(NodeCall { id: ids[ids.len() - 1], values, ramp: self.ramp(), safe: self.safe() });
        }
    }

    /// Signals first, then anything, then every buffer out.
    fn steps(&mut self, l: &mut Layout, large: bool) {
        let signals = self.r.percent(80);
        for b in 0..l.buffers as u32 {
            if signals && self.r.percent(60) {
                l.steps.push(Step::Patch { input: self.input(), channel: self.channel(), dst: b });
            }
        }
        let out = self.r.percent(85) as usize;
        let count = if large { MAX_STEPS - l.steps.len() - out } else { self.r.range(0, 20) };
        for _ in 0..count {
            let s = self.step(l);
            l.steps.push(s);
        }
        if out == 1 {
            l.steps.push(Step::Output { src: span(0, l.index.len()), slot: self.slot() });
        }
    }

    /// A step that the plan check accepts; after many tries a Clear of nothing.
    pub fn step(&mut self, l: &Layout) -> Step {
        let t = Tables { buffers: l.buffers, index: &l.index, coefficients: l.coefficients.len(), nodes: l.nodes.len() };
        for _ in 0..40 {
            let s = self.any_step(&t);
            if paper::step_fault(&t, &s).is_none() {
                return s;
            }
        }
        Step::Clear { dst: span(self.r.below(l.index.len() + 1), 0) }
    }

    /// A step whose spans are in their tables; it may still be refused.
    pub fn any_step(&mut self, t: &Tables) -> Step {
        let entries = t.index.len();
        let node = self.r.below(t.nodes) as u32;
        let (src, mut dst) = (self.span(entries), self.span(entries));
        match self.r.below(100) {
            0..=17 => Step::Patch { input: self.input(), channel: self.channel(), dst: self.r.below(t.buffers) as u32 },
            18..=35 => {
                if self.r.percent(50) {
                    dst.len = src.len.min(entries as u32 - dst.start);
                }
                Step::Gain { node, src, dst }
            }
            36..=57 => Step::Matrix { node, src, dst },
            58..=65 => Step::Clear { dst },
            66..=87 => {
                let need = (src.len * dst.len) as usize + self.r.pick(&[0, 0, 0, 1, 5]);
                let len = need.min(t.coefficients);
                Step::Send { node, src, dst, weights: span(self.r.below(t.coefficients - len + 1), len) }
            }
            _ => Step::Output { src, slot: self.slot() },
        }
    }

    /// The builder calls for what a layout has behind these counts: each table in its order, the tables mixed.
    pub fn calls(&mut self, l: &mut Layout, from: &Plan) {
        let mut buffers = l.buffers - from.buffers;
        let (mut weights, mut nodes, mut steps) = (&l.coefficients[from.coefficients..], &l.nodes[from.nodes..], &l.steps[from.steps..]);
        while buffers > 0 || !weights.is_empty() || !nodes.is_empty() || !steps.is_empty() {
            match self.r.below(4) {
                0 if buffers > 0 => {
                    let n = self.r.range(0, buffers.min(12));
                    l.calls.push(Call::Buffers(n));
                    buffers -= n;
                }
                1 if !weights.is_empty() => {
                    let (now, later) = weights.split_at(self.r.below(weights.len() + 1));
                    l.calls.push(Call::Coefficients(now.to_vec()));
                    weights = later;
                }
                2 if !nodes.is_empty() => {
                    l.calls.push(Call::Node(nodes[0].clone()));
                    nodes = &nodes[1..];
                }
                3 if !steps.is_empty() => {
                    l.calls.push(Call::Step(steps[0]));
                    steps = &steps[1..];
                }
                _ => {}
            }
        }
    }
}
