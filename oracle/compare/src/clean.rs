//! Random clean layouts: a step reads what an earlier one wrote, and no Gain has a dst longer than its src. The index list is the builder's
//! own, 0, 1, 2, …, as builder calls alone make it.
use crate::folds::channels;
use crate::inserts::extend;
use crate::layouts::Gen;
use crate::mixer::{self, Plan, Span};
use crate::numbers;
use crate::paper::{self, Tables, MAX_NODES, MAX_STEPS};
use crate::plan::{span, Layout, NodeCall, Step, VALUES};
use crate::points::fits;

/// The buffers of a span.
pub fn buffers(s: Span) -> std::ops::Range<usize> {
    s.start as usize..(s.start + s.len) as usize
}

/// The dst of a Gain, Matrix or Send that has something to mix.
fn mixes(s: &Step) -> Option<Span> {
    match *s {
        Step::Gain { src, dst, .. } | Step::Matrix { src, dst, .. } | Step::Send { src, dst, .. } if src.len > 0 && dst.len > 0 => {
            Some(dst)
        }
        _ => None,
    }
}

/// The layout so far, and which buffers its steps have written.
struct Draft {
    l: Layout,
    written: Vec<bool>,
}

impl Draft {
    fn add(&mut self, s: Step) {
        match s {
            Step::Patch { dst, .. } => self.written[dst as usize] = true,
            Step::Gain { dst, .. } | Step::Matrix { dst, .. } | Step::Clear { dst } => self.written[buffers(dst)].fill(true),
            Step::Send { .. } | Step::Output { .. } => {}
        }
        self.l.steps.push(s);
    }

    fn clean(&self, s: &Step) -> bool {
        let written = |s: Span| self.written[buffers(s)].iter().all(|w| *w);
        match *s {
            Step::Patch { .. } | Step::Clear { .. } => true,
            Step::Gain { src, dst, .. } => dst.len <= src.len && written(src),
            Step::Matrix { src, .. } | Step::Output { src, .. } => written(src),
            Step::Send { src, dst, .. } => written(src) && written(dst),
        }
    }
}

impl Gen {
    /// A clean layout that sends at least one channel out; without ramps where `ramps` is false.
    pub fn clean_layout(&mut self, ramps: bool, large: bool) -> Layout {
        let count = if large { self.r.pick(&[64, 255, 256]) } else { self.r.range(1, 16) };
        let mut l = Layout { block: self.block, buffers: count, index: (0..count as u32).collect(), ..Layout::default() };
        let weights = if large { self.r.range(1023, 1024) } else { self.r.pick(&[0, 1, 4, 8, 16, 40]) };
        l.coefficients = (0..weights).map(|_| self.wild.gain(&mut self.r)).collect();
        self.nodes(&mut l, None, large);
        let mut d = Draft { l, written: vec![false; count] };
        self.signals(&mut d);
        if self.r.percent(30) {
            self.fold(&mut d);
        }
        let mixing = if large { self.r.range(200, MAX_STEPS - d.l.steps.len() - 4) } else { self.r.range(0, 20) };
        for _ in 0..mixing {
            let s = self.clean_step(&d);
            d.add(s);
        }
        for _ in 0..self.r.range(1, 4) {
            self.out(&mut d);
        }
        if !ramps {
            d.l.nodes.iter_mut().for_each(|n| n.ramp = 0);
        }
        self.calls(&mut d.l, &Plan::default());
        if self.r.percent(35) {
            (0..self.r.pick(&[1, 1, 2])).for_each(|_| self.clean_insert(&mut d, ramps));
        }
        d.l
    }

    /// An insert on buffers that were written, as many as its format has channels, or more without a return; then steps that read what it made.
    fn clean_insert(&mut self, d: &mut Draft, ramps: bool) {
        let mut i = self.point(0, &d.l.ids());
        let n = channels(i.format);
        let runs: Vec<Span> = (0..d.l.buffers).map(|b| span(b, d.written[b..].iter().take_while(|w| **w).count())).collect();
        let long: Vec<Span> = runs.into_iter().filter(|s| s.len as usize >= n).collect();
        if long.is_empty() || !fits(&d.l.counts(), &i) {
            return;
        }
        i.src = self.r.pick(&long);
        i.src.len = if i.returns || self.r.percent(70) { n as u32 } else { i.src.len };
        i.ramp = if ramps { i.ramp } else { 0 };
        let out = extend(&mut d.l, &i);
        d.written.resize(d.l.buffers, true);
        let from = d.l.counts();
        for _ in 0..self.r.below(3) {
            let s = self.clean_step(d);
            d.add(s);
        }
        d.add(Step::Output { src: out, slot: self.slot() });
        self.calls(&mut d.l, &from);
    }

    /// A Patch into most buffers, a Clear of some others; one buffer at least is written.
    fn signals(&mut self, d: &mut Draft) {
        for b in 0..d.l.buffers {
            match self.r.below(10) {
                _ if b == 0 => d.add(self.patch(b)),
                0..=7 => d.add(self.patch(b)),
                8 => d.add(Step::Clear { dst: span(b, 1) }),
                _ => {}
            }
        }
    }

    fn patch(&mut self, buffer: usize) -> Step {
        Step::Patch { input: self.input(), channel: self.channel(), dst: buffer as u32 }
    }

    /// A fold of one format into another: its signals, its node, its Matrix and its Output, where there is room for them.
    fn fold(&mut self, d: &mut Draft) {
        let (from, to) = (self.r.below(7) as u32, self.r.below(7) as u32);
        let (columns, rows) = (mixer::format_channels(from), mixer::format_channels(to));
        if columns * rows > VALUES || columns + rows > d.l.buffers || d.l.nodes.len() == MAX_NODES {
            return;
        }
        let mut values = vec![0.0; columns * rows];
        mixer::width_matrix(from, to, numbers::gains(&mut self.r), self.r.percent(50), &mut values);
        let ids: Vec<u32> = d.l.nodes.iter().map(|n| n.id).collect();
        let (id, ramp, safe) = (self.id(&ids), self.ramp(), self.safe());
        d.l.nodes.push(NodeCall { id, values, ramp, safe });
        for b in 0..columns {
            d.add(self.patch(b));
        }
        let dst = span(columns + self.r.below(d.l.buffers - columns - rows + 1), rows);
        d.add(Step::Matrix { node: ids.len() as u32, src: span(0, columns), dst });
        d.add(Step::Output { src: dst, slot: self.slot() });
    }

    /// A step that the plan check accepts and that keeps the plan clean; after many tries a Clear of nothing.
    fn clean_step(&mut self, d: &Draft) -> Step {
        let l = &d.l;
        let t = Tables { buffers: l.buffers, index: &l.index, coefficients: l.coefficients.len(), nodes: l.nodes.len() };
        let mixing = self.r.percent(70);
        for _ in 0..60 {
            let s = self.any_step(&t);
            if (!mixing || mixes(&s).is_some()) && paper::step_fault(&t, &s).is_none() && d.clean(&s) {
                return s;
            }
        }
        Step::Clear { dst: span(self.r.below(l.buffers + 1), 0) }
    }

    /// An Output of a few buffers that were written.
    fn out(&mut self, d: &mut Draft) {
        let written: Vec<usize> = (0..d.l.buffers).filter(|b| d.written[*b]).collect();
        let start = self.r.pick(&written);
        let most = d.written[start..].iter().take_while(|w| **w).count();
        let len = self.r.pick(&[1, 1, 1, 2, 2, 3, most]).min(most);
        d.add(Step::Output { src: span(start, len), slot: self.slot() });
    }
}

/// Whether a channel of a slot comes from a Gain, Matrix or Send, not straight from a Patch or a Clear.
pub fn mixed(l: &Layout, slot: u32) -> bool {
    let (mut last, mut found) = (vec![false; l.buffers], false);
    for s in &l.steps {
        match *s {
            Step::Patch { dst, .. } => last[dst as usize] = false,
            Step::Clear { dst } => last[buffers(dst)].fill(false),
            Step::Output { src, slot: to } => found |= to == slot && last[buffers(src)].contains(&true),
            _ => mixes(s).into_iter().for_each(|dst| last[buffers(dst)].fill(true)),
        }
    }
    found
}
