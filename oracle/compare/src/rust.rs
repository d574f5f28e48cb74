//! The reference's side: its own builder, plan and calls.
use crate::mixer;
use crate::plan::{Areas, Step, FLOATS, ID, LEFT, LEN, VALUES, WORDS};
use reference::engine::plan::peek;
use reference::engine::plan::{InputSource, OutputSink, Span};
pub use reference::engine::plan::{Plan, PlanBuilder};

pub fn span(s: mixer::Span) -> Span {
    Span { start: s.start, len: s.len }
}

pub fn span_back(s: Span) -> mixer::Span {
    mixer::Span { start: s.start, len: s.len }
}

pub fn step(s: &Step) -> reference::engine::plan::Step {
    use reference::engine::plan::Step as To;
    match *s {
        Step::Patch { input, channel, dst } => To::Patch { input, channel, dst },
        Step::Gain { node, src, dst } => To::Gain { node, src: span(src), dst: span(dst) },
        Step::Matrix { node, src, dst } => To::Matrix { node, src: span(src), dst: span(dst) },
        Step::Clear { dst } => To::Clear { dst: span(dst) },
        Step::Send { node, src, dst, weights } => To::Send { node, src: span(src), dst: span(dst), coefficients: span(weights) },
        Step::Output { src, slot } => To::Output { src: span(src), slot },
    }
}

/// A step of those kinds.
pub fn step_back(s: &reference::engine::plan::Step) -> Step {
    use reference::engine::plan::Step as From;
    let span = span_back;
    match *s {
        From::Patch { input, channel, dst } => Step::Patch { input, channel, dst },
        From::Gain { node, src, dst } => Step::Gain { node, src: span(src), dst: span(dst) },
        From::Matrix { node, src, dst } => Step::Matrix { node, src: span(src), dst: span(dst) },
        From::Clear { dst } => Step::Clear { dst: span(dst) },
        From::Send { node, src, dst, coefficients } => Step::Send { node, src: span(src), dst: span(dst), weights: span(coefficients) },
        From::Output { src, slot } => Step::Output { src: span(src), slot },
        _ => panic!("a {}", s.kind()),
    }
}

/// The lent input block.
struct Directory<'a>(&'a [u32], &'a [f32]);

impl InputSource for Directory<'_> {
    fn channel(&self, input: usize, channel: usize) -> Option<&[f32]> {
        Some(crate::paper::lookup(self.0, self.1, input as u32, channel as u32))
    }
}

/// The output area.
#[derive(Default)]
struct Appended(Vec<f32>);

impl OutputSink for Appended {
    fn write(&mut self, _slot: usize, _channel: usize, _channels: usize, samples: &[f32]) {
        self.0.extend_from_slice(samples);
    }
}

/// One block; the samples that the Outputs append.
pub fn process(p: &mut Plan, directory: &[u32], samples: &[f32]) -> Vec<f32> {
    let mut out = Appended::default();
    p.process(0, &Directory(directory, samples), &mut out);
    out.0
}

pub fn adopt(new: &mut Plan, old: &mut Plan, pairs: &[u32], ramp: u32) {
    new.carry = pairs.chunks_exact(2).map(|p| (p[0], p[1])).collect();
    new.adopt(old, ramp);
}

pub fn len_of(n: &reference::engine::plan::Node) -> u32 {
    peek::node(n).len
}

/// Writes the nodes to the front of node areas, as document 01 lays them out. The reference has no safe: these words stay as they are.
pub fn nodes_to(nodes: &[reference::engine::plan::Node], floats: &mut [f32], words: &mut [u32]) {
    for ((n, f), w) in nodes.iter().zip(floats.chunks_exact_mut(FLOATS)).zip(words.chunks_exact_mut(WORDS)) {
        node_to(&peek::node(n), f, w);
    }
}

/// One node, to its own floats and words, of which it leaves safe.
pub fn node_to(r: &peek::Raw, floats: &mut [f32], words: &mut [u32]) {
    floats[..VALUES].copy_from_slice(&r.cur);
    floats[VALUES..2 * VALUES].copy_from_slice(&r.target);
    floats[2 * VALUES..].copy_from_slice(&r.step);
    (words[ID], words[LEN], words[LEFT]) = (r.id, r.len, r.left);
}

/// Takes the nodes from node areas.
pub fn nodes_from(p: &mut Plan, floats: &[f32], words: &[u32]) {
    for ((n, f), w) in p.nodes.iter_mut().zip(floats.chunks_exact(FLOATS)).zip(words.chunks_exact(WORDS)) {
        let row = |i: usize| -> [f32; VALUES] { f[i * VALUES..][..VALUES].try_into().unwrap() };
        peek::put_node(n, &peek::Raw { id: w[ID], len: w[LEN], left: w[LEFT], cur: row(0), target: row(1), step: row(2) });
    }
}

/// The plan that areas hold, which the plan check has accepted with these steps.
pub fn from_areas(a: &Areas, steps: &[Step]) -> Plan {
    let mut p = wired(a, steps, a.plan.block).finish();
    nodes_from(&mut p, &a.floats, &a.words);
    let used = a.plan.buffers * a.plan.block;
    peek::buffers_mut(&mut p).copy_from_slice(&a.buffers[..used]);
    p
}

/// The source lists of a plan, of whose areas only those that a trace is lent are read.
pub fn sources(a: &Areas, steps: &[Step]) -> Vec<Vec<u16>> {
    wired(a, steps, 1).finish().output_sources
}

/// The builder that has called everything but `finish`, with nodes of no values.
pub fn wired(a: &Areas, steps: &[Step], block: usize) -> PlanBuilder {
    let mut b = PlanBuilder::new(block);
    b.buffers(a.plan.buffers);
    peek::set_indices(&mut b, &a.indices[..a.plan.indices]);
    b.coefficients(&a.coefficients[..a.plan.coefficients.min(a.coefficients.len())]);
    for w in a.words.chunks_exact(WORDS).take(a.plan.nodes) {
        b.node(w[ID], &[], 0);
    }
    steps.iter().for_each(|s| b.step(step(s)));
    b
}
