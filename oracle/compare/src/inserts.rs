//! An insert on both sides: what the reference's own `insert` adds to a plan, and the port's call.
use crate::folds::{channels, FORMATS};
use crate::judge::{same, Fault, Judge};
use crate::mixer::{self, InsertPoint, InsertReturn, Plan, Span, SpanReply, Status};
use crate::paper::{self, Answer};
use crate::plan::{span, Areas, Call, Layout, NodeCall, Step, FLOATS, SAFE, WORDS};
use crate::refused::kept;
use crate::rng::Rng;
use crate::rust::{self, PlanBuilder};
use crate::signals::same_value;
use crate::twin::areas;
use reference::engine::plan::peek::{self, Raw};
use reference::mix::chain::{Proc, ProcKind};
use reference::mix::compile;

/// What an insert adds to each table, and the span that it hands back.
pub struct Added {
    pub buffers: usize,
    pub indices: Vec<u32>,
    pub coefficients: Vec<f32>,
    pub nodes: Vec<Raw>,
    pub steps: Vec<Step>,
    pub span: Span,
}

/// The ids of the nodes that an insert makes.
pub fn ids(i: &InsertPoint) -> Vec<u32> {
    let all = i.ids;
    let ids = vec![all.send, all.ret, all.dry, all.wet, all.dryin, all.wetin];
    ids[..if i.returns { 6 } else { 1 }].to_vec()
}

/// The reference's own insert, by a builder. The one word that differs here: with a return and a source longer than the format's channels the dry Send
/// has no coefficients, for which the plan check refuses the plan (docs/DIFFERENCES.md).
pub fn add(b: &mut PlanBuilder, i: &InsertPoint) -> Added {
    let (indices, weights, nodes, steps) = (peek::indices(b).len(), peek::coefficients(b).len(), peek::nodes(b).len(), peek::step_count(b));
    let buffers = peek::buffer_count(b);
    let span = called(b, i);
    let mut added = Added {
        buffers: peek::buffer_count(b) - buffers,
        indices: peek::indices(b)[indices..].to_vec(),
        coefficients: peek::coefficients(b)[weights..].to_vec(),
        nodes: peek::nodes(b)[nodes..].iter().map(peek::node).collect(),
        steps: peek::steps(b)[steps..].iter().map(rust::step_back).collect(),
        span,
    };
    if long_source(i) {
        added.dry_weights().len = 0;
    }
    added
}

/// With a return, a source longer than the format's channels.
pub fn long_source(i: &InsertPoint) -> bool {
    i.returns && i.src.len as usize > channels(i.format)
}

/// `Build::insert` of compile.rs.
fn called(b: &mut PlanBuilder, i: &InsertPoint) -> Span {
    let kind = ProcKind::Insert {
        send_db: i.gain as f64,
        return_db: i.back.gain as f64,
        return_input: i.returns.then_some(i.back.input as usize),
        return_channel: i.back.channel as usize,
        commit_samples: None,
    };
    let p = Proc { id: "insert".to_string(), bypass: i.back.bypass, kind };
    let ids = [i.ids.send, i.ids.ret, i.ids.dry, i.ids.wet, i.ids.dryin, i.ids.wetin];
    let (taken, format) = (std::mem::replace(b, PlanBuilder::new(1)), FORMATS[i.format as usize]);
    let (made, span) = compile::peek::insert(taken, ids, i.ramp, i.slot, &p, format, rust::span(i.src));
    *b = made;
    rust::span_back(span)
}

/// A builder that counts as a record does, with entries that nobody reads.
fn counting(p: &Plan, i: &InsertPoint) -> PlanBuilder {
    let mut b = PlanBuilder::new(1);
    b.buffers(p.buffers);
    peek::set_indices(&mut b, &vec![0; p.indices]);
    if i.returns {
        b.coefficients(&vec![0.0; p.coefficients]);
    }
    for _ in 0..p.nodes {
        b.node(0, &[], 0);
    }
    let nothing = Step::Clear { dst: Span::default() };
    (0..p.steps).for_each(|_| b.step(rust::step(&nothing)));
    b
}

/// What the reference's own insert adds to a plan of these counts.
pub fn by_counts(p: &Plan, i: &InsertPoint) -> Added {
    add(&mut counting(p, i), i)
}

/// A layout with an insert behind all that it has, its builder call too; the span that is handed back.
pub fn extend(l: &mut Layout, i: &InsertPoint) -> Span {
    let added = by_counts(&l.counts(), i);
    l.buffers += added.buffers;
    l.index.extend(&added.indices);
    l.coefficients.extend(&added.coefficients);
    let values = |n: &Raw| n.target[..n.len as usize].to_vec();
    l.nodes.extend(added.nodes.iter().map(|n| NodeCall { id: n.id, values: values(n), ramp: i.ramp, safe: 0 }));
    l.steps.extend(&added.steps);
    l.calls.push(Call::Insert(*i));
    added.span
}

impl Added {
    fn dry_weights(&mut self) -> &mut Span {
        let weights = self.steps.iter_mut().find_map(|s| if let Step::Send { weights, .. } = s { Some(weights) } else { None });
        weights.expect("an insert with a return has a Send")
    }

    /// Puts it behind the counts of areas that are long enough.
    pub fn put(&self, a: &mut Areas) {
        let p = &mut a.plan;
        a.indices[p.indices..][..self.indices.len()].copy_from_slice(&self.indices);
        if !self.coefficients.is_empty() {
            a.coefficients[p.coefficients..][..self.coefficients.len()].copy_from_slice(&self.coefficients);
        }
        for (k, n) in self.nodes.iter().enumerate() {
            let at = p.nodes + k;
            rust::node_to(n, &mut a.floats[FLOATS * at..][..FLOATS], &mut a.words[WORDS * at..][..WORDS]);
            a.words[WORDS * at + SAFE] = 0;
        }
        for s in &self.steps {
            let record = s.record();
            a.steps[p.words..][..record.len()].copy_from_slice(&record);
            p.words += record.len();
        }
        p.buffers += self.buffers;
        p.indices += self.indices.len();
        p.coefficients += self.coefficients.len();
        p.nodes += self.nodes.len();
        p.steps += self.steps.len();
    }

    /// A fault in what the reference made.
    fn plant(&mut self, j: &mut Judge, i: &InsertPoint, send: usize) {
        if j.plants_if(long_source(i), Fault::InsertWeights) {
            self.dry_weights().len = (channels(i.format) * channels(i.format)) as u32;
        }
        if j.plants(Fault::InsertSpan) {
            self.span = span(send, channels(i.format));
        }
        if j.plants(Fault::InsertOutput) {
            self.steps[1] = Step::Output { src: i.src, slot: i.slot };
        }
        if j.plants_if(i.returns, Fault::InsertPatch) {
            for s in &mut self.steps {
                if let Step::Patch { input, .. } = s {
                    *input += 1;
                }
            }
        }
    }
}

/// The reference's insert by a builder, put behind the counts of the areas that the port's must be; planted, another one.
pub fn follow(j: &mut Judge, b: &mut PlanBuilder, i: &InsertPoint, want: &mut Areas) -> SpanReply {
    let mut asked = *i;
    asked.back.bypass ^= j.plants_if(i.returns, Fault::InsertBypass);
    let mut added = add(b, &asked);
    added.plant(j, i, want.plan.indices);
    j.counts.inserts.made(&want.plan, i);
    added.put(want);
    if j.plants(Fault::InsertSafe) {
        want.words[WORDS * (want.plan.nodes - 1) + SAFE] = 1;
    }
    SpanReply { status: Status::default(), plan: want.plan, span: added.span }
}

/// The port's call; the record of the areas is the one that comes back.
pub fn call(a: &mut Areas, i: &InsertPoint) -> SpanReply {
    let reply = mixer::insert(a.plan, *i, &mut a.indices, &mut a.coefficients, &mut a.floats, &mut a.words, &mut a.steps);
    a.plan = reply.plan;
    reply
}

/// The same insert: a NaN among its gains has other bits.
pub fn same_point(r: &mut Rng, i: &InsertPoint) -> InsertPoint {
    let back = InsertReturn { gain: same_value(r, i.back.gain), ..i.back };
    InsertPoint { gain: same_value(r, i.gain), back, ..*i }
}

/// The faults that ask one of the tests wrongly.
const TESTS: [Fault; 4] = [Fault::InsertLast, Fault::InsertGrown, Fault::InsertNodes, Fault::InsertIds];

/// The request's answer; planted, another one where it differs.
fn answer(j: &mut Judge, a: &Areas, i: &InsertPoint) -> Answer<()> {
    let right = paper::insert(a, i, None);
    if let Some(fault) = j.fault.filter(|f| TESTS.contains(f)) {
        let wrong = paper::insert(a, i, Some(fault));
        if j.plants_if(wrong != right, fault) {
            return wrong;
        }
    }
    right
}

/// An insert on areas of any kind: refused as the request says, with every byte as it was, or taken as the reference makes it. Whether it was taken.
pub fn judge(j: &mut Judge, a: &mut Areas, i: &InsertPoint) -> Result<bool, String> {
    let mut want = a.clone();
    if let Err(status) = answer(j, a, i) {
        let reply = call(a, i);
        j.counts.inserts.refused(status.number);
        j.refusal("insert", status, reply.status)?;
        same("refused insert", &SpanReply { status, plan: want.plan, span: Span::default() }, &reply)?;
        kept(j, &want, a)?;
        return Ok(false);
    }
    j.counts.calls += 1;
    let expected = follow(j, &mut counting(&want.plan, i), i, &mut want);
    same("insert", &expected, &call(a, i))?;
    areas(&want, a)?;
    Ok(true)
}
