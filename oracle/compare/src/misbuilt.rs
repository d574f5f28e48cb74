//! Builder calls that are refused. Document 01 gives the numbers; which count and which area a call tests is in docs/DECISIONS.md, point 2.
use crate::judge::{same, Fault, Found, Judge};
use crate::layouts::Gen;
use crate::mixer::{self, BufferReply, NodeReply, Plan, PlanReply, Span, SpanReply, Status};
use crate::paper::{self, test, Answer, MAX_RAMP, MAX_SAFE};
use crate::plan::{Areas, FLOATS, ID, VALUES, WORDS};
use crate::refused::{kept, off, off32};
use crate::rng::Rng;
use crate::twin::Twin;

/// `count` and `more` together are above `limit`.
fn over(count: usize, more: usize, limit: usize) -> bool {
    count as u128 + more as u128 > limit as u128
}

pub fn buffers(p: &Plan, n: usize, area: usize) -> Answer<()> {
    test(over(p.buffers, n, paper::MAX_BUFFERS) || over(p.indices, n, paper::MAX_INDICES), 5)?;
    test(over(p.indices, n, area), 2)
}

pub fn coefficients(p: &Plan, n: usize, area: usize) -> Answer<()> {
    test(over(p.coefficients, n, paper::MAX_COEFFICIENTS), 5)?;
    test(over(p.coefficients, n, area), 2)
}

pub fn node(a: &Areas, id: u32, values: usize, ramp: u32, safe: u32) -> Answer<()> {
    let n = a.plan.nodes;
    test(over(n, 1, paper::MAX_NODES), 5)?;
    test(a.floats.len() < FLOATS * (n + 1) || a.words.len() < WORDS * (n + 1), 2)?;
    test(values > VALUES, 7)?;
    test((0..n).any(|i| a.word(i, ID) == id), 8)?;
    test(ramp > MAX_RAMP, 10)?;
    test(safe > MAX_SAFE, 14)
}

/// A safe for `node`, above 1 now and then.
pub fn any_safe(r: &mut Rng) -> u32 {
    r.pick(&[0, 1, 2, u32::MAX])
}

pub fn step(p: &Plan, record: &[u32], area: usize) -> Answer<()> {
    use crate::plan::Step;
    test(over(p.steps, 1, paper::MAX_STEPS), 5)?;
    let need = record.first().map_or(0, |map| 1 + (map & 0x7ff).count_ones() as usize);
    test(over(p.words, need, area), 2)?;
    let Some((step, _)) = paper::read(record) else { return paper::refused(3) };
    let many = match step {
        Step::Gain { src, dst, .. } => src.len.min(dst.len) as u64,
        Step::Matrix { src, dst, .. } => src.len as u64 * dst.len as u64,
        _ => 0,
    };
    test(many > VALUES as u64, 7)
}

pub fn finish(p: &Plan, area: usize) -> Answer<()> {
    test(p.block < 1 || p.block > paper::MAX_BLOCK, 1)?;
    test(p.buffers > paper::MAX_BUFFERS, 5)?;
    test(p.buffers * p.block > area, 2)
}

/// A record with a count spoilt, and areas one entry short, now and then.
pub fn spoilt(g: &mut Gen, areas: &Areas) -> Areas {
    let mut a = areas.clone();
    let p = &mut a.plan;
    let r = &mut g.r;
    match r.below(9) {
        0 => p.buffers = r.pick(&[255, 256, 257, usize::MAX]),
        1 => p.indices = r.pick(&[1023, 1024, 1025, usize::MAX]),
        2 => p.coefficients = r.pick(&[1023, 1024, 1025, usize::MAX]),
        3 => p.nodes = r.pick(&[63, 64, 65, usize::MAX]),
        4 => p.steps = r.pick(&[511, 512, 513, usize::MAX]),
        5 => p.words = off(r, p.words),
        6 => p.block = r.pick(&[0, 1, 1024, 1025, usize::MAX]),
        _ => {}
    }
    a
}

/// One refused builder call; none where document 01 accepts what came out.
pub fn one(j: &mut Judge, g: &mut Gen, twin: &Twin) -> Found {
    let mut a = spoilt(g, &twin.port);
    let before = a.clone();
    let p = a.plan;
    match g.r.below(7) {
        0 => misnew(j, g)?,
        1 => {
            let n = off(&mut g.r, 2);
            if let Err(status) = buffers(&p, n, a.indices.len()) {
                let reply = mixer::buffers(p, n, &mut a.indices);
                j.refusal("buffers", status, reply.status)?;
                same("refused buffers", &SpanReply { status, plan: p, span: Span::default() }, &reply)?;
            }
        }
        2 => {
            let values = vec![1.5; g.r.pick(&[0, 1, 2, 30, 1025])];
            if let Err(status) = coefficients(&p, values.len(), a.coefficients.len()) {
                let reply = mixer::coefficients(p, &values, &mut a.coefficients);
                j.refusal("coefficients", status, reply.status)?;
                same("refused coefficients", &SpanReply { status, plan: p, span: Span::default() }, &reply)?;
            }
        }
        3 => misnode(j, g, a.clone())?,
        4 => misstep(j, g, &mut a)?,
        5 => {
            if let Err(status) = finish(&p, a.buffers.len()) {
                let reply = mixer::finish(p, &mut a.buffers);
                j.refusal("finish", status, reply.status)?;
                same("refused finish", &PlanReply { status, plan: p }, &reply)?;
            }
        }
        _ => misbuffer(j, g, &a)?,
    }
    kept(j, &before, &a)
}

fn misnew(j: &mut Judge, g: &mut Gen) -> Found {
    let block = g.r.pick(&[0, 1025, 1 << 40, usize::MAX]);
    let status = Status { number: 1, place: 0 };
    let reply = mixer::new(block);
    j.refusal("new", status, reply.status)?;
    same("refused new", &PlanReply { status, plan: Plan { block, ..Plan::default() } }, &reply)
}

fn misnode(j: &mut Judge, g: &mut Gen, mut a: Areas) -> Found {
    if g.r.percent(70) && a.plan.nodes < 64 {
        a.floats.resize(FLOATS * (a.plan.nodes + 1), 1.0);
        a.words.resize(WORDS * (a.plan.nodes + 1), 1);
    }
    let before = a.clone();
    let used = if a.plan.nodes > 0 { a.words.get(ID).copied() } else { None };
    let any = g.r.next() as u32;
    let id = g.r.pick(&[used.unwrap_or(any), any, any]);
    let values = vec![1.5; g.r.pick(&[0, 1, 24, 24, 25, 100])];
    let (ramp, safe) = (g.r.pick(&[0, 7, MAX_RAMP, MAX_RAMP + 1, u32::MAX]), any_safe(&mut g.r));
    let Err(mut status) = node(&a, id, values.len(), ramp, safe) else { return Ok(()) };
    let both = status.number == 10 && safe > MAX_SAFE;
    j.counts.safes.refused_14 += (status.number == 14) as u64;
    j.counts.safes.refused_10 += both as u64;
    if j.plants_if(both, Fault::SafeFirst) {
        status.number = 14;
    }
    let reply = mixer::node(a.plan, id, &values, ramp, safe, &mut a.floats, &mut a.words);
    j.refusal("node", status, reply.status)?;
    same("refused node", &NodeReply { status, plan: a.plan, node: 0 }, &reply)?;
    kept(j, &before, &a)
}

fn misstep(j: &mut Judge, g: &mut Gen, a: &mut Areas) -> Found {
    let there = &a.steps[..a.plan.words.min(a.steps.len())];
    let mut record = if there.is_empty() { vec![192, 0, 0] } else { there.to_vec() };
    record.truncate(g.r.pick(&[0, 1, 2, 3, 4, 5, 6, 7, 8, 9]));
    if !record.is_empty() && g.r.percent(70) {
        let at = g.r.below(record.len());
        record[at] = off32(&mut g.r, record[at]);
    }
    let Err(status) = step(&a.plan, &record, a.steps.len()) else { return Ok(()) };
    let reply = mixer::step(a.plan, &record, &mut a.steps);
    j.refusal("step", status, reply.status)?;
    same("refused step", &PlanReply { status, plan: a.plan }, &reply)
}

/// An entry past the index list; one that is there is handed back, also past the span.
fn misbuffer(j: &mut Judge, g: &mut Gen, a: &Areas) -> Found {
    let span = Span { start: off32(&mut g.r, 1), len: off32(&mut g.r, 1) };
    let i = off(&mut g.r, 1);
    let reply = mixer::buffer(a.plan, span, i, &a.indices);
    let listed = &a.indices[..a.plan.indices.min(a.indices.len())];
    let at = (span.start as usize).checked_add(i);
    if let Some(buffer) = at.and_then(|at| listed.get(at)) {
        return same("buffer", &BufferReply { status: Status::default(), buffer: *buffer }, &reply);
    }
    let status = Status { number: 2, place: 0 };
    j.refusal("buffer", status, reply.status)?;
    same("refused buffer", &BufferReply { status, buffer: 0 }, &reply)
}
