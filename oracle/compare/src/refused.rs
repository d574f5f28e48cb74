//! Calls that document 01 refuses: the number, the place and the values must be its own, and every area byte for byte what it was.
//! One argument of a good call is spoilt at random; where document 01 still accepts it, the call is left out.
use crate::judge::{same, untouched, words, Fault, Found, Judge};
use crate::layouts::Gen;
use crate::mixer::{self, CleanReply, CountReply, Status};
use crate::ops::Input;
use crate::paper::{self, Answer, Lent, MAX_ENTRIES, MAX_RAMP, MAX_SAFE};
use crate::plan::{Areas, Layout, FLOATS, ID, LEFT, LEN, SAFE, WORDS};
use crate::rng::Rng;
use crate::traced;
use crate::twin::Twin;

/// One less, one more, nothing, the largest, or anything.
pub fn off(r: &mut Rng, n: usize) -> usize {
    let any = r.next() as usize;
    r.pick(&[n.wrapping_sub(1), n.wrapping_add(1), 0, usize::MAX, any >> 52, any])
}

pub fn off32(r: &mut Rng, n: u32) -> u32 {
    let any = r.next() as u32;
    r.pick(&[n.wrapping_sub(1), n.wrapping_add(1), 0, u32::MAX, n ^ (1 << (any & 31)), any >> 24, any])
}

/// A number just above a limit, or far above it.
fn above(r: &mut Rng, limit: usize) -> usize {
    r.pick(&[limit + 1, limit + 1, 2 * limit, usize::MAX])
}

fn shorten<T>(r: &mut Rng, area: &mut Vec<T>, need: usize) {
    let (less, any) = (need.saturating_sub(1), r.below(need));
    area.truncate(r.pick(&[less, less, any, 0]));
}

/// Spoils a plan's record, or the length of an area, or a word.
pub fn spoil(r: &mut Rng, a: &mut Areas) {
    let p = a.plan;
    match r.below(16) {
        0 => a.plan.block = r.pick(&[0, 1025, usize::MAX]),
        1 => a.plan.buffers = above(r, paper::MAX_BUFFERS),
        2 => a.plan.indices = above(r, paper::MAX_INDICES),
        3 => a.plan.coefficients = above(r, paper::MAX_COEFFICIENTS),
        4 => a.plan.nodes = above(r, paper::MAX_NODES),
        5 => a.plan.steps = above(r, paper::MAX_STEPS),
        6 => a.plan.words = a.steps.len() + r.pick(&[1, 2, 1 << 40]),
        7 => shorten(r, &mut a.indices, p.indices),
        8 => shorten(r, &mut a.coefficients, p.coefficients),
        9 => shorten(r, &mut a.floats, FLOATS.saturating_mul(p.nodes)),
        10 => shorten(r, &mut a.words, WORDS.saturating_mul(p.nodes)),
        11 => shorten(r, &mut a.steps, p.words),
        12 => shorten(r, &mut a.buffers, p.buffers.saturating_mul(p.block)),
        13 => spoil_node(r, a),
        14 => a.plan.words = r.below(p.words.saturating_add(1)),
        _ => spoil_word(r, a),
    }
}

/// An id that another node has, or a len, left or safe above its limit.
pub fn spoil_node(r: &mut Rng, a: &mut Areas) {
    let nodes = a.plan.nodes.min(a.words.len() / WORDS);
    if nodes == 0 {
        return;
    }
    let (at, other) = (WORDS * r.below(nodes), WORDS * r.below(nodes));
    match r.below(4) {
        0 => a.words[at + ID] = a.words[other + ID],
        1 => a.words[at + LEN] = r.pick(&[25, 26, u32::MAX]),
        2 => a.words[at + LEFT] = r.pick(&[MAX_RAMP + 1, u32::MAX]),
        _ => a.words[at + SAFE] = r.pick(&[2, u32::MAX]),
    }
}

/// Areas none of whose nodes is safe.
pub fn without_safe(a: &Areas) -> Areas {
    let mut a = a.clone();
    a.words.iter_mut().skip(SAFE).step_by(WORDS).for_each(|safe| *safe = 0);
    a
}

/// A refusal; planted, the answer to the same call `without` some safe words, where these alone are what is refused.
pub fn by_safe<T>(j: &mut Judge, unread: Fault, right: Status, without: impl FnOnce() -> Answer<T>) -> Status {
    let other = if right.number == 14 { without().err().unwrap_or_default() } else { right };
    if other == right {
        return right;
    }
    j.counts.safes.refused(unread);
    if j.plants(unread) {
        return other;
    }
    right
}

fn spoil_word(r: &mut Rng, a: &mut Areas) {
    let (table, used) = if r.percent(30) { (&mut a.indices, a.plan.indices) } else { (&mut a.steps, a.plan.words) };
    let at = r.below(used.min(table.len()));
    if let Some(word) = table.get_mut(at) {
        *word = off32(r, *word);
    }
}

fn plant_in_areas(j: &mut Judge, a: &mut Areas) {
    let bit = |x: &mut f32| *x = f32::from_bits(x.to_bits() ^ 1);
    for (fault, list) in [(Fault::KeptIndices, &mut a.indices), (Fault::KeptWords, &mut a.words), (Fault::KeptSteps, &mut a.steps)] {
        if j.plants_if(!list.is_empty(), fault) {
            *list.last_mut().unwrap() ^= 1;
        }
    }
    for (fault, list) in
        [(Fault::KeptCoefficients, &mut a.coefficients), (Fault::KeptFloats, &mut a.floats), (Fault::KeptBuffers, &mut a.buffers)]
    {
        if j.plants_if(!list.is_empty(), fault) {
            list.last_mut().map(bit);
        }
    }
}

/// Areas after a refused call: bit for bit what they were, those of NaNs too.
pub fn kept(j: &mut Judge, before: &Areas, after: &Areas) -> Found {
    let planted = j.fault.is_some().then(|| {
        let mut a = before.clone();
        plant_in_areas(j, &mut a);
        a
    });
    let before = planted.as_ref().unwrap_or(before);
    words("indices after a refusal", &before.indices, &after.indices)?;
    untouched("coefficients after a refusal", &before.coefficients, &after.coefficients)?;
    untouched("node floats after a refusal", &before.floats, &after.floats)?;
    words("node words after a refusal", &before.words, &after.words)?;
    words("step words after a refusal", &before.steps, &after.steps)?;
    untouched("buffers after a refusal", &before.buffers, &after.buffers)
}

/// An area for an answer that a refused call must leave.
pub fn kept_answer(j: &mut Judge, area: &[f32]) -> Found {
    let mut before = vec![7.5; area.len()];
    if j.plants_if(!area.is_empty(), Fault::KeptAnswer) {
        before[0] = 7.0;
    }
    untouched("area for the answer after a refusal", &before, area)
}

/// One refused call of a kind taken at random.
pub fn one(j: &mut Judge, g: &mut Gen, twin: &Twin) -> Found {
    match g.r.below(6) {
        0 => run(j, g, twin),
        1 => set(j, g, twin),
        2 => adopt(j, g, twin),
        3 => trace(j, g, twin),
        4 => crate::misbuilt::one(j, g, twin),
        _ => lookup(j, g, twin),
    }
}

pub fn process(a: &mut Areas, input: &Input, output: &mut [f32]) -> CountReply {
    let (f, w, b) = (&mut a.floats, &mut a.words, &mut a.buffers);
    mixer::process(a.plan, &a.indices, &a.coefficients, f, w, &a.steps, b, &input.directory, &input.samples, output)
}

pub fn spoil_directory(g: &mut Gen, input: &mut Input) {
    let d = &mut input.directory;
    match g.r.below(4) {
        0 => d.push(0),
        1 => d.resize(4 * MAX_ENTRIES + 4, 0),
        2 => d.extend([5, 5, input.samples.len() as u32, 1]),
        _ => d.extend([5, 5, u32::MAX, g.r.pick(&[0, 1, u32::MAX])]),
    }
}

/// The fault of a run that is not refused for a safe above 1.
fn unread(l: &Layout, a: &Areas) -> Fault {
    let used = |k: usize| l.uses(k) && a.words.get(WORDS * k + SAFE).is_some_and(|safe| *safe > MAX_SAFE);
    if (0..l.nodes.len()).any(used) {
        return Fault::UnreadRun;
    }
    Fault::UnreadUnused
}

fn run(j: &mut Judge, g: &mut Gen, twin: &Twin) -> Found {
    let mut a = twin.port.clone();
    let mut input = g.input_block(&twin.layout);
    let mut output = vec![7.5; twin.layout.output_channels() * twin.layout.block];
    for _ in 0..g.r.pick(&[1, 1, 2]) {
        match g.r.below(4) {
            0 => spoil(&mut g.r, &mut a),
            1 => spoil_node(&mut g.r, &mut a),
            2 => spoil_directory(g, &mut input),
            _ => drop(output.pop()),
        }
    }
    let answer = |a: &Areas| paper::run(a, &input.directory, input.samples.len(), output.len());
    let Err(mut refusal) = answer(&a) else { return Ok(()) };
    refusal = by_safe(j, unread(&twin.layout, &a), refusal, || answer(&without_safe(&a)));
    let before = a.clone();
    let reply = process(&mut a, &input, &mut output);
    j.refusal("process", refusal, reply.status)?;
    same("count of a refused process", &0, &reply.count)?;
    kept(j, &before, &a)?;
    kept_answer(j, &output)?;
    let bad = paper::bad_directory(&input.directory, input.samples.len());
    same("directory_bad", &bad, &mixer::directory_bad(&input.directory, input.samples.len()))
}

fn set(j: &mut Judge, g: &mut Gen, twin: &Twin) -> Found {
    let mut a = twin.port.clone();
    let mut s = g.setting(&twin.layout);
    match g.r.below(4) {
        0 => s.ramp = g.r.pick(&[MAX_RAMP + 1, u32::MAX]),
        1 => spoil_node(&mut g.r, &mut a),
        _ => spoil(&mut g.r, &mut a),
    }
    let Err(mut refusal) = paper::set(&a, s.id, s.ramp) else { return Ok(()) };
    refusal = by_safe(j, Fault::UnreadSet, refusal, || paper::set(&without_safe(&a), s.id, s.ramp));
    let before = a.clone();
    let reply = mixer::set_param(a.plan, s.id, &s.values, s.ramp, &mut a.floats, &mut a.words);
    j.refusal("set_param", refusal, reply)?;
    kept(j, &before, &a)
}

/// An adoption from the plan itself, one side of it or the pairs or the ramp spoilt.
fn adopt(j: &mut Judge, g: &mut Gen, twin: &Twin) -> Found {
    let (mut new, mut old) = (twin.port.clone(), twin.port.clone());
    let n = twin.layout.nodes.len();
    let (mut pairs, mut ramp) = (g.pairs(n, n), g.ramp());
    for _ in 0..g.r.pick(&[1, 1, 2]) {
        match g.r.below(6) {
            0 => pairs.push(0),
            1 => ramp = g.r.pick(&[MAX_RAMP + 1, u32::MAX]),
            2 => spoil_node(&mut g.r, &mut new),
            3 => spoil_node(&mut g.r, &mut old),
            4 => spoil(&mut g.r, &mut new),
            _ => spoil(&mut g.r, &mut old),
        }
    }
    let Err(mut refusal) = paper::adopt(&new, &old, pairs.len(), ramp) else { return Ok(()) };
    refusal = by_safe(j, Fault::UnreadNew, refusal, || paper::adopt(&without_safe(&new), &old, pairs.len(), ramp));
    refusal = by_safe(j, Fault::UnreadOld, refusal, || paper::adopt(&new, &without_safe(&old), pairs.len(), ramp));
    let (before, old_before) = (new.clone(), old.clone());
    let reply = mixer::adopt(new.plan, &mut new.floats, &mut new.words, old.plan, &old.floats, &old.words, &pairs, ramp);
    j.refusal("adopt", refusal, reply)?;
    kept(j, &before, &new)?;
    kept(j, &old_before, &old)
}

/// The calls that read a plan: the trace of a slot and of all, the clean answer and the check.
fn trace(j: &mut Judge, g: &mut Gen, twin: &Twin) -> Found {
    let mut a = twin.port.clone();
    spoil(&mut g.r, &mut a);
    let slot = g.r.next() as u32 >> g.r.pick(&[0, 27, 28]);
    readers(j, &a, slot)
}

/// The answers of these readers, refused ones only, for areas and a slot of any kind.
fn readers(j: &mut Judge, a: &Areas, slot: u32) -> Found {
    let after = a.clone();
    let mut list = vec![0xabcd; 256];
    if let Err(refusal) = paper::trace(a, slot) {
        let reply = mixer::output_sources(a.plan, slot, &after.indices, &after.words, &after.steps, &mut list);
        j.refusal("output_sources", refusal, reply.status)?;
        same("count of a refused output_sources", &0, &reply.count)?;
        words("source list after a refusal", &[0xabcd; 256], &list)?;
    }
    if let Err(refusal) = paper::check(a, Lent::Trace) {
        j.refusal("all_sources", refusal, traced::refused(&after, 3, 3 * traced::PLACES)?)?;
    }
    if let Err(refusal) = paper::clean(a) {
        let reply = mixer::clean_answer(a.plan, &after.indices, &after.words, &after.steps);
        j.refusal("clean_answer", refusal, reply.status)?;
        same("clean answer", &CleanReply { status: reply.status, clean: false }, &reply)?;
    }
    if let Err(refusal) = paper::check(a, Lent::All) {
        let p = a.plan;
        let reply = mixer::check_plan(p, &after.indices, &after.coefficients, &after.floats, &after.words, &after.steps, &after.buffers);
        j.refusal("check_plan", refusal, reply)?;
    }
    kept(j, a, &after)
}

/// A part that is longer than the area for it.
fn lookup(j: &mut Judge, g: &mut Gen, twin: &Twin) -> Found {
    let input = g.input_block(&twin.layout);
    let Some(e) = input.directory.chunks(4).next() else { return Ok(()) };
    let found = paper::lookup(&input.directory, &input.samples, e[0], e[1]);
    if found.is_empty() {
        return Ok(());
    }
    let mut part = vec![7.5; found.len() - 1];
    let reply = mixer::lookup(&input.directory, &input.samples, e[0], e[1], &mut part);
    j.refusal("lookup", Status { number: 2, place: 0 }, reply.status)?;
    same("count of a refused lookup", &0, &reply.count)?;
    kept_answer(j, &part)
}
