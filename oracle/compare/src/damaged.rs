//! `oracle damaged`: good plans with one thing changed, or many. Number and place must be document 01's, and the areas of a refused plan
//! stay as they are; a plan that is still accepted must do what it does in the reference.
use crate::building::build;
use crate::judge::{floats, same, words, Fault, Found, Judge};
use crate::layouts::Gen;
use crate::mixer::{self, CleanReply, CountReply, Status};
use crate::ops::Input;
use crate::paper::{self, Lent, Tables};
use crate::plan::{Areas, Layout, Step, FLOATS, ID, SAFE, WORDS};
use crate::plans;
use crate::refused::{by_safe, kept, kept_answer, off, off32, process, without_safe};
use crate::twin::areas;
use crate::{rust, traced};
use reference::engine::plan::peek;

/// A source list for each slot.
type Lists = Vec<Vec<u16>>;

/// What is changed.
#[derive(Clone, Copy, Debug)]
enum Place {
    /// One of the record's seven numbers.
    Count(usize),
    /// The length of one of the six areas.
    Length(usize),
    Index(usize),
    NodeWord(usize),
    StepWord(usize),
    /// A whole step, for one that nobody has checked.
    Step(usize),
    /// A few words anywhere.
    Many,
}

/// Memory for the copies of one plan, used again for each.
#[derive(Default)]
struct Copies {
    port: Areas,
    want: Areas,
    output: Vec<f32>,
}

/// The case of a seed: a good plan in use, changed at every place in turn.
pub fn case(j: &mut Judge, seed: u64) -> Found {
    let mut g = Gen::new(seed);
    g.block = g.block.min(8); // longer ones only take time here
    let layout = g.layout(None);
    let mut twin = build(j, &mut g, layout)?;
    plans::one_round(j, &mut g, &mut twin)?;
    j.counts.plans += 1;
    let input = g.input_block(&twin.layout);
    let (mut a, mut copies) = (Areas::default(), Copies::default());
    for place in places(&twin.port, twin.layout.steps.len()) {
        for turn in 0..3 {
            a.copy(&twin.port);
            damage(&mut g, &twin.layout, &mut a, place);
            j.counts.safes.damaged_run += other_safe(&twin.port, &a, place) as u64;
            judge(j, &mut g, &a, &input, &mut copies).map_err(|e| format!("{place:?}, turn {turn}: {e}"))?;
        }
    }
    Ok(())
}

/// Whether a node was made safe, or is so no longer.
fn other_safe(before: &Areas, a: &Areas, place: Place) -> bool {
    matches!(place, Place::NodeWord(i) if i % WORDS == SAFE && a.words[i] != before.words[i] && a.words[i] <= paper::MAX_SAFE)
}

fn places(a: &Areas, steps: usize) -> Vec<Place> {
    let p = &a.plan;
    let mut all: Vec<Place> = (0..7).map(Place::Count).collect();
    all.extend((0..6).map(Place::Length));
    all.extend((0..p.indices).map(Place::Index));
    all.extend((0..WORDS * p.nodes).map(Place::NodeWord));
    all.extend((0..p.words).map(Place::StepWord));
    all.extend((0..steps).map(Place::Step));
    all.extend([Place::Many; 10]);
    all
}

fn damage(g: &mut Gen, l: &Layout, a: &mut Areas, place: Place) {
    let r = &mut g.r;
    match place {
        Place::Count(i) => {
            let p = &mut a.plan;
            let counts = [&mut p.block, &mut p.buffers, &mut p.indices, &mut p.coefficients, &mut p.nodes, &mut p.steps, &mut p.words];
            let limit = [paper::MAX_BLOCK, 256, 1024, 1024, 64, 512, 4096][i];
            let count = counts.into_iter().nth(i).unwrap();
            let (near, other) = (off(r, *count), off(r, limit));
            *count = r.pick(&[near, near, other, limit]);
        }
        Place::Length(i) => length(g, a, i),
        Place::Index(i) => a.indices[i] = off32(r, a.indices[i]),
        Place::NodeWord(i) => {
            let other = a.word(r.below(a.plan.nodes), ID);
            let near = off32(r, a.words[i]);
            a.words[i] = r.pick(&[near, near, other, 1, 2, 24, 25, paper::MAX_RAMP, paper::MAX_RAMP + 1]);
        }
        Place::StepWord(i) => {
            let near = off32(r, a.steps[i]);
            let edge = [7, 248, 2296, 192, 1016, 1072, 255, 256, 31, 32, a.plan.buffers as u32, a.plan.indices as u32, a.plan.nodes as u32];
            a.steps[i] = if r.percent(60) { near } else { r.pick(&edge) };
        }
        Place::Step(i) => step(g, l, a, i),
        Place::Many => (0..g.r.range(2, 6)).for_each(|_| many(g, a)),
    }
}

/// One entry less than the plan counts, none, or one more than there are.
fn length(g: &mut Gen, a: &mut Areas, i: usize) {
    let p = a.plan;
    let need = [p.indices, p.coefficients, FLOATS * p.nodes, WORDS * p.nodes, p.words, p.buffers * p.block][i];
    let there = [a.indices.len(), a.coefficients.len(), a.floats.len(), a.words.len(), a.steps.len(), a.buffers.len()][i];
    let len = g.r.pick(&[need.saturating_sub(1), 0, need, there + 1]);
    match i {
        0 => a.indices.resize(len, 0),
        1 => a.coefficients.resize(len, 0.0),
        2 => a.floats.resize(len, 0.0),
        3 => a.words.resize(len, 0),
        4 => a.steps.resize(len, 0),
        _ => a.buffers.resize(len, 0.0),
    }
}

/// Another step in the place of step i, with fields in and around its tables.
fn step(g: &mut Gen, l: &Layout, a: &mut Areas, i: usize) {
    let t = Tables { buffers: l.buffers, index: &l.index, coefficients: l.coefficients.len(), nodes: l.nodes.len() };
    let mut steps = l.steps.clone();
    steps[i] = g.any_step(&t);
    let records: Vec<u32> = steps.iter().flat_map(|s| s.record()).collect();
    a.plan.words = records.len();
    a.steps.resize(records.len().max(a.steps.len()), 0);
    a.steps[..records.len()].copy_from_slice(&records);
}

fn many(g: &mut Gen, a: &mut Areas) {
    let r = &mut g.r;
    let list = match r.below(6) {
        0 => &mut a.indices,
        1 => &mut a.words,
        _ => &mut a.steps,
    };
    let at = r.below(list.len());
    if let Some(word) = list.get_mut(at) {
        *word = off32(r, *word);
    }
}

/// All calls that check a plan, on one.
fn judge(j: &mut Judge, g: &mut Gen, a: &Areas, input: &Input, copies: &mut Copies) -> Found {
    j.counts.damaged += 1;
    let whole = paper::check(a, Lent::All);
    let got = mixer::check_plan(a.plan, &a.indices, &a.coefficients, &a.floats, &a.words, &a.steps, &a.buffers);
    match &whole {
        Ok(_) => accepted(j, "check_plan", got)?,
        Err(s) => refusal(j, "check_plan", *s, got)?,
    }
    let lists = run(j, g, a, whole, input, copies)?;
    let slot = g.slot() + g.r.pick(&[0, 0, 1]);
    all_sources(j, a, &lists)?;
    sources(j, a, slot, lists)?;
    let reply = mixer::clean_answer(a.plan, &a.indices, &a.words, &a.steps);
    match paper::clean(a) {
        Ok(clean) => {
            accepted(j, "clean_answer", reply.status)?;
            same("clean answer", &CleanReply { status: Status::default(), clean }, &reply)
        }
        Err(s) => {
            refusal(j, "clean_answer", s, reply.status)?;
            same("refused clean answer", &false, &reply.clean)
        }
    }
}

fn accepted(j: &mut Judge, call: &str, port: Status) -> Found {
    let taken = if j.plants(Fault::DamagedTaken) { Status { number: 4, place: 1 } } else { Status::default() };
    j.counts.accepted += 1;
    j.counts.calls += 1;
    same(call, &taken, &port)
}

fn refusal(j: &mut Judge, call: &str, mut reference: Status, port: Status) -> Found {
    if j.plants(Fault::DamagedNumber) {
        reference.number = 1 + reference.number % 17;
    }
    if j.plants_if(reference.place > 1, Fault::DamagedPlace) {
        reference.place -= 1;
    }
    j.refusal(call, reference, port)
}

/// A run; where the plan is accepted, the reference's source lists of it.
fn run(
    j: &mut Judge,
    g: &mut Gen,
    a: &Areas,
    whole: paper::Answer<Vec<Step>>,
    input: &Input,
    copies: &mut Copies,
) -> Result<Option<Lists>, String> {
    copies.port.copy(a);
    copies.output.clear();
    let need = paper::run(a, &input.directory, input.samples.len(), usize::MAX);
    copies.output.resize(need.unwrap_or(3) + g.r.pick(&[0, 1]), 7.5);
    let reply = process(&mut copies.port, input, &mut copies.output);
    match (need, whole) {
        (Ok(count), Ok(steps)) => {
            same("count of samples", &count, &reply.count)?;
            accepted(j, "process", reply.status)?;
            ran(j, a, &steps, input, copies).map(Some)
        }
        (need, _) => {
            let without = || paper::run(&without_safe(a), &input.directory, input.samples.len(), usize::MAX);
            let status = by_safe(j, Fault::DamagedSafe, need.err().unwrap_or_default(), without);
            refusal(j, "process", status, reply.status)?;
            same("count of a refused process", &0, &reply.count)?;
            kept(j, a, &copies.port)?;
            kept_answer(j, &copies.output)?;
            Ok(None)
        }
    }
}

/// What a run of an accepted plan has left in the port's copies, and the reference's own run of it.
fn ran(j: &mut Judge, a: &Areas, steps: &[Step], input: &Input, copies: &mut Copies) -> Result<Lists, String> {
    let mut rust = rust::from_areas(a, steps);
    let mut expected = rust::process(&mut rust, &input.directory, &input.samples);
    j.counts.blocks += 1;
    j.counts.samples += expected.len() as u64;
    j.counts.patched.run(steps, input, a.plan.block);
    expected.resize(copies.output.len(), 7.5);
    floats("output", &expected, &copies.output)?;
    let want = &mut copies.want;
    want.copy(a);
    rust::nodes_to(&rust.nodes, &mut want.floats, &mut want.words);
    want.buffers[..a.plan.buffers * a.plan.block].copy_from_slice(peek::buffers(&rust));
    areas(want, &copies.port)?;
    Ok(rust.output_sources)
}

/// The lists of all slots.
fn all_sources(j: &mut Judge, a: &Areas, lists: &Option<Lists>) -> Found {
    match (paper::check(a, Lent::Trace), lists) {
        (Err(s), _) => refusal(j, "all_sources", s, traced::refused(a, 3, 3 * traced::PLACES)?),
        (Ok(_), Some(lists)) => traced::all(j, a, lists),
        (Ok(steps), None) => traced::all(j, a, &rust::sources(a, &steps)),
    }
}

/// The list of a slot. The trace is lent fewer areas than the run, so it may accept a plan that the run refuses.
fn sources(j: &mut Judge, a: &Areas, slot: u32, lists: Option<Lists>) -> Found {
    let mut list = vec![0xabcd; 257];
    let reply = mixer::output_sources(a.plan, slot, &a.indices, &a.words, &a.steps, &mut list);
    match paper::trace(a, slot) {
        Err(s) => {
            refusal(j, "output_sources", s, reply.status)?;
            same("count of a refused output_sources", &0, &reply.count)?;
            words("source list after a refusal", &[0xabcd; 257], &list)
        }
        Ok(steps) => {
            let lists = lists.unwrap_or_else(|| rust::sources(a, &steps));
            let mut expected = lists[slot as usize].clone();
            j.counts.lists += 1;
            accepted(j, "output_sources", reply.status)?;
            same("source list", &CountReply { count: expected.len(), ..CountReply::default() }, &reply)?;
            expected.resize(257, 0xabcd);
            words("source list", &expected, &list)
        }
    }
}
