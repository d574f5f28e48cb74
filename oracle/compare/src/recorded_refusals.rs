//! Records of calls that document 01 refuses: one thing of a good call is spoilt at random. The areas that the call must leave are those that it was lent.
use crate::branches::{FIVE_WORDS, MANY_ENTRIES};
use crate::layouts::Gen;
use crate::misbuilt;
use crate::mixer::Status;
use crate::ops::{Input, Setting};
use crate::paper::{self, Lent, MAX_ENTRIES, MAX_RAMP};
use crate::plan::{Areas, NodeCall, FLOATS, ID, WORDS};
use crate::recorded::{adoption_numbers, lent, run_areas, traced, Case, Held};
use crate::refused::{off, off32, spoil, spoil_directory, spoil_node};
use crate::rng::Rng;
use crate::tape::{bits, plan, size, Kind};

/// The numbers that each call can refuse with.
pub const REFUSALS: &[(Kind, &[u32])] = &[
    (Kind::New, &[1]),
    (Kind::Buffers, &[5, 2]),
    (Kind::Buffer, &[2]),
    (Kind::Coefficients, &[5, 2]),
    (Kind::Node, &[5, 2, 7, 8, 10, 14]),
    (Kind::Step, &[5, 2, 3, 7]),
    (Kind::Insert, &[16, 18, 4, 5, 2, 8, 10]),
    (Kind::Finish, &[1, 5, 2]),
    (Kind::CheckPlan, &[1, 5, 2, 4, 8, 3, 7, 6]),
    (Kind::SetParam, &[5, 2, 14, 8, 10, 9]),
    (Kind::Process, &[1, 5, 2, 4, 8, 3, 7, 6, 14, 12, 13]),
    (Kind::OutputSources, &[1, 5, 2, 4, 8, 3, 7, 6, 15]),
    (Kind::AllSources, &[1, 5, 2, 4, 8, 3, 7, 6]),
    (Kind::CleanAnswer, &[1, 5, 2, 4, 8, 3, 7, 6]),
    (Kind::Adopt, &[5, 2, 11, 14, 10]),
    (Kind::BalanceGains, &[17]),
    (Kind::BalanceOf, &[16, 17, 2]),
    (Kind::StereoMatrix, &[17]),
    (Kind::WidthMatrix, &[16, 17, 2]),
    (Kind::WidthMatrixWith, &[16, 17, 2, 19, 20, 21]),
];

/// Calls of every kind, those that are refused.
pub fn some(c: &mut Case, g: &mut Gen, h: &Held) {
    run(c, g, h);
    set(c, g, h);
    adopt(c, g, h);
    readers(c, g, h);
    builder(c, g, h);
}

/// One step alone, a Gain or a Matrix of more than 24 values, where the tables are long enough for it.
fn overfull(r: &mut Rng, a: &mut Areas) {
    let record = r.pick(&[[248, 0, 0, 25, 0, 25], [2296, 0, 0, 5, 0, 5], [2296, 0, 0, 1, 0, 25], [2296, 0, 0, 13, 0, 2]]);
    a.steps = record.to_vec();
    (a.plan.steps, a.plan.words) = (1, record.len());
}

fn spoil_plan(r: &mut Rng, a: &mut Areas) {
    match r.below(6) {
        0 => overfull(r, a),
        _ => spoil(r, a),
    }
}

fn run(c: &mut Case, g: &mut Gen, h: &Held) {
    let mut a = h.areas.clone();
    let mut input = g.input_block(&h.layout);
    let mut output = vec![7.5; h.layout.output_channels() * h.layout.block];
    match g.r.below(4) {
        0 | 1 => spoil_plan(&mut g.r, &mut a),
        2 => spoil_directory(g, &mut input),
        _ => drop(output.pop()),
    }
    let Err(status) = paper::run(&a, &input.directory, input.samples.len(), output.len()) else { return };
    refused_run(c, &a, &input, &output, status);
}

pub fn refused_run(c: &mut Case, a: &Areas, input: &Input, output: &[f32], status: Status) {
    let mut areas = run_areas(a, input, output);
    areas.extend([bits(&a.floats), a.words.clone(), bits(&a.buffers), bits(output)]);
    c.push(Kind::Process, status, areas, size(0).to_vec());
    if status.number == 12 {
        c.directory(input);
    }
}

/// Runs of a good plan over these samples, with a directory of one entry too many and with one of five words. Without what is too much, both
/// would be accepted.
pub fn directories(c: &mut Case, h: &Held, samples: &[f32]) {
    let entries: Vec<u32> = (0..=MAX_ENTRIES as u32).flat_map(|i| [i % 256, i / 256, 0, 1]).collect();
    let output = vec![7.5; h.layout.output_channels() * h.layout.block];
    for (name, good, len) in [(MANY_ENTRIES, 4 * MAX_ENTRIES, 4 * MAX_ENTRIES + 4), (FIVE_WORDS, 4, 5)] {
        let input = Input { directory: entries[..len].to_vec(), samples: samples.to_vec() };
        let run = |directory: &[u32]| paper::run(&h.areas, directory, samples.len(), output.len());
        let (Ok(_), Err(status)) = (run(&entries[..good]), run(&input.directory)) else { return };
        refused_run(c, &h.areas, &input, &output, status);
        c.reached.push(name);
    }
}

fn set(c: &mut Case, g: &mut Gen, h: &Held) {
    let mut a = h.areas.clone();
    let mut s = g.setting(&h.layout);
    match g.r.below(4) {
        0 => s.ramp = g.r.pick(&[MAX_RAMP + 1, u32::MAX]),
        1 => spoil_node(&mut g.r, &mut a),
        _ => spoil(&mut g.r, &mut a),
    }
    let Err(status) = paper::set(&a, s.id, s.ramp) else { return };
    refused_set(c, &a, &s, status);
}

pub fn refused_set(c: &mut Case, a: &Areas, s: &Setting, status: Status) {
    let (floats, words) = (bits(&a.floats), a.words.clone());
    let numbers = [&size(a.plan.nodes)[..], &[s.id, s.ramp]].concat();
    c.push(Kind::SetParam, status, vec![bits(&s.values), floats.clone(), words.clone(), floats, words], numbers);
}

/// An adoption from the plan itself, one side of it or the pairs or the ramp spoilt.
fn adopt(c: &mut Case, g: &mut Gen, h: &Held) {
    let (mut new, mut old) = (h.areas.clone(), h.areas.clone());
    let n = h.layout.nodes.len();
    let (mut pairs, mut ramp) = (g.pairs(n, n), g.ramp());
    match g.r.below(6) {
        0 => pairs.push(0),
        1 => ramp = g.r.pick(&[MAX_RAMP + 1, u32::MAX]),
        2 => spoil_node(&mut g.r, &mut new),
        3 => spoil_node(&mut g.r, &mut old),
        4 => spoil(&mut g.r, &mut new),
        _ => spoil(&mut g.r, &mut old),
    }
    let Err(status) = paper::adopt(&new, &old, pairs.len(), ramp) else { return };
    refused_adoption(c, &new, &old, pairs, ramp, status);
}

pub fn refused_adoption(c: &mut Case, new: &Areas, old: &Areas, pairs: Vec<u32>, ramp: u32, status: Status) {
    let (floats, words) = (bits(&new.floats), new.words.clone());
    let areas = vec![floats.clone(), words.clone(), bits(&old.floats), old.words.clone(), pairs, floats, words];
    c.push(Kind::Adopt, status, areas, adoption_numbers(&new.plan, &old.plan, ramp));
}

/// The trace, the clean answer and the check, of one spoilt plan.
fn readers(c: &mut Case, g: &mut Gen, h: &Held) {
    let mut a = h.areas.clone();
    spoil_plan(&mut g.r, &mut a);
    let slot = g.r.next() as u32 >> g.r.pick(&[0, 27, 28]);
    if let Err(status) = paper::trace(&a, slot) {
        let mut areas = traced(&a);
        areas.extend([vec![0xabcd; 3], vec![0xabcd; 3]]);
        c.push(Kind::OutputSources, status, areas, vec![slot, 0]);
    }
    if let Err(status) = paper::check(&a, Lent::Trace) {
        c.all_refused(&a, status, 2, 512);
    }
    if let Err(status) = paper::clean(&a) {
        c.push(Kind::CleanAnswer, status, traced(&a), vec![0]);
    }
    if let Err(status) = paper::check(&a, Lent::All) {
        c.push(Kind::CheckPlan, status, lent(&a), vec![]);
    }
}

/// Builder calls after the plan's own ones, on a record or areas that are spoilt.
fn builder(c: &mut Case, g: &mut Gen, h: &Held) {
    let a = misbuilt::spoilt(g, &h.areas);
    new(c, g);
    buffers(c, g, &a);
    coefficients(c, g, &a);
    node(c, g, a.clone());
    step(c, g, &a);
    finish(c, &a);
}

fn new(c: &mut Case, g: &mut Gen) {
    let block = g.r.pick(&[0, 1025, 1 << 40, usize::MAX]);
    let empty = crate::mixer::Plan { block, ..Default::default() };
    c.push(Kind::New, Status { number: 1, place: 0 }, vec![plan(&empty)], size(block).to_vec());
}

/// `buffers`, and `buffer` of an entry past the index list.
fn buffers(c: &mut Case, g: &mut Gen, a: &Areas) {
    let n = off(&mut g.r, 2);
    if let Err(status) = misbuilt::buffers(&a.plan, n, a.indices.len()) {
        let areas = vec![plan(&a.plan), plan(&a.plan), a.indices.clone(), a.indices.clone()];
        c.push(Kind::Buffers, status, areas, [&size(n)[..], &[0, 0]].concat());
    }
    let (start, len, i) = (off32(&mut g.r, 1), off32(&mut g.r, 1), off(&mut g.r, 1));
    let listed = &a.indices[..a.plan.indices.min(a.indices.len())];
    let there = (start as usize).checked_add(i).and_then(|at| listed.get(at));
    let status = there.map_or(Status { number: 2, place: 0 }, |_| Status::default());
    let numbers = [&[start, len][..], &size(i), &[there.copied().unwrap_or(0)]].concat();
    c.push(Kind::Buffer, status, vec![plan(&a.plan), a.indices.clone()], numbers);
}

fn coefficients(c: &mut Case, g: &mut Gen, a: &Areas) {
    let values = vec![1.5; g.r.pick(&[0, 1, 2, 30, 1025])];
    let Err(status) = misbuilt::coefficients(&a.plan, values.len(), a.coefficients.len()) else { return };
    let (p, area) = (plan(&a.plan), bits(&a.coefficients));
    c.push(Kind::Coefficients, status, vec![p.clone(), p, bits(&values), area.clone(), area], vec![0, 0]);
}

fn node(c: &mut Case, g: &mut Gen, mut a: Areas) {
    if g.r.percent(70) && a.plan.nodes < 8 {
        a.floats.resize(FLOATS * (a.plan.nodes + 1), 1.0);
        a.words.resize(WORDS * (a.plan.nodes + 1), 1);
    }
    let used = if a.plan.nodes > 0 { a.words.get(ID).copied() } else { None };
    let any = g.r.next() as u32;
    let id = g.r.pick(&[used.unwrap_or(0), any]);
    let values = vec![1.5; g.r.pick(&[0, 1, 24, 25])];
    let (ramp, safe) = (g.r.pick(&[0, MAX_RAMP, MAX_RAMP + 1, u32::MAX]), misbuilt::any_safe(&mut g.r));
    if let Err(status) = misbuilt::node(&a, id, values.len(), ramp, safe) {
        refused_node(c, &a, NodeCall { id, values, ramp, safe }, status);
    }
}

pub fn refused_node(c: &mut Case, a: &Areas, n: NodeCall, status: Status) {
    let (p, floats, words) = (plan(&a.plan), bits(&a.floats), a.words.clone());
    let areas = vec![p.clone(), p, bits(&n.values), floats.clone(), words.clone(), floats, words];
    c.push(Kind::Node, status, areas, vec![n.id, n.ramp, n.safe, 0]);
}

fn step(c: &mut Case, g: &mut Gen, a: &Areas) {
    let mut record = g.r.pick(&[[192, 0, 0, 9, 9, 9], [248, 0, 0, 25, 25, 25], [2296, 0, 0, 5, 5, 5], [1072, 0, 0, 0, 9, 9]]).to_vec();
    record.truncate(g.r.pick(&[0, 1, 2, 3, 6, 6, 6]));
    if !record.is_empty() && g.r.percent(40) {
        let at = g.r.below(record.len());
        record[at] = off32(&mut g.r, record[at]);
    }
    let mut a = a.clone();
    if g.r.percent(50) {
        a.steps.resize(a.steps.len() + 8, 5);
    }
    let Err(status) = misbuilt::step(&a.plan, &record, a.steps.len()) else { return };
    let p = plan(&a.plan);
    c.push(Kind::Step, status, vec![p.clone(), p, record, a.steps.clone(), a.steps], vec![]);
}

fn finish(c: &mut Case, a: &Areas) {
    let mut a = a.clone();
    if a.plan.buffers * (a.plan.block.min(2048)) == a.buffers.len() {
        a.buffers.pop();
    }
    let Err(status) = misbuilt::finish(&a.plan, a.buffers.len()) else { return };
    let (p, area) = (plan(&a.plan), bits(&a.buffers));
    c.push(Kind::Finish, status, vec![p.clone(), p, area.clone(), area], vec![]);
}
