//! Document 01's checks, written from its words a second time: the first fault in its order answers. Nothing here is taken from the port's code.
//! Where the words leave room (whose words end where, which nodes are lent), docs/DECISIONS.md, points 1 to 8, 12, is followed. The channel lookup
//! goes by request C-11, an insert's own tests by request C-12, a node's safe by request C-13, a fold with a table by request C-14 (paper/folds.rs).
mod folds;

pub use folds::{own_fault, width_with};

use crate::judge::Fault;
use crate::mixer::{InsertPoint, Plan, Span, Status};
use crate::plan::{Areas, Step, FLOATS, ID, LEFT, LEN, SAFE, VALUES, WORDS};

pub const MAX_BLOCK: usize = 1024;
pub const MAX_BUFFERS: usize = 256;
pub const MAX_INDICES: usize = 1024;
pub const MAX_COEFFICIENTS: usize = 1024;
pub const MAX_NODES: usize = 64;
pub const MAX_STEPS: usize = 512;
pub const MAX_ENTRIES: usize = 512;
pub const MAX_RAMP: u32 = 16_777_216;
pub const MAX_SAFE: u32 = 1;
pub const INPUTS: u32 = 256;
pub const SLOTS: u32 = 32;

pub type Answer<T> = Result<T, Status>;

/// A refusal whose place is 0.
pub fn refused<T>(number: u32) -> Answer<T> {
    Err(Status { number, place: 0 })
}

pub fn test(fault: bool, number: u32) -> Answer<()> {
    if fault {
        return refused(number);
    }
    Ok(())
}

/// Which areas a call is lent: all of them, or those that the trace and the clean answer read.
#[derive(Clone, Copy, PartialEq)]
pub enum Lent {
    All,
    Trace,
}

/// What a step may name.
pub struct Tables<'a> {
    pub buffers: usize,
    pub index: &'a [u32],
    pub coefficients: usize,
    pub nodes: usize,
}

/// An area of `len` entries is shorter than `count` times `each`.
fn short(len: usize, count: usize, each: usize) -> bool {
    (len as u128) < count as u128 * each as u128
}

fn short_area(a: &Areas, lent: Lent) -> bool {
    let p = &a.plan;
    let read = short(a.indices.len(), p.indices, 1) || short(a.words.len(), p.nodes, WORDS) || short(a.steps.len(), p.words, 1);
    let rest = short(a.coefficients.len(), p.coefficients, 1)
        || short(a.floats.len(), p.nodes, FLOATS)
        || short(a.buffers.len(), p.buffers, p.block);
    read || (lent == Lent::All && rest)
}

fn over_limit(p: &Plan) -> bool {
    p.buffers > MAX_BUFFERS || p.indices > MAX_INDICES || p.coefficients > MAX_COEFFICIENTS || p.nodes > MAX_NODES || p.steps > MAX_STEPS
}

pub fn id_twice(words: &[u32], nodes: usize) -> bool {
    let id = |i: usize| words[WORDS * i + ID];
    (0..nodes).any(|i| (0..i).any(|j| id(i) == id(j)))
}

/// The plan check. Where it accepts, the steps.
pub fn check(a: &Areas, lent: Lent) -> Answer<Vec<Step>> {
    let p = &a.plan;
    test(p.block < 1 || p.block > MAX_BLOCK, 1)?;
    test(over_limit(p), 5)?;
    test(short_area(a, lent), 2)?;
    test(a.indices[..p.indices].iter().any(|b| *b as usize >= p.buffers), 4)?;
    test(id_twice(&a.words, p.nodes), 8)?;
    let tables = Tables { buffers: p.buffers, index: &a.indices[..p.indices], coefficients: p.coefficients, nodes: p.nodes };
    let (mut steps, mut words) = (Vec::new(), &a.steps[..p.words]);
    for i in 0..p.steps {
        let at = |number: u32| Status { number, place: i as u32 + 1 };
        let (step, rest) = read(words).ok_or(at(3))?;
        step_fault(&tables, &step).map_or(Ok(()), |n| Err(at(n)))?;
        steps.push(step);
        words = rest;
    }
    Ok(steps)
}

/// The step at the front of the words, and the words behind it; none where number 3 answers.
pub fn read(words: &[u32]) -> Option<(Step, &[u32])> {
    let map = *words.first()?;
    let fields = words[1..].get(..(map & 0x7ff).count_ones() as usize)?;
    let at = |i: usize| Span { start: fields[i], len: fields[i + 1] };
    let step = match map {
        7 => Step::Patch { input: fields[0], channel: fields[1], dst: fields[2] },
        248 => Step::Gain { node: fields[0], src: at(1), dst: at(3) },
        2296 => Step::Matrix { node: fields[0], src: at(1), dst: at(3) },
        192 => Step::Clear { dst: at(0) },
        1016 => Step::Send { node: fields[0], src: at(1), dst: at(3), weights: at(5) },
        1072 => Step::Output { src: at(0), slot: fields[2] },
        _ => return None,
    };
    Some((step, &words[1 + fields.len()..]))
}

fn product(a: Span, b: Span) -> u64 {
    a.len as u64 * b.len as u64
}

/// The number of a step's fault, of 4, 7 and 6 in this order.
pub fn step_fault(t: &Tables, s: &Step) -> Option<u32> {
    if outside(t, s) {
        return Some(4);
    }
    let buffers = |s: Span, n: usize| &t.index[s.start as usize..][..n];
    let (src, dst, used) = match *s {
        Step::Gain { src, dst, .. } => (src, dst, Some(src.len.min(dst.len) as usize)),
        Step::Matrix { src, dst, .. } | Step::Send { src, dst, .. } => (src, dst, None),
        _ => return None,
    };
    let values = match *s {
        Step::Gain { .. } => used.unwrap_or(0) as u64,
        Step::Matrix { .. } => product(src, dst),
        _ => 0,
    };
    if values > VALUES as u64 {
        return Some(7);
    }
    let from = buffers(src, used.unwrap_or(src.len as usize));
    let to = buffers(dst, used.unwrap_or(dst.len as usize));
    from.iter().any(|b| to.contains(b)).then_some(6)
}

fn outside(t: &Tables, s: &Step) -> bool {
    let past = |s: Span, count: usize| s.start as u64 + s.len as u64 > count as u64;
    let indices = |s: Span| past(s, t.index.len());
    let node = |n: u32| n as usize >= t.nodes;
    match *s {
        Step::Patch { input, dst, .. } => input >= INPUTS || dst as usize >= t.buffers,
        Step::Gain { node: n, src, dst } | Step::Matrix { node: n, src, dst } => node(n) || indices(src) || indices(dst),
        Step::Clear { dst } => indices(dst),
        Step::Send { node: n, src, dst, weights } => {
            let spans = indices(src) || indices(dst) || past(weights, t.coefficients);
            node(n) || spans || product(src, dst) > weights.len as u64
        }
        Step::Output { src, slot } => indices(src) || slot >= SLOTS,
    }
}

/// Number 14: a node whose len, left or safe is too large.
pub fn bad_node(words: &[u32], nodes: usize) -> bool {
    words[..WORDS * nodes].chunks(WORDS).any(|w| w[LEN] as usize > VALUES || w[LEFT] > MAX_RAMP || w[SAFE] > MAX_SAFE)
}

/// The pairs (new, old) but those whose new node is safe. The others that an adoption skips, the reference skips itself.
pub fn not_safe(new: &Areas, pairs: &[u32]) -> Vec<u32> {
    pairs.chunks_exact(2).filter(|p| !new.is_safe(p[0])).flatten().copied().collect()
}

/// Number 12.
pub fn bad_directory(directory: &[u32], samples: usize) -> bool {
    let past = |e: &[u32]| e[2] as u64 + e[3] as u64 > samples as u64;
    directory.len() % 4 != 0 || directory.len() > 4 * MAX_ENTRIES || directory.chunks(4).any(past)
}

/// A channel's part of the samples, by the last entry for it.
pub fn lookup<'a>(directory: &[u32], samples: &'a [f32], input: u32, channel: u32) -> &'a [f32] {
    let entry = directory.chunks_exact(4).rfind(|e| e[0] == input && e[1] == channel);
    entry.map_or(&[], |e| &samples[e[2] as usize..][..e[3] as usize])
}

fn output_samples(steps: &[Step], block: usize) -> usize {
    let channels = |s: &Step| if let Step::Output { src, .. } = s { src.len as usize } else { 0 };
    steps.iter().map(channels).sum::<usize>() * block
}

/// A run's answer: how many samples it appends to the output area.
pub fn run(a: &Areas, directory: &[u32], samples: usize, output: usize) -> Answer<usize> {
    let steps = check(a, Lent::All)?;
    test(bad_node(&a.words, a.plan.nodes), 14)?;
    test(bad_directory(directory, samples), 12)?;
    let need = output_samples(&steps, a.plan.block);
    test(output < need, 13)?;
    Ok(need)
}

fn nodes_short(a: &Areas) -> bool {
    short(a.floats.len(), a.plan.nodes, FLOATS) || short(a.words.len(), a.plan.nodes, WORDS)
}

pub fn set(a: &Areas, id: u32, ramp: u32) -> Answer<()> {
    let n = a.plan.nodes;
    test(n > MAX_NODES, 5)?;
    test(nodes_short(a), 2)?;
    test(bad_node(&a.words, n), 14)?;
    test(id_twice(&a.words, n), 8)?;
    test(ramp > MAX_RAMP, 10)?;
    test(!(0..n).any(|i| a.word(i, ID) == id), 9)
}

pub fn adopt(new: &Areas, old: &Areas, pairs: usize, ramp: u32) -> Answer<()> {
    test(new.plan.nodes > MAX_NODES || old.plan.nodes > MAX_NODES, 5)?;
    test(nodes_short(new) || nodes_short(old), 2)?;
    test(pairs % 2 != 0, 11)?;
    test(bad_node(&new.words, new.plan.nodes) || bad_node(&old.words, old.plan.nodes), 14)?;
    test(ramp > MAX_RAMP, 10)
}

/// How many slots have a list: up to the highest one that an Output names.
pub fn slots(steps: &[Step]) -> u32 {
    let slot = |s: &Step| if let Step::Output { slot, .. } = s { slot + 1 } else { 0 };
    steps.iter().map(slot).max().unwrap_or(0)
}

/// The trace's answer up to number 15; whether the list fits is for the caller, who knows its length.
pub fn trace(a: &Areas, slot: u32) -> Answer<Vec<Step>> {
    let steps = check(a, Lent::Trace)?;
    test(slot >= slots(&steps), 15)?;
    Ok(steps)
}

/// The clean answer.
pub fn clean(a: &Areas) -> Answer<bool> {
    let steps = check(a, Lent::Trace)?;
    let mut written = vec![false; a.plan.buffers];
    let all = |s: Span| a.indices[s.start as usize..][..s.len as usize].to_vec();
    let mut clean = true;
    for s in steps {
        let (reads, writes) = match s {
            Step::Patch { dst, .. } => (vec![], vec![dst]),
            Step::Gain { src, dst, .. } | Step::Matrix { src, dst, .. } => (all(src), all(dst)),
            Step::Clear { dst } => (vec![], all(dst)),
            Step::Send { src, dst, .. } => ([all(src), all(dst)].concat(), vec![]),
            Step::Output { src, .. } => (all(src), vec![]),
        };
        let longer = matches!(s, Step::Gain { src, dst, .. } if dst.len > src.len);
        clean &= !longer && reads.iter().all(|b| written[*b as usize]);
        writes.iter().for_each(|b| written[*b as usize] = true);
    }
    Ok(clean)
}

/// The channels of the formats.
const CHANNELS: [usize; 7] = [1, 2, 3, 6, 8, 10, 12];

/// What an insert of a format that there is adds to each count.
pub fn insert_growth(i: &InsertPoint) -> Plan {
    let n = CHANNELS[i.format as usize];
    if i.returns {
        return Plan { block: 0, buffers: 6 * n, indices: 6 * n, coefficients: n * n, nodes: 6, steps: n + 8, words: 4 * n + 47 };
    }
    Plan { block: 0, buffers: n, indices: n, coefficients: 0, nodes: 1, steps: 2, words: 10 }
}

/// A count and what is added to it, where anything is, are above a limit.
fn over(count: usize, more: usize, limit: usize) -> bool {
    more > 0 && count as u128 + more as u128 > limit as u128
}

/// A count is above its limit by what an insert adds.
pub fn insert_over(p: &Plan, more: &Plan, wrong: Option<Fault>) -> bool {
    let tables = over(p.buffers, more.buffers, MAX_BUFFERS)
        || over(p.indices, more.indices, MAX_INDICES)
        || over(p.coefficients, more.coefficients, MAX_COEFFICIENTS);
    let nodes = more.nodes - (wrong == Some(Fault::InsertNodes)) as usize;
    tables || over(p.nodes, nodes, MAX_NODES) || over(p.steps, more.steps, MAX_STEPS)
}

/// The tests of an insert, one of them asked as a planted fault asks it.
pub fn insert(a: &Areas, i: &InsertPoint, wrong: Option<Fault>) -> Answer<()> {
    let p = &a.plan;
    test(i.format > 6, 16)?;
    let n = CHANNELS[i.format as usize];
    let last = i.back.channel as u64 + n as u64 - 1;
    let far = last > u32::MAX as u64 && wrong != Some(Fault::InsertLast);
    test(i.returns && (i.back.input == 0 || i.back.channel == 0 || far), 18)?;
    let more = insert_growth(i);
    let listed = p.indices as u128 + if wrong == Some(Fault::InsertGrown) { more.indices as u128 } else { 0 };
    test(i.src.start as u128 + i.src.len as u128 > listed, 4)?;
    test(insert_over(p, &more, wrong), 5)?;
    let lists = over(p.indices, more.indices, a.indices.len()) || over(p.coefficients, more.coefficients, a.coefficients.len());
    let nodes = p.nodes + more.nodes;
    let short_nodes = short(a.floats.len(), nodes, FLOATS) || short(a.words.len(), nodes, WORDS);
    test(lists || short_nodes || over(p.words, more.words, a.steps.len()), 2)?;
    let new = [i.ids.send, i.ids.ret, i.ids.dry, i.ids.wet, i.ids.dryin, i.ids.wetin];
    let used = |id: &u32| (0..p.nodes).any(|k| a.word(k, ID) == *id);
    let again = (0..more.nodes).any(|k| new[..k].contains(&new[k])) && wrong != Some(Fault::InsertIds);
    test(new[..more.nodes].iter().any(used) || again, 8)?;
    test(i.ramp > MAX_RAMP, 10)
}

/// What the plan check finds after an insert on a plan of so many steps that it accepts, in areas that are long enough: a place past the steps that were
/// there, always with 4.
pub fn insert_found(steps: usize, i: &InsertPoint) -> Answer<()> {
    let n = CHANNELS[i.format as usize];
    let found = [
        (i.slot >= SLOTS, steps + 2),
        (i.returns && i.back.input > INPUTS, steps + 3),
        (i.returns && i.src.len as usize > n, steps + n + 7),
    ];
    match found.iter().find(|f| f.0) {
        Some((_, place)) => Err(Status { number: 4, place: *place as u32 }),
        None => Ok(()),
    }
}
