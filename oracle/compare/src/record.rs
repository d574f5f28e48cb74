//! `oracle record FILE`: a sample of the reference's answers as a file, small enough to be kept with the port, whose program `replay` runs it.
//! A case is taken where it reaches something that was not reached often enough yet, so that few cases reach everything on the lists of `branches.rs`,
//! `entries.rs`, `recorded_inserts.rs`, `recorded_safe.rs`, `recorded_tables.rs` and `recorded_refusals.rs`.
use crate::branches::{long, often, BRANCHES, LIMITS};
use crate::entries::{LOOKUP, PATCH};
use crate::layouts::Gen;
use crate::plan::Layout;
use crate::recorded::{Case, Held};
use crate::recorded_inserts::INSERTS;
use crate::recorded_safe::{REFUSED_FOR_SAFE, SAFE_NODES};
use crate::tape::{Kind, Tape, LONGEST};
use crate::{recorded_folds, recorded_inserts, recorded_refusals, recorded_safe, recorded_tables};
use std::collections::BTreeMap;

/// Plans of seeds from 1 on are tried.
const SEEDS: u64 = 300_000;
/// How often each branch and each refusal of a call is to be reached.
const TIMES: u32 = 4;
/// How many plans have their builder calls recorded.
const BUILDS: u32 = 8;
/// The lists of all slots are taken of a plan of at most this many slots, and of the plan at the limits.
const SLOTS: usize = 4;

const BLOCKS: [usize; 15] = [1, 1, 2, 3, 4, 5, 7, 8, 15, 16, 17, 24, 33, 40, 1024];

#[derive(Default)]
struct Recorder {
    tape: Tape,
    reached: BTreeMap<&'static str, u32>,
    refused: BTreeMap<(Kind, u32), u32>,
    kinds: BTreeMap<Kind, u32>,
    builds: u32,
    plans: u32,
}

/// A plan that costs little room, whose areas the program can lend.
fn small(l: &Layout) -> bool {
    let samples = l.buffers.max(l.output_channels()) * l.block;
    let few = samples <= 200 || (l.block == 1024 && samples <= 2048);
    let inserts = l.inserts().count();
    let tables = l.nodes.len() <= 3 + 4 * inserts && l.coefficients.len() <= 16 + 4 * inserts && l.index.len() <= 30 + 6 * inserts;
    few && tables && inserts < 3 && l.steps.len() <= 14 + 10 * inserts
}

impl Recorder {
    /// Takes the records of a case.
    fn take(&mut self, c: &Case) {
        for r in &c.records {
            self.tape.push(r);
            *self.kinds.entry(r.kind).or_default() += 1;
            if r.status.number > 0 {
                *self.refused.entry((r.kind, r.status.number)).or_default() += 1;
            }
        }
        for name in &c.reached {
            *self.reached.entry(name).or_default() += 1;
        }
    }

    /// Adds the lists of all slots to a case, where they are wanted.
    fn all_lists(&self, c: &mut Case, h: &Held, more: usize) {
        let mut all = Case::default();
        all.all_lists(h, more);
        if self.wanted(&all) {
            c.join(all);
        }
    }

    /// Whether a case reaches something that was not reached often enough. One that has what takes much room must be wanted for that.
    fn wanted(&self, c: &Case) -> bool {
        let wanted = |name: &&str| self.reached.get(name).copied().unwrap_or(0) < often(name, TIMES);
        let mut long = c.reached.iter().filter(|name| long(name)).peekable();
        c.reached.iter().any(wanted) && (long.peek().is_none() || long.any(wanted))
    }

    /// Takes those of the records whose call has not been refused with their number often enough.
    fn take_refused(&mut self, mut c: Case) {
        c.records.retain(|r| r.areas.iter().all(|a| a.len() <= LONGEST));
        for r in std::mem::take(&mut c.records) {
            let number = r.status.number;
            let times = if number == 0 { self.kinds.get(&r.kind) } else { self.refused.get(&(r.kind, number)) };
            if times.map_or(true, |n| *n < TIMES) {
                self.take(&Case { records: vec![r], reached: Vec::new() });
            }
        }
    }

    /// The case of a seed: a plan, built, traced, set and run, then one that adopts it, and calls that are refused.
    fn plan(&mut self, seed: u64) {
        let mut g = Gen::new(seed);
        g.block = g.r.pick(&BLOCKS);
        let Some((mut c, mut h)) = self.built(&mut g, None) else { return };
        rounds(&mut c, &mut g, &mut h);
        if g.r.percent(50) {
            let Some((more, mut new)) = self.built(&mut g, Some(&h.layout)) else { return };
            c.join(more);
            let (pairs, ramp) = (g.pairs(new.layout.nodes.len(), h.layout.nodes.len()), g.ramp());
            c.adopt(&mut new, &mut h, &pairs, ramp);
            rounds(&mut c, &mut g, &mut new);
        }
        let fits = |a: &Vec<u32>| a.len() <= LONGEST;
        if self.wanted(&c) && c.records.iter().all(|r| r.areas.iter().all(fits)) {
            self.plans += 1;
            self.builds += 1;
            self.take(&c);
        }
        let mut c = Case::default();
        (0..6).for_each(|_| recorded_refusals::some(&mut c, &mut g, &h));
        self.take_refused(c);
        self.inserts(&mut g, &h);
        self.safes(&mut g, &h);
    }

    /// An insert on a record of its own, and one on a plan that was run, with the check after it.
    fn inserts(&mut self, g: &mut Gen, h: &Held) {
        let (mut own, mut after) = (Case::default(), Case::default());
        recorded_inserts::alone(&mut own, g);
        recorded_inserts::checked(&mut after, g, h);
        for c in [own, after] {
            if c.reached.is_empty() {
                self.take_refused(c);
            } else if self.wanted(&c) {
                self.take(&c);
            }
        }
    }

    /// Calls that are refused for a safe above 1, while there are not enough of them.
    fn safes(&mut self, g: &mut Gen, h: &Held) {
        if !self.wanted(&Case { records: Vec::new(), reached: REFUSED_FOR_SAFE.to_vec() }) {
            return;
        }
        for c in recorded_safe::refused(g, h) {
            if self.wanted(&c) {
                self.take(&c);
            }
        }
    }

    /// A plan and its trace; the builder calls only where there are not enough of them yet.
    fn built(&self, g: &mut Gen, like: Option<&Layout>) -> Option<(Case, Held)> {
        let layout = g.layout(like);
        if !small(&layout) {
            return None;
        }
        let mut c = Case::default();
        let h = c.build(g, layout);
        if self.builds >= BUILDS {
            c.records.retain(|r| r.kind == Kind::CheckPlan);
            c.reached.clear();
        }
        c.trace(g, &h);
        if h.rust.output_sources.len() <= SLOTS {
            self.all_lists(&mut c, &h, g.r.pick(&[0, 2]));
        }
        Some((c, h))
    }

    /// The first plan of a seed that is at every limit, with a block of one sample: traced, set once, run once, and refused for two directories. Its
    /// builder calls take too much room.
    fn largest(&mut self) {
        for seed in 1..=SEEDS {
            let mut g = Gen::new(seed);
            g.block = 1;
            let layout = g.layout(None);
            let mut c = Case::default();
            let mut h = c.build(&mut g, layout);
            c.records.retain(|r| r.kind == Kind::CheckPlan);
            c.reached.clear();
            c.trace(&mut g, &h);
            c.all_lists(&h, 2);
            let (setting, input) = (g.setting(&h.layout), g.input_block(&h.layout));
            c.set(&mut h, &setting);
            c.run(&mut h, &input, 2);
            recorded_refusals::directories(&mut c, &h, &input.samples);
            if LIMITS.iter().all(|name| c.reached.contains(name)) {
                self.plans += 1;
                return self.take(&c);
            }
        }
    }

    /// What was not reached.
    fn missing(&self) -> Vec<String> {
        let names = BRANCHES.iter().chain(LIMITS).chain(INSERTS).chain(SAFE_NODES).chain(REFUSED_FOR_SAFE).chain(&PATCH).chain(&LOOKUP);
        let tables = recorded_tables::TAKEN.iter().chain(recorded_tables::REFUSED.iter().map(|refused| &refused.0));
        let branches = names.chain(tables).filter(|name| !self.reached.contains_key(*name)).map(|name| name.to_string());
        let all = recorded_refusals::REFUSALS.iter().flat_map(|(kind, numbers)| numbers.iter().map(move |n| (*kind, *n)));
        let refusals = all.filter(|r| !self.refused.contains_key(r)).map(|(kind, n)| format!("{kind:?} refused {n}"));
        branches.chain(refusals).collect()
    }
}

/// Settings, nodes that somebody else wrote, and blocks.
fn rounds(c: &mut Case, g: &mut Gen, h: &mut Held) {
    let most = if g.block > 40 { 1 } else { 3 };
    for _ in 0..g.r.range(1, most) {
        for _ in 0..g.r.pick(&[0, 1, 1, 2]) {
            let s = g.setting(&h.layout);
            c.set(h, &s);
        }
        if g.r.percent(15) && !h.layout.nodes.is_empty() {
            let p = g.node_poke(h.layout.nodes.len());
            c.poke(h, &p);
        }
        let input = g.input_block(&h.layout);
        c.run(h, &input, g.r.pick(&[0, 0, 1, 3]));
        c.lookup(g, &input);
    }
}

fn text(r: &Recorder) -> String {
    format!(
        "Answers of the Rust mixer (commit f575066b19) to calls of the plan engine, inserts and folds, for `replay`.
Made by `oracle record FILE`: the same bytes each time.
Plans are those of {} of the seeds 1 to {SEEDS}: where a branch is reached that fewer than {TIMES} cases had, and one at every limit.
Samples, nodes, buffers, lists, balances, roundings and folds by its laws are the Rust's. What it lacks is the oracle's: refusals, the check and
the clean answer by document 01, lookups by C-11, inserts' tests by C-12, safe by C-13, tables by C-14, other folds by rules.

After this text of 1,024 bytes: u32 words, the lowest byte first. Words 0 to 4: 5245504C (hex), version 5, words in all, records,
where the records start; before that the areas. A record: kind, length in words, refusal's number and place (0: accepted),
how many areas, start and length of each in words, then its numbers (crates/replay/src has each kind's).
Floats are their bits, all NaN 7FC00000; f64 and counts are two words, the lower one first.
",
        r.plans
    )
}

/// Writes the file, unless something was not reached.
pub fn write(path: &str) -> Result<String, String> {
    let mut r = Recorder::default();
    for seed in 1..=SEEDS {
        r.plan(seed);
    }
    r.largest();
    let mut c = Case::default();
    recorded_folds::all(&mut c, 1);
    r.take(&c);
    let mut c = Case::default();
    recorded_tables::all(&mut c, 1);
    r.take(&c);
    let mut c = Case::default();
    recorded_folds::refusals(&mut c, 1);
    r.take_refused(c);
    let missing = r.missing();
    if !missing.is_empty() {
        return Err(format!("nothing written; not reached: {}", missing.join("; ")));
    }
    for (name, n) in &r.reached {
        println!("{name}: {n}");
    }
    for ((kind, number), n) in &r.refused {
        println!("{kind:?} refused {number}: {n}");
    }
    let bytes = r.tape.file(&text(&r));
    std::fs::write(path, &bytes).map_err(|e| format!("{path}: {e}"))?;
    Ok(format!("{} records of {} plans, {} bytes", r.tape.records, r.plans, bytes.len()))
}
