//! Records of calls whose answers the reference gives: a plan is built, set, run, traced and adopted in it, and each call is written down.
use crate::branches;
use crate::entries::{Entries, LOOKUP};
use crate::inserts;
use crate::layouts::Gen;
use crate::mixer::{InsertPoint, Plan, Status};
use crate::ops::{Input, NodePoke, Setting};
use crate::paper;
use crate::plan::{Areas, Call, Layout, NodeCall, Step, SAFE, WORDS};
use crate::recorded_inserts;
use crate::recorded_safe;
use crate::rust::{self, PlanBuilder};
use crate::tape::{bits, plan, size, Kind, Record};
use crate::traced::PLACES;
use reference::engine::plan::peek;

/// A plan in the reference, and the areas that a caller of the port would have.
pub struct Held {
    pub layout: Layout,
    pub rust: rust::Plan,
    pub areas: Areas,
}

/// What a list's area holds before a call.
const FREE: u32 = 0xabcd;

/// The records of one case, and what they reach.
#[derive(Default)]
pub struct Case {
    pub records: Vec<Record>,
    pub reached: Vec<&'static str>,
}

impl Case {
    pub fn push(&mut self, kind: Kind, status: Status, areas: Vec<Vec<u32>>, numbers: Vec<u32>) {
        self.records.push(Record { kind, status, areas, numbers });
    }

    pub fn join(&mut self, other: Case) {
        self.records.extend(other.records);
        self.reached.extend(other.reached);
    }

    fn accepted(&mut self, kind: Kind, areas: Vec<Vec<u32>>, numbers: Vec<u32>) {
        self.push(kind, Status::default(), areas, numbers);
    }

    /// Builds a layout.
    pub fn build(&mut self, g: &mut Gen, layout: Layout) -> Held {
        let mut a = Areas::for_layout(&layout, g.r.pick(&[0, 1, 3]));
        let mut b = PlanBuilder::new(layout.block);
        a.plan = Plan { block: layout.block, ..Plan::default() };
        self.accepted(Kind::New, vec![plan(&a.plan)], size(layout.block).to_vec());
        for call in &layout.calls {
            match call {
                Call::Buffers(n) => self.buffers(g, &mut b, &mut a, *n),
                Call::Coefficients(values) => self.coefficients(&mut b, &mut a, values),
                Call::Node(n) => self.node(&mut b, &mut a, n),
                Call::Step(s) => self.step(&mut b, &mut a, s),
                Call::Insert(i) => self.insert(&mut b, &mut a, i),
                Call::Index(list) => {
                    peek::set_indices(&mut b, list);
                    a.indices[..list.len()].copy_from_slice(list);
                    a.plan.indices = list.len();
                }
            }
        }
        self.finish(b, a, layout)
    }

    fn buffers(&mut self, g: &mut Gen, b: &mut PlanBuilder, a: &mut Areas, n: usize) {
        let (before, was) = (plan(&a.plan), a.indices.clone());
        let span = b.buffers(n);
        let list = peek::indices(b);
        a.indices[..list.len()].copy_from_slice(list);
        a.plan.indices = list.len();
        a.plan.buffers = peek::buffer_count(b);
        let made = rust::span_back(span);
        let numbers = [&size(n)[..], &[made.start, made.len]].concat();
        self.accepted(Kind::Buffers, vec![before, plan(&a.plan), was, a.indices.clone()], numbers);
        let cut = g.r.below(n + 3);
        let first = rust::span_back(b.first(span, cut));
        self.accepted(Kind::First, vec![], vec![made.start, made.len, cut as u32, first.start, first.len]);
        if n > 0 {
            let i = g.r.below(n);
            let numbers = [&[made.start, made.len][..], &size(i), &[b.buffer(span, i)]].concat();
            self.accepted(Kind::Buffer, vec![plan(&a.plan), a.indices.clone()], numbers);
        }
    }

    fn coefficients(&mut self, b: &mut PlanBuilder, a: &mut Areas, values: &[f32]) {
        let (before, was) = (plan(&a.plan), bits(&a.coefficients));
        let span = b.coefficients(values);
        let list = peek::coefficients(b);
        a.coefficients[..list.len()].copy_from_slice(list);
        a.plan.coefficients = list.len();
        let areas = vec![before, plan(&a.plan), bits(values), was, bits(&a.coefficients)];
        self.accepted(Kind::Coefficients, areas, vec![span.start, span.len]);
    }

    fn node(&mut self, b: &mut PlanBuilder, a: &mut Areas, n: &NodeCall) {
        let (before, floats, words) = (plan(&a.plan), bits(&a.floats), a.words.clone());
        let number = b.node(n.id, &n.values, n.ramp);
        rust::nodes_to(peek::nodes(b), &mut a.floats, &mut a.words);
        a.plan.nodes = peek::nodes(b).len();
        a.words[WORDS * number as usize + SAFE] = n.safe;
        self.reached.extend((n.safe > 0).then_some(recorded_safe::BUILT));
        let areas = vec![before, plan(&a.plan), bits(&n.values), floats, words, bits(&a.floats), a.words.clone()];
        self.accepted(Kind::Node, areas, vec![n.id, n.ramp, n.safe, number]);
    }

    fn step(&mut self, b: &mut PlanBuilder, a: &mut Areas, s: &Step) {
        let (before, was, record) = (plan(&a.plan), a.steps.clone(), s.record());
        b.step(rust::step(s));
        let at = a.plan.words;
        a.steps[at..][..record.len()].copy_from_slice(&record);
        a.plan.words += record.len();
        a.plan.steps = peek::step_count(b);
        self.accepted(Kind::Step, vec![before, plan(&a.plan), record, was, a.steps.clone()], vec![]);
    }

    fn insert(&mut self, b: &mut PlanBuilder, a: &mut Areas, i: &InsertPoint) {
        let before = a.clone();
        let added = inserts::add(b, i);
        added.put(a);
        self.inserted(&before, a, i, added.span);
    }

    /// `finish` and the check.
    fn finish(&mut self, b: PlanBuilder, mut a: Areas, layout: Layout) -> Held {
        let was = bits(&a.buffers);
        let rust = b.finish();
        a.buffers[..layout.buffers * layout.block].copy_from_slice(peek::buffers(&rust));
        self.accepted(Kind::Finish, vec![plan(&a.plan), plan(&a.plan), was, bits(&a.buffers)], vec![]);
        self.push(Kind::CheckPlan, Status::default(), lent(&a), vec![]);
        Held { layout, rust, areas: a }
    }

    /// A setting; of an id that no node has, for which the reference answers false, where document 01 has number 9.
    pub fn set(&mut self, h: &mut Held, s: &Setting) {
        let (floats, words) = (bits(&h.areas.floats), h.areas.words.clone());
        let known = h.rust.set_param(s.id, &s.values, s.ramp);
        if known {
            self.reached.extend(branches::setting(&h.layout, &h.areas, s));
            self.reached.extend(recorded_inserts::setting(&h.layout, s.id));
            self.reached.extend(recorded_safe::setting(&h.areas, s.id));
        }
        rust::nodes_to(&h.rust.nodes, &mut h.areas.floats, &mut h.areas.words);
        let status = if known { Status::default() } else { Status { number: 9, place: 0 } };
        let areas = vec![bits(&s.values), floats, words, bits(&h.areas.floats), h.areas.words.clone()];
        self.push(Kind::SetParam, status, areas, [&size(h.areas.plan.nodes)[..], &[s.id, s.ramp]].concat());
    }

    /// One block, with `more` samples of the output area behind those that are written.
    pub fn run(&mut self, h: &mut Held, input: &Input, more: usize) {
        let before = h.areas.clone();
        let mut output = rust::process(&mut h.rust, &input.directory, &input.samples);
        let count = output.len();
        self.reached.extend(branches::run(&h.layout, &before, input, &output, more));
        self.reached.extend(recorded_inserts::run(&h.layout, &before, input));
        self.reached.extend(recorded_safe::run(&h.layout, &before));
        output.resize(count + more, 7.5);
        let a = &mut h.areas;
        rust::nodes_to(&h.rust.nodes, &mut a.floats, &mut a.words);
        a.buffers[..h.layout.buffers * h.layout.block].copy_from_slice(peek::buffers(&h.rust));
        let mut areas = run_areas(&before, input, &vec![7.5; output.len()]);
        areas.extend([bits(&a.floats), a.words.clone(), bits(&a.buffers), bits(&output)]);
        self.accepted(Kind::Process, areas, size(count).to_vec());
    }

    /// The source list of each slot that an Output names, and of the first one that none does, and the clean answer.
    pub fn trace(&mut self, g: &mut Gen, h: &Held) {
        let named = |slot: usize| h.layout.steps.iter().any(|s| matches!(s, Step::Output { slot: n, .. } if *n as usize == slot));
        let lists = &h.rust.output_sources;
        let unnamed = (0..lists.len()).find(|slot| !named(*slot));
        for slot in (0..lists.len()).filter(|slot| named(*slot)).chain(unnamed) {
            self.list(h, slot as u32, &lists[slot], g.r.pick(&[0, 1, 2]));
        }
        let clean = paper::clean(&h.areas).expect("a plan that the reference built");
        self.reached.push(if clean { "a clean plan" } else { "a plan that is not clean" });
        self.accepted(Kind::CleanAnswer, traced(&h.areas), vec![clean as u32]);
    }

    /// One list; number 2 for an area that is one entry short.
    fn list(&mut self, h: &Held, slot: u32, list: &[u16], more: usize) {
        let free = |n: usize| vec![FREE; n];
        let wide: Vec<u32> = list.iter().map(|i| *i as u32).collect();
        self.reached.extend(branches::list(&h.layout, slot, list));
        let mut areas = traced(&h.areas);
        areas.extend([free(list.len() + more), [wide, free(more)].concat()]);
        self.accepted(Kind::OutputSources, areas, vec![slot, list.len() as u32]);
        if let Some(n) = list.len().checked_sub(1) {
            let mut areas = traced(&h.areas);
            areas.extend([free(n), free(n)]);
            self.push(Kind::OutputSources, Status { number: 2, place: 0 }, areas, vec![slot, 0]);
        }
    }

    /// The lists of all slots from one call, and number 2 for each area that is one place short.
    pub fn all_lists(&mut self, h: &Held, more: usize) {
        let lists = &h.rust.output_sources;
        let (slots, places) = (lists.len(), PLACES * lists.len());
        let (mut counts, mut inputs) = (vec![FREE; slots + more], vec![FREE; places + more]);
        for (slot, list) in lists.iter().enumerate() {
            counts[slot] = list.len() as u32;
            list.iter().enumerate().for_each(|(i, input)| inputs[PLACES * slot + i] = *input as u32);
        }
        self.reached.extend(branches::lists(&h.layout, lists, more));
        let mut areas = traced(&h.areas);
        areas.extend([vec![FREE; counts.len()], vec![FREE; inputs.len()], counts, inputs]);
        self.accepted(Kind::AllSources, areas, vec![slots as u32]);
        if slots > 0 {
            self.reached.extend(["all lists, the counts' area one place short", "all lists, the lists' area one place short"]);
            self.all_refused(&h.areas, Status { number: 2, place: 0 }, slots - 1, places);
            self.all_refused(&h.areas, Status { number: 2, place: 0 }, slots, places - 1);
        }
    }

    /// `all_sources` refused, with so many places for counts and for inputs.
    pub fn all_refused(&mut self, a: &Areas, status: Status, slots: usize, places: usize) {
        let (counts, inputs) = (vec![FREE; slots], vec![FREE; places]);
        let mut areas = traced(a);
        areas.extend([counts.clone(), inputs.clone(), counts, inputs]);
        self.push(Kind::AllSources, status, areas, vec![0]);
    }

    /// This plan takes over nodes of an old one.
    pub fn adopt(&mut self, new: &mut Held, old: &mut Held, pairs: &[u32], ramp: u32) {
        let list = paper::not_safe(&new.areas, pairs);
        self.reached.extend(branches::adoption(&new.rust, &old.rust, &list, ramp));
        self.reached.extend(recorded_safe::adoption(&new.areas, &old.areas, pairs));
        self.reached.extend(recorded_safe::shown(new, old, pairs, ramp));
        let (n, o) = (&mut new.areas, &old.areas);
        let mut areas = vec![bits(&n.floats), n.words.clone(), bits(&o.floats), o.words.clone(), pairs.to_vec()];
        rust::adopt(&mut new.rust, &mut old.rust, &list, ramp);
        rust::nodes_to(&new.rust.nodes, &mut n.floats, &mut n.words);
        areas.extend([bits(&n.floats), n.words.clone()]);
        self.accepted(Kind::Adopt, areas, adoption_numbers(&n.plan, &o.plan, ramp));
    }

    /// The channel lookup, for a channel of the directory, and the directory's own test.
    pub fn lookup(&mut self, g: &mut Gen, input: &Input) {
        let asked = g.asked(input);
        self.reached.extend(Entries::new(input, asked, g.block).names(LOOKUP));
        let part = paper::lookup(&input.directory, &input.samples, asked[0], asked[1]);
        self.accepted(Kind::Lookup, vec![input.directory.clone(), bits(&input.samples), bits(part)], asked.to_vec());
        self.directory(input);
    }

    pub fn directory(&mut self, input: &Input) {
        let n = input.samples.len();
        let bad = paper::bad_directory(&input.directory, n) as u32;
        self.accepted(Kind::DirectoryBad, vec![input.directory.clone()], [&size(n)[..], &[bad]].concat());
    }

    /// A node whose areas somebody else wrote.
    pub fn poke(&mut self, h: &mut Held, n: &NodePoke) {
        n.put(&mut h.areas);
        rust::nodes_from(&mut h.rust, &h.areas.floats, &h.areas.words);
    }
}

/// The areas of the check.
pub fn lent(a: &Areas) -> Vec<Vec<u32>> {
    let floats = bits(&a.floats);
    vec![plan(&a.plan), a.indices.clone(), bits(&a.coefficients), floats, a.words.clone(), a.steps.clone(), bits(&a.buffers)]
}

/// The areas that a run is lent.
pub fn run_areas(a: &Areas, input: &Input, output: &[f32]) -> Vec<Vec<u32>> {
    let mut areas = lent(a);
    areas.extend([input.directory.clone(), bits(&input.samples), bits(output)]);
    areas
}

/// The areas that a trace is lent.
pub fn traced(a: &Areas) -> Vec<Vec<u32>> {
    vec![plan(&a.plan), a.indices.clone(), a.words.clone(), a.steps.clone()]
}

pub fn adoption_numbers(new: &Plan, old: &Plan, ramp: u32) -> Vec<u32> {
    [&size(new.nodes)[..], &size(old.nodes), &[ramp]].concat()
}
