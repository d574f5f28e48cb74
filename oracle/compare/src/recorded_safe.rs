//! Records of safe nodes: what the calls of a plan reach with them, and calls that are refused for a safe above 1.
use crate::adoptions::{named, Adopting, LISTS};
use crate::layouts::Gen;
use crate::misbuilt::{self, any_safe};
use crate::paper::{self, Answer, MAX_RAMP, MAX_SAFE};
use crate::plan::{Areas, Layout, NodeCall, FLOATS, ID, LEFT, SAFE, WORDS};
use crate::recorded::{Case, Held};
use crate::recorded_refusals::{refused_adoption, refused_node, refused_run, refused_set};

pub const BUILT: &str = "a safe node built";

/// Adoptions that would show each fault of `LISTS`.
const SHOWN: [&str; LISTS.len()] = [
    "an adoption that would show it if no pair were skipped",
    "an adoption that would show it if the old node's safe decided",
    "an adoption that would show it if the pairs of the nodes that are not safe were skipped",
    "an adoption that would show it if a safe node had the whole list skipped",
    "an adoption that would show it if the list ended at a safe node",
];

/// What plans, settings, runs and adoptions must show of safe nodes.
pub const SAFE_NODES: &[&str] = &[
    BUILT,
    "set, a safe node",
    "run, a safe node",
    "run, a safe node ramping",
    "adoption, a pair skipped before one that is taken",
    "adoption, a pair skipped behind one that is taken",
    "adoption, a safe node twice",
    "adoption, a safe node and an old one out of range",
    "adoption, a safe node and an old one of another len",
    "adoption, a node that takes over from a safe one",
    SHOWN[0],
    SHOWN[1],
    SHOWN[2],
    SHOWN[3],
    SHOWN[4],
];

/// Calls that are refused with 14 for a safe alone, and one that is refused with 10 before it.
pub const REFUSED_FOR_SAFE: &[&str] = &[
    "node refused, safe above 1",
    "node refused, a ramp that is too long, safe above 1 too",
    "set refused, safe above 1",
    "run refused, safe above 1",
    "run refused, safe above 1 of a node that no step uses",
    "adoption refused, safe above 1 of a new node",
    "adoption refused, safe above 1 of an old node",
];

fn those(when: &[(bool, &'static str)]) -> Vec<&'static str> {
    when.iter().filter(|w| w.0).map(|w| w.1).collect()
}

/// What a setting of a node that there is reaches.
pub fn setting(a: &Areas, id: u32) -> Vec<&'static str> {
    let safe = (0..a.plan.nodes).any(|k| a.word(k, ID) == id && a.is_safe(k as u32));
    those(&[(safe, "set, a safe node")])
}

/// What a run reaches, from the areas before it.
pub fn run(l: &Layout, a: &Areas) -> Vec<&'static str> {
    let safe = || (0..a.plan.nodes).filter(|k| a.is_safe(*k as u32) && l.uses(*k));
    those(&[(safe().count() > 0, "run, a safe node"), (safe().any(|k| a.word(k, LEFT) > 0), "run, a safe node ramping")])
}

/// What an adoption reaches, from the areas before it.
pub fn adoption(new: &Areas, old: &Areas, pairs: &[u32]) -> Vec<&'static str> {
    let named = named(new, old, pairs);
    let skipped = |i: usize| named[i].safe && named[i].alike;
    let taken = |i: usize| named[i].alike && !named[i].safe;
    let in_turn = |first: &dyn Fn(usize) -> bool, then: &dyn Fn(usize) -> bool| (0..named.len()).any(|i| then(i) && (0..i).any(first));
    let safe = || named.iter().filter(|p| p.safe);
    those(&[
        (in_turn(&skipped, &taken), "adoption, a pair skipped before one that is taken"),
        (in_turn(&taken, &skipped), "adoption, a pair skipped behind one that is taken"),
        (safe().any(|p| p.again), "adoption, a safe node twice"),
        (safe().any(|p| !p.there), "adoption, a safe node and an old one out of range"),
        (safe().any(|p| p.there && !p.alike), "adoption, a safe node and an old one of another len"),
        (named.iter().any(|p| p.alike && p.old_safe && !p.safe), "adoption, a node that takes over from a safe one"),
    ])
}

/// The faults that an adoption would show.
pub fn shown(new: &mut Held, old: &mut Held, pairs: &[u32], ramp: u32) -> Vec<&'static str> {
    let mut new = Adopting { rust: &mut new.rust, areas: &new.areas };
    let mut old = Adopting { rust: &mut old.rust, areas: &old.areas };
    LISTS.into_iter().zip(SHOWN).filter(|(fault, _)| new.shows(*fault, &mut old, pairs, ramp)).map(|n| n.1).collect()
}

/// A call of each kind.
pub fn refused(g: &mut Gen, h: &Held) -> Vec<Case> {
    if h.layout.nodes.is_empty() {
        return vec![node(g, h)];
    }
    vec![node(g, h), set(g, h), run_of(g, h), adopt(g, h, true), adopt(g, h, false)]
}

/// A case of one call, where it is refused with 14.
fn case<T>(answer: Answer<T>, name: &'static str, push: impl FnOnce(&mut Case, crate::mixer::Status)) -> Case {
    let mut c = Case::default();
    if let Some(status) = answer.err().filter(|s| s.number == 14) {
        push(&mut c, status);
        c.reached.push(name);
    }
    c
}

/// A node behind those of a plan.
fn node(g: &mut Gen, h: &Held) -> Case {
    let (mut a, mut c) = (h.areas.clone(), Case::default());
    a.floats.resize(FLOATS * (a.plan.nodes + 1), 1.0);
    a.words.resize(WORDS * (a.plan.nodes + 1), 1);
    let values = g.wild.gains(&mut g.r, 2);
    let n = NodeCall { id: g.id(&h.layout.ids()), values, ramp: g.r.pick(&[0, 7, MAX_RAMP + 1]), safe: any_safe(&mut g.r) };
    if let Err(status) = misbuilt::node(&a, n.id, n.values.len(), n.ramp, n.safe) {
        let (first, last) = (status.number == 10 && n.safe > MAX_SAFE, status.number == 14);
        c.reached = those(&[(last, REFUSED_FOR_SAFE[0]), (first, REFUSED_FOR_SAFE[1])]);
        refused_node(&mut c, &a, n, status);
    }
    c
}

/// The areas of a plan with a safe above 1, and the node.
fn spoilt(g: &mut Gen, h: &Held) -> (Areas, usize) {
    let (mut a, node) = (h.areas.clone(), g.r.below(h.layout.nodes.len()));
    a.words[WORDS * node + SAFE] = g.r.pick(&[2, u32::MAX]);
    (a, node)
}

fn set(g: &mut Gen, h: &Held) -> Case {
    let ((a, _), s) = (spoilt(g, h), g.setting(&h.layout));
    case(paper::set(&a, s.id, s.ramp), REFUSED_FOR_SAFE[2], |c, status| refused_set(c, &a, &s, status))
}

fn run_of(g: &mut Gen, h: &Held) -> Case {
    let ((a, node), input) = (spoilt(g, h), g.input_block(&h.layout));
    let output = vec![7.5; h.layout.output_channels() * h.layout.block];
    let name = REFUSED_FOR_SAFE[if h.layout.uses(node) { 3 } else { 4 }];
    let answer = paper::run(&a, &input.directory, input.samples.len(), output.len());
    case(answer, name, |c, status| refused_run(c, &a, &input, &output, status))
}

/// An adoption from the plan itself.
fn adopt(g: &mut Gen, h: &Held, new: bool) -> Case {
    let ((spoilt, _), n) = (spoilt(g, h), h.layout.nodes.len());
    let (pairs, ramp) = (g.pairs(n, n), g.ramp());
    let (name, new, old) = if new { (REFUSED_FOR_SAFE[5], &spoilt, &h.areas) } else { (REFUSED_FOR_SAFE[6], &h.areas, &spoilt) };
    case(paper::adopt(new, old, pairs.len(), ramp), name, |c, status| refused_adoption(c, new, old, pairs, ramp, status))
}
