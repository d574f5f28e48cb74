//! What the file of `oracle record` must reach. Each name here was counted by a case, or the file is not written.
use crate::entries::{self, Entries, FULL};
use crate::mapping;
use crate::mixer::{FoldGains, Span};
use crate::ops::{Input, Setting};
use crate::paper;
use crate::plan::{Areas, Layout, Step, FLOATS, LEFT, LEN, VALUES};
use crate::recorded_inserts::INSERTS;
use crate::recorded_safe::{REFUSED_FOR_SAFE, SAFE_NODES};
use crate::rust;

/// These take much room, and are reached once.
const LONG_BLOCK: &str = "a block of 1,024 samples";
const LONG_DIRECTORY: &str = "a directory of 512 entries";

/// The passes over whole pieces of 16 samples and over the samples after the last one: from one source, from two, and from two to two at once.
const ONE_GAIN: &str = "Gain of a channel, a block of more than 16 samples that is no multiple of 16";
const OTHER_COLUMNS: &str = "Matrix of a row and a column, a block of more than 16 samples that is no multiple of 16";
const TWO_COLUMNS: &str = "Matrix at rest, two columns, neither 0, a block of more than 16 samples that is no multiple of 16";
const ONE_AT_REST: &str = "Send at rest, one weight, which is not 0, a block of more than 16 samples that is no multiple of 16";
const ONE_RAMPING: &str = "Send ramping, one weight, which is not 0, a block of more than 16 samples that is no multiple of 16";
const TWO_AT_REST: &str = "Send at rest, two weights that are not 0, a block of more than 16 samples that is no multiple of 16";
const TWO_RAMPING: &str = "Send ramping, two weights that are not 0, a block of more than 16 samples that is no multiple of 16";
const FOUR_AT_REST: &str =
    "Send at rest, four weights that are not 0 to two buffers, a block of more than 16 samples that is no multiple of 16";
const FOUR_TO_ONE: &str = "Send at rest, four weights that are not 0 to one buffer twice";

/// Refused with 12 for their form alone.
pub const MANY_ENTRIES: &str = "refused, a directory of 513 entries";
pub const FIVE_WORDS: &str = "refused, a directory of five words";

/// What one plan reaches at once.
pub const LIMITS: &[&str] = &[
    "a plan of 256 buffers",
    "a plan of 1,024 index entries",
    "a plan of 1,024 coefficients",
    "a plan of 64 nodes",
    "a plan of 512 steps",
    "all lists of 32 slots",
    MANY_ENTRIES,
    FIVE_WORDS,
];

/// What takes much room.
pub fn long(name: &str) -> bool {
    [LONG_BLOCK, LONG_DIRECTORY, entries::PATCH[FULL], entries::LOOKUP[FULL]].contains(&name) || INSERTS.contains(&name)
}

/// How often a branch is to be reached, where it may be reached often.
pub fn often(name: &str, times: u32) -> u32 {
    match name {
        _ if long(name) => 1,
        _ if SAFE_NODES.contains(&name) || REFUSED_FOR_SAFE.contains(&name) => 2,
        _ => times,
    }
}

/// What plans, runs, settings, adoptions and lists must show.
pub const BRANCHES: &[&str] = &[
    "Gain at rest",
    "Gain ramping",
    "Gain, the ramp ends in the block",
    "Gain, the ramp ends with the block",
    ONE_GAIN,
    "Gain, dst longer than src",
    "Gain, src longer than dst",
    "Gain of no channels",
    "Gain, node shorter than the channels",
    "Matrix at rest",
    "Matrix at rest, a gain of 0",
    "Matrix at rest, a gain of -0",
    TWO_COLUMNS,
    OTHER_COLUMNS,
    "Matrix ramping",
    "Matrix, the ramp ends in the block",
    "Matrix, the ramp ends with the block",
    "Matrix without columns",
    "Matrix without rows",
    "Matrix, node shorter than its entries",
    "Matrix, one buffer twice in dst",
    "Send at rest",
    "Send at rest at 0",
    "Send at rest at -0",
    "Send ramping",
    "Send, the ramp ends in the block",
    "Send, the ramp ends with the block",
    "Send, a weight of 0",
    "Send, a weight of -0",
    ONE_AT_REST,
    ONE_RAMPING,
    TWO_AT_REST,
    TWO_RAMPING,
    FOUR_AT_REST,
    FOUR_TO_ONE,
    "Send of nothing",
    "Send, more weights than it needs",
    "Clear",
    "Clear of nothing",
    "Output",
    "Output of no channels",
    "two Outputs",
    "a node that two steps use while it ramps",
    "a plan without steps",
    "NaN out",
    "infinity out",
    "-0 out",
    "subnormal out",
    "an index list that is not the builder's",
    "an output area longer than needed",
    "a block of 1 sample",
    "a block of more than 16 samples",
    LONG_BLOCK,
    LONG_DIRECTORY,
    "a run that would show it if the first entry for a channel decided",
    "a run that would show it if an entry that is too short were passed over",
    "set at once",
    "set with a ramp that ends in the block",
    "set with a ramp as long as the block",
    "set with a ramp over blocks",
    "set, fewer values than the node has",
    "set, more values than the node has",
    "set, no values",
    "set while the node ramps",
    "a list of no inputs",
    "a list of one input",
    "a list of several inputs",
    "a list for a slot that no Output names",
    "a list with an input above 191",
    "all lists of no slots",
    "all lists of one slot",
    "all lists of several slots",
    "all lists, two of several inputs",
    "all lists, a slot that no Output names",
    "all lists, areas that just fit",
    "all lists, areas longer than needed",
    "all lists, the counts' area one place short",
    "all lists, the lists' area one place short",
    "a clean plan",
    "a plan that is not clean",
    "an adopted node",
    "adoption, a new node out of range",
    "adoption, an old node out of range",
    "adoption, other lens",
    "adoption at once",
    "adoption with a ramp",
    "fold, a label that both have",
    "fold, M to C",
    "fold, M to L and R",
    "fold, L to M",
    "fold, R to M",
    "fold, C to L and R",
    "fold, LFE to L and R",
    "fold, LFE dropped",
    "fold, Ls to Lss",
    "fold, Ls to L",
    "fold, Rs to Rss",
    "fold, Rs to R",
    "fold, Lss to Ls",
    "fold, Rss to Rs",
    "fold, Lrs to Ls",
    "fold, Rrs to Rs",
    "fold, Ltf to L",
    "fold, Rtf to R",
    "fold, Ltr to Lrs",
    "fold, Ltr to Ls",
    "fold, Rtr to Rrs",
    "fold, Rtr to Rs",
    "fold, normalised and divided",
    "fold, normalised, no row above 1",
    "fold, not normalised",
];

/// The name of a node's state before a step's block.
fn moving(names: [&'static str; 4], left: u32, block: usize) -> &'static str {
    match left as usize {
        0 => names[0],
        n if n < block => names[2],
        n if n == block => names[3],
        _ => names[1],
    }
}

const GAIN: [&str; 4] = ["Gain at rest", "Gain ramping", "Gain, the ramp ends in the block", "Gain, the ramp ends with the block"];
const MATRIX: [&str; 4] =
    ["Matrix at rest", "Matrix ramping", "Matrix, the ramp ends in the block", "Matrix, the ramp ends with the block"];
const SEND: [&str; 4] = ["Send at rest", "Send ramping", "Send, the ramp ends in the block", "Send, the ramp ends with the block"];

/// A zero with its sign.
fn zero(x: f32, plus: &'static str, minus: &'static str) -> Option<&'static str> {
    (x == 0.0).then_some(if x.is_sign_positive() { plus } else { minus })
}

/// The nodes of a run, as its steps find them.
struct Nodes<'a> {
    areas: &'a Areas,
    left: Vec<u32>,
    ramped: Vec<bool>,
    block: usize,
    seen: Vec<&'static str>,
}

impl Nodes<'_> {
    /// A step ends the node's block.
    fn uses(&mut self, node: u32, names: [&'static str; 4]) {
        let n = node as usize;
        self.seen.push(moving(names, self.left[n], self.block));
        if self.left[n] > 0 && self.ramped[n] {
            self.seen.push("a node that two steps use while it ramps");
        }
        self.ramped[n] |= self.left[n] > 0;
        self.left[n] = self.left[n].saturating_sub(self.block as u32);
    }

    fn rests(&self, node: u32) -> bool {
        self.left[node as usize] == 0
    }

    fn target(&self, node: u32) -> &[f32] {
        &self.areas.floats[FLOATS * node as usize + VALUES..][..VALUES]
    }

    fn len(&self, node: u32) -> u32 {
        self.areas.word(node as usize, LEN)
    }

    /// A block with a whole piece of 16 samples, and some after the last one.
    fn uneven(&self) -> bool {
        self.block > 16 && self.block % 16 != 0
    }

    /// Such a block, and a row of so many factors that are not 0.
    fn rows(&self, columns: u32, factors: &[f32], asked: u32) -> bool {
        columns == asked && self.uneven() && factors.chunks(asked as usize).any(|row| row.iter().all(|w| *w != 0.0))
    }

    fn when(&mut self, holds: bool, name: &'static str) {
        if holds {
            self.seen.push(name);
        }
    }

    fn gain(&mut self, node: u32, src: Span, dst: Span) {
        self.when(dst.len > src.len, "Gain, dst longer than src");
        self.when(src.len > dst.len, "Gain, src longer than dst");
        self.when(src.len.min(dst.len) == 0, "Gain of no channels");
        self.when(self.len(node) < src.len.min(dst.len), "Gain, node shorter than the channels");
        self.when(src.len.min(dst.len) > 0 && self.uneven(), ONE_GAIN);
        self.uses(node, GAIN);
    }

    fn matrix(&mut self, node: u32, src: Span, dst: Span, to: &[u32]) {
        self.when(src.len == 0 && dst.len > 0, "Matrix without columns");
        self.when(dst.len == 0 && src.len > 0, "Matrix without rows");
        self.when(self.len(node) < src.len * dst.len, "Matrix, node shorter than its entries");
        self.when((1..to.len()).any(|i| to[..i].contains(&to[i])), "Matrix, one buffer twice in dst");
        if self.rests(node) {
            let gains = self.target(node)[..(src.len * dst.len) as usize].to_vec();
            let zeros = gains.iter().filter_map(|g| zero(*g, "Matrix at rest, a gain of 0", "Matrix at rest, a gain of -0"));
            self.seen.extend(zeros);
            self.when(self.rows(src.len, &gains, 2), TWO_COLUMNS);
        }
        self.when(src.len == 1 && dst.len > 0 && self.uneven(), OTHER_COLUMNS);
        self.uses(node, MATRIX);
    }

    fn send(&mut self, node: u32, src: Span, to: &[u32], weights: &[f32]) {
        let need = src.len as usize * to.len();
        let used = &weights[..need];
        self.when(need == 0, "Send of nothing");
        self.when(weights.len() > need, "Send, more weights than it needs");
        self.seen.extend(used.iter().filter_map(|w| zero(*w, "Send, a weight of 0", "Send, a weight of -0")));
        let (one, two, rests) = (self.rows(src.len, used, 1), self.rows(src.len, used, 2), self.rests(node));
        let four = src.len == 2 && to.len() == 2 && used.iter().all(|w| *w != 0.0);
        let heard = rests && self.target(node)[0] != 0.0;
        self.when(one && heard, ONE_AT_REST);
        self.when(one && !rests, ONE_RAMPING);
        self.when(two && !four && heard, TWO_AT_REST);
        self.when(two && !rests, TWO_RAMPING);
        self.when(four && self.uneven() && heard && to[0] != to[1], FOUR_AT_REST);
        self.when(four && heard && to[0] == to[1], FOUR_TO_ONE);
        if rests {
            self.seen.extend(zero(self.target(node)[0], "Send at rest at 0", "Send at rest at -0"));
        }
        self.uses(node, SEND);
    }

    fn step(&mut self, l: &Layout, s: &Step, input: &Input) {
        let named = |span: Span| &l.index[span.start as usize..][..span.len as usize];
        match *s {
            Step::Patch { input: i, channel, .. } => {
                self.seen.extend(Entries::new(input, [i, channel], self.block).names(entries::PATCH));
            }
            Step::Gain { node, src, dst } => self.gain(node, src, dst),
            Step::Matrix { node, src, dst } => self.matrix(node, src, dst, named(dst)),
            Step::Clear { dst } => self.seen.push(if dst.len > 0 { "Clear" } else { "Clear of nothing" }),
            Step::Send { node, src, dst, weights } => {
                self.send(node, src, named(dst), &l.coefficients[weights.start as usize..][..weights.len as usize]);
            }
            Step::Output { src, .. } => self.seen.push(if src.len > 0 { "Output" } else { "Output of no channels" }),
        }
    }
}

/// What a run reaches, from the areas before it and the samples that it appends.
pub fn run(l: &Layout, a: &Areas, input: &Input, output: &[f32], more: usize) -> Vec<&'static str> {
    let nodes = a.plan.nodes;
    let left = (0..nodes).map(|i| a.word(i, LEFT)).collect();
    let mut n = Nodes { areas: a, left, ramped: vec![false; nodes], block: l.block, seen: Vec::new() };
    l.steps.iter().for_each(|s| n.step(l, s, input));
    let outputs = l.steps.iter().filter(|s| matches!(s, Step::Output { .. })).count();
    n.when(outputs > 1, "two Outputs");
    n.when(l.steps.is_empty(), "a plan without steps");
    n.when(output.iter().any(|x| x.is_nan()), "NaN out");
    n.when(output.iter().any(|x| x.is_infinite()), "infinity out");
    n.when(output.iter().any(|x| x.to_bits() == 0x8000_0000), "-0 out");
    n.when(output.iter().any(|x| x.is_subnormal()), "subnormal out");
    n.when(l.own_index, "an index list that is not the builder's");
    n.when(more > 0, "an output area longer than needed");
    n.when(l.block == 1, "a block of 1 sample");
    n.when(l.block > 16, "a block of more than 16 samples");
    n.when(l.block == paper::MAX_BLOCK, LONG_BLOCK);
    n.when(input.directory.len() == 4 * paper::MAX_ENTRIES, LONG_DIRECTORY);
    let (turned, long) = (entries::turned(&input.directory), entries::long_enough(&input.directory, l.block));
    n.when(entries::shows(l, input, &turned), "a run that would show it if the first entry for a channel decided");
    n.when(entries::shows(l, input, &long), "a run that would show it if an entry that is too short were passed over");
    n.when(l.buffers == paper::MAX_BUFFERS, "a plan of 256 buffers");
    n.when(l.index.len() == paper::MAX_INDICES, "a plan of 1,024 index entries");
    n.when(l.coefficients.len() == paper::MAX_COEFFICIENTS, "a plan of 1,024 coefficients");
    n.when(nodes == paper::MAX_NODES, "a plan of 64 nodes");
    n.when(l.steps.len() == paper::MAX_STEPS, "a plan of 512 steps");
    n.seen
}

/// What a setting of a node that there is reaches.
pub fn setting(l: &Layout, a: &Areas, s: &Setting) -> Vec<&'static str> {
    let names =
        ["set at once", "set with a ramp over blocks", "set with a ramp that ends in the block", "set with a ramp as long as the block"];
    let mut seen = vec![moving(names, s.ramp, l.block)];
    let node = l.nodes.iter().position(|n| n.id == s.id).unwrap();
    let (len, left) = (a.word(node, LEN) as usize, a.word(node, LEFT));
    let when = [
        (s.values.is_empty(), "set, no values"),
        (s.values.len() < len && !s.values.is_empty(), "set, fewer values than the node has"),
        (s.values.len() > len, "set, more values than the node has"),
        (left > 0, "set while the node ramps"),
    ];
    seen.extend(when.iter().filter(|w| w.0).map(|w| w.1));
    seen
}

/// What a source list reaches.
pub fn list(l: &Layout, slot: u32, list: &[u16]) -> Vec<&'static str> {
    let named = l.steps.iter().any(|s| matches!(s, Step::Output { slot: n, .. } if *n == slot));
    let mut seen = vec![["a list of no inputs", "a list of one input", "a list of several inputs"][list.len().min(2)]];
    seen.extend((!named).then_some("a list for a slot that no Output names"));
    seen.extend(list.iter().any(|i| *i > 191).then_some("a list with an input above 191"));
    seen
}

/// What the lists of all slots reach, in areas that are longer by this many places.
pub fn lists(l: &Layout, lists: &[Vec<u16>], more: usize) -> Vec<&'static str> {
    let named = |slot: usize| l.steps.iter().any(|s| matches!(s, Step::Output { slot: n, .. } if *n as usize == slot));
    let count = ["all lists of no slots", "all lists of one slot", "all lists of several slots"][lists.len().min(2)];
    let room = if more > 0 { "all lists, areas longer than needed" } else { "all lists, areas that just fit" };
    let mut seen = vec![count, room];
    seen.extend((lists.len() == 32).then_some("all lists of 32 slots"));
    seen.extend((lists.iter().filter(|list| list.len() > 1).count() > 1).then_some("all lists, two of several inputs"));
    seen.extend((!(0..lists.len()).all(named)).then_some("all lists, a slot that no Output names"));
    seen
}

/// What a fold by gains of the reference's own laws reaches.
pub fn fold(src: &[&str], dst: &[&str], g: &FoldGains, normalise: bool) -> Vec<&'static str> {
    let ways: Vec<String> = mapping::ways(src, dst, g).iter().map(|way| format!("fold, {way}")).collect();
    let mut seen: Vec<&'static str> = BRANCHES.iter().filter(|name| ways.iter().any(|w| w == *name)).copied().collect();
    let divided = mapping::matrix(src, dst, g, true) != mapping::matrix(src, dst, g, false);
    seen.push(match (normalise && src.len() > 2 && dst.len() < src.len(), divided) {
        (true, true) => "fold, normalised and divided",
        (true, false) => "fold, normalised, no row above 1",
        (false, _) => "fold, not normalised",
    });
    seen
}

/// What an adoption reaches.
pub fn adoption(new: &rust::Plan, old: &rust::Plan, pairs: &[u32], ramp: u32) -> Vec<&'static str> {
    let mut seen = Vec::new();
    for p in pairs.chunks_exact(2) {
        seen.push(match (new.nodes.get(p[0] as usize), old.nodes.get(p[1] as usize)) {
            (None, _) => "adoption, a new node out of range",
            (_, None) => "adoption, an old node out of range",
            (Some(n), Some(o)) if rust::len_of(n) == rust::len_of(o) => "an adopted node",
            _ => "adoption, other lens",
        });
    }
    seen.push(if ramp == 0 { "adoption at once" } else { "adoption with a ramp" });
    seen
}
