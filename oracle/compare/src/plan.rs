//! A plan: its steps, the builder calls that make it, and the areas that a caller lends with it.
use crate::mixer::{InsertPoint, Plan, Span};

/// Values of a node; its floats and words in the areas.
pub const VALUES: usize = 24;
pub const FLOATS: usize = 3 * VALUES;
pub const WORDS: usize = 4;
/// Places among the words of a node.
pub const ID: usize = 0;
pub const LEN: usize = 1;
pub const LEFT: usize = 2;
pub const SAFE: usize = 3;

pub fn span(start: usize, len: usize) -> Span {
    Span { start: start as u32, len: len as u32 }
}

#[derive(Clone, Copy, Debug, PartialEq, Eq)]
pub enum Step {
    Patch { input: u32, channel: u32, dst: u32 },
    Gain { node: u32, src: Span, dst: Span },
    Matrix { node: u32, src: Span, dst: Span },
    Clear { dst: Span },
    Send { node: u32, src: Span, dst: Span, weights: Span },
    Output { src: Span, slot: u32 },
}

impl Step {
    /// The step's record: its map, then a word for each bit that stands.
    pub fn record(&self) -> Vec<u32> {
        match *self {
            Step::Patch { input, channel, dst } => vec![7, input, channel, dst],
            Step::Gain { node, src, dst } => vec![248, node, src.start, src.len, dst.start, dst.len],
            Step::Matrix { node, src, dst } => vec![2296, node, src.start, src.len, dst.start, dst.len],
            Step::Clear { dst } => vec![192, dst.start, dst.len],
            Step::Send { node, src, dst, weights: w } => vec![1016, node, src.start, src.len, dst.start, dst.len, w.start, w.len],
            Step::Output { src, slot } => vec![1072, src.start, src.len, slot],
        }
    }
}

#[derive(Clone, Debug)]
pub struct NodeCall {
    pub id: u32,
    pub values: Vec<f32>,
    pub ramp: u32,
    pub safe: u32,
}

#[derive(Clone, Debug)]
pub enum Call {
    Buffers(usize),
    Coefficients(Vec<f32>),
    Node(NodeCall),
    Step(Step),
    /// No call: the layout writer's own index list in place of the builder's.
    Index(Vec<u32>),
    Insert(InsertPoint),
}

/// What a plan is made of, and the builder calls, in order, that make it.
#[derive(Clone, Debug, Default)]
pub struct Layout {
    pub block: usize,
    pub buffers: usize,
    pub index: Vec<u32>,
    /// The index list is the layout writer's own, up to what inserts add; else it is the builder's, which is 0, 1, 2, …
    pub own_index: bool,
    pub coefficients: Vec<f32>,
    pub nodes: Vec<NodeCall>,
    pub steps: Vec<Step>,
    pub calls: Vec<Call>,
    /// How many of the inserts are on the span of another one.
    pub in_a_row: usize,
}

impl Layout {
    pub fn output_channels(&self) -> usize {
        let channels = |s: &Step| if let Step::Output { src, .. } = s { src.len as usize } else { 0 };
        self.steps.iter().map(channels).sum()
    }

    /// The record of the plan so far.
    pub fn counts(&self) -> Plan {
        Plan {
            block: self.block,
            buffers: self.buffers,
            indices: self.index.len(),
            coefficients: self.coefficients.len(),
            nodes: self.nodes.len(),
            steps: self.steps.len(),
            words: self.steps.iter().map(|s| s.record().len()).sum(),
        }
    }

    /// Whether a step uses a node.
    pub fn uses(&self, node: usize) -> bool {
        self.steps.iter().any(|s| match *s {
            Step::Gain { node: n, .. } | Step::Matrix { node: n, .. } | Step::Send { node: n, .. } => n as usize == node,
            _ => false,
        })
    }

    pub fn ids(&self) -> Vec<u32> {
        self.nodes.iter().map(|n| n.id).collect()
    }

    pub fn inserts(&self) -> impl Iterator<Item = &InsertPoint> {
        self.calls.iter().filter_map(|c| if let Call::Insert(i) = c { Some(i) } else { None })
    }
}

/// A plan's record and its areas, as they are lent to a call.
#[derive(Clone, Debug, Default)]
pub struct Areas {
    pub plan: Plan,
    pub indices: Vec<u32>,
    pub coefficients: Vec<f32>,
    pub floats: Vec<f32>,
    pub words: Vec<u32>,
    pub steps: Vec<u32>,
    pub buffers: Vec<f32>,
}

impl Areas {
    /// Becomes a copy of other areas, in the memory that it has.
    pub fn copy(&mut self, other: &Areas) {
        self.plan = other.plan;
        self.indices.clone_from(&other.indices);
        self.coefficients.clone_from(&other.coefficients);
        self.floats.clone_from(&other.floats);
        self.words.clone_from(&other.words);
        self.steps.clone_from(&other.steps);
        self.buffers.clone_from(&other.buffers);
    }

    /// Areas for a layout, each with `more` entries than it needs, that hold anything.
    pub fn for_layout(l: &Layout, more: usize) -> Self {
        let fresh = if l.own_index { l.buffers } else { 0 };
        let junk = f32::from_bits(0xdead_beef);
        Areas {
            plan: Plan::default(),
            indices: vec![0xdead_beef; l.index.len().max(fresh) + more],
            coefficients: vec![junk; l.coefficients.len() + more],
            floats: vec![junk; FLOATS * l.nodes.len() + more],
            words: vec![0xdead_beef; WORDS * l.nodes.len() + more],
            steps: vec![0xdead_beef; l.counts().words + more],
            buffers: vec![junk; l.buffers * l.block + more],
        }
    }

    /// A word of a node.
    pub fn word(&self, node: usize, place: usize) -> u32 {
        self.words[WORDS * node + place]
    }

    /// Whether the plan has this node, and it is safe.
    pub fn is_safe(&self, node: u32) -> bool {
        (node as usize) < self.plan.nodes && self.word(node as usize, SAFE) != 0
    }
}
