//! Plans to measure on.
use crate::mixer::Span;
use crate::plan::{span, Call, Layout, NodeCall, Step};

/// A layout and the builder calls that make it, in one.
#[derive(Default)]
pub struct Draft(pub Layout);

impl Draft {
    pub fn new(block: usize) -> Self {
        Draft(Layout { block, ..Layout::default() })
    }

    pub fn buffers(&mut self, n: usize) -> Span {
        let l = &mut self.0;
        let s = span(l.index.len(), n);
        l.index.extend((l.buffers..l.buffers + n).map(|b| b as u32));
        l.buffers += n;
        l.calls.push(Call::Buffers(n));
        s
    }

    pub fn weights(&mut self, values: &[f32]) -> Span {
        let s = span(self.0.coefficients.len(), values.len());
        self.0.coefficients.extend(values);
        self.0.calls.push(Call::Coefficients(values.to_vec()));
        s
    }

    /// A node at rest; its id is its number and 1,000.
    pub fn node(&mut self, values: &[f32]) -> u32 {
        let node = self.0.nodes.len() as u32;
        let call = NodeCall { id: 1000 + node, values: values.to_vec(), ramp: 0, safe: 0 };
        self.0.nodes.push(call.clone());
        self.0.calls.push(Call::Node(call));
        node
    }

    pub fn step(&mut self, s: Step) {
        self.0.steps.push(s);
        self.0.calls.push(Call::Step(s));
    }
}

/// What stands in a stereo Send.
#[derive(Clone, Copy)]
pub enum Weights {
    Full,
    Identity,
}

impl Weights {
    fn values(self) -> [f32; 4] {
        match self {
            Weights::Full => [0.9, 0.1, 0.2, 0.8],
            Weights::Identity => [1.0, 0.0, 0.0, 1.0],
        }
    }
}

/// Which buses a strip is sent to.
#[derive(Clone, Copy, PartialEq)]
pub enum Sends {
    All,
    Own,
}

/// Stereo strips into stereo buses. A strip is two Patches, a Gain, a Matrix 2 by 2 and its Sends; a bus a Clear before them and an Output after.
/// A plan has 64 nodes: a strip has its own Gain, a bus its own send gain, and the panners share what is left.
pub fn mixer(block: usize, strips: usize, buses: usize, weights: Weights, sends: Sends) -> Layout {
    let mut d = Draft::new(block);
    let bus: Vec<Span> = (0..buses).map(|_| d.buffers(2)).collect();
    let weights = d.weights(&weights.values());
    let send_nodes = if sends == Sends::All { buses } else { 1 };
    let gains: Vec<u32> = (0..strips).map(|_| d.node(&[0.7, 0.7])).collect();
    let pans: Vec<u32> = (0..strips.min(64 - strips - send_nodes)).map(|_| d.node(&[0.9, 0.05, 0.1, 0.95])).collect();
    let levels: Vec<u32> = (0..send_nodes).map(|b| d.node(&[0.5 + 0.01 * b as f32])).collect();
    bus.iter().for_each(|dst| d.step(Step::Clear { dst: *dst }));
    for i in 0..strips {
        let [raw, faded, panned] = [d.buffers(2), d.buffers(2), d.buffers(2)];
        for channel in 0..2 {
            let dst = d.0.index[raw.start as usize + channel as usize];
            d.step(Step::Patch { input: i as u32, channel, dst });
        }
        d.step(Step::Gain { node: gains[i], src: raw, dst: faded });
        d.step(Step::Matrix { node: pans[i % pans.len()], src: faded, dst: panned });
        for (b, dst) in bus.iter().enumerate().filter(|(b, _)| sends == Sends::All || *b == i) {
            d.step(Step::Send { node: levels[b % send_nodes], src: panned, dst: *dst, weights });
        }
    }
    (0..buses).for_each(|b| d.step(Step::Output { src: bus[b], slot: b as u32 }));
    d.0
}
