//! What both sides do on the clock: a plan's blocks, its source lists, folds.
use crate::folds::{gains_of, FORMATS};
use crate::judge::{doubles, floats, same, words, Found, Judge};
use crate::layouts::Gen;
use crate::mixer::{self, CountReply, FoldGains, Status, StereoReply};
use crate::ops::{Input, Setting};
use crate::paper::MAX_RAMP;
use crate::plan::{Areas, Layout, Step, LEFT, WORDS};
use crate::rng::Rng;
use crate::stopwatch::Race;
use crate::traced::PLACES;
use crate::twin::Twin;
use crate::{building, rust};
use reference::engine::plan::{peek, InputSource, OutputSink};
use reference::mix::format::{self, Laws};
use std::hint::black_box;

/// Which nodes ramp.
#[derive(Clone, Copy)]
pub enum Nodes {
    Rest,
    Ramping,
    /// Every second one.
    Half,
}

impl Nodes {
    fn ramps(self, node: usize) -> bool {
        match self {
            Nodes::Rest => false,
            Nodes::Ramping => true,
            Nodes::Half => node % 2 == 0,
        }
    }
}

/// So many inputs of so many channels each, in this order in the directory.
#[derive(Clone, Copy)]
pub struct Inputs(pub usize, pub usize);

/// The channels of inputs, found without a search: nothing answers the reference sooner. The port is lent the same samples with a directory,
/// which it checks and searches.
struct Channels<'a> {
    block: usize,
    /// Of each input.
    channels: usize,
    samples: &'a [f32],
}

impl InputSource for Channels<'_> {
    fn channel(&self, input: usize, channel: usize) -> Option<&[f32]> {
        let at = (self.channels * input + channel) * self.block;
        self.samples.get(at..at + self.block)
    }
}

/// An area for the outputs, as the port is lent one: written from the front on in every block.
struct Area {
    samples: Vec<f32>,
    at: usize,
}

impl OutputSink for Area {
    fn write(&mut self, _slot: usize, _channel: usize, _channels: usize, samples: &[f32]) {
        self.samples[self.at..][..samples.len()].copy_from_slice(samples);
        self.at += samples.len();
    }
}

/// A plan on both sides with its input, and the nodes to start from.
pub struct Desk {
    twin: Twin,
    input: Input,
    channels: usize,
    node_floats: Vec<f32>,
    node_words: Vec<u32>,
    rust_output: Area,
    output: Vec<f32>,
    /// The numbers of all refusals, one over the other.
    refused: u32,
}

/// Inputs whose channels have a block of samples each.
fn inputs(block: usize, Inputs(count, channels): Inputs) -> Input {
    let mut r = Rng::new(9);
    let entries = count * channels;
    let entry = |i: usize| [i / channels, i % channels, i * block, block].map(|x| x as u32);
    Input { directory: (0..entries).flat_map(entry).collect(), samples: (0..entries * block).map(|_| r.unit()).collect() }
}

impl Desk {
    /// A layout with a stereo input for each strip.
    pub fn new(layout: Layout, strips: usize, nodes: Nodes) -> Result<Self, String> {
        Self::with(layout, Inputs(strips, 2), nodes)
    }

    /// Builds a layout on both sides, sets the nodes that ramp on their way, and compares a block.
    pub fn with(layout: Layout, of: Inputs, nodes: Nodes) -> Result<Self, String> {
        let input = inputs(layout.block, of);
        let samples = layout.output_channels() * layout.block;
        let j = &mut Judge::default();
        let mut twin = building::build(j, &mut Gen::new(9), layout)?;
        for (i, n) in twin.layout.nodes.clone().iter().enumerate().filter(|(i, _)| nodes.ramps(*i)) {
            let values = n.values.iter().map(|x| 0.5 * x + i as f32 * 1e-3).collect();
            twin.set(j, &Setting { id: n.id, values, ramp: MAX_RAMP })?;
        }
        twin.run(j, &input, 0)?;
        let (node_floats, node_words) = (twin.port.floats.clone(), twin.port.words.clone());
        let rust_output = Area { samples: vec![0.0; samples], at: 0 };
        Ok(Desk { twin, input, channels: of.1, node_floats, node_words, rust_output, output: vec![0.0; samples], refused: 0 })
    }

    /// Samples in every buffer, for plans without a Patch.
    pub fn fill_buffers(&mut self) {
        let mut r = Rng::new(10);
        let samples: Vec<f32> = self.twin.port.buffers.iter().map(|_| r.unit()).collect();
        self.twin.poke_buffers(0, &samples[..self.twin.layout.buffers * self.twin.layout.block]);
    }

    /// Nodes that were ramping still are, and so were for the whole of the last block.
    fn under_way(&self) -> Found {
        let nodes = self.twin.layout.nodes.len();
        let left = |words: &[u32]| -> Vec<bool> { words.chunks_exact(WORDS).take(nodes).map(|w| w[LEFT] > 0).collect() };
        same("nodes that ramp", &left(&self.node_words), &left(&self.twin.port.words))
    }
}

impl Race for Desk {
    fn ready(&mut self) {
        self.twin.port.floats.copy_from_slice(&self.node_floats);
        self.twin.port.words.copy_from_slice(&self.node_words);
        rust::nodes_from(&mut self.twin.rust, &self.node_floats, &self.node_words);
    }

    fn rust(&mut self) {
        self.rust_output.at = 0;
        let input = Channels { block: self.twin.layout.block, channels: self.channels, samples: &self.input.samples };
        self.twin.rust.process(0, black_box(&input), black_box(&mut self.rust_output));
    }

    fn port(&mut self) {
        let (p, i) = (&mut self.twin.port, &self.input);
        let reply = mixer::process(
            p.plan,
            &p.indices,
            &p.coefficients,
            &mut p.floats,
            &mut p.words,
            &p.steps,
            &mut p.buffers,
            &i.directory,
            &i.samples,
            &mut self.output,
        );
        self.refused |= reply.status.number;
    }

    fn compare(&self) -> Found {
        let t = &self.twin;
        let (mut node_floats, mut node_words) = (t.port.floats.clone(), self.node_words.clone());
        rust::nodes_to(&t.rust.nodes, &mut node_floats, &mut node_words);
        same("refused", &0, &self.refused)?;
        floats("output", &self.rust_output.samples, &self.output)?;
        floats("node floats", &node_floats, &t.port.floats)?;
        words("node words", &node_words, &t.port.words)?;
        floats("buffers", peek::buffers(&t.rust), &t.port.buffers[..t.layout.buffers * t.layout.block])?;
        self.under_way()
    }
}

/// The plan check, which the reference does not have.
pub struct Check {
    port: Areas,
    status: Status,
}

impl Check {
    pub fn new(layout: Layout) -> Result<Self, String> {
        let twin = building::build(&mut Judge::default(), &mut Gen::new(9), layout)?;
        Ok(Check { port: twin.port, status: Status::default() })
    }
}

impl Race for Check {
    const RUST: bool = false;

    fn port(&mut self) {
        let p = &self.port;
        self.status = mixer::check_plan(p.plan, &p.indices, &p.coefficients, &p.floats, &p.words, &p.steps, &p.buffers);
    }

    fn compare(&self) -> Found {
        same("check_plan", &Status::default(), &self.status)
    }
}

/// The source lists of all slots, each side's from one call.
pub struct Lists {
    builder: rust::PlanBuilder,
    port: Areas,
    rust_lists: Vec<Vec<u16>>,
    counts: Vec<u32>,
    lists: Vec<u16>,
    reply: CountReply,
}

impl Lists {
    pub fn new(layout: Layout) -> Result<Self, String> {
        let slots = layout.steps.iter().filter(|s| matches!(s, Step::Output { .. })).count();
        let twin = building::build(&mut Judge::default(), &mut Gen::new(9), layout)?;
        let builder = rust::wired(&twin.port, &twin.layout.steps, 1);
        Ok(Lists {
            builder,
            port: twin.port,
            rust_lists: Vec::new(),
            counts: vec![0; slots],
            lists: vec![0; PLACES * slots],
            reply: CountReply::default(),
        })
    }
}

impl Race for Lists {
    /// The time to free the last lists is in it, as it is for whoever asks for them.
    fn rust(&mut self) {
        self.rust_lists = peek::output_sources(&self.builder);
    }

    fn port(&mut self) {
        let p = &self.port;
        self.reply = mixer::all_sources(p.plan, &p.indices, &p.words, &p.steps, &mut self.counts, &mut self.lists);
    }

    fn compare(&self) -> Found {
        same("slots", &CountReply { count: self.rust_lists.len(), ..CountReply::default() }, &self.reply)?;
        for (slot, want) in self.rust_lists.iter().enumerate() {
            same("count of a source list", &(want.len() as u32), &self.counts[slot])?;
            words("source list", want, &self.lists[PLACES * slot..][..want.len()])?;
        }
        Ok(())
    }
}

/// The same lists, for which the port is asked slot by slot.
pub struct BySlot(Lists);

impl BySlot {
    pub fn new(layout: Layout) -> Result<Self, String> {
        Lists::new(layout).map(BySlot)
    }
}

impl Race for BySlot {
    fn rust(&mut self) {
        self.0.rust();
    }

    fn port(&mut self) {
        let Lists { port: p, counts, lists, reply, .. } = &mut self.0;
        let mut slots = 0;
        for (slot, (count, list)) in counts.iter_mut().zip(lists.chunks_mut(PLACES)).enumerate() {
            let answer = mixer::output_sources(p.plan, slot as u32, &p.indices, &p.words, &p.steps, list);
            *count = answer.count as u32;
            slots += (answer.status == Status::default()) as usize;
        }
        reply.count = slots;
    }

    fn compare(&self) -> Found {
        self.0.compare()
    }
}

/// A fold. The reference works its gains out of decibels on the way, and allocates its matrix; the port is lent both.
pub struct Fold {
    src: usize,
    dst: usize,
    laws: Laws,
    gains: FoldGains,
    want: Vec<f32>,
    area: Vec<f32>,
    status: Status,
}

impl Fold {
    pub fn new(src: usize, dst: usize) -> Self {
        let laws = Laws::default();
        let area = vec![0.0; FORMATS[src].channels() * FORMATS[dst].channels()];
        Fold { src, dst, gains: gains_of(&laws), laws, want: Vec::new(), area, status: Status::default() }
    }
}

impl Race for Fold {
    fn rust(&mut self) {
        self.want = format::width_matrix(black_box(FORMATS[self.src]), black_box(FORMATS[self.dst]), black_box(&self.laws));
    }

    fn port(&mut self) {
        let (src, dst) = (self.src as u32, self.dst as u32);
        self.status = mixer::width_matrix(src, dst, self.gains, self.laws.downmix.normalise, &mut self.area);
    }

    fn compare(&self) -> Found {
        same("width_matrix", &Status::default(), &self.status)?;
        floats("width_matrix", &self.want, &self.area)
    }
}

#[derive(Default)]
pub struct Stereo {
    want: [f64; 4],
    reply: StereoReply,
}

impl Race for Stereo {
    fn rust(&mut self) {
        self.want = black_box(format::stereo_matrix(black_box(1.25), black_box(-0.375)));
    }

    fn port(&mut self) {
        self.reply = black_box(mixer::stereo_matrix(1.25, -0.375));
    }

    fn compare(&self) -> Found {
        let r = &self.reply;
        same("stereo_matrix", &Status::default(), &r.status)?;
        doubles("stereo_matrix", &self.want, &[r.left_from_left, r.left_from_right, r.right_from_left, r.right_from_right])
    }
}
