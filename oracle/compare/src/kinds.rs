//! `oracle speed kinds`: plans that have one kind of step alone, and what the port does besides.
use crate::desks::{mixer as desk, Draft, Sends, Weights};
use crate::judge::Found;
use crate::mixer::Span;
use crate::plan::Step;
use crate::races::{Check, Desk, Inputs, Nodes};
use crate::stopwatch::Table;

const STEPS: usize = 64;
/// Stereo sources and destinations, used in turn: few, so that all stay in the nearest cache.
const PAIRS: usize = 4;
/// Where no other are named.
const INPUTS: Inputs = Inputs(32, 2);
const FEW: Inputs = Inputs(16, 2);
const MANY: Inputs = Inputs(256, 2);
const ONE: Inputs = Inputs(1, 512);

/// Patches of one channel: the inputs in the directory, and its input and channel. No channel is twice there.
const PATCHES: [(&str, Inputs, [u32; 2]); 8] = [
    ("entry-1", INPUTS, [0, 0]),
    ("entry-63", INPUTS, [31, 0]),
    ("of-32 first", FEW, [0, 0]),
    ("of-32 last", FEW, [15, 1]),
    ("of-512 first", MANY, [0, 0]),
    ("of-512 last", MANY, [255, 1]),
    ("one-input-512 first", ONE, [0, 0]),
    ("one-input-512 last", ONE, [0, 511]),
];

/// Step i of a kind, from a stereo source to a stereo destination.
type Kind = fn(&mut Draft, usize, Span, Span) -> Step;

/// A plan of one kind, whose buffers hold samples.
fn alone(kind: impl Fn(&mut Draft, usize, Span, Span) -> Step, inputs: Inputs, nodes: Nodes, block: usize) -> Result<Desk, String> {
    let mut d = Draft::new(block);
    let pairs: Vec<_> = (0..PAIRS).map(|_| (d.buffers(2), d.buffers(2))).collect();
    for i in 0..STEPS {
        let (src, dst) = pairs[i % PAIRS];
        let step = kind(&mut d, i, src, dst);
        d.step(step);
    }
    let mut desk = Desk::with(d.0, inputs, nodes)?;
    desk.fill_buffers();
    Ok(desk)
}

fn gain(d: &mut Draft, _: usize, src: Span, dst: Span) -> Step {
    Step::Gain { node: d.node(&[0.7, 0.6]), src, dst }
}

fn matrix(d: &mut Draft, _: usize, src: Span, dst: Span) -> Step {
    Step::Matrix { node: d.node(&[0.9, 0.05, 0.1, 0.95]), src, dst }
}

fn diagonal(d: &mut Draft, _: usize, src: Span, dst: Span) -> Step {
    Step::Matrix { node: d.node(&[0.9, 0.0, 0.0, 0.95]), src, dst }
}

fn send(d: &mut Draft, _: usize, src: Span, dst: Span) -> Step {
    Step::Send { node: d.node(&[0.5]), src, dst, weights: d.weights(&[0.9, 0.1, 0.2, 0.8]) }
}

fn straight(d: &mut Draft, _: usize, src: Span, dst: Span) -> Step {
    Step::Send { node: d.node(&[0.5]), src, dst, weights: d.weights(&[1.0, 0.0, 0.0, 1.0]) }
}

pub fn all(t: &mut Table) -> Found {
    use Nodes::{Ramping, Rest};
    let kinds: [(&str, Nodes, Kind); 11] = [
        ("clear", Rest, |_, _, _, dst| Step::Clear { dst }),
        ("gain rest", Rest, gain),
        ("gain ramping", Ramping, gain),
        ("matrix full rest", Rest, matrix),
        ("matrix full ramping", Ramping, matrix),
        ("matrix diagonal rest", Rest, diagonal),
        ("send full rest", Rest, send),
        ("send full ramping", Ramping, send),
        ("send identity rest", Rest, straight),
        ("send identity ramping", Ramping, straight),
        ("output", Rest, |_, i, src, _| Step::Output { src, slot: i as u32 % 32 }),
    ];
    let scale = 1e3 / STEPS as f64;
    t.head("ns a step (stereo, a Patch mono)");
    for block in [256, 1] {
        for (name, inputs, [input, channel]) in PATCHES {
            let patch = |d: &mut Draft, _, _, dst: Span| Step::Patch { input, channel, dst: d.0.index[dst.start as usize] };
            t.line(&format!("patch {name} {block}"), scale, None, || alone(patch, inputs, Rest, block))?;
        }
        for (name, nodes, kind) in kinds {
            t.line(&format!("{name} {block}"), scale, None, || alone(kind, INPUTS, nodes, block))?;
        }
    }
    fixed(t)
}

/// What every call costs, whatever the block: an empty plan with its directory, a long one too, whole plans of one sample, and their check alone.
fn fixed(t: &mut Table) -> Found {
    t.head("us a call");
    for (name, inputs) in [("of-64", INPUTS), ("of-32", FEW), ("of-512", MANY), ("one-input-512", ONE)] {
        t.line(&format!("process no-steps {name}"), 1.0, None, || Desk::with(Draft::new(1).0, inputs, Nodes::Rest))?;
    }
    for (strips, buses) in [(32, 9), (8, 2)] {
        let layout = || desk(1, strips, buses, Weights::Full, Sends::All);
        t.line(&format!("process {strips}x{buses} full rest 1"), 1.0, None, || Desk::new(layout(), strips, Nodes::Rest))?;
        t.line(&format!("check_plan {strips}x{buses}"), 1.0, None, || Check::new(layout()))?;
    }
    Ok(())
}
