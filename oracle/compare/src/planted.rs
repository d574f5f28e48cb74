//! The faults that are planted in a pair, each where it must show: on a way from an input to the slot on which nothing is lost.
use crate::clean::buffers;
use crate::judge::{Fault, Judge};
use crate::lists::Wrote;
use crate::plan::{Areas, Layout, Step, FLOATS, LEFT, VALUES, WORDS};
use crate::signals::{Carries, Channel};

/// A gain, and a sample, that no case has.
pub const ODD_VALUE: f32 = 12345.0;

/// A Patch, and at most one Gain behind it.
#[derive(Clone, Copy, Debug)]
pub struct Way {
    pub input: u32,
    pub channel: u32,
    /// The Gain's node, and which of its values.
    pub gain: Option<(usize, usize)>,
}

/// The ways to a slot: what each buffer last took, at each Output.
pub fn ways(l: &Layout, slot: u32) -> Vec<Way> {
    let mut last: Vec<Option<Way>> = vec![None; l.buffers];
    let mut found = Vec::new();
    for s in &l.steps {
        match *s {
            Step::Patch { input, channel, dst } => last[dst as usize] = Some(Way { input, channel, gain: None }),
            Step::Gain { node, src, dst } => {
                for i in 0..dst.len as usize {
                    let way = last[src.start as usize + i].filter(|w| w.gain.is_none());
                    let value = i < l.nodes[node as usize].values.len();
                    last[dst.start as usize + i] = way.filter(|_| value).map(|w| Way { gain: Some((node as usize, i)), ..w });
                }
            }
            Step::Matrix { dst, .. } | Step::Clear { dst } | Step::Send { dst, .. } => last[buffers(dst)].fill(None),
            Step::Output { src, slot: to } if to == slot => found.extend(last[buffers(src)].iter().flatten()),
            Step::Output { .. } => {}
        }
    }
    found
}

/// The first way through a Gain, and its slot.
pub fn gained(l: &Layout, slots: &[u32]) -> Option<(u32, Way)> {
    slots.iter().find_map(|s| ways(l, *s).into_iter().find(|w| w.gain.is_some()).map(|w| (*s, w)))
}

/// A node's value as a setting without a ramp would leave it, but written by hand.
pub fn set_by_hand(a: &mut Areas, way: Way) {
    let Some((node, value)) = way.gain else { return };
    a.floats[FLOATS * node + value] = ODD_VALUE;
    a.floats[FLOATS * node + VALUES + value] = ODD_VALUE;
    a.words[WORDS * node + LEFT] = 0;
}

/// What is planted at the last run: a setting more, or a refused one that sets all the same, before it; or an entry more in its directory.
#[derive(Clone, Copy)]
pub enum Last {
    More(Way),
    Refused(Way),
    Entry(Way),
}

/// What is planted in a pair: a way to its slot that the fault must show through.
#[derive(Default)]
pub struct Planted {
    sample: Option<Way>,
    pub unlisted: Option<Way>,
    pub last: Option<Last>,
}

impl Planted {
    pub fn new(j: &mut Judge, l: &Layout, slot: u32) -> Self {
        if j.fault.is_none() || j.planted {
            return Planted::default();
        }
        let ways = ways(l, slot);
        let plain = ways.iter().find(|w| w.gain.is_none()).copied();
        let gained = ways.iter().find(|w| w.gain.is_some()).copied();
        let sample = plain.filter(|_| j.plants(Fault::PairSample));
        let unlisted = plain.filter(|_| j.plants(Fault::PairListed));
        let more = gained.filter(|_| j.plants(Fault::PairSetting)).map(Last::More);
        let refused = gained.filter(|_| j.plants(Fault::PairRefused)).map(Last::Refused);
        let entry = plain.filter(|_| j.plants(Fault::PairEntry)).map(Last::Entry);
        Planted { sample, unlisted, last: more.or(refused).or(entry) }
    }

    /// The last bit of the last sample of a channel.
    pub fn flip(&self, channels: &mut [Channel]) {
        let Some(w) = self.sample else { return };
        let c = channels.iter_mut().find(|c| c.input == w.input && c.channel == w.channel);
        if let Some(Carries::Whole(samples)) = c.map(|c| &mut c.carries) {
            samples.last_mut().into_iter().for_each(|x| *x = f32::from_bits(x.to_bits() ^ 1));
        }
    }
}

/// A fault in the last sample that has a place for it, of the channels of a slot.
pub fn plant_in_output(j: &mut Judge, l: &Layout, slot: u32, wrote: &mut Wrote) {
    if j.fault.is_none() {
        return;
    }
    let to = |s: &Step| if let Step::Output { src, slot } = *s { vec![slot; src.len as usize] } else { Vec::new() };
    let slots: Vec<u32> = l.steps.iter().flat_map(to).collect();
    let of_slot = wrote.output.iter_mut().zip(slots).filter(|(_, s)| *s == slot);
    let mut samples: Vec<&mut f32> = of_slot.flat_map(|(place, _)| place).collect();
    if let Some(x) = samples.iter_mut().rfind(|x| x.is_finite() && ***x != 0.0) {
        if j.plants(Fault::PairBit) {
            **x = f32::from_bits(x.to_bits() ^ 1);
        }
    }
    if let Some(x) = samples.iter_mut().rfind(|x| ***x == 0.0) {
        if j.plants(Fault::PairSign) {
            **x = -**x;
        }
    }
    if let Some(x) = samples.iter_mut().rfind(|x| x.is_nan()) {
        if j.plants(Fault::PairNan) {
            **x = 0.0;
        }
    }
}
