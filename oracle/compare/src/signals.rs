//! What the inputs carry in the two lists of a pair: a listed one the same samples in both, an unlisted one anything.
use crate::layouts::Gen;
use crate::ops::Input;
use crate::paper::MAX_ENTRIES;
use crate::plan::{Layout, Step};
use crate::rng::{Rng, Wild};

/// Most channels that have an entry, so that a directory has room for a few entries more.
const MOST: usize = 480;

#[derive(Clone, Debug)]
pub enum Carries {
    /// Listed: absent in every run of both lists.
    Absent,
    /// Listed: whole in every run of both lists, with these samples.
    Whole(Vec<f32>),
    /// Unlisted: anything, in one list or in both, run by run.
    Anything,
}

/// A channel of an input.
#[derive(Clone, Debug)]
pub struct Channel {
    pub input: u32,
    pub channel: u32,
    pub carries: Carries,
    /// A Patch reads it.
    pub read: bool,
    /// Unlisted, and absent in every run of the first list, or of the second.
    pub missing: [bool; 2],
}

/// The same value: a NaN has other bits.
pub fn same_value(r: &mut Rng, x: f32) -> f32 {
    if !x.is_nan() {
        return x;
    }
    let bits = r.next() as u32;
    f32::from_bits(0x7f80_0000 | bits & 0x8000_0000 | (bits & 0x007f_ffff).max(1))
}

pub fn same_values(r: &mut Rng, values: &[f32]) -> Vec<f32> {
    values.iter().map(|x| same_value(r, *x)).collect()
}

impl Gen {
    /// The channels that Patches read and a few others. With `sure` each is whole, and a listed one has no zero and nothing wild.
    pub fn channels(&mut self, l: &Layout, listed: &[u16], total: usize, sure: bool) -> Vec<Channel> {
        let names = self.names(l, listed);
        let carries = |g: &mut Gen, input: u32| match listed.contains(&(input as u16)) {
            true if sure => Carries::Whole((0..total).map(|_| 1.0 + g.r.unit() / 2.0).collect()),
            true if g.r.percent(12) => Carries::Absent,
            true => Carries::Whole((0..total).map(|_| g.wild.sample(&mut g.r)).collect()),
            false => Carries::Anything,
        };
        let one = |(input, channel, read)| {
            let missing = [!sure && self.r.percent(10), !sure && self.r.percent(10)];
            Channel { input, channel, carries: carries(self, input), read, missing }
        };
        names.into_iter().map(one).collect()
    }

    /// Input, channel, and whether a Patch reads it; each once.
    fn names(&mut self, l: &Layout, listed: &[u16]) -> Vec<(u32, u32, bool)> {
        let (input, channel) = (self.r.below(256) as u32, 1000 + self.r.below(9) as u32);
        let patch = |s: &Step| if let Step::Patch { input, channel, .. } = *s { Some((input, channel, true)) } else { None };
        let more = listed.first().map(|i| (*i as u32, 2000, false));
        let mut names: Vec<(u32, u32, bool)> = Vec::new();
        for n in l.steps.iter().filter_map(patch).chain([(input, channel, false)]).chain(more) {
            if !names.iter().any(|m| m.0 == n.0 && m.1 == n.1) {
                names.push(n);
            }
        }
        names.truncate(MOST);
        names
    }

    /// The input block of a run whose first sample is `at`. The entries start anywhere in the channels, so that each run has them elsewhere.
    pub fn feed(&mut self, channels: &[Channel], side: usize, at: usize, block: usize, sure: bool) -> Input {
        let mut input = Input { directory: Vec::new(), samples: Vec::new() };
        let first = self.r.below(channels.len());
        for c in channels[first..].iter().chain(&channels[..first]) {
            match &c.carries {
                Carries::Absent => self.absent(&mut input, c, block),
                Carries::Whole(samples) => {
                    let part = same_values(&mut self.r, &samples[at..][..block]);
                    self.whole(&mut input, c, part);
                }
                Carries::Anything if c.missing[side] || (!sure && self.r.percent(10)) => self.absent(&mut input, c, block),
                Carries::Anything => {
                    let part = self.anything(block, sure);
                    self.whole(&mut input, c, part);
                }
            }
        }
        if !input.directory.is_empty() {
            let room = MAX_ENTRIES - input.directory.len() / 4 - sure as usize; // a planted entry has a place
            let more = if self.r.percent(1) { room } else { self.r.pick(&[0, 0, 0, 1, 1, 2, 3, 6]) };
            (0..more.min(room)).for_each(|_| self.before(&mut input, block));
        }
        input
    }

    /// An input block in which every channel carries anything.
    pub fn feed_anything(&mut self, channels: &[Channel], block: usize) -> Input {
        let mut input = Input { directory: Vec::new(), samples: Vec::new() };
        for c in channels {
            let part = self.anything(block, false);
            self.whole(&mut input, c, part);
        }
        input
    }

    fn anything(&mut self, block: usize, sure: bool) -> Vec<f32> {
        let wild = if sure { Wild::Tame } else { self.r.pick(&[Wild::All, Wild::All, self.wild]) };
        (0..block).map(|_| wild.sample(&mut self.r)).collect()
    }

    /// No entry, or one whose part is shorter than the block.
    fn absent(&mut self, input: &mut Input, c: &Channel, block: usize) {
        if self.r.percent(50) {
            let len = self.r.below(block);
            let part = self.anything(len, false);
            enter(input, c.input, c.channel, part);
        }
    }

    /// An entry of a whole part, which may go on behind the block and lie behind samples of nobody.
    fn whole(&mut self, input: &mut Input, c: &Channel, mut part: Vec<f32>) {
        let (before, more) = (self.r.pick(&[0, 0, 0, 1, 3]), self.r.pick(&[0, 0, 0, 1, 2]));
        input.samples.extend(self.anything(before, false));
        part.extend(self.anything(more, false));
        enter(input, c.input, c.channel, part);
    }

    /// An entry that must not matter, somewhere before one for the same channel. A part that is whole must not bring back a channel whose last
    /// entry is short.
    fn before(&mut self, input: &mut Input, block: usize) {
        let at = self.r.below(input.directory.len() / 4);
        let (number, channel) = (input.directory[4 * at], input.directory[4 * at + 1]);
        let short = self.r.below(block);
        let len = self.r.pick(&[block, block, block, block + 1, short, 0]);
        let part = self.anything(len, false);
        let place = 4 * self.r.below(at + 1);
        input.directory.splice(place..place, [number, channel, input.samples.len() as u32, part.len() as u32]);
        input.samples.extend(part);
    }
}

/// Appends an entry with a part of its own.
pub fn enter(input: &mut Input, number: u32, channel: u32, part: Vec<f32>) {
    input.directory.extend([number, channel, input.samples.len() as u32, part.len() as u32]);
    input.samples.extend(part);
}
