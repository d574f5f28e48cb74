//! What a directory has for a channel: how many entries, how long their parts are, and what stands between and behind them.
use crate::judge::alike;
use crate::ops::Input;
use crate::paper::{self, MAX_ENTRIES};
use crate::plan::{Layout, Step};

macro_rules! shapes {
    ($($text:literal,)*) => {
        const TEXTS: [&str; SHAPES] = [$($text),*];
        /// What the Patches of runs, and lookups, can show.
        pub const PATCH: [&str; SHAPES] = [$(concat!("Patch, ", $text)),*];
        pub const LOOKUP: [&str; SHAPES] = [$(concat!("lookup, ", $text)),*];
    };
}

const SHAPES: usize = 14;
/// Which of them takes much room in a file: all entries that there may be.
pub const FULL: usize = 6;

shapes! {
    "no entry",
    "a part shorter than the block",
    "a part as long as the block",
    "a part longer than the block",
    "two entries",
    "three entries or more",
    "512 entries",
    "a whole part behind a whole one of other samples",
    "a whole part behind a shorter one",
    "a shorter part behind a whole one",
    "an empty part behind a whole one",
    "another channel of the input between the entries",
    "another input between the entries",
    "another channel of the input behind the last entry",
}

/// The entries for one channel.
pub struct Entries<'a> {
    input: &'a Input,
    asked: [u32; 2],
    block: usize,
    places: Vec<usize>,
}

impl<'a> Entries<'a> {
    pub fn new(input: &'a Input, asked: [u32; 2], block: usize) -> Self {
        let all = input.directory.chunks(4).enumerate();
        let places = all.filter(|(_, e)| e[..2] == asked).map(|(i, _)| i).collect();
        Entries { input, asked, block, places }
    }

    /// There are some before the one that counts.
    pub fn several(&self) -> bool {
        self.places.len() > 1
    }

    fn part(&self, place: usize) -> &[f32] {
        let e = &self.input.directory[4 * place..];
        &self.input.samples[e[2] as usize..][..e[3] as usize]
    }

    fn whole(&self, place: usize) -> bool {
        self.part(place).len() >= self.block
    }

    /// The part that counts is shorter than the block, and an earlier one is whole.
    pub fn cut_short(&self) -> bool {
        self.places.split_last().is_some_and(|(last, before)| !self.whole(*last) && before.iter().any(|i| self.whole(*i)))
    }

    /// Another channel of the input, or another input, at one of these places.
    fn others(&self, places: std::ops::Range<usize>) -> [bool; 2] {
        let [input, channel] = self.asked;
        let mut others = self.input.directory[4 * places.start..4 * places.end].chunks(4);
        [others.clone().any(|e| e[0] == input && e[1] != channel), others.any(|e| e[0] != input)]
    }

    fn shapes(&self) -> [bool; SHAPES] {
        let (block, count) = (self.block, self.places.len());
        let Some((last, before)) = self.places.split_last() else {
            return std::array::from_fn(|i| i == 0);
        };
        let len = self.part(*last).len();
        let front = |i: &usize| &self.part(*i)[..block];
        let unlike = |i: &usize| self.whole(*i) && front(i).iter().zip(front(last)).any(|(x, y)| !alike(*x, *y));
        let between = self.others(self.places[0]..*last);
        [
            false,
            len < block,
            len == block,
            len > block,
            count == 2,
            count > 2,
            count == MAX_ENTRIES,
            len >= block && before.iter().any(unlike),
            len >= block && before.iter().any(|i| !self.whole(*i)),
            len > 0 && self.cut_short(),
            len == 0 && self.cut_short(),
            between[0],
            between[1],
            self.others(*last..self.input.directory.len() / 4)[0],
        ]
    }

    /// The names of what is there, of those of a Patch or of a lookup.
    pub fn names(&self, names: [&'static str; SHAPES]) -> Vec<&'static str> {
        names.into_iter().zip(self.shapes()).filter(|(_, there)| *there).map(|(name, _)| name).collect()
    }
}

/// How many channels had each.
#[derive(Default)]
pub struct Tally([u64; SHAPES]);

impl Tally {
    pub fn add(&mut self, e: &Entries) {
        self.0.iter_mut().zip(e.shapes()).for_each(|(n, there)| *n += there as u64);
    }

    /// The channel of each Patch of a run.
    pub fn run(&mut self, steps: &[Step], input: &Input, block: usize) {
        for s in steps {
            if let Step::Patch { input: number, channel, .. } = *s {
                self.add(&Entries::new(input, [number, channel], block));
            }
        }
    }

    pub fn list(&self) -> Vec<(u64, &'static str)> {
        self.0.into_iter().zip(TEXTS).collect()
    }
}

/// What a Patch of the channel writes, by a directory over these samples.
pub fn heard(directory: &[u32], samples: &[f32], [input, channel]: [u32; 2], block: usize) -> Vec<f32> {
    paper::lookup(directory, samples, input, channel).get(..block).map_or(vec![0.0; block], <[f32]>::to_vec)
}

/// The entries in the other order: by these the first one decides.
pub fn turned(directory: &[u32]) -> Vec<u32> {
    directory.chunks(4).rev().flatten().copied().collect()
}

/// Only the entries that are long enough: by these one that is too short is passed over.
pub fn long_enough(directory: &[u32], block: usize) -> Vec<u32> {
    directory.chunks(4).filter(|e| e[3] as usize >= block).flatten().copied().collect()
}

/// Whether a run shows that it had this directory in place of its own: a Patch hears other samples, and no step behind it writes its buffer.
pub fn shows(l: &Layout, input: &Input, other: &[u32]) -> bool {
    let named = |s: &crate::mixer::Span| &l.index[s.start as usize..][..s.len as usize];
    let writes = |s: &Step, buffer: u32| match s {
        Step::Patch { dst, .. } => *dst == buffer,
        Step::Gain { dst, .. } | Step::Matrix { dst, .. } | Step::Clear { dst } | Step::Send { dst, .. } => named(dst).contains(&buffer),
        Step::Output { .. } => false,
    };
    l.steps.iter().enumerate().any(|(i, s)| {
        let Step::Patch { input: number, channel, dst } = *s else { return false };
        let of = |directory: &[u32]| heard(directory, &input.samples, [number, channel], l.block);
        let unlike = of(&input.directory).iter().zip(of(other)).any(|(x, y)| !alike(*x, y));
        unlike && !l.steps[i + 1..].iter().any(|s| writes(s, dst))
    })
}
