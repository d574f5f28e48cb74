//! What is done with a plan, at random: settings, blocks, adoptions, and areas that somebody else wrote.
use crate::layouts::Gen;
use crate::paper::MAX_ENTRIES;
use crate::plan::{Areas, Layout, Step, FLOATS, LEFT, LEN, SAFE, WORDS};

#[derive(Clone, Debug)]
pub struct Setting {
    pub id: u32,
    pub values: Vec<f32>,
    pub ramp: u32,
}

/// An input block: its directory, four words an entry, over its samples.
#[derive(Clone, Debug)]
pub struct Input {
    pub directory: Vec<u32>,
    pub samples: Vec<f32>,
}

/// A node's new len, left, safe and rows.
#[derive(Clone, Debug)]
pub struct NodePoke {
    pub node: usize,
    pub len: u32,
    pub left: u32,
    pub safe: u32,
    pub floats: Vec<f32>,
}

impl NodePoke {
    pub fn put(&self, a: &mut Areas) {
        a.floats[FLOATS * self.node..][..FLOATS].copy_from_slice(&self.floats);
        let words = &mut a.words[WORDS * self.node..];
        (words[LEN], words[LEFT], words[SAFE]) = (self.len, self.left, self.safe);
    }
}

impl Gen {
    /// A setting, one in ten for an id that no node has.
    pub fn setting(&mut self, l: &Layout) -> Setting {
        let ids: Vec<u32> = l.nodes.iter().map(|n| n.id).collect();
        let known = !ids.is_empty() && self.r.percent(90);
        let id = if known { self.r.pick(&ids) } else { self.id(&ids) };
        let n = self.r.pick(&[0, 1, 1, 2, 3, 4, 6, 12, 23, 24, 25, 30]);
        Setting { id, values: self.wild.gains(&mut self.r, n), ramp: self.ramp() }
    }

    /// An input block for the Patches of a layout: parts that overlap, are short, long or missing, more entries behind them, other orders, and now
    /// and then as many entries as there may be.
    pub fn input_block(&mut self, l: &Layout) -> Input {
        let total = self.block * self.r.pick(&[1, 2, 2, 3]) + self.r.pick(&[0, 0, 1, 7]);
        let samples = (0..total).map(|_| self.wild.sample(&mut self.r)).collect();
        let patch = |s: &Step| if let Step::Patch { input, channel, .. } = *s { Some([input, channel]) } else { None };
        let read: Vec<[u32; 2]> = l.steps.iter().filter_map(patch).collect();
        let mut entries: Vec<[u32; 4]> = Vec::new();
        for channel in &read {
            for _ in 0..self.r.pick(&[0, 1, 1, 1, 1, 1, 2]) {
                let len = self.len(total);
                entries.push(self.entry(*channel, len, total));
            }
        }
        if !read.is_empty() && self.r.percent(50) {
            (0..self.r.pick(&[1, 1, 2, 4])).for_each(|_| self.more_entries(&mut entries, &read, total));
        }
        if self.r.percent(30) {
            entries.push([self.r.below(256) as u32, 77, self.r.below(total + 1) as u32, 0]);
            for i in (1..entries.len()).rev() {
                entries.swap(i, self.r.below(i + 1));
            }
        }
        match self.r.below(100) {
            0 | 1 => entries.resize(MAX_ENTRIES, [u32::MAX, u32::MAX, total as u32, 0]),
            2 if !read.is_empty() => self.crowd(&mut entries, &read, total),
            _ => {}
        }
        entries.truncate(MAX_ENTRIES);
        Input { directory: entries.concat(), samples }
    }

    /// Entries for one channel, one to three behind those that it has, each as likely whole as short or empty; entries for another channel of its
    /// input, and for another input, between them.
    fn more_entries(&mut self, entries: &mut Vec<[u32; 4]>, read: &[[u32; 2]], total: usize) {
        let [input, channel] = self.r.pick(read);
        let (b, any) = (self.block, self.channel());
        for _ in 0..self.r.pick(&[1, 1, 2, 3]) {
            for other in [[input, channel ^ 1], [input, any], [input ^ 1, channel]] {
                if other != [input, channel] && self.r.percent(20) {
                    entries.push(self.entry(other, b, total));
                }
            }
            let short = self.r.below(b);
            let len = self.r.pick(&[b, b, b, b - 1, short, 0]);
            entries.push(self.entry([input, channel], len, total));
        }
    }

    /// As many entries as there may be, all of them for one channel, or all but those that there are.
    fn crowd(&mut self, entries: &mut Vec<[u32; 4]>, read: &[[u32; 2]], total: usize) {
        let channel = self.r.pick(read);
        if self.r.percent(50) {
            entries.clear();
        }
        while entries.len() < MAX_ENTRIES {
            let len = self.len(total);
            entries.push(self.entry(channel, len, total));
        }
        entries.rotate_left(self.r.below(MAX_ENTRIES));
    }

    /// An entry with a part of this length, or of all samples where there are fewer.
    fn entry(&mut self, [input, channel]: [u32; 2], len: usize, total: usize) -> [u32; 4] {
        let len = len.min(total);
        [input, channel, self.r.below(total - len + 1) as u32, len as u32]
    }

    fn len(&mut self, total: usize) -> usize {
        let b = self.block;
        match self.r.below(20) {
            0 => b - 1,
            1 => 0,
            2 => self.r.below(total + 1),
            3 | 4 => total,
            5 => b + 1,
            _ => b,
        }
    }

    /// A channel to look up: that of an entry, or now and then one entry's input and another's channel.
    pub fn asked(&mut self, input: &Input) -> [u32; 2] {
        let entries: Vec<&[u32]> = input.directory.chunks(4).collect();
        if entries.is_empty() {
            return [0, 0];
        }
        let (one, other) = (self.r.pick(&entries), self.r.pick(&entries));
        [one[0], self.r.pick(&[one, one, one, other])[1]]
    }

    /// Pairs (new, old), some of them out of range.
    pub fn pairs(&mut self, new: usize, old: usize) -> Vec<u32> {
        let mut pairs = Vec::new();
        if self.r.percent(60) {
            pairs.extend((0..new.min(old) as u32).flat_map(|i| [i, i]));
        }
        for _ in 0..self.r.below(5) {
            let (x, y) = (self.r.below(new + 2) as u32, self.r.below(old + 2) as u32);
            pairs.extend(self.r.pick(&[[x, y], [x, y], [x, y], [u32::MAX, y], [x, u32::MAX]]));
        }
        pairs
    }

    pub fn node_poke(&mut self, nodes: usize) -> NodePoke {
        let floats = (0..FLOATS).map(|_| self.wild.gain(&mut self.r)).collect();
        NodePoke { node: self.r.below(nodes), len: self.node_len() as u32, left: self.ramp(), safe: self.other_safe(), floats }
    }
}
