//! The two lists of a pair: settings and runs after the plan that `finish` left, alike in what is accepted, with other refused calls in each.
use crate::entries::{heard, Entries};
use crate::judge::{alike, same, words, Fault, Found, Judge};
use crate::layouts::Gen;
use crate::mixer::{self, CountReply, Status};
use crate::ops::Setting;
use crate::plan::{Areas, Layout, Step, SAFE, VALUES};
use crate::planted::{set_by_hand, Last, ODD_VALUE};
use crate::refused::process;
use crate::signals::{enter, same_values, Carries, Channel};
use crate::strays;

/// What the accepted runs of a list wrote to each place of the output area, and what Patches heard of each channel, joined in list order.
pub struct Wrote {
    side: usize,
    pub output: Vec<Vec<f32>>,
    heard: Vec<Vec<f32>>,
    /// A Patch of a listed channel passed an entry that must not matter, and a whole one of a channel that is absent.
    passed: [bool; 2],
}

pub struct Pair<'a> {
    l: &'a Layout,
    blocks: [usize; 2],
    /// A setting can be at the same sample of both lists only at its multiples.
    stride: usize,
    /// The accepted settings of both lists, one entry for each multiple up to the last sample.
    settings: Vec<Vec<Setting>>,
    pub channels: Vec<Channel>,
    sure: bool,
    /// Done at the last run of the second list.
    pub last: Option<Last>,
}

fn multiple(a: usize, b: usize) -> usize {
    (1..=b).map(|n| n * a).find(|n| n % b == 0).unwrap_or(a)
}

impl Gen {
    /// The two blocks: equal ones, one of them 1, multiples, and others whose first common multiple is not too far.
    pub fn blocks(&mut self, large: bool) -> [usize; 2] {
        let r = &mut self.r;
        let equal = if large { r.range(1, 6) } else { r.range(1, 12) };
        let long = r.pick(&[1, 16, 31, 32, 33, 64, 100, 128]);
        let other =
            r.pick(&[[32, 48], [64, 96], [100, 60], [31, 33], [96, 128], [16, 64], [480, 160], [480, 64], [1024, 768], [512, 1024]]);
        let blocks = match r.below(40) {
            0..=8 => [equal, equal],
            _ if large => [r.range(1, 6), r.range(1, 6)],
            9 => [long, long],
            10..=15 => [1, r.range(2, 48)],
            16 | 17 => other,
            18 => [r.range(1, 32), r.range(1, 32)],
            _ => [r.range(1, 12), r.range(1, 12)],
        };
        if r.percent(50) {
            return [blocks[1], blocks[0]];
        }
        blocks
    }

    /// Settings of nodes that the plan has.
    fn settings(&mut self, l: &Layout, ramps: bool) -> Vec<Setting> {
        let ids: Vec<u32> = l.nodes.iter().map(|n| n.id).collect();
        let count = if ids.is_empty() { 0 } else { self.r.pick(&[0, 0, 1, 1, 2, 3]) };
        let one = |_| {
            let s = self.setting(l);
            let id = if ids.contains(&s.id) { s.id } else { self.r.pick(&ids) };
            Setting { id, ramp: if ramps { s.ramp } else { 0 }, ..s }
        };
        (0..count).map(one).collect()
    }
}

impl<'a> Pair<'a> {
    /// With `sure`, inputs that a planted fault shows through; with `unset` no settings, which might set again what the fault has changed.
    pub fn new(g: &mut Gen, l: &'a Layout, blocks: [usize; 2], listed: &[u16], sure: bool, unset: bool) -> Self {
        let stride = multiple(blocks[0], blocks[1]);
        let most = if stride > 200 { 2 } else { 4 };
        let strides = g.r.range(1, most);
        let ramps = blocks[0] == blocks[1];
        let settings = (0..=strides).map(|_| if unset { Vec::new() } else { g.settings(l, ramps) }).collect();
        let channels = g.channels(l, listed, stride * strides, sure);
        Pair { l, blocks, stride, settings, channels, sure, last: None }
    }

    fn total(&self) -> usize {
        self.stride * (self.settings.len() - 1)
    }

    /// One list of calls, from the plan that `finish` left.
    pub fn play(&self, j: &mut Judge, g: &mut Gen, built: &Areas, side: usize) -> Result<Wrote, String> {
        let mut a = built.clone();
        let often = g.r.pick(&[0, 5, 20]);
        let places = self.l.output_channels();
        let mut wrote = Wrote { side, output: vec![Vec::new(); places], heard: vec![Vec::new(); self.channels.len()], passed: [false; 2] };
        for (i, settings) in self.settings.iter().enumerate() {
            for s in settings {
                self.strew(j, g, &mut a, often)?;
                j.counts.shapes.setting(s.ramp, a.plan.block);
                set(j, g, &mut a, s)?;
            }
            if i + 1 < self.settings.len() {
                self.runs(j, g, &mut a, i * self.stride, often, &mut wrote)?;
            }
        }
        self.strew(j, g, &mut a, often)?;
        self.safe(j, &a, side)?;
        Ok(wrote)
    }

    /// After a list each node's safe is the one that it was built with.
    fn safe(&self, j: &mut Judge, a: &Areas, side: usize) -> Found {
        let mut built: Vec<u32> = self.l.nodes.iter().map(|n| n.safe).collect();
        if let Some(last) = built.last_mut().filter(|_| side == 1 && j.plants(Fault::PairSafe)) {
            *last ^= 1;
        }
        words("safe", &built, &(0..a.plan.nodes).map(|k| a.word(k, SAFE)).collect::<Vec<_>>())
    }

    /// The runs from a sample up to the next one at which there may be settings.
    fn runs(&self, j: &mut Judge, g: &mut Gen, a: &mut Areas, from: usize, often: usize, wrote: &mut Wrote) -> Found {
        let block = a.plan.block;
        for at in (from..from + self.stride).step_by(block) {
            self.strew(j, g, a, often)?;
            if at + block == self.total() {
                self.plant(j, g, a)?;
            }
            self.run(j, g, a, at, wrote).map_err(|e| format!("run at sample {at}: {e}"))?;
        }
        Ok(())
    }

    /// Refused calls.
    fn strew(&self, j: &mut Judge, g: &mut Gen, a: &mut Areas, often: usize) -> Found {
        while g.r.percent(often) {
            if g.r.percent(50) {
                strays::setting(j, g, self.l, a)?;
            } else {
                strays::run(j, g, self.l, &self.channels, a)?;
            }
        }
        Ok(())
    }

    fn run(&self, j: &mut Judge, g: &mut Gen, a: &mut Areas, at: usize, wrote: &mut Wrote) -> Found {
        let block = a.plan.block;
        let mut input = g.feed(&self.channels, wrote.side, at, block, self.sure);
        if let (Some(Last::Entry(way)), true) = (self.last, at + block == self.total()) {
            enter(&mut input, way.input, way.channel, vec![ODD_VALUE; block]);
        }
        let mut output = vec![7.5; wrote.output.len() * block + g.r.pick(&[0, 0, 1, 9])];
        let reply = process(a, &input, &mut output);
        j.counts.calls += 1;
        j.counts.blocks += 1;
        same("run", &CountReply { count: wrote.output.len() * block, ..CountReply::default() }, &reply)?;
        for (place, part) in wrote.output.iter_mut().zip(output.chunks(block)) {
            place.extend(part);
        }
        for (channel, c) in wrote.heard.iter_mut().zip(&self.channels) {
            let asked = [c.input, c.channel];
            channel.extend(heard(&input.directory, &input.samples, asked, block));
            if c.read && !matches!(c.carries, Carries::Anything) {
                let entries = Entries::new(&input, asked, block);
                wrote.passed[0] |= entries.several();
                wrote.passed[1] |= entries.cut_short();
            }
        }
        Ok(())
    }

    fn plant(&self, j: &mut Judge, g: &mut Gen, a: &mut Areas) -> Found {
        match self.last {
            None | Some(Last::Entry(_)) => Ok(()),
            Some(Last::More(way)) => {
                let id = way.gain.map_or(0, |(node, _)| self.l.nodes[node].id);
                set(j, g, a, &Setting { id, values: vec![ODD_VALUE; VALUES], ramp: 0 })
            }
            Some(Last::Refused(way)) => {
                strays::setting(j, g, self.l, a)?;
                set_by_hand(a, way);
                Ok(())
            }
        }
    }

    /// What this pair had.
    pub fn count(&self, j: &mut Judge, first: &Wrote, second: &Wrote) {
        let [a, b] = self.blocks;
        let c = &mut j.counts.pairs;
        c.pairs += 1;
        c.other_blocks += (a != b) as u64;
        c.block_of_one += (a.min(b) == 1) as u64;
        c.no_multiple += (a % b != 0 && b % a != 0) as u64;
        let ramp = self.l.nodes.iter().any(|n| n.ramp > 0) || self.settings.iter().flatten().any(|s| s.ramp > 0);
        c.ramps += ramp as u64;
        c.settings += self.settings[1..].iter().any(|s| !s.is_empty()) as u64;
        c.missing += self.channels.iter().any(|c| c.read && matches!(c.carries, Carries::Anything) && c.missing[0] != c.missing[1]) as u64;
        c.absent += self.channels.iter().any(|c| c.read && matches!(c.carries, Carries::Absent)) as u64;
        c.passed += (first.passed[0] || second.passed[0]) as u64;
        c.passed_whole += (first.passed[1] || second.passed[1]) as u64;
        let unlisted = |i: &usize| self.channels[*i].read && matches!(self.channels[*i].carries, Carries::Anything);
        let differ = |i: &usize| (0..self.total()).any(|k| !alike(first.heard[*i][k], second.heard[*i][k]));
        let differing: Vec<usize> = (0..self.channels.len()).filter(unlisted).filter(differ).collect();
        c.unlisted += !differing.is_empty() as u64;
        let wild = |i: &usize| first.heard[*i].iter().chain(&second.heard[*i]).any(|x| !x.is_finite());
        c.not_finite += differing.iter().any(wild) as u64;
    }
}

/// An accepted setting. A NaN among its values has other bits in each list.
fn set(j: &mut Judge, g: &mut Gen, a: &mut Areas, s: &Setting) -> Found {
    j.counts.calls += 1;
    let reply = mixer::set_param(a.plan, s.id, &same_values(&mut g.r, &s.values), s.ramp, &mut a.floats, &mut a.words);
    same("setting", &Status::default(), &reply)
}

/// Every channel of every slot whose listed inputs carried equal samples, sample by sample: NaN for NaN, else bit for bit.
pub fn compare(j: &mut Judge, l: &Layout, lists: &[Vec<u16>], equal: &[u16], first: &Wrote, second: &Wrote) -> Found {
    let (mut place, mut sound, mut other) = (0, false, false);
    for s in &l.steps {
        let Step::Output { src, slot } = *s else { continue };
        let claimed = lists[slot as usize].iter().all(|i| equal.contains(i));
        for c in 0..src.len as usize {
            let (x, y) = (&first.output[place], &second.output[place]);
            place += 1;
            let unlike = x.iter().zip(y).position(|(x, y)| !alike(*x, *y));
            match unlike {
                Some(k) if claimed => return Err(difference(slot, c, k, x[k], y[k])),
                _ => {}
            }
            same("samples written", &x.len(), &y.len())?;
            if claimed {
                j.counts.samples += x.len() as u64;
                j.counts.shapes.samples(x);
                sound |= x.iter().any(|x| *x != 0.0);
            }
            other |= unlike.is_some();
        }
    }
    j.counts.pairs.sound += sound as u64;
    j.counts.pairs.other_output += other as u64;
    Ok(())
}

fn difference(slot: u32, channel: usize, k: usize, x: f32, y: f32) -> String {
    format!("Output to {slot}, channel {channel}, sample {k}: first {x:?} ({:#010x}), second {y:?} ({:#010x})", x.to_bits(), y.to_bits())
}
