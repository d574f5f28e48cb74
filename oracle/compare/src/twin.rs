//! One plan on both sides. `want` is what the port's areas must be: it starts as they do and follows the reference call by call.
use crate::entries::{self, Entries};
use crate::judge::{floats, same, untouched, words, Fault, Found, Judge};
use crate::layouts::Gen;
use crate::mixer::{self, CountReply, Status};
use crate::ops::{Input, NodePoke, Setting};
use crate::plan::{Areas, Layout, FLOATS, ID, LEFT, LEN, SAFE, VALUES, WORDS};
use crate::{paper, rust, traced};
use reference::engine::plan::peek;

pub struct Twin {
    pub layout: Layout,
    pub rust: rust::Plan,
    pub want: Areas,
    pub port: Areas,
}

/// Compares areas whose floats were worked out on both sides.
pub fn areas(want: &Areas, port: &Areas) -> Found {
    same("record", &want.plan, &port.plan)?;
    words("indices", &want.indices, &port.indices)?;
    untouched("coefficients", &want.coefficients, &port.coefficients)?;
    words("node words", &want.words, &port.words)?;
    floats("node floats", &want.floats, &port.floats)?;
    words("step words", &want.steps, &port.steps)?;
    floats("buffers", &want.buffers, &port.buffers)
}

fn flip(x: &mut f32) {
    *x = f32::from_bits(x.to_bits() ^ 1);
}

impl Twin {
    pub fn follow_nodes(&mut self, j: &mut Judge) {
        rust::nodes_to(&self.rust.nodes, &mut self.want.floats, &mut self.want.words);
        self.plant_in_node(j);
    }

    fn follow_buffers(&mut self, j: &mut Judge) {
        let used = self.layout.buffers * self.layout.block;
        self.want.buffers[..used].copy_from_slice(peek::buffers(&self.rust));
        if let Some(i) = self.want.buffers[..used].iter().position(|x| x.is_finite()) {
            if j.plants(Fault::BufferBit) {
                flip(&mut self.want.buffers[i]);
            }
        }
    }

    /// Faults in the last node, so that one that is only compared up to the first would not be found.
    fn plant_in_node(&mut self, j: &mut Judge) {
        let Some(last) = self.layout.nodes.len().checked_sub(1) else { return };
        let rows = [(Fault::Cur, 0), (Fault::Target, VALUES), (Fault::Step, 2 * VALUES)];
        for (fault, row) in rows {
            let x = &mut self.want.floats[FLOATS * last + row + VALUES - 1];
            if j.plants_if(x.is_finite(), fault) {
                flip(x);
            }
        }
        for (fault, place) in [(Fault::Id, ID), (Fault::Len, LEN), (Fault::Left, LEFT), (Fault::Safe, SAFE)] {
            if j.plants(fault) {
                self.want.words[WORDS * last + place] ^= 1;
            }
        }
        if let Some(word) = self.want.words.get_mut(WORDS * (last + 1)) {
            if j.plants(Fault::BehindCounts) {
                *word ^= 1;
            }
        }
    }

    /// A safe node that is safe no longer.
    fn plant_in_safe(&mut self, j: &mut Judge, fault: Fault) {
        let safe = (0..self.layout.nodes.len()).rfind(|i| self.want.is_safe(*i as u32));
        if let Some(i) = safe.filter(|_| j.plants(fault)) {
            self.want.words[WORDS * i + SAFE] = 0;
        }
    }

    /// A setting through both sides' own calls; an unknown id is refused 9 where the reference answers false.
    pub fn set(&mut self, j: &mut Judge, s: &Setting) -> Found {
        let known = self.rust.set_param(s.id, &s.values, s.ramp);
        let reply = mixer::set_param(self.port.plan, s.id, &s.values, s.ramp, &mut self.port.floats, &mut self.port.words);
        if known {
            j.counts.calls += 1;
            same("setting", &Status::default(), &reply)?;
            j.counts.safes.setting(&self.want, s.id);
        } else {
            j.refusal("set_param", Status { number: 9, place: 0 }, reply)?;
        }
        self.follow_nodes(j);
        self.plant_in_safe(j, Fault::SetSafe);
        areas(&self.want, &self.port)
    }

    /// One block.
    pub fn run(&mut self, j: &mut Judge, input: &Input, more: usize) -> Found {
        let handed = plant_in_directory(j, &self.layout, input);
        let mut expected = rust::process(&mut self.rust, handed.as_ref().unwrap_or(&input.directory), &input.samples);
        let mut count = expected.len();
        j.counts.calls += 1;
        j.counts.blocks += 1;
        j.counts.samples += count as u64;
        j.counts.shapes.samples(&expected);
        j.counts.patched.run(&self.layout.steps, input, self.layout.block);
        j.counts.inserts.run(&self.layout, &self.want, input);
        j.counts.safes.run(&self.want);
        expected.resize(count + more, 7.5);
        let mut output = vec![7.5; expected.len()];
        let p = &mut self.port;
        let reply = mixer::process(
            p.plan,
            &p.indices,
            &p.coefficients,
            &mut p.floats,
            &mut p.words,
            &p.steps,
            &mut p.buffers,
            &input.directory,
            &input.samples,
            &mut output,
        );
        plant_in_output(j, &mut expected[..count]);
        if j.plants(Fault::OutputCount) {
            count += 1;
        }
        same("run", &CountReply { count, ..CountReply::default() }, &reply)?;
        floats("output", &expected, &output)?;
        self.follow_nodes(j);
        self.plant_in_safe(j, Fault::RunSafe);
        self.follow_buffers(j);
        areas(&self.want, &self.port)
    }

    /// The source list of each slot, number 15 behind the last, number 2 for an area that is one entry short; all lists from one call; and the
    /// clean answer.
    pub fn trace(&self, j: &mut Judge) -> Found {
        let mut lists = self.rust.output_sources.clone();
        if j.plants(Fault::SlotMore) {
            lists.push(Vec::new());
        }
        for (slot, list) in lists.iter_mut().enumerate() {
            plant_in_list(j, list);
            self.list(j, slot as u32, list)?;
        }
        traced::all(j, &self.port, &lists)?;
        j.counts.calls += 1;
        let mut clean = paper::clean(&self.want).map_err(|s| format!("document 01 refuses the plan: {s:?}"))?;
        if j.plants(Fault::Clean) {
            clean = !clean;
        }
        let p = &self.port;
        let reply = mixer::clean_answer(p.plan, &p.indices, &p.words, &p.steps);
        same("clean answer", &mixer::CleanReply { clean, ..mixer::CleanReply::default() }, &reply)?;
        let reply = mixer::output_sources(p.plan, lists.len() as u32, &p.indices, &p.words, &p.steps, &mut []);
        j.refusal("output_sources", Status { number: 15, place: 0 }, reply.status)?;
        areas(&self.want, p)
    }

    fn list(&self, j: &mut Judge, slot: u32, list: &[u16]) -> Found {
        let p = &self.port;
        let mut area = vec![0xabcd; list.len() + 2];
        let reply = mixer::output_sources(p.plan, slot, &p.indices, &p.words, &p.steps, &mut area);
        j.counts.calls += 1;
        j.counts.lists += 1;
        same("source list", &CountReply { count: list.len(), ..CountReply::default() }, &reply)?;
        words("source list", &[list, &[0xabcd; 2]].concat(), &area)?;
        if !list.is_empty() {
            let mut short = vec![0xabcd; list.len() - 1];
            let reply = mixer::output_sources(p.plan, slot, &p.indices, &p.words, &p.steps, &mut short);
            j.refusal("output_sources", Status { number: 2, place: 0 }, reply.status)?;
            words("source list after a refusal", &vec![0xabcd; list.len() - 1], &short)?;
        }
        Ok(())
    }

    /// A node whose areas somebody else wrote, on both sides.
    pub fn poke(&mut self, n: &NodePoke) {
        n.put(&mut self.want);
        n.put(&mut self.port);
        rust::nodes_from(&mut self.rust, &self.port.floats, &self.port.words);
    }

    pub fn poke_buffers(&mut self, at: usize, values: &[f32]) {
        self.want.buffers[at..][..values.len()].copy_from_slice(values);
        self.port.buffers[at..][..values.len()].copy_from_slice(values);
        peek::buffers_mut(&mut self.rust)[at..][..values.len()].copy_from_slice(values);
    }

    /// The channel lookup and the directory's own test, for a channel that a Patch may ask for.
    pub fn lookup(&self, j: &mut Judge, g: &mut Gen, input: &Input) -> Found {
        let asked = g.asked(input);
        let found = plant_in_lookup(j, input, asked);
        let mut part = vec![7.5; found.len() + 1];
        let reply = mixer::lookup(&input.directory, &input.samples, asked[0], asked[1], &mut part);
        let mut expected = [found, &[7.5]].concat();
        j.counts.calls += 2;
        j.counts.looked_up.add(&Entries::new(input, asked, self.layout.block));
        if j.plants_if(!found.is_empty(), Fault::Part) {
            expected.pop();
        }
        same("lookup", &CountReply { count: expected.len() - 1, ..CountReply::default() }, &reply)?;
        untouched("looked-up part", &expected, &part)?;
        same("directory", &false, &mixer::directory_bad(&input.directory, input.samples.len()))
    }
}

/// Another directory for the reference, in a run that must show it.
fn plant_in_directory(j: &mut Judge, l: &Layout, input: &Input) -> Option<Vec<u32>> {
    let fault = j.fault?;
    let other = match fault {
        Fault::FirstEntry => entries::turned(&input.directory),
        Fault::LongEntry => entries::long_enough(&input.directory, l.block),
        _ => return None,
    };
    j.plants_if(entries::shows(l, input, &other), fault).then_some(other)
}

/// What a lookup finds; planted, by the first entry where that gives another part.
fn plant_in_lookup<'a>(j: &mut Judge, input: &'a Input, [number, channel]: [u32; 2]) -> &'a [f32] {
    let by = |directory: &[u32]| paper::lookup(directory, &input.samples, number, channel);
    let last = by(&input.directory);
    if j.fault == Some(Fault::FirstPart) {
        let first = by(&entries::turned(&input.directory));
        if j.plants_if(untouched("part", first, last).is_err(), Fault::FirstPart) {
            return first;
        }
    }
    last
}

fn plant_in_output(j: &mut Judge, output: &mut [f32]) {
    if let Some(x) = output.iter_mut().rfind(|x| x.is_finite() && **x != 0.0) {
        if j.plants(Fault::OutputBit) {
            flip(x);
        }
    }
    if let Some(x) = output.iter_mut().rfind(|x| **x == 0.0) {
        if j.plants(Fault::OutputSign) {
            *x = -*x;
        }
    }
    if let Some(x) = output.iter_mut().rfind(|x| x.is_nan()) {
        if j.plants(Fault::OutputNan) {
            *x = 0.0;
        }
    }
}

fn plant_in_list(j: &mut Judge, list: &mut Vec<u16>) {
    if j.plants_if(list.len() < 256, Fault::SourceMore) {
        list.push(255);
    }
    if j.plants_if(!list.is_empty(), Fault::SourceLess) {
        list.pop();
    }
    if j.plants_if(!list.is_empty(), Fault::SourceOther) {
        list[0] ^= 1;
    }
}
