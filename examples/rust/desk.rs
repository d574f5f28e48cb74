//! The layout of examples/c/desk.c from Rust: the same calls, which mixer.rs declares, the same text.
//! Each unsafe call lends whole slices that are apart, which is all that the interface asks of its caller.
mod mixer;

use mixer::*;

const BLOCK: usize = 4;
const BUFFERS: usize = 14;
const NODES: usize = 10;
const CHANNELS: usize = 4;
const HALL: u32 = 0;
const STAGE: u32 = 1;
const EFFECTS: u32 = 2;
const MICROPHONE: u32 = 12;
const BAND: u32 = 40;
const BOX: u32 = 60;
const ANNOUNCEMENT: u32 = 80;

/// The ids of the nodes, in the order in which the nodes are made.
const STRIP_LEVEL: u32 = 100;
const BAND_LEVEL: u32 = 101;
const STAGE_LEVEL: u32 = 102;
const ANNOUNCEMENT_LEVEL: u32 = 103;
const BOX_IDS: InsertIds = InsertIds { send: 104, ret: 105, dry: 106, wet: 107, dryin: 108, wetin: 109 };

const FOLD_GAINS: FoldGains = FoldGains { pan_left: 0.5, pan_right: 0.5, mono_sum: 0.5, centre: 0.5, surround: 0.5, lfe: 0.0 };

/// A refusal, by its number and place.
#[derive(Debug)]
struct Refused(u32, u32);

impl Status {
    fn result(self) -> Result<(), Refused> {
        match self.number {
            0 => Ok(()),
            number => Err(Refused(number, self.place)),
        }
    }
}

fn channels(format: u32) -> usize {
    unsafe { mixer_format_channels(format) }
}

/// The fold from one format to another, without a house table.
fn built_in(src: u32, dst: u32) -> Result<Vec<f32>, Refused> {
    let mut matrix = vec![0.0; channels(src) * channels(dst)];
    unsafe { mixer_width_matrix(src, dst, FOLD_GAINS, false, matrix.as_mut_ptr(), matrix.len()) }.result().map(|()| matrix)
}

/// Whether a house table covers the pair: src has more than two channels, and dst lacks a label of one.
fn covers(src: u32, dst: u32) -> bool {
    channels(src) > 2 && (0..channels(src)).any(|c| unsafe { !mixer_format_has(dst, mixer_format_label(src, c)) })
}

/// The record of a plan and its areas, and the entries of the directory that it is run with.
struct Desk {
    plan: Plan,
    entries: usize,
    indices: [u32; 16],
    coefficients: [f32; 16],
    floats: [f32; NODES * NODE_FLOATS],
    words: [u32; NODES * NODE_WORDS],
    steps: [u32; 128],
    buffers: [f32; BUFFERS * BLOCK],
}

impl Desk {
    fn new() -> Result<Desk, Refused> {
        let r = unsafe { mixer_new(BLOCK) };
        r.status.result()?;
        Ok(Desk {
            plan: r.plan,
            entries: 4,
            indices: [0; 16],
            coefficients: [0.0; 16],
            floats: [0.0; NODES * NODE_FLOATS],
            words: [0; NODES * NODE_WORDS],
            steps: [0; 128],
            buffers: [0.0; BUFFERS * BLOCK],
        })
    }

    fn buffers(&mut self, n: usize) -> Result<Span, Refused> {
        let a = &mut self.indices;
        let r = unsafe { mixer_buffers(self.plan, n, a.as_mut_ptr(), a.len()) };
        r.status.result()?;
        self.plan = r.plan;
        Ok(r.span)
    }

    fn weights(&mut self, src: u32, dst: u32) -> Result<Span, Refused> {
        let (v, a) = (built_in(src, dst)?, &mut self.coefficients);
        let r = unsafe { mixer_coefficients(self.plan, v.as_ptr(), v.len(), a.as_mut_ptr(), a.len()) };
        r.status.result()?;
        self.plan = r.plan;
        Ok(r.span)
    }

    fn node(&mut self, id: u32, value: f32, safe: u32) -> Result<u32, Refused> {
        let (f, w) = (&mut self.floats, &mut self.words);
        let r = unsafe { mixer_node(self.plan, id, &value, 1, 0, safe, f.as_mut_ptr(), f.len(), w.as_mut_ptr(), w.len()) };
        r.status.result()?;
        self.plan = r.plan;
        Ok(r.node)
    }

    fn step(&mut self, record: &[u32]) -> Result<(), Refused> {
        let a = &mut self.steps;
        let r = unsafe { mixer_step(self.plan, record.as_ptr(), record.len(), a.as_mut_ptr(), a.len()) };
        r.status.result()?;
        self.plan = r.plan;
        Ok(())
    }

    fn patch(&mut self, input: u32, channel: u32, dst: Span) -> Result<(), Refused> {
        let a = &self.indices;
        let r = unsafe { mixer_buffer(self.plan, dst, channel as usize, a.as_ptr(), a.len()) };
        r.status.result()?;
        self.step(&[PATCH, input, channel, r.buffer])
    }

    fn send(&mut self, node: u32, src: Span, dst: Span, w: Span) -> Result<(), Refused> {
        self.step(&[SEND, node, src.start, src.len, dst.start, dst.len, w.start, w.len])
    }

    /// The insert of a mono strip, bypassed at first. What it hands back goes on in the strip's place.
    #[rustfmt::skip]
    fn insert(&mut self, strip: Span) -> Result<Span, Refused> {
        let back = InsertReturn { input: BOX + 1, channel: 1, gain: 2.0, bypass: true };
        let point = InsertPoint { format: MONO, src: strip, gain: 1.0, slot: EFFECTS, ramp: 0, ids: BOX_IDS, returns: true, back };
        let r = unsafe {
            mixer_insert(self.plan, point, self.indices.as_mut_ptr(), self.indices.len(),
                self.coefficients.as_mut_ptr(), self.coefficients.len(), self.floats.as_mut_ptr(), self.floats.len(),
                self.words.as_mut_ptr(), self.words.len(), self.steps.as_mut_ptr(), self.steps.len())
        };
        r.status.result()?;
        self.plan = r.plan;
        Ok(r.span)
    }

    fn finish(&mut self) -> Result<(), Refused> {
        let a = &mut self.buffers;
        unsafe { mixer_finish(self.plan, a.as_mut_ptr(), a.len()) }.status.result()
    }

    fn level(&mut self, id: u32, value: f32, ramp: u32) -> Result<(), Refused> {
        let (f, w) = (&mut self.floats, &mut self.words);
        unsafe { mixer_set_param(self.plan, id, &value, 1, ramp, f.as_mut_ptr(), f.len(), w.as_mut_ptr(), w.len()) }.result()
    }

    /// Each node goes on from where the old one of its number is, over `ramp` samples, but for a safe one.
    #[rustfmt::skip]
    fn adopt(&mut self, old: &Desk, ramp: u32) -> Result<(), Refused> {
        let pairs: Vec<u32> = (0..NODES as u32).flat_map(|n| [n, n]).collect();
        unsafe {
            mixer_adopt(self.plan, self.floats.as_mut_ptr(), self.floats.len(), self.words.as_mut_ptr(), self.words.len(),
                old.plan, old.floats.as_ptr(), old.floats.len(), old.words.as_ptr(), old.words.len(),
                pairs.as_ptr(), pairs.len(), ramp)
        }
        .result()
    }

    /// One block. Of the directory the first `entries` are lent: the microphone at 1, the band at 0.25 and -0.25, the box at 0.5, a stand-in for
    /// the microphone at 0.5, and last an announcement at 1.
    #[rustfmt::skip]
    fn run(&mut self, output: &mut [f32]) -> Result<usize, Refused> {
        let n = BLOCK as u32;
        let all = [MICROPHONE, 0, 0, n, BAND, 0, n, n, BAND, 1, 2 * n, n,
            BOX, 0, 3 * n, n, MICROPHONE, 0, 4 * n, n, ANNOUNCEMENT, 0, 5 * n, n];
        let directory = &all[..ENTRY_WORDS * self.entries];
        let mut samples = [1.0; 6 * BLOCK];
        samples[BLOCK..2 * BLOCK].fill(0.25);
        samples[2 * BLOCK..3 * BLOCK].fill(-0.25);
        samples[3 * BLOCK..5 * BLOCK].fill(0.5);
        let r = unsafe {
            mixer_process(self.plan, self.indices.as_ptr(), self.indices.len(), self.coefficients.as_ptr(), self.coefficients.len(),
                self.floats.as_mut_ptr(), self.floats.len(), self.words.as_mut_ptr(), self.words.len(),
                self.steps.as_ptr(), self.steps.len(), self.buffers.as_mut_ptr(), self.buffers.len(),
                directory.as_ptr(), directory.len(), samples.as_ptr(), samples.len(), output.as_mut_ptr(), output.len())
        };
        r.status.result().map(|()| r.count)
    }

    /// The inputs behind a slot.
    #[rustfmt::skip]
    fn sources(&self, slot: u32) -> Result<Vec<u16>, Refused> {
        let mut list = [0u16; 256];
        let r = unsafe {
            mixer_output_sources(self.plan, slot, self.indices.as_ptr(), self.indices.len(), self.words.as_ptr(), self.words.len(),
                self.steps.as_ptr(), self.steps.len(), list.as_mut_ptr(), list.len())
        };
        r.status.result().map(|()| list[..r.count].to_vec())
    }

    #[rustfmt::skip]
    fn clean(&self) -> Result<bool, Refused> {
        let r = unsafe {
            mixer_clean_answer(self.plan, self.indices.as_ptr(), self.indices.len(), self.words.as_ptr(), self.words.len(),
                self.steps.as_ptr(), self.steps.len())
        };
        r.status.result().map(|()| r.clean)
    }
}

fn build() -> Result<Desk, Refused> {
    let mut d = Desk::new()?;
    let microphone = d.buffers(1)?;
    let band = d.buffers(2)?;
    let announcement = d.buffers(1)?;
    let strip = d.buffers(1)?;
    let hall = d.buffers(2)?;
    let stage = d.buffers(1)?;
    let strip_level = d.node(STRIP_LEVEL, 0.5, 0)?;
    let band_level = d.node(BAND_LEVEL, 1.0, 0)?;
    let stage_level = d.node(STAGE_LEVEL, 1.0, 0)?;
    let announcement_level = d.node(ANNOUNCEMENT_LEVEL, 1.0, 1)?;
    d.patch(MICROPHONE, 0, microphone)?;
    d.patch(BAND, 0, band)?;
    d.patch(BAND, 1, band)?;
    d.patch(ANNOUNCEMENT, 0, announcement)?;
    d.step(&[GAIN, strip_level, microphone.start, microphone.len, strip.start, strip.len])?;
    let inserted = d.insert(strip)?;
    d.step(&[CLEAR, hall.start, hall.len])?;
    d.step(&[CLEAR, stage.start, stage.len])?;
    let w = d.weights(STEREO, STEREO)?;
    d.send(band_level, band, hall, w)?;
    let w = d.weights(MONO, STEREO)?;
    d.send(band_level, inserted, hall, w)?;
    let w = d.weights(MONO, STEREO)?;
    d.send(announcement_level, announcement, hall, w)?;
    let w = d.weights(MONO, MONO)?;
    d.send(stage_level, strip, stage, w)?;
    d.step(&[OUTPUT, hall.start, hall.len, HALL])?;
    d.step(&[OUTPUT, stage.start, stage.len, STAGE])?;
    d.finish()?;
    let p = d.plan;
    println!("built: {} buffers, {} nodes, {} steps of {} words", p.buffers, p.nodes, p.steps, p.words);
    Ok(d)
}

fn line(name: &str, values: &[f32]) {
    let text: String = values.iter().map(|x| format!(" {x:.5}")).collect();
    println!("  {name:<10}{text}");
}

fn block(d: &mut Desk) -> Result<(), Refused> {
    let mut output = [0.0; CHANNELS * BLOCK];
    println!("block of {} samples", d.run(&mut output)?);
    for (name, samples) in ["effects", "hall left", "hall right", "stage"].iter().zip(output.chunks(BLOCK)) {
        line(name, samples);
    }
    Ok(())
}

fn gain(d: &Desk, name: &str, id: u32) {
    let floats = &d.floats[(id - STRIP_LEVEL) as usize * NODE_FLOATS..];
    println!("  {name:<12} at {:.5}, target {:.5}", floats[0], floats[MAX_VALUES]);
}

/// An announcement, then the layout built anew, which adopts the nodes of the old one.
fn announce(old: &mut Desk) -> Result<(), Refused> {
    println!("an announcement, at a gain of 0.25");
    old.entries = 6;
    old.level(ANNOUNCEMENT_LEVEL, 0.25, 0)?;
    block(old)?;
    println!("the layout built anew, its nodes adopted over 8 samples, but for the announcement's gain, which is safe");
    let mut d = build()?;
    d.entries = 6;
    d.adopt(old, 8)?;
    gain(&d, "strip", STRIP_LEVEL);
    gain(&d, "announcement", ANNOUNCEMENT_LEVEL);
    block(&mut d)
}

fn refused<T>(call: &str, r: Result<T, Refused>) {
    if let Err(Refused(number, place)) = r {
        println!("{call}: refused {number}, place {place}");
    }
}

fn cue_list(d: &Desk, slot: u32) -> Result<(), Refused> {
    let text: String = d.sources(slot)?.iter().map(|i| format!(" {i}")).collect();
    println!("slot {slot}: inputs{text}");
    Ok(())
}

/// A house table: its entries, two formats each, and their gains.
#[derive(Default)]
struct Table {
    pairs: Vec<u32>,
    gains: Vec<f32>,
}

impl Table {
    /// The next entry of the table: the built-in fold, but from 5.1 to stereo the designer's own.
    fn add(&mut self, src: u32, dst: u32) -> Result<(), Refused> {
        let own = vec![1.0, 0.0, 0.75, 0.25, 0.375, 0.125, 0.0, 1.0, 0.75, 0.25, 0.125, 0.375];
        self.pairs.extend([src, dst]);
        self.gains.extend(if (src, dst) == (SURROUND_51, STEREO) { own } else { built_in(src, dst)? });
        Ok(())
    }

    #[rustfmt::skip]
    fn fold(&self, src: u32, dst: u32) -> Result<Vec<f32>, Refused> {
        let mut matrix = vec![0.0; channels(src) * channels(dst)];
        unsafe {
            mixer_width_matrix_with(src, dst, FOLD_GAINS, false, self.pairs.as_ptr(), self.pairs.len(),
                self.gains.as_ptr(), self.gains.len(), matrix.as_mut_ptr(), matrix.len())
        }
        .result()
        .map(|()| matrix)
    }
}

/// A fold to stereo, a line for each of its rows.
fn rows(name: &str, matrix: &[f32]) {
    println!("{name}");
    let (left, right) = matrix.split_at(matrix.len() / 2);
    line("left", left);
    line("right", right);
}

fn house_table() -> Result<(), Refused> {
    let mut t = Table::default();
    for src in MONO..=SURROUND_714 {
        for dst in (MONO..=SURROUND_714).filter(|dst| covers(src, *dst)) {
            t.add(src, dst)?;
        }
    }
    println!("a house table of {} formats and {} gains", t.pairs.len(), t.gains.len());
    rows("from 5.1 to stereo without the table", &built_in(SURROUND_51, STEREO)?);
    rows("from 5.1 to stereo with the table", &t.fold(SURROUND_51, STEREO)?);
    rows("from mono to stereo, which no table covers", &t.fold(MONO, STEREO)?);
    t.pairs.truncate(t.pairs.len() - 2);
    refused("a table without its last entry", t.fold(SURROUND_51, STEREO));
    Ok(())
}

fn main() -> Result<(), Refused> {
    let mut output = [0.0; CHANNELS * BLOCK];
    let mut d = build()?;
    block(&mut d)?;
    println!("strip to 1 over 8 samples");
    d.level(STRIP_LEVEL, 1.0, 8)?;
    block(&mut d)?;
    block(&mut d)?;
    block(&mut d)?;
    println!("a stand-in for the microphone appended to the directory");
    d.entries = 5;
    block(&mut d)?;
    println!("the box heard in place of the microphone, over 4 samples");
    d.level(BOX_IDS.dry, 0.0, 4)?;
    d.level(BOX_IDS.wet, 1.0, 4)?;
    block(&mut d)?;
    announce(&mut d)?;
    refused("a setting of an unknown node", d.level(7, 1.0, 0));
    refused("an output area that is short", d.run(&mut output[1..]));
    d.steps[0] = 1;
    refused("a damaged first step", d.run(&mut output));
    d.steps[0] = PATCH;
    println!("clean: {}", if d.clean()? { "yes" } else { "no" });
    cue_list(&d, HALL)?;
    cue_list(&d, STAGE)?;
    cue_list(&d, EFFECTS)?;
    refused("slot 3", d.sources(3));
    house_table()
}
