//! Which shapes the plans of a run had, and what its pairs had, so that a run shows what it has tried.
use crate::adoptions::named;
use crate::entries::heard;
use crate::folds::channels;
use crate::inserts::ids;
use crate::judge::Fault;
use crate::mixer::{InsertPoint, Plan, Span, Status};
use crate::ops::Input;
use crate::paper::{own_fault, Answer};
use crate::plan::{Areas, Layout, Step, ID, LEFT, VALUES};
use crate::tables::{covered, Asked, Order, Table};

macro_rules! counted {
    ($type:ident { $($name:ident: $text:literal,)* }) => {
        #[derive(Default)]
        pub struct $type {
            $(pub $name: u64),*
        }

        impl $type {
            pub fn list(&self) -> Vec<(u64, &'static str)> {
                vec![$((self.$name, $text)),*]
            }
        }
    };
}

counted! {
    Shapes {
        patch: "Patch",
        gain: "Gain",
        matrix: "Matrix",
        clear: "Clear",
        send: "Send",
        output: "Output",
        buffer_twice: "a dst with one buffer twice",
        empty_span: "an empty span",
        longer_dst: "a Gain whose dst is longer than its src",
        short_node: "a node shorter than its step needs",
        node_again: "a node that an earlier step used",
        most_values: "a step of 24 values",
        largest: "plans at a limit",
        rest: "settings at once",
        inside: "settings that end inside a block",
        across: "settings that last over blocks",
        nan: "NaN out",
        infinite: "infinities out",
        minus_zero: "-0 out",
        subnormal: "subnormals out",
    }
}

counted! {
    Inserts {
        all: "taken",
        returns: "with a return",
        bypass: "at bypass",
        mono: "mono",
        stereo: "stereo",
        lcr: "LCR",
        surround_51: "5.1",
        surround_71: "7.1",
        surround_514: "5.1.4",
        surround_714: "7.1.4",
        no_source: "a source of no channels",
        one_less: "of one less than the format's",
        just: "of the format's",
        one_more: "of one more",
        long: "of 25",
        in_a_row: "on the span of another one",
        last_channel: "a last channel of 4,294,967,295",
        at_the_end: "a source that ends the index list",
        nodes: "64 nodes after it",
        longest_ramp: "a ramp of 16,777,216",
        checked: "checked after it",
        slot: "its slot found",
        input: "its input found",
        source: "its source found",
        runs: "runs with an insert",
        ramping: "with one of its nodes ramping",
        not_finite: "with NaN or infinity in its return",
        settings: "settings of its nodes",
        adopted: "nodes of its in pairs of adoptions",
        refused_16: "refused with 16",
        refused_18: "18",
        refused_4: "4",
        refused_5: "5",
        refused_2: "2",
        refused_8: "8",
        refused_10: "10",
    }
}

counted! {
    Safes {
        nodes: "built",
        safe: "safe",
        settings: "settings of safe ones",
        runs: "runs with safe ones",
        ramping: "with a safe one ramping",
        pairs: "pairs of adoptions",
        skipped: "skipped",
        kept: "that would have taken the node over",
        out_of_range: "skipped with an old node out of range",
        other_len: "with an old node of another len",
        twice: "for a safe node again",
        old: "taken though the old node is safe",
        lists: "adoptions that skip a pair and take another",
        refused_14: "node calls refused with 14",
        refused_10: "with 10 where safe is above 1 too",
        set_14: "settings refused for a safe alone",
        run_14: "runs",
        unused_14: "runs for that of a node that no step uses",
        new_14: "adoptions for that of a new node",
        old_14: "of an old one",
        damaged_14: "damaged plans that are not run for a safe",
        damaged_run: "that are run with another safe",
    }
}

counted! {
    Tables {
        right: "right ones",
        reverse: "in reverse",
        shuffled: "shuffled",
        stray: "with a last odd number",
        rest: "with gains behind those of their entries",
        entries: "folds by an entry",
        divided: "with normalise, where a row's sum is above 1",
        built_in: "by the built-in fold",
        own_16: "refused for the fold's own 16",
        own_17: "17",
        own_2: "2",
        table_16: "for the table's 16",
        table_2: "2",
        table_17: "17",
        table_19: "19",
        table_20: "20",
        table_21: "21",
        several: "with several chosen faults",
        damaged: "damaged at random",
        damaged_taken: "of these taken",
    }
}

counted! {
    Pairs {
        pairs: "all",
        other_blocks: "two different blocks",
        block_of_one: "a block of 1",
        no_multiple: "neither block a multiple of the other",
        ramps: "ramps",
        settings: "settings behind a run",
        with_refused: "refused calls",
        safe: "a safe node",
        inserts: "an insert",
        returns: "an insert with a return",
        mixed: "a channel from a Gain, Matrix or Send",
        several: "several Outputs to the slot",
        listed: "a list that is not empty",
        absent: "a listed channel that is absent",
        passed: "an entry that must not matter before one that counts, of a listed channel",
        passed_whole: "a whole one before a short one, of a listed channel that is absent",
        missing: "an unlisted channel that is absent all through one list",
        unlisted: "a Patch of an unlisted input whose samples differ",
        not_finite: "NaN or infinity among these",
        other_output: "another output that differs",
        sound: "compared samples that are not all zero",
        refused_built: "refused builder calls in all",
        refused_set: "refused settings in all",
        refused_run: "refused runs in all",
        refused_safe: "refused node calls with a safe above 1",
    }
}

impl Pairs {
    pub fn refused(&self) -> u64 {
        self.refused_built + self.refused_set + self.refused_run
    }
}

impl Safes {
    pub fn built(&mut self, safe: u32) {
        self.nodes += 1;
        self.safe += (safe > 0) as u64;
    }

    /// A setting that is taken. Ids and safes are the same before it and after it.
    pub fn setting(&mut self, a: &Areas, id: u32) {
        self.settings += safe_nodes(a).any(|i| a.word(i, ID) == id) as u64;
    }

    /// A run, from the areas before it.
    pub fn run(&mut self, a: &Areas) {
        self.runs += (safe_nodes(a).count() > 0) as u64;
        self.ramping += safe_nodes(a).any(|i| a.word(i, LEFT) > 0) as u64;
    }

    /// An adoption that is accepted, from the areas before it.
    pub fn adoption(&mut self, new: &Areas, old: &Areas, pairs: &[u32]) {
        let named = named(new, old, pairs);
        self.pairs += named.len() as u64;
        for p in named.iter().filter(|p| p.safe) {
            self.skipped += 1;
            self.kept += p.alike as u64;
            self.out_of_range += !p.there as u64;
            self.other_len += (p.there && !p.alike) as u64;
            self.twice += p.again as u64;
        }
        let taken = || named.iter().filter(|p| p.alike && !p.safe);
        self.old += taken().filter(|p| p.old_safe).count() as u64;
        self.lists += (taken().count() > 0 && named.iter().any(|p| p.safe)) as u64;
    }

    /// A call that is refused for a safe alone.
    pub fn refused(&mut self, unread: Fault) {
        match unread {
            Fault::UnreadSet => self.set_14 += 1,
            Fault::UnreadRun => self.run_14 += 1,
            Fault::UnreadUnused => self.unused_14 += 1,
            Fault::UnreadNew => self.new_14 += 1,
            Fault::UnreadOld => self.old_14 += 1,
            _ => self.damaged_14 += 1,
        }
    }
}

impl Tables {
    pub fn right(&mut self, order: Order, t: &Table) {
        self.right += 1;
        self.reverse += (order == Order::Reverse) as u64;
        self.shuffled += (order == Order::Shuffled) as u64;
        self.stray += t.stray.is_some() as u64;
        self.rest += !t.rest.is_empty() as u64;
    }

    pub fn answer(&mut self, a: &Asked, answer: &Answer<Vec<f32>>) {
        let own = own_fault(a).is_err();
        match answer {
            Ok(matrix) if covered([a.src, a.dst]) => {
                let loud = matrix.chunks(channels(a.src)).any(|row| row.iter().sum::<f32>() > 1.0);
                self.entries += 1;
                self.divided += (a.normalise && loud) as u64;
            }
            Ok(_) => self.built_in += 1,
            Err(Status { number: 16, .. }) => *if own { &mut self.own_16 } else { &mut self.table_16 } += 1,
            Err(Status { number: 17, .. }) => *if own { &mut self.own_17 } else { &mut self.table_17 } += 1,
            Err(Status { number: 2, .. }) => *if own { &mut self.own_2 } else { &mut self.table_2 } += 1,
            Err(Status { number: 19, .. }) => self.table_19 += 1,
            Err(Status { number: 20, .. }) => self.table_20 += 1,
            Err(_) => self.table_21 += 1,
        }
    }
}

fn safe_nodes(a: &Areas) -> impl Iterator<Item = usize> + '_ {
    (0..a.plan.nodes).filter(|i| a.is_safe(*i as u32))
}

impl Inserts {
    /// One that is taken, on a record of these counts.
    pub fn made(&mut self, p: &Plan, i: &InsertPoint) {
        let n = channels(i.format) as u32;
        self.all += 1;
        self.returns += i.returns as u64;
        self.bypass += (i.returns && i.back.bypass) as u64;
        let formats = [
            &mut self.mono,
            &mut self.stereo,
            &mut self.lcr,
            &mut self.surround_51,
            &mut self.surround_71,
            &mut self.surround_514,
            &mut self.surround_714,
        ];
        formats.into_iter().nth(i.format as usize).into_iter().for_each(|f| *f += 1);
        self.no_source += (i.src.len == 0) as u64;
        self.one_less += (i.src.len + 1 == n) as u64;
        self.just += (i.src.len == n) as u64;
        self.one_more += (i.src.len == n + 1) as u64;
        self.long += (i.src.len == 25) as u64;
        self.last_channel += (i.returns && i.back.channel == u32::MAX - n + 1) as u64;
        self.at_the_end += ((i.src.start + i.src.len) as usize == p.indices) as u64;
        self.nodes += (p.nodes + ids(i).len() == 64) as u64;
        self.longest_ramp += (i.ramp == crate::paper::MAX_RAMP) as u64;
    }

    pub fn refused(&mut self, number: u32) {
        match number {
            16 => self.refused_16 += 1,
            18 => self.refused_18 += 1,
            4 => self.refused_4 += 1,
            5 => self.refused_5 += 1,
            2 => self.refused_2 += 1,
            8 => self.refused_8 += 1,
            _ => self.refused_10 += 1,
        }
    }

    /// The plan check after one on a plan of so many steps.
    pub fn checked(&mut self, steps: usize, status: Option<Status>) {
        self.checked += 1;
        match status {
            Some(Status { number: 4, place }) => match place as usize - steps {
                2 => self.slot += 1,
                3 => self.input += 1,
                _ => self.source += 1,
            },
            _ => {}
        }
    }

    /// A run, from the areas before it.
    pub fn run(&mut self, l: &Layout, a: &Areas, input: &Input) {
        let mine: Vec<u32> = l.inserts().flat_map(ids).collect();
        let ramping = |k: usize| mine.contains(&a.word(k, ID)) && a.word(k, LEFT) > 0;
        self.runs += !mine.is_empty() as u64;
        self.ramping += (0..a.plan.nodes).any(ramping) as u64;
        self.not_finite += returned(l, input).iter().any(|x| !x.is_finite()) as u64;
    }
}

/// What the returns of a layout hear in a run, one after the other.
pub fn returned(l: &Layout, input: &Input) -> Vec<f32> {
    let asked = |i: &InsertPoint, c: u32| [i.back.input - 1, i.back.channel - 1 + c];
    let channels = |i: &InsertPoint| (0..channels(i.format) as u32).map(|c| asked(i, c)).collect::<Vec<_>>();
    let all = l.inserts().filter(|i| i.returns).flat_map(channels);
    all.flat_map(|c| heard(&input.directory, &input.samples, c, l.block)).collect()
}

impl Shapes {
    pub fn layout(&mut self, l: &Layout) {
        let limits = [l.buffers == 256, l.index.len() == 1024, l.coefficients.len() == 1024, l.nodes.len() == 64, l.steps.len() == 512];
        self.largest += (limits.contains(&true) || l.block == 1024) as u64;
        let mut used = Vec::new();
        for s in &l.steps {
            match *s {
                Step::Patch { .. } => self.patch += 1,
                Step::Gain { node, src, dst } => {
                    self.gain += 1;
                    self.longer_dst += (dst.len > src.len) as u64;
                    self.spans(l, src, dst);
                    self.node(l, node, src.len.min(dst.len), &mut used);
                }
                Step::Matrix { node, src, dst } => {
                    self.matrix += 1;
                    self.spans(l, src, dst);
                    self.node(l, node, src.len * dst.len, &mut used);
                }
                Step::Clear { dst } => {
                    self.clear += 1;
                    self.spans(l, dst, dst);
                }
                Step::Send { node, src, dst, .. } => {
                    self.send += 1;
                    self.spans(l, src, dst);
                    self.node(l, node, 1, &mut used);
                }
                Step::Output { .. } => self.output += 1,
            }
        }
    }

    fn spans(&mut self, l: &Layout, src: Span, dst: Span) {
        let to = &l.index[dst.start as usize..][..dst.len as usize];
        self.empty_span += (src.len == 0 || dst.len == 0) as u64;
        self.buffer_twice += (1..to.len()).any(|i| to[..i].contains(&to[i])) as u64;
    }

    fn node(&mut self, l: &Layout, node: u32, values: u32, used: &mut Vec<u32>) {
        self.short_node += (l.nodes[node as usize].values.len() < values as usize) as u64;
        self.most_values += (values as usize == VALUES) as u64;
        self.node_again += used.contains(&node) as u64;
        used.push(node);
    }

    pub fn setting(&mut self, ramp: u32, block: usize) {
        match ramp as usize {
            0 => self.rest += 1,
            r if r < block => self.inside += 1,
            _ => self.across += 1,
        }
    }

    pub fn samples(&mut self, output: &[f32]) {
        for x in output {
            self.nan += x.is_nan() as u64;
            self.infinite += x.is_infinite() as u64;
            self.minus_zero += (x.to_bits() == 0x8000_0000) as u64;
            self.subnormal += x.is_subnormal() as u64;
        }
    }
}
