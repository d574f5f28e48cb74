//! Comparison: the first difference ends a run. A planted fault changes what the reference says, so that a run must find it.
use crate::entries::Tally;
use crate::mixer::Status;
use crate::shapes::{Inserts, Pairs, Safes, Shapes, Tables};
use std::fmt::Debug;

/// The first difference, in words.
pub type Found = Result<(), String>;

pub fn same<T: PartialEq + Debug + ?Sized>(what: &str, reference: &T, port: &T) -> Found {
    if reference == port {
        return Ok(());
    }
    Err(format!("{what}: reference {reference:?}, port {port:?}"))
}

/// A list of words, or of anything that has bits: the same ones, one by one.
pub fn words<T: PartialEq + std::fmt::LowerHex>(what: &str, reference: &[T], port: &[T]) -> Found {
    same(&format!("length of {what}"), &reference.len(), &port.len())?;
    match reference.iter().zip(port).position(|(x, y)| x != y) {
        Some(i) => Err(format!("{what}[{i}]: reference {:#x}, port {:#x}", reference[i], port[i])),
        None => Ok(()),
    }
}

fn first_unlike(what: &str, reference: &[f32], port: &[f32], alike: impl Fn(f32, f32) -> bool) -> Found {
    if reference.len() != port.len() {
        return Err(format!("length of {what}: reference {}, port {}", reference.len(), port.len()));
    }
    match reference.iter().zip(port).position(|(x, y)| !alike(*x, *y)) {
        Some(i) => {
            let (x, y) = (reference[i], port[i]);
            Err(format!("{what}[{i}]: reference {x:?} ({:#010x}), port {y:?} ({:#010x})", x.to_bits(), y.to_bits()))
        }
        None => Ok(()),
    }
}

/// NaN for NaN, else bit for bit.
pub fn alike(x: f32, y: f32) -> bool {
    x.to_bits() == y.to_bits() || (x.is_nan() && y.is_nan())
}

/// Floats that both sides worked out.
pub fn floats(what: &str, reference: &[f32], port: &[f32]) -> Found {
    first_unlike(what, reference, port, alike)
}

/// Floats that nobody may touch: bit for bit, those of NaNs too.
pub fn untouched(what: &str, before: &[f32], after: &[f32]) -> Found {
    first_unlike(what, before, after, |x, y| x.to_bits() == y.to_bits())
}

pub fn doubles(what: &str, reference: &[f64], port: &[f64]) -> Found {
    let one = |x: &f64| if x.is_nan() { f64::NAN.to_bits() } else { x.to_bits() };
    words(what, &reference.iter().map(one).collect::<Vec<_>>(), &port.iter().map(one).collect::<Vec<_>>())
}

macro_rules! faults {
    ($($name:ident: $text:literal,)*) => {
        /// What can be planted.
        #[derive(Clone, Copy, Debug, PartialEq, Eq)]
        pub enum Fault {
            $($name),*
        }

        pub const FAULTS: &[(Fault, &str)] = &[$((Fault::$name, $text)),*];
    };
}

faults! {
    OutputBit: "the last bit of an output sample",
    OutputSign: "the sign of a zero in an output",
    OutputNan: "a number where an output sample is NaN",
    OutputCount: "one output sample more",
    BufferBit: "the last bit of a sample in a buffer",
    Cur: "the last bit of a node's cur",
    Target: "the last bit of a node's target",
    Step: "the last bit of a node's step",
    Left: "a node's left off by one",
    Id: "a node's id",
    Len: "a node's len",
    Safe: "a node's safe",
    BehindCounts: "a word behind the entries that a plan counts",
    SourceMore: "a source list with one input more",
    SourceLess: "a source list with one input less",
    SourceOther: "a source list with another input",
    SlotMore: "one slot more",
    AllCount: "the length of the last of all source lists",
    AllInput: "the first place of the last of all source lists",
    Clean: "the other clean answer",
    BuiltSpan: "the start of a builder's span",
    BuiltNode: "a builder's node number",
    BuiltSafe: "a built node with the other safe",
    BuiltCount: "a count in a builder's record",
    BuiltWord: "a word of a step's record",
    BuiltWeight: "the last bit of a coefficient",
    BuiltIndex: "an index entry",
    InsertBypass: "an insert whose bypass swaps dry and wet",
    InsertOutput: "an insert whose Output reads the source",
    InsertPatch: "an insert whose Patches take the return's input without − 1",
    InsertWeights: "an insert whose dry Send has all its coefficients whatever the source",
    InsertSpan: "an insert that hands back the span of its send",
    InsertGrown: "an insert whose source is held against the index list as it grows",
    InsertLast: "an insert whose last channel is not tested",
    InsertIds: "an insert whose ids are held against those of the plan alone",
    InsertNodes: "an insert that counts a node less than it makes",
    InsertSafe: "an insert whose last node is safe",
    OldNode: "a node of the old plan after an adoption",
    SafeTaken: "an adoption that skips no pair",
    SafeOld: "an adoption that skips by the old node's safe",
    SafeSwapped: "an adoption that skips the pairs of the nodes that are not safe",
    SafeList: "an adoption that skips its whole list for a safe node",
    SafeRest: "an adoption that ends at the pair of a safe node",
    SafeCur: "a safe node whose cur is taken over",
    SafeRamp: "a safe node that ramps after an adoption",
    SetSafe: "a setting after which a safe node is safe no longer",
    RunSafe: "a run after which a safe node is safe no longer",
    SafeFirst: "a safe above 1 that is found before a ramp that is too long, at the builder",
    UnreadSet: "a setting that takes a safe above 1",
    UnreadRun: "a run that takes a safe above 1",
    UnreadUnused: "a run that takes a safe above 1 of a node that no step uses",
    UnreadNew: "an adoption that takes a safe above 1 of a new node",
    UnreadOld: "an adoption that takes a safe above 1 of an old node",
    FirstEntry: "the first entry for a channel decides in a run",
    LongEntry: "an entry that is too short is passed over in a run for an earlier one",
    Part: "a looked-up part that is one sample shorter",
    FirstPart: "a looked-up part by the first entry",
    Number: "a refusal's number",
    Place: "a refusal's place",
    Accepted: "an acceptance in place of a refusal",
    KeptIndices: "a bit of the index list after a refused call",
    KeptCoefficients: "a bit of the coefficients after a refused call",
    KeptFloats: "a bit of the node floats after a refused call",
    KeptWords: "a bit of the node words after a refused call",
    KeptSteps: "a bit of the step words after a refused call",
    KeptBuffers: "a bit of the buffers after a refused call",
    KeptAnswer: "a bit of the area for the answer after a refused call",
    FoldBit: "the last bit of a fold's entry",
    DefinedFoldBit: "the last bit of an entry of a fold whose gains no law gives",
    BalanceBit: "the last bit of a balance's gain",
    BalanceOfBit: "the last bit of a channel's balance",
    StereoSign: "the sign of a stereo entry",
    RoundBit: "the last bit of a rounded number",
    RoundNan: "a number where a rounding gives NaN",
    Label: "a channel's label",
    FoldNumber: "the number of a refused fold",
    TableBit: "the last bit of a fold by a table's entry",
    TableTurned: "a table's entry with columns before rows",
    TableDivided: "a table's entry that normalise divides",
    TableOffset: "a table's entry found by the entries before it, not by their gains",
    TableCovers: "a pair that a table does not cover, though `applies` says so",
    TableAll: "a table that has to cover all 49 pairs",
    TableStray: "a table whose last odd number is an entry's source",
    TableRest: "a table that is refused for a gain behind those of its entries",
    TableMinusZero: "a table that is taken with a gain of −0",
    TableFirst: "a table's format that is found before a short area for the matrix",
    TableOrder: "a pair not to be covered that is found before a pair twice",
    TableNumber: "the number of a refused fold with a table",
    TableKept: "a bit of the matrix's area after a refused fold with a table",
    TablePairs: "a number of a table's pairs after a fold",
    TableGains: "a bit of a table's gains after a fold",
    DamagedNumber: "the number of a damaged plan's refusal",
    DamagedPlace: "the place of a damaged plan's refusal",
    DamagedTaken: "a damaged plan that is taken",
    DamagedSafe: "a damaged plan that is taken with a safe above 1",
    PairBit: "the last bit of an output sample of the second list",
    PairSign: "the sign of a zero in an output of the second list",
    PairNan: "a number where an output sample of the second list is NaN",
    PairList: "a source list of the second build with one input less",
    PairListed: "an input left out of the list of a slot in both builds",
    PairSample: "the last bit of a sample that a listed input carries in the second list",
    PairEntry: "an entry for a listed channel behind the one that counts, in the second list",
    PairSetting: "a setting in the second list only",
    PairRefused: "a refused setting of the second list that sets a node",
    PairBuilt: "a refused builder call of the second build that sets a node",
    PairSafe: "a node's safe after the second list",
}

/// What a run has compared.
#[derive(Default)]
pub struct Counts {
    pub plans: u64,
    pub calls: u64,
    pub blocks: u64,
    pub samples: u64,
    pub lists: u64,
    pub folds: u64,
    pub damaged: u64,
    pub accepted: u64,
    pub refused: [u64; 22],
    pub shapes: Shapes,
    pub inserts: Inserts,
    pub safes: Safes,
    pub tables: Tables,
    /// What directories had for the channels of Patches in runs, and for those that were looked up.
    pub patched: Tally,
    pub looked_up: Tally,
    pub pairs: Pairs,
}

#[derive(Default)]
pub struct Judge {
    pub fault: Option<Fault>,
    pub planted: bool,
    pub counts: Counts,
}

impl Judge {
    /// Whether this fault is to be planted here; once.
    pub fn plants(&mut self, fault: Fault) -> bool {
        let here = self.fault == Some(fault) && !self.planted;
        self.planted |= here;
        here
    }

    /// The same, where there is anything to plant it in.
    pub fn plants_if(&mut self, there: bool, fault: Fault) -> bool {
        there && self.plants(fault)
    }

    /// A refusal by document 01 and the port's answer.
    pub fn refusal(&mut self, call: &str, reference: Status, port: Status) -> Found {
        let mut reference = reference;
        self.counts.calls += 1;
        self.counts.refused[reference.number as usize] += 1;
        if self.plants(Fault::Number) {
            reference.number += 1;
        }
        if self.plants_if(reference.place > 0, Fault::Place) {
            reference.place += 1;
        }
        if self.plants(Fault::Accepted) {
            reference = Status::default();
        }
        same(&format!("refusal of {call}"), &reference, &port)
    }
}
