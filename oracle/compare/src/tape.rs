//! The file that `oracle record` writes and the program `replay` reads: calls, and what must come of them.
use crate::mixer::{Plan, Status};
use std::collections::HashMap;

/// The text at the front of the file has this many bytes.
pub const TEXT: usize = 1024;
const MAGIC: u32 = 0x5245_504c;
const VERSION: u32 = 5;
/// Words before the areas: magic, version, words in all, records, and the word at which the records start.
const HEADER: usize = 5;
/// Words before the areas of a record: kind, length, the refusal, and how many areas.
const FRONT: usize = 5;
/// The longest area that `replay` lends.
pub const LONGEST: usize = 8200;

/// The kinds of records, by their numbers in the file, which start at 1.
#[derive(Clone, Copy, Debug, PartialEq, Eq, PartialOrd, Ord)]
pub enum Kind {
    New = 1,
    Buffers,
    First,
    Buffer,
    Coefficients,
    Node,
    Step,
    Insert,
    Finish,
    CheckPlan,
    SetParam,
    Process,
    Lookup,
    DirectoryBad,
    OutputSources,
    AllSources,
    CleanAnswer,
    Adopt,
    Labels,
    BalanceGains,
    BalanceOf,
    StereoMatrix,
    WidthMatrix,
    WidthMatrixWith,
    ToF32,
}

/// One call: the refusal (0 and 0: accepted), the areas that are lent and those that it must leave, and its numbers.
#[derive(Clone, Debug)]
pub struct Record {
    pub kind: Kind,
    pub status: Status,
    pub areas: Vec<Vec<u32>>,
    pub numbers: Vec<u32>,
}

/// Bits of floats; all NaNs have one pattern.
pub fn bits(floats: &[f32]) -> Vec<u32> {
    floats.iter().map(|x| if x.is_nan() { 0x7fc0_0000 } else { x.to_bits() }).collect()
}

/// Two words, the lower one first.
pub fn long(n: u64) -> [u32; 2] {
    [n as u32, (n >> 32) as u32]
}

pub fn size(n: usize) -> [u32; 2] {
    long(n as u64)
}

pub fn double(x: f64) -> [u32; 2] {
    long(if x.is_nan() { 0x7ff8_0000_0000_0000 } else { x.to_bits() })
}

/// A plan's record: seven counts.
pub fn plan(p: &Plan) -> Vec<u32> {
    [p.block, p.buffers, p.indices, p.coefficients, p.nodes, p.steps, p.words].into_iter().flat_map(size).collect()
}

/// Where an area lies in the pool; it is put behind the others where it lies nowhere.
fn place(pool: &mut Vec<u32>, area: &[u32]) -> usize {
    let found = (0..=pool.len().saturating_sub(area.len())).find(|at| pool[*at..].starts_with(area));
    found.unwrap_or_else(|| {
        pool.extend_from_slice(area);
        pool.len() - area.len()
    })
}

#[derive(Default)]
pub struct Tape {
    /// The areas, one after the other, none that lies in those before it, and where each starts.
    pool: Vec<u32>,
    starts: HashMap<Vec<u32>, u32>,
    words: Vec<u32>,
    pub records: u32,
}

impl Tape {
    fn area(&mut self, area: &[u32]) -> [u32; 2] {
        assert!(area.len() <= LONGEST, "an area of {} words", area.len());
        let pool = &mut self.pool;
        let start = *self.starts.entry(area.to_vec()).or_insert_with(|| place(pool, area) as u32);
        [HEADER as u32 + start, area.len() as u32]
    }

    pub fn push(&mut self, r: &Record) {
        let areas: Vec<u32> = r.areas.iter().flat_map(|a| self.area(a)).collect();
        let len = FRONT + areas.len() + r.numbers.len();
        self.words.extend([r.kind as u32, len as u32, r.status.number, r.status.place, r.areas.len() as u32]);
        self.words.extend(areas);
        self.words.extend(&r.numbers);
        self.records += 1;
    }

    /// The file, with this text at its front.
    pub fn file(&self, text: &str) -> Vec<u8> {
        let start = HEADER + self.pool.len();
        let header = [MAGIC, VERSION, (start + self.words.len()) as u32, self.records, start as u32];
        let mut bytes = text.as_bytes().to_vec();
        assert!(bytes.len() < TEXT, "a text of {} bytes", bytes.len());
        bytes.resize(TEXT - 1, b' ');
        bytes.push(b'\n');
        bytes.extend(header.iter().chain(&self.pool).chain(&self.words).flat_map(|w| w.to_le_bytes()));
        bytes
    }
}
