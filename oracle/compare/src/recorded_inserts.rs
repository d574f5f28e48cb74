//! Records of inserts: those of layouts, those on records of their own, refused or taken, and the plan check after one.
use crate::folds::channels;
use crate::inserts::{by_counts, ids, long_source};
use crate::layouts::Gen;
use crate::mixer::{InsertPoint, Span};
use crate::ops::Input;
use crate::paper::{self, insert_growth, Lent, MAX_RAMP};
use crate::plan::{Areas, Layout, ID, LEFT};
use crate::points::lend;
use crate::recorded::{lent, Case, Held};
use crate::shapes::returned;
use crate::tape::{bits, plan, Kind};

const FORMATS: [&str; 7] =
    ["insert, mono", "insert, stereo", "insert, LCR", "insert, 5.1", "insert, 7.1", "insert, 5.1.4", "insert, 7.1.4"];
/// The longest area of an insert here.
const LONGEST: usize = 1000;
const LONG_SOURCE: &str = "insert, a source longer than the format, with a return";
const LONG_WITHOUT: &str = "insert, a source longer than the format, without a return";
const FOUND: [&str; 3] = ["check after an insert, its slot", "check after an insert, its input", "check after an insert, its source"];

/// What inserts must show.
pub const INSERTS: &[&str] = &[
    FORMATS[0],
    FORMATS[1],
    FORMATS[2],
    FORMATS[3],
    FORMATS[4],
    FORMATS[5],
    FORMATS[6],
    "insert without a return",
    "insert with a return",
    "insert with a return, at bypass",
    "insert, a source of no channels",
    "insert, a source shorter than the format",
    "insert, a source as long as the format",
    LONG_SOURCE,
    LONG_WITHOUT,
    "insert, a source that ends the index list",
    "insert at once",
    "insert with a ramp",
    "insert with a ramp of 16,777,216",
    "insert, a last channel of 4,294,967,295",
    "insert, areas that just fit",
    "insert, areas longer than needed",
    "insert without a return, an unused id that a node has",
    FOUND[0],
    FOUND[1],
    FOUND[2],
    "check after an insert, accepted",
    "run, an insert at rest",
    "run, an insert ramping",
    "run, an insert with a return",
    "run, an insert with a return, at bypass",
    "run, NaN in a return",
    "run, infinity in a return",
    "run, two inserts",
    "set, a node of an insert",
];

/// The areas that an insert is lent, and what it leaves of them.
fn areas(before: &Areas, after: &Areas) -> Vec<Vec<u32>> {
    let five = |a: &Areas| vec![a.indices.clone(), bits(&a.coefficients), bits(&a.floats), a.words.clone(), a.steps.clone()];
    [vec![plan(&before.plan), plan(&after.plan)], five(before), five(after)].concat()
}

fn numbers(i: &InsertPoint, made: Span) -> Vec<u32> {
    let (ids, back) = (i.ids, i.back);
    let own = [i.format, i.src.start, i.src.len, bits(&[i.gain])[0], i.slot, i.ramp];
    let ids = [ids.send, ids.ret, ids.dry, ids.wet, ids.dryin, ids.wetin];
    let back = [i.returns as u32, back.input, back.channel, bits(&[back.gain])[0], back.bypass as u32];
    [&own[..], &ids, &back, &[made.start, made.len]].concat()
}

impl Case {
    /// An insert that was taken, and the span that it hands back.
    pub fn inserted(&mut self, before: &Areas, after: &Areas, i: &InsertPoint, made: Span) {
        self.push(Kind::Insert, Default::default(), areas(before, after), numbers(i, made));
    }
}

/// An insert on a record of its own.
pub fn alone(c: &mut Case, g: &mut Gen) {
    let (before, i) = g.edge();
    if [before.floats.len(), before.steps.len(), before.indices.len()].iter().any(|n| *n > LONGEST) {
        return;
    }
    match paper::insert(&before, &i, None) {
        Err(status) => c.push(Kind::Insert, status, areas(&before, &before), numbers(&i, Span::default())),
        Ok(()) => {
            let mut after = before.clone();
            let added = by_counts(&before.plan, &i);
            added.put(&mut after);
            c.inserted(&before, &after, &i, added.span);
            c.reached.extend(taken(&before, &i));
        }
    }
}

/// What an insert that is taken reaches.
fn taken(a: &Areas, i: &InsertPoint) -> Vec<&'static str> {
    let (n, growth, len) = (channels(i.format), insert_growth(i), i.src.len as usize);
    let old = |id: &u32| (0..a.plan.nodes).any(|k| a.word(k, ID) == *id);
    let when = [
        (true, FORMATS[i.format as usize]),
        (!i.returns, "insert without a return"),
        (i.returns && !i.back.bypass, "insert with a return"),
        (i.returns && i.back.bypass, "insert with a return, at bypass"),
        (len == 0, "insert, a source of no channels"),
        (len < n && len > 0, "insert, a source shorter than the format"),
        (len == n, "insert, a source as long as the format"),
        (long_source(i), LONG_SOURCE),
        (len > n && !i.returns, LONG_WITHOUT),
        (len > 0 && i.src.start as usize + len == a.plan.indices, "insert, a source that ends the index list"),
        (i.ramp == 0, "insert at once"),
        (i.ramp > 0, "insert with a ramp"),
        (i.ramp == MAX_RAMP, "insert with a ramp of 16,777,216"),
        (i.returns && i.back.channel as u64 + n as u64 - 1 == u32::MAX as u64, "insert, a last channel of 4,294,967,295"),
        (a.steps.len() == a.plan.words + growth.words, "insert, areas that just fit"),
        (a.steps.len() > a.plan.words + growth.words, "insert, areas longer than needed"),
        (!i.returns && (old(&i.ids.ret) || i.ids.ret == i.ids.send), "insert without a return, an unused id that a node has"),
    ];
    when.iter().filter(|w| w.0).map(|w| w.1).collect()
}

/// The plan check after an insert on a plan in use.
pub fn checked(c: &mut Case, g: &mut Gen, h: &Held) {
    let mut a = h.areas.clone();
    let mut i = g.point(a.plan.indices, &h.layout.ids());
    match g.r.below(3) {
        0 => i.slot = g.r.pick(&[31, 32, u32::MAX]),
        1 => i.back.input = g.r.pick(&[256, 257, u32::MAX]),
        _ => {}
    }
    lend(&mut a, &i, 0);
    if paper::insert(&a, &i, None).is_err() || channels(i.format) > 3 {
        return;
    }
    let before = a.clone();
    let added = by_counts(&a.plan, &i);
    added.put(&mut a);
    a.buffers.resize(a.plan.buffers * a.plan.block, 0.0);
    if a.buffers.len() > LONGEST {
        return;
    }
    let found = paper::check(&a, Lent::All).map(|_| ());
    let place = found.err().map_or(0, |s| s.place as usize - before.plan.steps);
    c.reached.push(match place {
        0 => "check after an insert, accepted",
        2 => FOUND[0],
        3 => FOUND[1],
        _ => FOUND[2],
    });
    c.inserted(&before, &a, &i, added.span);
    c.push(Kind::CheckPlan, found.err().unwrap_or_default(), lent(&a), vec![]);
}

/// What a run of a layout with inserts reaches, from the areas before it.
pub fn run(l: &Layout, a: &Areas, input: &Input) -> Vec<&'static str> {
    let mine: Vec<u32> = l.inserts().flat_map(ids).collect();
    let ramping = (0..a.plan.nodes).any(|k| mine.contains(&a.word(k, ID)) && a.word(k, LEFT) > 0);
    let (back, returns) = (returned(l, input), |i: &&InsertPoint| i.returns);
    let when = [
        (!mine.is_empty() && !ramping, "run, an insert at rest"),
        (ramping, "run, an insert ramping"),
        (l.inserts().filter(returns).any(|i| !i.back.bypass), "run, an insert with a return"),
        (l.inserts().filter(returns).any(|i| i.back.bypass), "run, an insert with a return, at bypass"),
        (back.iter().any(|x| x.is_nan()), "run, NaN in a return"),
        (back.iter().any(|x| x.is_infinite()), "run, infinity in a return"),
        (l.inserts().count() > 1, "run, two inserts"),
    ];
    when.iter().filter(|w| w.0).map(|w| w.1).collect()
}

/// What a setting reaches.
pub fn setting(l: &Layout, id: u32) -> Option<&'static str> {
    l.inserts().any(|i| ids(i).contains(&id)).then_some("set, a node of an insert")
}
