//! Random inserts: behind the layouts, on plans in use with the check after them, and on records of their own at and past every edge of the tests.
use crate::folds::channels;
use crate::inserts::{self, long_source};
use crate::judge::{same, Found, Judge};
use crate::layouts::Gen;
use crate::mixer::{self, InsertIds, InsertPoint, InsertReturn, Plan, Status};
use crate::paper::{self, insert_growth, test, Lent, MAX_RAMP, MAX_STEPS};
use crate::plan::{span, Areas, Layout, Step, FLOATS, ID, WORDS};
use crate::twin::Twin;

/// Steps that may follow an insert in a layout.
const STEPS: usize = 5;

/// What spoils an insert. Its format is last: the others ask for its channels.
const ODD: [fn(&mut Gen, &Areas, &mut InsertPoint); 4] = [Gen::odd_ids, Gen::odd_return, Gen::odd_source, Gen::odd_numbers];

/// An insert keeps the counts within their limits, with room for a few steps behind it.
pub fn fits(p: &Plan, i: &InsertPoint) -> bool {
    !paper::insert_over(&Plan { steps: p.steps + STEPS, ..*p }, &insert_growth(i), None)
}

/// Areas that are too short for an insert grow, so that each has `more` entries than it needs.
pub fn lend(a: &mut Areas, i: &InsertPoint, more: usize) {
    let (p, g) = (a.plan, insert_growth(i));
    let need = |count: usize, growth: usize| count.min(2000) + growth + more;
    let grow = |area: &mut Vec<u32>, n: usize| area.resize(n.max(area.len()), 0xdead_beef);
    let grow_floats = |area: &mut Vec<f32>, n: usize| area.resize(n.max(area.len()), f32::from_bits(0xdead_beef));
    grow(&mut a.indices, need(p.indices, g.indices));
    grow_floats(&mut a.coefficients, need(p.coefficients, g.coefficients));
    grow_floats(&mut a.floats, FLOATS * (p.nodes.min(100) + g.nodes) + more);
    grow(&mut a.words, WORDS * (p.nodes.min(100) + g.nodes) + more);
    grow(&mut a.steps, need(p.words, g.words));
}

impl Gen {
    /// An insert on some of so many index entries, with ids that are not used. Its source has any length.
    pub fn point(&mut self, entries: usize, used: &[u32]) -> InsertPoint {
        let format = self.r.pick(&[0, 0, 1, 1, 1, 2, 3, 4, 5, 6]);
        let n = channels(format);
        let any = self.r.below(entries + 1);
        let len = self.r.pick(&[0, n - 1, n, n, n, n, n + 1, 25, any]).min(entries);
        let src = span(self.r.below(entries - len + 1), len);
        let returns = self.r.percent(65);
        InsertPoint {
            format,
            src,
            gain: self.wild.gain(&mut self.r),
            slot: self.slot(),
            ramp: self.ramp(),
            ids: self.insert_ids(used, returns),
            returns,
            back: self.back(n, returns),
        }
    }

    /// Six ids; of those that are not used without a return, some are taken already.
    fn insert_ids(&mut self, used: &[u32], returns: bool) -> InsertIds {
        let mut ids = used.to_vec();
        for k in 0..6 {
            let id = if k > 0 && !returns && self.r.percent(50) { self.r.pick(&ids) } else { self.id(&ids) };
            ids.push(id);
        }
        let new = &ids[used.len()..];
        InsertIds { send: new[0], ret: new[1], dry: new[2], wet: new[3], dryin: new[4], wetin: new[5] }
    }

    /// A return of n channels; anything where there is none.
    fn back(&mut self, n: usize, returns: bool) -> InsertReturn {
        let (input, channel) = (1 + self.input(), 1 + self.channel().min(u32::MAX - n as u32));
        let (gain, bypass) = (self.wild.gain(&mut self.r), self.r.percent(40));
        if returns || self.r.percent(50) {
            return InsertReturn { input, channel, gain, bypass };
        }
        InsertReturn { input: self.r.pick(&[0, input, u32::MAX]), channel: self.r.pick(&[0, u32::MAX]), gain, bypass }
    }

    /// Inserts behind a layout that the plan check accepts, often each on the span of the one before it, with steps between that name what they made.
    pub fn inserts(&mut self, l: &mut Layout) {
        let mut last = None;
        for _ in 0..self.r.pick(&[1, 1, 2, 2, 3]) {
            let mut i = self.point(l.index.len(), &l.ids());
            let src = last.filter(|_| self.r.percent(60));
            i.src = src.unwrap_or(i.src);
            if long_source(&i) {
                i.src.len = channels(i.format) as u32;
            }
            if !fits(&l.counts(), &i) {
                continue;
            }
            l.in_a_row += src.is_some() as usize;
            let out = inserts::extend(l, &i);
            let from = l.counts();
            for _ in 0..self.r.below(STEPS - 1) {
                let s = self.step(l);
                l.steps.push(s);
            }
            if self.r.percent(60) {
                l.steps.push(Step::Output { src: out, slot: self.slot() });
            }
            self.calls(l, &from);
            last = Some(out);
        }
    }

    /// A record and areas that are just long enough for an insert, or longer, and hold anything; some of the insert, the counts and the lengths are at
    /// an edge or past it.
    pub fn edge(&mut self) -> (Areas, InsertPoint) {
        let entries = self.r.pick(&[0, 1, 2, 12, 25, 40]);
        let mut i = self.point(entries, &[]);
        let often = self.r.pick(&[0, 10, 20, 30, 60, 80]);
        let mut a = Areas { plan: self.counts(entries), ..Areas::default() };
        if self.r.percent(often) {
            self.limit(&mut a.plan, &i);
        }
        lend(&mut a, &i, self.r.pick(&[0, 0, 1, 5]));
        let mut ids = inserts::ids(&i);
        for k in 0..a.plan.nodes.min(100) {
            ids.push(self.id(&ids));
            a.words[WORDS * k + ID] = ids[ids.len() - 1];
        }
        if self.r.percent(often) {
            self.shorten(&mut a, &i);
        }
        for spoil in ODD {
            if self.r.percent(often) {
                spoil(self, &a, &mut i);
            }
        }
        (a, i)
    }

    /// One thing of an insert on these areas is at an edge or past it.
    pub fn odd(&mut self, a: &Areas, i: &mut InsertPoint) {
        self.r.pick(&ODD)(self, a, i);
    }

    fn counts(&mut self, entries: usize) -> Plan {
        let r = &mut self.r;
        Plan {
            block: self.block,
            buffers: r.below(20),
            indices: entries,
            coefficients: r.pick(&[0, 1, 40]),
            nodes: r.pick(&[0, 1, 3]),
            steps: r.below(9),
            words: r.below(60),
        }
    }

    /// A count that the insert just brings to its limit, or past it.
    fn limit(&mut self, p: &mut Plan, i: &InsertPoint) {
        let (g, r) = (insert_growth(i), &mut self.r);
        let (count, limit, growth) = match r.below(6) {
            0 => (&mut p.buffers, paper::MAX_BUFFERS, g.buffers),
            1 => (&mut p.indices, paper::MAX_INDICES, g.indices),
            2 => (&mut p.coefficients, paper::MAX_COEFFICIENTS, g.coefficients),
            3 => (&mut p.nodes, paper::MAX_NODES, g.nodes),
            4 => (&mut p.steps, MAX_STEPS, g.steps),
            _ => (&mut p.words, usize::MAX, 0),
        };
        *count = r.pick(&[limit - growth, limit - growth, (limit - growth).saturating_add(1), limit, usize::MAX]);
    }

    /// One area is one entry too short, or just long enough.
    fn shorten(&mut self, a: &mut Areas, i: &InsertPoint) {
        let (p, g) = (a.plan, insert_growth(i));
        let less = self.r.pick(&[0, 1, 1]);
        let need = |count: usize, growth: usize| count.saturating_add(growth).saturating_sub(less);
        let nodes = p.nodes.min(100) + g.nodes;
        match self.r.below(5) {
            0 => a.indices.truncate(need(p.indices, g.indices)),
            1 => a.coefficients.truncate(need(p.coefficients, g.coefficients)),
            2 => a.floats.truncate(FLOATS * nodes - less),
            3 => a.words.truncate(WORDS * nodes - less),
            _ => a.steps.truncate(need(p.words, g.words)),
        }
    }

    /// An id that another node has, or another of its own, one that is used or one that is not.
    fn odd_ids(&mut self, a: &Areas, i: &mut InsertPoint) {
        let ids = &mut i.ids;
        let nodes = a.plan.nodes.min(a.words.len() / WORDS);
        let own = self.r.pick(&[ids.send, ids.ret, ids.dry, ids.wet, ids.dryin, ids.wetin]);
        let other = a.words.get(WORDS * self.r.below(nodes) + ID).copied().unwrap_or(own);
        let id = self.r.pick(&[own, other]);
        let all = [&mut ids.send, &mut ids.ret, &mut ids.dry, &mut ids.wet, &mut ids.dryin, &mut ids.wetin];
        if let Some(to) = all.into_iter().nth(self.r.below(6)) {
            *to = id;
        }
    }

    fn odd_return(&mut self, _: &Areas, i: &mut InsertPoint) {
        let last = u32::MAX - channels(i.format) as u32 + 1;
        if self.r.percent(50) {
            i.back.channel = self.r.pick(&[0, 0, 1, last, last, last.saturating_add(1), u32::MAX]);
        } else {
            i.back.input = self.r.pick(&[0, 0, 0, 1, 256, 257, u32::MAX]);
        }
    }

    /// A source that ends at the count or past it, within what the insert adds or behind that.
    fn odd_source(&mut self, a: &Areas, i: &mut InsertPoint) {
        let count = a.plan.indices.min(2000);
        let (len, growth) = ((i.src.len as usize).min(count), insert_growth(i).indices);
        let (start, more) = (count - len, self.r.range(1, growth));
        let far = [span(start, len + growth + 1), span(u32::MAX as usize, 1), span(1, u32::MAX as usize), span(u32::MAX as usize, 0)];
        let near = [span(start, len), span(start + 1, len), span(start, len + more), span(count, 0), span(count + 1, 0), span(count, more)];
        i.src = if self.r.percent(25) { self.r.pick(&far) } else { self.r.pick(&near) };
    }

    fn odd_numbers(&mut self, _: &Areas, i: &mut InsertPoint) {
        match self.r.below(3) {
            0 => i.format = self.r.pick(&[7, 8, u32::MAX]),
            1 => i.ramp = self.r.pick(&[MAX_RAMP, MAX_RAMP + 1, u32::MAX]),
            _ => i.slot = self.r.pick(&[31, 32, u32::MAX]),
        }
    }
}

/// An insert on a record of its own, that is refused or taken.
pub fn alone(j: &mut Judge, g: &mut Gen) -> Found {
    let (mut a, i) = g.edge();
    inserts::judge(j, &mut a, &i).map(|_| ()).map_err(|e| format!("{i:?} on {:?}: {e}", a.plan))
}

/// An insert on a plan in use, and the plan check after it.
pub fn checked(j: &mut Judge, g: &mut Gen, twin: &Twin) -> Found {
    let mut a = twin.port.clone();
    let mut i = g.point(a.plan.indices, &twin.layout.ids());
    if g.r.percent(30) {
        i.slot = g.r.pick(&[30, 31, 32, 33, u32::MAX]);
    }
    if g.r.percent(30) {
        i.back.input = g.r.pick(&[1, 255, 256, 257, u32::MAX]);
    }
    lend(&mut a, &i, 0);
    let steps = a.plan.steps;
    if inserts::judge(j, &mut a, &i).map_err(|e| format!("{i:?}: {e}"))? {
        found(j, g, steps, a, &i).map_err(|e| format!("check after {i:?}: {e}"))?;
    }
    Ok(())
}

/// The plan check after an insert: what the request says, and what document 01's own check says.
fn found(j: &mut Judge, g: &mut Gen, steps: usize, mut a: Areas, i: &InsertPoint) -> Found {
    let need = a.plan.buffers * a.plan.block;
    let short = g.r.percent(10);
    a.buffers.resize(if short { need - 1 } else { need.max(a.buffers.len()) }, 0.0);
    let expected = test(short, 2).and_then(|()| paper::insert_found(steps, i));
    same("document 01's check", &expected, &paper::check(&a, Lent::All).map(|_| ()))?;
    let got = mixer::check_plan(a.plan, &a.indices, &a.coefficients, &a.floats, &a.words, &a.steps, &a.buffers);
    j.counts.inserts.checked(steps, expected.err());
    match expected {
        Ok(()) => same("check_plan", &Status::default(), &got),
        Err(status) => j.refusal("check_plan", status, got),
    }
}
