//! An adoption on both sides. The reference has no safe nodes: it is handed the list without their pairs, and they must stay as they are.
use crate::judge::{same, untouched, words, Fault, Found, Judge};
use crate::mixer::{self, Status};
use crate::paper;
use crate::plan::{Areas, FLOATS, LEFT, LEN, VALUES, WORDS};
use crate::rust;
use crate::twin::{areas, Twin};

/// What a pair (new, old) of a list names.
pub struct Named {
    pub safe: bool,
    pub old_safe: bool,
    /// Both nodes are there.
    pub there: bool,
    /// They have one len, so that the pair is taken unless the new node is safe.
    pub alike: bool,
    /// An earlier pair names the same new node.
    pub again: bool,
}

pub fn named(new: &Areas, old: &Areas, pairs: &[u32]) -> Vec<Named> {
    let one = |(i, p): (usize, &[u32])| {
        let there = (p[0] as usize) < new.plan.nodes && (p[1] as usize) < old.plan.nodes;
        let alike = there && new.word(p[0] as usize, LEN) == old.word(p[1] as usize, LEN);
        let again = pairs.chunks_exact(2).take(i).any(|before| before[0] == p[0]);
        Named { safe: new.is_safe(p[0]), old_safe: old.is_safe(p[1]), there, alike, again }
    };
    pairs.chunks_exact(2).enumerate().map(one).collect()
}

/// The faults that hand the reference another list.
pub const LISTS: [Fault; 5] = [Fault::SafeTaken, Fault::SafeOld, Fault::SafeSwapped, Fault::SafeList, Fault::SafeRest];

/// The list without the pairs of safe nodes; planted, another one.
fn list(fault: Option<Fault>, new: &Areas, old: &Areas, pairs: &[u32]) -> Vec<u32> {
    let all = || pairs.chunks_exact(2);
    let safe = |p: &&[u32]| new.is_safe(p[0]);
    let list: Vec<&[u32]> = match fault {
        Some(Fault::SafeTaken) => all().collect(),
        Some(Fault::SafeOld) => all().filter(|p| !old.is_safe(p[1])).collect(),
        Some(Fault::SafeSwapped) => all().filter(safe).collect(),
        Some(Fault::SafeList) => all().filter(|_| !all().any(|p| safe(&p))).collect(),
        Some(Fault::SafeRest) => all().take_while(|p| !safe(p)).collect(),
        _ => return paper::not_safe(new, pairs),
    };
    list.concat()
}

/// A plan that adopts: in the reference, and its areas before.
pub struct Adopting<'a> {
    pub rust: &'a mut rust::Plan,
    pub areas: &'a Areas,
}

impl Adopting<'_> {
    /// The areas after the reference's adoption by a list, which is then undone.
    fn after(&mut self, old: &mut rust::Plan, list: &[u32], ramp: u32) -> Areas {
        let mut after = self.areas.clone();
        rust::adopt(self.rust, old, list, ramp);
        rust::nodes_to(&self.rust.nodes, &mut after.floats, &mut after.words);
        rust::nodes_from(self.rust, &self.areas.floats, &self.areas.words);
        after
    }

    /// Whether a planted list gives other nodes.
    pub fn shows(&mut self, fault: Fault, old: &mut Adopting, pairs: &[u32], ramp: u32) -> bool {
        let (right, wrong) = (list(None, self.areas, old.areas, pairs), list(Some(fault), self.areas, old.areas, pairs));
        areas(&self.after(old.rust, &right, ramp), &self.after(old.rust, &wrong, ramp)).is_err()
    }
}

/// Safe nodes of the areas before: bit for bit what they were, those of NaNs too.
fn safe_untouched(before: &Areas, after: &Areas) -> Found {
    for i in (0..before.plan.nodes).filter(|i| before.is_safe(*i as u32)) {
        let (f, w) = (FLOATS * i, WORDS * i);
        untouched(&format!("floats of safe node {i}"), &before.floats[f..][..FLOATS], &after.floats[f..][..FLOATS])?;
        words(&format!("words of safe node {i}"), &before.words[w..][..WORDS], &after.words[w..][..WORDS])?;
    }
    Ok(())
}

impl Twin {
    /// This plan takes over nodes of an old one.
    pub fn adopt(&mut self, j: &mut Judge, old: &mut Twin, pairs: &[u32], ramp: u32) -> Found {
        j.counts.calls += 1;
        j.counts.safes.adoption(&self.want, &old.want, pairs);
        self.adopt_there(j, old, pairs, ramp);
        let mut before = self.port.clone();
        plant_in_pair(j, &mut before, &old.port, pairs, ramp);
        let (p, o) = (&mut self.port, &old.port);
        let reply = mixer::adopt(p.plan, &mut p.floats, &mut p.words, o.plan, &o.floats, &o.words, pairs, ramp);
        same("adoption", &Status::default(), &reply)?;
        safe_untouched(&before, &self.port)?;
        self.follow_nodes(j);
        areas(&self.want, &self.port)?;
        rust::nodes_to(&old.rust.nodes, &mut old.want.floats, &mut old.want.words);
        let used = WORDS * old.layout.nodes.len();
        if j.plants_if(used > 0, Fault::OldNode) {
            old.want.words[used - 1] ^= 1;
        }
        areas(&old.want, &old.port).map_err(|e| format!("old plan: {e}"))
    }

    /// The reference's adoption; planted, by another list where that gives other nodes.
    fn adopt_there(&mut self, j: &mut Judge, old: &mut Twin, pairs: &[u32], ramp: u32) {
        let mut fault = j.fault.filter(|f| LISTS.contains(f));
        if let Some(wrong) = fault {
            let mut new = Adopting { rust: &mut self.rust, areas: &self.want };
            let shows = new.shows(wrong, &mut Adopting { rust: &mut old.rust, areas: &old.want }, pairs, ramp);
            fault = fault.filter(|_| j.plants_if(shows, wrong));
        }
        let list = list(fault, &self.want, &old.want, pairs);
        rust::adopt(&mut self.rust, &mut old.rust, &list, ramp);
    }
}

/// What a pair of a safe node would leave of it if only its cur, or only its ramp, were taken, in an adoption that must show it.
fn plant_in_pair(j: &mut Judge, new: &mut Areas, old: &Areas, pairs: &[u32], ramp: u32) {
    for p in pairs.chunks_exact(2).filter(|p| new.is_safe(p[0]) && (p[1] as usize) < old.plan.nodes).collect::<Vec<_>>() {
        let [n, o] = [p[0] as usize, p[1] as usize];
        let same_len = new.word(n, LEN) == old.word(o, LEN);
        let (cur, old_cur) = (&mut new.floats[FLOATS * n..][..VALUES], &old.floats[FLOATS * o..][..VALUES]);
        if j.plants_if(same_len && untouched("cur", old_cur, cur).is_err(), Fault::SafeCur) {
            cur.copy_from_slice(old_cur);
        }
        if j.plants_if(same_len && new.word(n, LEFT) != ramp, Fault::SafeRamp) {
            new.words[WORDS * n + LEFT] = ramp;
        }
    }
}
