//! `oracle pairs`: demand 3 by running. A clean plan is built twice, and two lists of calls that it says are alike must write the same samples.
use crate::clean::mixed;
use crate::inserts;
use crate::judge::{same, Fault, Found, Judge};
use crate::layouts::Gen;
use crate::lists::{self, Pair};
use crate::mixer;
use crate::plan::{Areas, Call, Layout, Step};
use crate::planted::{gained, plant_in_output, set_by_hand, Planted, Way};
use crate::signals::same_values;
use crate::strays;

/// The case of a seed: a plan, and a pair of lists for each slot of it.
pub fn case(j: &mut Judge, seed: u64) -> Found {
    let mut g = Gen::new(seed);
    let large = g.r.percent(1);
    let blocks = g.blocks(large);
    g.block = blocks[0];
    let mut l = g.clean_layout(blocks[0] == blocks[1], large);
    let refused = j.counts.pairs.refused();
    let first = build(j, &mut g, &l, None)?;
    l.block = blocks[1];
    let mut slots = sounding(&l);
    let touch = gained(&l, &slots).filter(|_| j.plants(Fault::PairBuilt));
    if let Some((slot, _)) = touch {
        slots = vec![slot];
    }
    let second = build(j, &mut g, &l, touch.map(|t| t.1))?;
    let strewn = j.counts.pairs.refused() > refused;
    j.counts.plans += 1;
    j.counts.shapes.layout(&l);
    let mut lists = sources(j, &l, &first, &second)?;
    if large {
        slots.truncate(3);
    }
    for slot in slots {
        let refused = j.counts.pairs.refused();
        pair(j, &mut g, &l, [&first, &second], &mut lists, slot).map_err(|e| format!("slot {slot}: {e}"))?;
        j.counts.pairs.with_refused += (strewn || j.counts.pairs.refused() > refused) as u64;
    }
    Ok(())
}

/// The slots that an Output sends a channel to.
fn sounding(l: &Layout) -> Vec<u32> {
    let mut slots: Vec<u32> = Vec::new();
    for s in &l.steps {
        match *s {
            Step::Output { src, slot } if src.len > 0 && !slots.contains(&slot) => slots.push(slot),
            _ => {}
        }
    }
    slots
}

fn outputs(l: &Layout, slot: u32) -> usize {
    l.steps.iter().filter(|s| matches!(s, Step::Output { slot: to, .. } if *to == slot)).count()
}

/// Builds a layout through the port's calls, refused ones strewn in. With `touch` the last of these changes a node.
fn build(j: &mut Judge, g: &mut Gen, l: &Layout, touch: Option<Way>) -> Result<Areas, String> {
    let mut a = lent(g, l);
    let reply = mixer::new(l.block);
    same("new", &mixer::Status::default(), &reply.status)?;
    a.plan = reply.plan;
    let often = g.r.pick(&[0, 10, 25]);
    for call in &l.calls {
        while g.r.percent(often) {
            strays::builder(j, g, &mut a)?;
        }
        accepted(g, &mut a, call).map_err(|e| format!("{call:?}: {e}"))?;
        j.counts.calls += 1;
    }
    while g.r.percent(often) {
        strays::builder(j, g, &mut a)?;
    }
    if let Some(way) = touch {
        strays::no_step(j, &mut a)?;
        set_by_hand(&mut a, way);
    }
    let reply = mixer::finish(a.plan, &mut a.buffers);
    j.counts.calls += 1;
    same("finish", &mixer::PlanReply { plan: a.plan, ..mixer::PlanReply::default() }, &reply)?;
    Ok(a)
}

/// Areas that hold anything, each of its own length.
fn lent(g: &mut Gen, l: &Layout) -> Areas {
    let mut a = Areas::for_layout(l, 0);
    for area in [&mut a.indices, &mut a.words, &mut a.steps] {
        area.resize(area.len() + g.r.pick(&[0, 0, 1, 5]), 0);
        area.fill(g.r.next() as u32);
    }
    for area in [&mut a.coefficients, &mut a.floats, &mut a.buffers] {
        area.resize(area.len() + g.r.pick(&[0, 0, 1, 80]), 0.0);
        area.fill(f32::from_bits(g.r.next() as u32));
    }
    a
}

/// A builder call that is accepted. A NaN among its values has other bits in each build.
fn accepted(g: &mut Gen, a: &mut Areas, call: &Call) -> Found {
    let (status, plan) = match call {
        Call::Buffers(n) => {
            let reply = mixer::buffers(a.plan, *n, &mut a.indices);
            (reply.status, reply.plan)
        }
        Call::Coefficients(values) => {
            let reply = mixer::coefficients(a.plan, &same_values(&mut g.r, values), &mut a.coefficients);
            (reply.status, reply.plan)
        }
        Call::Node(n) => {
            let reply = mixer::node(a.plan, n.id, &same_values(&mut g.r, &n.values), n.ramp, n.safe, &mut a.floats, &mut a.words);
            (reply.status, reply.plan)
        }
        Call::Step(s) => {
            let reply = mixer::step(a.plan, &s.record(), &mut a.steps);
            (reply.status, reply.plan)
        }
        Call::Insert(i) => {
            let reply = inserts::call(a, &inserts::same_point(&mut g.r, i));
            (reply.status, reply.plan)
        }
        Call::Index(_) => panic!("a clean layout has the builder's index list"),
    };
    a.plan = plan;
    same("builder call", &mixer::Status::default(), &status)
}

/// The source lists, which are the same in both builds, and both clean answers.
fn sources(j: &mut Judge, l: &Layout, first: &Areas, second: &Areas) -> Result<Vec<Vec<u16>>, String> {
    let mut lists = Vec::new();
    for a in [first, second] {
        let reply = mixer::clean_answer(a.plan, &a.indices, &a.words, &a.steps);
        same("clean answer", &mixer::CleanReply { clean: true, ..mixer::CleanReply::default() }, &reply)?;
    }
    for slot in 0..crate::paper::slots(&l.steps) {
        let list = listed(first, slot)?;
        let mut other = listed(second, slot)?;
        if j.plants_if(!other.is_empty(), Fault::PairList) {
            other.pop();
        }
        j.counts.calls += 2;
        j.counts.lists += 2;
        if list != other {
            return Err(format!("slot {slot}: source list of the first build {list:?}, of the second {other:?}"));
        }
        lists.push(list);
    }
    Ok(lists)
}

fn listed(a: &Areas, slot: u32) -> Result<Vec<u16>, String> {
    let mut list = vec![0; 256];
    let reply = mixer::output_sources(a.plan, slot, &a.indices, &a.words, &a.steps, &mut list);
    same("output_sources", &mixer::Status::default(), &reply.status)?;
    list.truncate(reply.count);
    Ok(list)
}

/// Two lists of calls for one slot, and what they wrote.
fn pair(j: &mut Judge, g: &mut Gen, l: &Layout, built: [&Areas; 2], lists: &mut [Vec<u16>], slot: u32) -> Found {
    let touched = j.planted;
    let planted = Planted::new(j, l, slot);
    if let Some(w) = planted.unlisted {
        lists[slot as usize].retain(|i| *i != w.input as u16);
    }
    let equal = lists[slot as usize].clone();
    let mut p = Pair::new(g, l, built.map(|a| a.plan.block), &equal, j.planted, touched);
    let first = p.play(j, g, built[0], 0)?;
    p.last = planted.last;
    planted.flip(&mut p.channels);
    let mut second = p.play(j, g, built[1], 1)?;
    p.count(j, &first, &second);
    j.counts.pairs.listed += !equal.is_empty() as u64;
    j.counts.pairs.mixed += mixed(l, slot) as u64;
    j.counts.pairs.safe += l.nodes.iter().any(|n| n.safe > 0) as u64;
    j.counts.pairs.inserts += (l.inserts().count() > 0) as u64;
    j.counts.pairs.returns += l.inserts().any(|i| i.returns) as u64;
    j.counts.pairs.several += (outputs(l, slot) > 1) as u64;
    plant_in_output(j, l, slot, &mut second);
    lists::compare(j, l, lists, &equal, &first, &second)
}
