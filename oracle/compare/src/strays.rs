//! Refused calls strewn into the builds and the lists of a pair: they go to the plan itself and must leave it as it was, which the outputs
//! show. Their numbers are document 01's.
use crate::inserts;
use crate::judge::{same, Found, Judge};
use crate::layouts::Gen;
use crate::misbuilt;
use crate::mixer::{self, Status};
use crate::paper::{self, MAX_RAMP, MAX_SAFE, MAX_STEPS};
use crate::plan::{Areas, Layout, ID};
use crate::refused::{self, off, off32};
use crate::signals::Channel;

/// A refused builder call, or none where document 01 accepts what came out.
pub fn builder(j: &mut Judge, g: &mut Gen, a: &mut Areas) -> Found {
    let before = j.counts.calls;
    match g.r.below(5) {
        0 => buffers(j, g, a)?,
        1 => coefficients(j, g, a)?,
        2 => node(j, g, a)?,
        3 => insert(j, g, a)?,
        _ => step(j, g, a)?,
    }
    j.counts.pairs.refused_built += j.counts.calls - before;
    Ok(())
}

fn buffers(j: &mut Judge, g: &mut Gen, a: &mut Areas) -> Found {
    let room = a.indices.len() - a.plan.indices;
    let n = off(&mut g.r, room);
    let Err(status) = misbuilt::buffers(&a.plan, n, a.indices.len()) else { return Ok(()) };
    let reply = mixer::buffers(a.plan, n, &mut a.indices);
    record(j, "buffers", status, a, reply.status, reply.plan)
}

fn coefficients(j: &mut Judge, g: &mut Gen, a: &mut Areas) -> Found {
    let room = a.coefficients.len() - a.plan.coefficients;
    let values: Vec<f32> = (0..g.r.pick(&[room + 1, room + 1, 1025])).map(|_| g.wild.gain(&mut g.r)).collect();
    let Err(status) = misbuilt::coefficients(&a.plan, values.len(), a.coefficients.len()) else { return Ok(()) };
    let reply = mixer::coefficients(a.plan, &values, &mut a.coefficients);
    record(j, "coefficients", status, a, reply.status, reply.plan)
}

fn node(j: &mut Judge, g: &mut Gen, a: &mut Areas) -> Found {
    let ids: Vec<u32> = (0..a.plan.nodes).map(|k| a.word(k, ID)).collect();
    let id = if ids.is_empty() || g.r.percent(40) { g.id(&ids) } else { g.r.pick(&ids) };
    let n = g.r.pick(&[0, 1, 24, 25, 30]);
    let values = g.wild.gains(&mut g.r, n);
    let ramp = g.r.pick(&[0, 7, MAX_RAMP, MAX_RAMP + 1, u32::MAX]);
    let safe = misbuilt::any_safe(&mut g.r);
    let Err(status) = misbuilt::node(a, id, n, ramp, safe) else { return Ok(()) };
    j.counts.pairs.refused_safe += (safe > MAX_SAFE) as u64;
    let reply = mixer::node(a.plan, id, &values, ramp, safe, &mut a.floats, &mut a.words);
    record(j, "node", status, a, reply.status, reply.plan)
}

fn step(j: &mut Judge, g: &mut Gen, a: &mut Areas) -> Found {
    let there = &a.steps[..a.plan.words];
    let mut words = if there.is_empty() { vec![192, 0, 0] } else { there.to_vec() };
    words.truncate(g.r.pick(&[0, 1, 2, 3, 4, 6, 8]));
    if !words.is_empty() && g.r.percent(70) {
        words[0] = off32(&mut g.r, words[0]);
    }
    let Err(status) = misbuilt::step(&a.plan, &words, a.steps.len()) else { return Ok(()) };
    let reply = mixer::step(a.plan, &words, &mut a.steps);
    record(j, "step", status, a, reply.status, reply.plan)
}

/// An insert with a format, a return, a source, an id or a ramp that is refused, or with areas that are too short.
fn insert(j: &mut Judge, g: &mut Gen, a: &mut Areas) -> Found {
    let ids: Vec<u32> = (0..a.plan.nodes).map(|k| a.word(k, ID)).collect();
    let mut i = g.point(a.plan.indices, &ids);
    g.odd(a, &mut i);
    let Err(status) = paper::insert(a, &i, None) else { return Ok(()) };
    let plan = a.plan;
    let reply = inserts::call(a, &i);
    a.plan = plan;
    j.counts.inserts.refused(status.number);
    record(j, "insert", status, a, reply.status, reply.plan)
}

/// A step of no words.
pub fn no_step(j: &mut Judge, a: &mut Areas) -> Found {
    let reply = mixer::step(a.plan, &[], &mut a.steps);
    j.counts.pairs.refused_built += 1;
    record(j, "step", Status { number: if a.plan.steps < MAX_STEPS { 3 } else { 5 }, place: 0 }, a, reply.status, reply.plan)
}

/// The answer; the record that came back is the one that the next call gets.
fn record(j: &mut Judge, call: &str, status: Status, a: &mut Areas, got: Status, plan: mixer::Plan) -> Found {
    j.refusal(call, status, got)?;
    same("record after a refused builder call", &a.plan, &plan)?;
    a.plan = plan;
    Ok(())
}

/// A refused setting: an id that no node has, or a ramp that is too long.
pub fn setting(j: &mut Judge, g: &mut Gen, l: &Layout, a: &mut Areas) -> Found {
    let mut s = g.setting(l);
    let ids: Vec<u32> = l.nodes.iter().map(|n| n.id).collect();
    if g.r.percent(50) {
        s.ramp = g.r.pick(&[MAX_RAMP + 1, u32::MAX]);
    } else {
        s.id = g.id(&ids);
    }
    let number = if s.ramp > MAX_RAMP { 10 } else { 9 };
    let reply = mixer::set_param(a.plan, s.id, &s.values, s.ramp, &mut a.floats, &mut a.words);
    j.counts.pairs.refused_set += 1;
    j.refusal("set_param", Status { number, place: 0 }, reply)
}

/// A refused run: a bad directory, an output area that is one sample short, or both. Its inputs carry anything, listed or not.
pub fn run(j: &mut Judge, g: &mut Gen, l: &Layout, channels: &[Channel], a: &mut Areas) -> Found {
    let mut input = g.feed_anything(channels, a.plan.block);
    let mut output = vec![7.5; l.output_channels() * a.plan.block];
    let bad = g.r.percent(60);
    if bad {
        refused::spoil_directory(g, &mut input);
    }
    if !bad || g.r.percent(30) {
        output.pop();
    }
    let reply = refused::process(a, &input, &mut output);
    j.counts.pairs.refused_run += 1;
    j.refusal("process", Status { number: if bad { 12 } else { 13 }, place: 0 }, reply.status)
}
