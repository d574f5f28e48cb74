//! `oracle plans`: random plans, built, set, run, traced and adopted on both sides.
use crate::building::build;
use crate::judge::{Found, Judge};
use crate::layouts::Gen;
use crate::twin::Twin;
use crate::{inserts, points, refused};

/// The case of a seed.
pub fn case(j: &mut Judge, seed: u64) -> Found {
    let mut g = Gen::new(seed);
    let layout = g.layout(None);
    let mut twin = build(j, &mut g, layout)?;
    twin.trace(j)?;
    j.counts.plans += 1;
    j.counts.shapes.layout(&twin.layout);
    j.counts.inserts.in_a_row += twin.layout.in_a_row as u64;
    for round in 0..g.r.range(1, 5) {
        if g.r.percent(12) {
            twin = adoption(j, &mut g, twin).map_err(|e| format!("round {round}, adoption: {e}"))?;
        }
        one_round(j, &mut g, &mut twin).map_err(|e| format!("round {round}: {e}"))?;
    }
    Ok(())
}

/// Settings, areas that somebody else wrote, a block, calls that are refused, and inserts that are refused or taken.
pub fn one_round(j: &mut Judge, g: &mut Gen, twin: &mut Twin) -> Found {
    for _ in 0..g.r.pick(&[0, 0, 1, 1, 2, 3, 6]) {
        let s = g.setting(&twin.layout);
        j.counts.shapes.setting(s.ramp, g.block);
        j.counts.inserts.settings += twin.layout.inserts().any(|i| inserts::ids(i).contains(&s.id)) as u64;
        twin.set(j, &s).map_err(|e| format!("{s:?}: {e}"))?;
    }
    if g.r.percent(15) {
        poke(g, twin);
    }
    let input = g.input_block(&twin.layout);
    let more = g.r.pick(&[0, 0, 1, 3]);
    twin.run(j, &input, more)?;
    twin.lookup(j, g, &input)?;
    (0..g.r.below(5)).try_for_each(|_| refused::one(j, g, twin))?;
    (0..g.r.below(3)).try_for_each(|_| points::alone(j, g))?;
    (0..g.r.below(2)).try_for_each(|_| points::checked(j, g, twin))
}

fn poke(g: &mut Gen, twin: &mut Twin) {
    if !twin.layout.nodes.is_empty() {
        let p = g.node_poke(twin.layout.nodes.len());
        twin.poke(&p);
    }
    let used = twin.layout.buffers * twin.layout.block;
    if used > 0 && g.r.percent(50) {
        let n = g.r.range(1, used.min(64));
        let at = g.r.below(used - n + 1);
        let values: Vec<f32> = (0..n).map(|_| g.wild.sample(&mut g.r)).collect();
        twin.poke_buffers(at, &values);
    }
}

/// A new plan that takes over from the old one, which is put away.
fn adoption(j: &mut Judge, g: &mut Gen, mut old: Twin) -> Result<Twin, String> {
    let layout = g.layout(Some(&old.layout));
    let mut new = build(j, g, layout)?;
    new.trace(j)?;
    let pairs = g.pairs(new.layout.nodes.len(), old.layout.nodes.len());
    let ramp = g.ramp();
    let mine: Vec<u32> = new.layout.inserts().flat_map(inserts::ids).collect();
    let of_insert = |p: &&[u32]| new.layout.nodes.get(p[0] as usize).is_some_and(|n| mine.contains(&n.id));
    j.counts.inserts.adopted += pairs.chunks(2).filter(of_insert).count() as u64;
    new.adopt(j, &mut old, &pairs, ramp)?;
    Ok(new)
}
