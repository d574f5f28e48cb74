// A child module of plan.rs: what is private, read and written.
use super::*;

/// A node's whole state.
#[derive(Clone, Copy)]
pub struct Raw {
    pub id: u32,
    pub len: u32,
    pub left: u32,
    pub cur: [f32; MAX_NODE_VALUES],
    pub target: [f32; MAX_NODE_VALUES],
    pub step: [f32; MAX_NODE_VALUES],
}

pub fn node(n: &Node) -> Raw {
    Raw { id: n.id, len: n.len as u32, left: n.left, cur: n.cur, target: n.target, step: n.step }
}

/// Overwrites all but the id, which the plan's lookup has too.
pub fn put_node(n: &mut Node, r: &Raw) {
    *n = Node { id: n.id, len: r.len as usize, cur: r.cur, target: r.target, step: r.step, left: r.left };
}

pub fn buffers(p: &Plan) -> &[f32] {
    &p.buffers
}

pub fn buffers_mut(p: &mut Plan) -> &mut [f32] {
    &mut p.buffers
}

pub fn indices(b: &PlanBuilder) -> &[u32] {
    &b.plan.indices
}

pub fn coefficients(b: &PlanBuilder) -> &[f32] {
    &b.plan.coefficients
}

pub fn nodes(b: &PlanBuilder) -> &[Node] {
    &b.plan.nodes
}

pub fn buffer_count(b: &PlanBuilder) -> usize {
    b.buffers as usize
}

pub fn step_count(b: &PlanBuilder) -> usize {
    b.plan.steps.len()
}

pub fn steps(b: &PlanBuilder) -> &[Step] {
    &b.plan.steps
}

/// Another index list, as a layout writer can make it; the builder itself only adds fresh numbers.
pub fn set_indices(b: &mut PlanBuilder, list: &[u32]) {
    b.plan.indices = list.to_vec();
}

/// The source lists of all slots, which `finish` works out among other things.
pub fn output_sources(b: &PlanBuilder) -> Vec<Vec<u16>> {
    b.output_sources()
}
