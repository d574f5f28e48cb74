// A child module of what is taken of compile.rs: an insert by itself.
use super::*;

/// The last words of the keys of an insert's nodes, in the order in which they are made.
pub const NODES: [&str; 6] = ["send", "return", "dry", "wet", "dryin", "wetin"];

/// The insert `p` on `src`, whose gains are linear, made by a builder, with the ids of its nodes in the order of `NODES` and an Output to `slot`. Returns
/// the builder and the insert's output.
pub fn insert(
    b: plan::PlanBuilder,
    ids: [NodeId; 6],
    ramp: u32,
    slot: u32,
    p: &Proc,
    format: Format,
    src: Span,
) -> (plan::PlanBuilder, Span) {
    let key = |name| format!("insert/signal/{}/{name}", p.id);
    let mut build = Build {
        b: PlanBuilder { b, slot: Some(slot) },
        compiler: &mut Compiler { ids: NODES.map(key).into_iter().zip(ids).collect() },
        ramp,
        nodes: HashMap::new(),
        procs: HashMap::new(),
        node_meters: Vec::new(),
        structure: DefaultHasher::new(),
        endpoints: Vec::new(),
        extra_meters: Vec::new(),
        probes: Vec::new(),
    };
    let out = build.insert("signal", p, format, src, 0);
    (build.b.b, out)
}
