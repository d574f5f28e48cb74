//! A plan built through the builder calls of both sides, compared after each.
use crate::inserts;
use crate::judge::{same, Fault, Found, Judge};
use crate::layouts::Gen;
use crate::mixer::{self, BufferReply, InsertPoint, NodeReply, PlanReply, SpanReply, Status};
use crate::plan::{Areas, Call, Layout, NodeCall, Step, SAFE, WORDS};
use crate::rust::{self, PlanBuilder};
use crate::twin::{areas, Twin};
use reference::engine::plan::peek;

struct Build<'a> {
    j: &'a mut Judge,
    rust: PlanBuilder,
    want: Areas,
    port: Areas,
}

/// Builds a layout on both sides.
pub fn build(j: &mut Judge, g: &mut Gen, layout: Layout) -> Result<Twin, String> {
    let more = g.r.pick(&[0, 1, 5]);
    let port = Areas::for_layout(&layout, more);
    let mut b = Build { j, rust: PlanBuilder::new(layout.block), want: port.clone(), port };
    b.start(layout.block)?;
    for (i, call) in layout.calls.iter().enumerate() {
        b.call(g, call).map_err(|e| format!("builder call {i}, {call:?}: {e}"))?;
    }
    b.finish(layout)
}

impl Build<'_> {
    fn start(&mut self, block: usize) -> Found {
        let reply = mixer::new(block);
        self.want.plan.block = block;
        self.port.plan = reply.plan;
        same("new", &PlanReply { plan: self.want.plan, ..PlanReply::default() }, &reply)
    }

    fn call(&mut self, g: &mut Gen, call: &Call) -> Found {
        self.j.counts.calls += !matches!(call, Call::Index(_)) as u64;
        match call {
            Call::Buffers(n) => self.buffers(g, *n)?,
            Call::Coefficients(values) => self.coefficients(values)?,
            Call::Node(n) => self.node(n)?,
            Call::Step(s) => self.step(s)?,
            Call::Insert(i) => self.insert(i)?,
            Call::Index(list) => self.index(list),
        }
        areas(&self.want, &self.port)
    }

    /// The reference's span and the port's reply, which holds the record too.
    fn span(&mut self, call: &str, span: mixer::Span, reply: SpanReply) -> Found {
        let mut want = SpanReply { status: Status::default(), plan: self.want.plan, span };
        if self.j.plants(Fault::BuiltSpan) {
            want.span.start += 1;
        }
        if self.j.plants(Fault::BuiltCount) {
            want.plan.indices += 1;
        }
        self.port.plan = reply.plan;
        same(call, &want, &reply)
    }

    fn buffers(&mut self, g: &mut Gen, n: usize) -> Found {
        let span = self.rust.buffers(n);
        let reply = mixer::buffers(self.port.plan, n, &mut self.port.indices);
        let list = peek::indices(&self.rust);
        self.want.indices[..list.len()].copy_from_slice(list);
        self.want.plan.indices = list.len();
        self.want.plan.buffers = peek::buffer_count(&self.rust);
        if self.j.plants_if(n > 0, Fault::BuiltIndex) {
            self.want.indices[0] ^= 1;
        }
        self.span("buffers", rust::span_back(span), reply)?;
        let cut = g.r.below(n + 3);
        let first = rust::span_back(self.rust.first(span, cut));
        same("first", &first, &mixer::first(reply.span, cut as u32))?;
        if n > 0 {
            let i = g.r.below(n);
            let buffer = self.rust.buffer(span, i);
            let got = mixer::buffer(self.port.plan, reply.span, i, &self.port.indices);
            same("buffer", &BufferReply { status: Status::default(), buffer }, &got)?;
        }
        Ok(())
    }

    fn coefficients(&mut self, values: &[f32]) -> Found {
        let span = self.rust.coefficients(values);
        let reply = mixer::coefficients(self.port.plan, values, &mut self.port.coefficients);
        let list = peek::coefficients(&self.rust);
        self.want.coefficients[..list.len()].copy_from_slice(list);
        self.want.plan.coefficients = list.len();
        if self.j.plants_if(!list.is_empty(), Fault::BuiltWeight) {
            self.want.coefficients[0] = f32::from_bits(self.want.coefficients[0].to_bits() ^ 1);
        }
        self.span("coefficients", rust::span_back(span), reply)
    }

    fn node(&mut self, n: &NodeCall) -> Found {
        let mut node = self.rust.node(n.id, &n.values, n.ramp);
        let p = &mut self.port;
        let reply = mixer::node(p.plan, n.id, &n.values, n.ramp, n.safe, &mut p.floats, &mut p.words);
        p.plan = reply.plan;
        let nodes = peek::nodes(&self.rust);
        rust::nodes_to(nodes, &mut self.want.floats, &mut self.want.words);
        self.want.plan.nodes = nodes.len();
        self.want.words[WORDS * node as usize + SAFE] = n.safe ^ self.j.plants(Fault::BuiltSafe) as u32;
        self.j.counts.safes.built(n.safe);
        if self.j.plants(Fault::BuiltNode) {
            node += 1;
        }
        same("node", &NodeReply { status: Status::default(), plan: self.want.plan, node }, &reply)
    }

    fn step(&mut self, s: &Step) -> Found {
        self.rust.step(rust::step(s));
        let record = s.record();
        let reply = mixer::step(self.port.plan, &record, &mut self.port.steps);
        self.port.plan = reply.plan;
        let at = self.want.plan.words;
        self.want.steps[at..][..record.len()].copy_from_slice(&record);
        self.want.plan.words += record.len();
        self.want.plan.steps = peek::step_count(&self.rust);
        if self.j.plants(Fault::BuiltWord) {
            self.want.steps[at + 1] ^= 1;
        }
        same("step", &PlanReply { status: Status::default(), plan: self.want.plan }, &reply)
    }

    /// The layout writer's own index list, on both sides.
    fn index(&mut self, list: &[u32]) {
        peek::set_indices(&mut self.rust, list);
        for a in [&mut self.want, &mut self.port] {
            a.indices[..list.len()].copy_from_slice(list);
            a.plan.indices = list.len();
        }
    }

    fn insert(&mut self, i: &InsertPoint) -> Found {
        let expected = inserts::follow(self.j, &mut self.rust, i, &mut self.want);
        same("insert", &expected, &inserts::call(&mut self.port, i))
    }

    fn finish(mut self, layout: Layout) -> Result<Twin, String> {
        let reply = mixer::finish(self.port.plan, &mut self.port.buffers);
        self.j.counts.calls += 1;
        let rust = self.rust.finish();
        let used = layout.buffers * layout.block;
        self.want.buffers[..used].copy_from_slice(peek::buffers(&rust));
        same("finish", &PlanReply { status: Status::default(), plan: self.want.plan }, &reply)?;
        areas(&self.want, &self.port).map_err(|e| format!("finish: {e}"))?;
        let p = &self.port;
        let checked = mixer::check_plan(p.plan, &p.indices, &p.coefficients, &p.floats, &p.words, &p.steps, &p.buffers);
        same("check_plan", &Status::default(), &checked)?;
        Ok(Twin { layout, rust, want: self.want, port: self.port })
    }
}
