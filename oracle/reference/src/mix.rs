//! `mix` of the reference.
source::module! { format "mix/format.rs" {
    pub mod peek { include!(concat!(env!("CARGO_MANIFEST_DIR"), "/src/peek_format.rs")); }
} }

/// Of model.rs only the level in decibels and the places where a signal is tapped, without their text forms.
pub mod model {
    source::items! { "mix/model.rs" "pub struct Db" "impl Db" "pub enum Tap" }
}

source::module! { chain "mix/chain.rs" {} }

/// Of compile.rs only an insert and the gain stage, with what they stand on. Of what they note down beside the plan (layout, meters, probes, endpoints)
/// nothing is read.
pub mod compile {
    use super::chain::{Proc, ProcKind};
    use super::format::{width_matrix, Format, Laws};
    use crate::engine::plan::{self, NodeId, Span, Step};
    use std::collections::{hash_map::DefaultHasher, HashMap};
    use std::hash::{Hash, Hasher};

    source::items! { "mix/compile.rs"
        "pub struct LayoutNode"
        "fn hash"
        "pub fn format_name"
        "struct Build<'a>"
        "impl Build<'_>" { "fn id" "fn node" "fn gain" "fn insert" }
        "struct Endpoint"
    }

    /// Stand-in: of a compiler a node's id by its key, which is all that an insert asks of it.
    pub struct Compiler {
        ids: HashMap<String, NodeId>,
    }

    /// Stand-in: a level that is a linear gain already.
    struct Db(f64);

    impl Db {
        fn gain(self) -> f64 {
            self.0
        }
    }

    /// Stand-in: the reference's builder for one insert. In place of the first meter it makes an Output to a slot, and in place of the second nothing.
    pub struct PlanBuilder {
        b: plan::PlanBuilder,
        /// Until the Output is made.
        slot: Option<u32>,
    }

    impl PlanBuilder {
        fn buffers(&mut self, n: usize) -> Span {
            self.b.buffers(n)
        }

        fn buffer(&self, span: Span, i: usize) -> u32 {
            self.b.buffer(span, i)
        }

        fn coefficients(&mut self, values: &[f32]) -> Span {
            self.b.coefficients(values)
        }

        fn node(&mut self, id: NodeId, values: &[f32], ramp: u32) -> u32 {
            self.b.node(id, values, ramp)
        }

        fn meter(&mut self, _n: usize) -> u32 {
            0
        }

        fn step(&mut self, step: Step) {
            match (step, self.slot) {
                (Step::Meter { src, .. }, Some(slot)) => {
                    self.b.step(Step::Output { src, slot });
                    self.slot = None;
                }
                (Step::Meter { .. }, None) => {}
                (step, _) => self.b.step(step),
            }
        }
    }

    pub mod peek {
        include!(concat!(env!("CARGO_MANIFEST_DIR"), "/src/peek_compile.rs"));
    }
}

/// Of downmix.rs only which pairs of formats a named setting maps, which are those that a table of folds covers. Stand-in: named settings are out of
/// scope. None can be made, so `width_matrix` never takes that way, and never asks.
pub mod downmix {
    use super::format::Format;

    #[derive(Debug, PartialEq)]
    pub enum DownmixSet {}

    impl DownmixSet {
        pub fn matrix(&self, _src: Format, _dst: Format) -> Vec<f64> {
            match *self {}
        }
    }

    source::items! { "mix/downmix.rs" "pub fn applies" }
}
