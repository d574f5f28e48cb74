//! `engine` of the reference.
source::module! { roundtrip "engine/roundtrip.rs" {} }

source::module! { plan "engine/plan.rs" {
    pub mod peek { include!(concat!(env!("CARGO_MANIFEST_DIR"), "/src/peek.rs")); }
} }

/// Stand-in: processors are out of scope. None can be made, so no method of one is ever called.
pub mod proc {
    use std::convert::Infallible;

    pub const MAX_CH: usize = crate::mix::format::MAX_FORMAT_CHANNELS;

    #[derive(Default)]
    pub struct NodeMeter;

    pub struct Processor {
        pub id: u32,
        pub start: u64,
        never: Infallible,
    }

    impl Processor {
        pub fn set_param(&mut self, _index: usize, _value: f32, _ramp: u32) {
            match self.never {}
        }

        pub fn adopt(&mut self, _old: &mut Processor, _ramp: u32) {
            match self.never {}
        }

        pub fn process(&mut self, _io: &mut [&mut [f32]], _key: &[&[f32]], _block: usize, _meters: &[NodeMeter]) {
            match self.never {}
        }

        pub fn held(&self, _channel: usize, _out: &mut [f32]) {
            match self.never {}
        }

        pub fn hold(&mut self, _channel: usize, _samples: &[f32]) {
            match self.never {}
        }
    }
}
