//! Stand-in: plan.rs makes the two detectors of a meter bank, which no step in scope reads.
pub mod ppm {
    pub struct Ballistics;

    impl Ballistics {
        pub fn type_i() -> Self {
            Self
        }

        pub fn type_ii() -> Self {
            Self
        }
    }
}
