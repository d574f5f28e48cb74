//! Does not compile: each of these names something that is missing. The test of cuts.rs reads what the build says of them.

/// An item of the file.
mod item {
    source::items! { "desk.rs" "pub struct Gone" }
}

/// A block: that of the file has parameters.
mod block {
    source::items! { "desk.rs" "impl Desk" { "pub fn read" } }
}

/// A block: that of the file is the `impl` of a trait.
mod of_trait {
    source::items! { "desk.rs" "impl std::fmt::Display" }
}

/// An item that another block has, earlier in the file.
mod other {
    source::items! { "desk.rs" "impl Desk<'_>" { "pub fn read" "pub fn only_of_lamp" } }
}

/// Two items of a block, one of another visibility, one with a longer name.
mod several {
    source::items! { "desk.rs" "impl Lamp" { "fn read" "pub fn read" "pub fn rea" } }
}

/// An item of what is no block.
mod flat {
    source::items! { "desk.rs" "struct Unused" { "pub fn read" } }
}

/// A file.
mod file {
    source::items! { "gone.rs" "pub struct Gone" }
}
