//! Items cut out of tests/files/desk.rs. What it holds besides does not compile, so more than is named cannot have come with them.

mod desk {
    source::items! { "desk.rs"
        "pub struct First"
        "pub struct Lamp"
        "pub struct Desk<'a>"
        "pub struct Corner"
        "impl Lamp" { "pub fn read" }
        "impl Desk<'_>" { "fn later" "pub fn nested" "pub fn read" "pub const fn braces" "pub const SIDE" "pub const CORNER" }
        "impl<'a> From<&'a str> for Desk<'a>"
        "impl Corner" { "pub fn sum" }
        "thread_local!"
    }

    /// A private method of a later block, which this module alone sees.
    pub fn later(d: &Desk) -> usize {
        d.later()
    }
}

use desk::{Desk, Lamp};

const DESK: Desk = Desk { name: "left" };

#[test]
fn a_name_is_that_of_its_own_block() {
    assert_eq!(Lamp.read(), "lamp");
    assert_eq!(DESK.read(), "desk");
}

#[test]
fn attributes_come_with_their_item() {
    assert_eq!(DESK.read(), "desk", "of two items of one name the attributes leave one");
    assert_eq!(Desk::CORNER.sum(), 3, "and of two blocks that begin alike");
}

#[test]
fn an_item_ends_where_its_own_braces_do() {
    assert_eq!([0, 5, 15, 25].map(|n| DESK.nested(n)), [1, 10, 4, 3]);
    assert_eq!(Desk::braces(), ["}", "{\"}\"{", "{{"]);
}

#[test]
fn a_value_ends_with_its_semicolon() {
    assert_eq!((Desk::CORNER.x, Desk::CORNER.y), (3, [0, 0]));
    assert_eq!(Desk::SIDE, 7);
}

#[test]
fn blocks_of_one_type_are_searched_all() {
    assert_eq!(desk::later(&DESK), 4);
}

#[test]
fn whole_items_are_as_they_were() {
    assert_eq!(Desk::from("right").name, "right");
    assert_eq!(desk::LOCAL.with(|n| *n), 5);
    let _ = desk::First;
}

/// The build of tests/missing.rs fails, and says of each item what is missing where.
#[test]
fn a_missing_item_fails_the_build() {
    let out = std::process::Command::new(env!("CARGO"))
        .args(["check", "--offline", "--locked", "--test", "missing", "--target-dir", env!("CARGO_TARGET_TMPDIR")])
        .current_dir(env!("CARGO_MANIFEST_DIR"))
        .output()
        .unwrap();
    let said = String::from_utf8_lossy(&out.stderr);
    assert!(!out.status.success(), "it was built");
    for message in [
        "tests/files/desk.rs has no item that begins with 'pub struct Gone'",
        "tests/files/desk.rs has no item that begins with 'impl Desk'",
        "tests/files/desk.rs has no item that begins with 'impl std::fmt::Display'",
        r#"tests/files/desk.rs: 'impl Desk<'_>' has no item that begins with ["pub fn only_of_lamp"]"#,
        r#"tests/files/desk.rs: 'impl Lamp' has no item that begins with ["fn read", "pub fn rea"]"#,
        "tests/files/desk.rs: 'struct Unused' has no braces",
        "tests/files/gone.rs: No such file",
    ] {
        assert!(said.contains(message), "'{message}' is not in what the build said:\n{said}");
    }
    assert_eq!(said.matches("proc macro panicked").count(), 7, "other faults are among what the build said:\n{said}");
}
