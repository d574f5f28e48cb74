//! Not of the reference: a file for the tests of the macros, which cut items out of it. It does not compile whole: what names `NotThere` is never
//! to be taken. A brace that is none: {

pub struct First;

use std::collections::{BTreeMap, NotThere};

pub struct Lamp;

pub struct Desk<'a> {
    pub name: &'a str,
}

impl Lamp {
    pub fn read(&self) -> &'static str {
        "lamp"
    }

    pub fn only_of_lamp(&self) -> NotThere {
        NotThere {}
    }
}

impl std::fmt::Display for Desk<'_> {
    fn fmt(&self, f: &mut std::fmt::Formatter) -> std::fmt::Result {
        NotThere::read(self, f)
    }
}

impl Desk<'_> {
    //! What holds for the whole block: }

    pub const CORNER: Corner = Corner { x: 3, y: [0; { 1 + 1 }] };
    pub const SIDE: u32 = if Self::CORNER.x > 2 { 7 } else { 8 };

    pub fn reader(&self) -> NotThere {
        NotThere {}
    }

    /// A doc comment with the start of an item: pub fn read(&self) { }
    #[cfg(any())]
    #[doc = "}"]
    pub fn read(&self) -> NotThere {
        NotThere {}
    }

    /// The one that is there, after { and an attribute.
    #[cfg(all())]
    #[inline]
    pub fn read(&self) -> &'static str {
        "desk"
    }

    pub fn nested(&self, n: u32) -> u32 {
        struct Inner {
            n: u32,
        }
        impl Inner {
            fn read(&self) -> u32 {
                self.n
            }
        }
        let twice = |i: Inner| { i.read() * 2 };
        match n {
            0 => { 1 }
            n if n > 10 => { if n > 20 { 3 } else { 4 } }
            n => twice(Inner { n }),
        }
    }

    pub const fn braces() -> [&'static str; 3] {
        // A comment with } and with {{.
        /* And one /* within */ another: } */
        let _ = ('{', '}', b'}', '\'', "\"}");
        ["}", r#"{"}"{"#, "{{"]
    }
}

struct Unused(NotThere);

thread_local!(pub static LOCAL: u32 = { 5 });

impl Desk<'_> {
    fn later(&self) -> usize {
        self.name.len()
    }

    fn last_of_all(&self) -> NotThere {
        NotThere {}
    }
}

impl<'a> From<&'a str> for Desk<'a> {
    fn from(name: &'a str) -> Self {
        Desk { name }
    }
}

#[derive(Clone, Copy)]
pub struct Corner {
    pub x: u32,
    pub y: [u32; 2],
}

#[cfg(any())]
impl Corner {
    pub fn sum(&self) -> NotThere {
        NotThere {}
    }
}

impl Corner {
    pub fn sum(&self) -> u32 {
        self.x + self.y[0]
    }
}
