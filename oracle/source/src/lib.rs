//! Compiles files of the reference, and items of them, where they lie, in the folder that ORACLE_REF names, and adds, drops or changes no token of
//! a file or an item.
//! `#[path]` takes no variable and leaves no room for a child module; `include!` refuses a file that begins with an inner comment.
use proc_macro::{Delimiter, Group, TokenStream, TokenTree};

/// The path and the text of a file of the reference, named by a literal.
fn read(name: &TokenTree) -> (String, String) {
    let folder = std::env::var("ORACLE_REF").expect("ORACLE_REF names the folder that holds engine/ and mix/");
    let path = format!("{folder}/{}", quoted(name));
    let text = std::fs::read_to_string(&path).unwrap_or_else(|e| panic!("{path}: {e}"));
    (path, text)
}

/// The bytes are not used: they make cargo build again when the file changes.
fn watched(path: &str) -> String {
    format!("const _: &[u8] = include_bytes!({path:?});")
}

/// `module! { name "file" { child items } }` is `pub mod name { the file, then the child items }`.
/// A child module sees the private fields of its parent.
#[proc_macro]
pub fn module(input: TokenStream) -> TokenStream {
    let t: Vec<TokenTree> = input.into_iter().collect();
    let (path, text) = read(&t[1]);
    let TokenTree::Group(child) = &t[2] else { panic!("child items in braces") };
    let all = format!("pub mod {} {{\n{text}\n{}\n{}\n}}", t[0], child.stream(), watched(&path));
    all.parse().unwrap()
}

/// `items! { "file" "start" "start" { "start" } }` gives the items of the file that begin, after their attributes, with one of the starts given.
/// A start with braces behind it is that of blocks, as an `impl` is one: each comes with its own head and those of its items that the braces name.
#[proc_macro]
pub fn items(input: TokenStream) -> TokenStream {
    let mut t = input.into_iter().peekable();
    let (path, text) = read(&t.next().expect("the name of a file"));
    let file = split(text.parse().unwrap());
    let mut out: TokenStream = watched(&path).parse().unwrap();
    while let Some(start) = t.next() {
        let start = quoted(&start);
        let found: Vec<_> = file.iter().filter(|item| begins(item, &start)).cloned().collect();
        assert!(!found.is_empty(), "{path} has no item that begins with '{start}'");
        match t.next_if(|t| matches!(t, TokenTree::Group(_))) {
            Some(TokenTree::Group(named)) => {
                let starts: Vec<String> = named.stream().into_iter().map(|w| quoted(&w)).collect();
                out.extend(parts(found, &starts, &format!("{path}: '{start}'")));
            }
            _ => out.extend(found.into_iter().flatten()),
        }
    }
    out
}

/// Of blocks that begin alike, such as two `impl` of one type, those that have items of the starts given, with these items alone. Where no block has
/// an item of a start, the build fails, and says that `place` has none.
fn parts(blocks: Vec<Vec<TokenTree>>, starts: &[String], place: &str) -> TokenStream {
    let mut out = TokenStream::new();
    let mut missing: Vec<&String> = starts.iter().collect();
    for mut block in blocks {
        let Some(TokenTree::Group(body)) = block.pop() else { panic!("{place} has no braces") };
        let mut kept = split(body.stream());
        kept.retain(|item| starts.iter().any(|s| begins(item, s)));
        missing.retain(|s| !kept.iter().any(|item| begins(item, s)));
        if !kept.is_empty() {
            out.extend(block);
            out.extend([TokenTree::from(Group::new(Delimiter::Brace, kept.into_iter().flatten().collect()))]);
        }
    }
    assert!(missing.is_empty(), "{place} has no item that begins with {missing:?}");
    out
}

/// The text of a literal.
fn quoted(literal: &TokenTree) -> String {
    literal.to_string().trim_matches('"').to_string()
}

/// The items of a file or a block. Each ends with a semicolon, or with a group in braces that is no part of a value or a path. An inner attribute,
/// such as a comment on the whole file, stands by itself.
fn split(all: TokenStream) -> Vec<Vec<TokenTree>> {
    let (mut items, mut now) = (Vec::new(), Vec::new());
    for t in all {
        let last = match &t {
            TokenTree::Group(g) if g.delimiter() == Delimiter::Brace => !to_semicolon(&now),
            TokenTree::Group(_) => now.len() == 2 && format!("{}{}", now[0], now[1]) == "#!",
            TokenTree::Punct(p) => p.as_char() == ';',
            _ => false,
        };
        now.push(t);
        if last {
            items.push(std::mem::take(&mut now));
        }
    }
    items
}

/// Whether an item that begins so goes on behind braces, to its semicolon.
fn to_semicolon(item: &[TokenTree]) -> bool {
    let mut words = bare(item).iter().map(|w| w.to_string()).filter(|w| w != "pub" && !w.starts_with('('));
    match words.next().as_deref() {
        Some("use" | "static" | "type") => true,
        Some("const") => !matches!(words.next().as_deref(), Some("fn" | "unsafe" | "async" | "extern")),
        _ => false,
    }
}

/// An item without the attributes before it, of which doc comments are some.
fn bare(item: &[TokenTree]) -> &[TokenTree] {
    match item {
        [TokenTree::Punct(p), TokenTree::Group(_), rest @ ..] if p.as_char() == '#' => bare(rest),
        _ => item,
    }
}

/// Whether an item, its attributes left out, begins with the tokens of `start`, as in "pub struct Db" or "impl Build<'_>". More parameters, or the
/// `impl` of a trait of that name, are another item.
fn begins(item: &[TokenTree], start: &str) -> bool {
    let mut words = bare(item).iter().map(|w| w.to_string());
    let start: TokenStream = start.parse().unwrap();
    let same = start.into_iter().all(|w| words.next() == Some(w.to_string()));
    same && !matches!(words.next().as_deref(), Some("<" | "for"))
}
