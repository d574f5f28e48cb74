#!/usr/bin/env python3
"""Writes the names of the repository's own definitions and lemmas in snake case: `firstOf` as `first_of`, `two-lists` as `two_lists`.

usage: tools/snake_case.py [--list]     in the repository's folder, once, after the files have today's spelling

It takes the names that the files of specs/ and the lemma files of proofs/ declare. A name stays where a library's name is spelled so. Rust's names, the names that Rattle makes for goals, strings, inputs and outputs are no such names, and stay.
"""

import glob
import re
import sys

WORD = r"[A-Za-z_À-ʯͰ-Ͽ℀-⅏][\w'₀-₉-]*"
DECLARED = re.compile(rf"^\s*(?:abbrev |unfoldable |pattern |pub |axiom )*({WORD})((?: {WORD})*)(?: \{{[^}}]*\}})? :(?: |$)")
TOKEN = re.compile(WORD)
USE = re.compile(r"^\s*(?:pub |ghost )*use ([\w.'·-]+)\.\{([^}]*)\}")
# Names whose snake case a parameter of Rust's or another name has. Of two names that fall together the lemma gets `_lem`, as a library's do.
SPECIAL = {
    "nodeFloats": "node_float_count",
    "nodeWords": "node_word_count",
    "in_both": "in_both_lem",
    "plan_after": "plan_after_lem",
    "same_float": "same_float_lem",
}
# Two of them are fields too, and a list in an example, which keep the plain spelling.
FIELDS = {"nodeFloats": "node_floats", "nodeWords": "node_words"}
A_FIELD = re.compile(r"(?:^\s+pub |\.|[{;] |^ +)$")
# Names that stand in src/, in braces or as binders.
MORE = {"foldAnswer", "foldArea", "sendId", "backId", "lentTo"}


def read(path):
    with open(path, encoding="utf-8") as f:
        return f.read()


def own():
    found = set()
    for path in glob.glob("crates/*/specs/*.antt") + glob.glob("crates/*/proofs/*.antt"):
        for line in read(path).splitlines():
            it = DECLARED.match(line.split("--")[0])
            if it:
                found |= {it[1], *it[2].split()}
    return found


def of_libraries(crates):
    found = set()
    for path in glob.glob("crates/**/*.antt", recursive=True) + glob.glob("crates/**/*.rt", recursive=True):
        for line in read(path).splitlines():
            it = USE.match(line)
            if it and not (it[1].startswith("Rattle.") and it[1].split(".")[1] in crates):
                for name in it[2].split(","):
                    found |= set(name.strip().split(" as ")[:1])
    return found


def snake(name):
    name = re.sub(r"(?<=[a-z0-9])([A-Z])(?=[a-z0-9]|$)", lambda m: "_" + m[1].lower(), name)
    name = re.sub(r"(?<=[a-z])([A-Z]+)(?=-|$)", lambda m: "_" + m[1].lower(), name)
    return name.replace("-", "_")


def table():
    crates = {path.split("/")[1] for path in glob.glob("crates/*/src")}
    kit = of_libraries(crates)
    new = dict(SPECIAL)
    for name in sorted(own() | MORE):
        if not (name[0].isupper() or name in kit or name in SPECIAL) and snake(name) != name:
            new[name] = snake(name)
    # A definition's old name has a capital, a lemma's a dash.
    taken = kit | own() - new.keys() | {b for a, b in new.items() if "-" not in a}
    return {a: b + "_lem" if "-" in a and b in taken else b for a, b in new.items()}


def turned(text, new):
    def to(m):
        before, after = text[: m.start()], text[m.end() :]
        if m[0] in FIELDS and A_FIELD.search(before) and (before.endswith(".") or re.match(r" (=|:) ", after)):
            return FIELDS[m[0]]
        return new.get(m[0], m[0])

    return TOKEN.sub(to, text)


def quoted(text, new):
    return re.sub(r"`[^`\n]*`", lambda m: turned(m[0], new), text)


def code(line, new, comment):
    """A line of a source: strings stay, and in its comment only what stands between backticks is turned, and names with a capital inside."""
    if line.lstrip().startswith(comment):
        camel = {a: b for a, b in new.items() if "-" not in a}
        return turned(quoted(line, new), camel)
    parts = re.split(r'("(?:[^"\\]|\\.)*")', line)
    return "".join(it if it.startswith('"') else turned(it, new) for it in parts)


def main(argv):
    new = table()
    if argv == ["--list"]:
        for a, b in new.items():
            print(a, b)
        return
    all_own = own()
    for ending, comment in ((".antt", "--"), (".rt", "//"), (".edit", "#")):
        for path in glob.glob(f"crates/**/*{ending}", recursive=True):
            text = read(path)
            out = "\n".join(code(line, new, comment) for line in text.split("\n"))
            if out != text:
                with open(path, "w", encoding="utf-8") as f:
                    f.write(out)
    for path in glob.glob("*.md") + glob.glob("docs/**/*.md", recursive=True) + glob.glob("oracle/*.md"):
        text = read(path)
        # In a document stand old names that the sources have no more, too.
        here = dict(new)
        for it in set(TOKEN.findall(" ".join(re.findall(r"`[^`\n]*`", text)))):
            if it[0].islower() and it not in new and it not in all_own and snake(it) != it and snake(it) in all_own:
                here[it] = new.get(snake(it), snake(it)) if "-" in it else snake(it)
        parts = re.split(r"(`[^`\n]*`)", text)
        camel = {a: b for a, b in here.items() if "-" not in a and "_" not in a}
        out = "".join(turned(it, here if it.startswith("`") else camel) for it in parts)
        if out != text:
            with open(path, "w", encoding="utf-8") as f:
                f.write(out)


if __name__ == "__main__":
    main(sys.argv[1:])
