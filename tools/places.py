#!/usr/bin/env python3
"""Lists the places that docs/DESIGN-PASS.md counts: one line a place, and how many there are for each kind.

usage: places.py [-l] [FOLDER]        (-l: with the places; FOLDER: a checkout, default this one)

A line is a place to look at, not a verdict. Functions are told apart by their text alone.
"""
import re
import sys
from collections import defaultdict
from pathlib import Path

SHOW = '-l' in sys.argv
ROOT = Path(next((a for a in sys.argv[1:] if a != '-l'), '.'))
TOKEN = re.compile(r'[A-Za-z_][A-Za-z_0-9]*|\d[\w.]*|[^\s\w]')
FUNCTION = re.compile(r'^( *)(?:#\[.*\]\n *)*(?:pub(?:\(crate\))? )?(?:extern "C" )?fn (\w+)', re.M)
KEEP = {'let', 'mut', 'if', 'else', 'while', 'for', 'in', 'match', 'return', 'self', 'Self', 'fn', 'as', 'true', 'false', 'break'}


def sources():
    return sorted(p for p in ROOT.glob('crates/*/src/**/*.rt'))


def functions(path):
    """name, line, parameters, clauses, body of each function."""
    text = path.read_text()
    for m in FUNCTION.finditer(text):
        indent = m[1]
        end = text.find(f'\n{indent}}}\n', m.start())
        whole = text[m.start():end]
        start = re.search(rf'\n{indent}\{{\n|\) *(?:-> [^{{\n]*)?\{{\n', whole)
        head, body = (whole[:start.start() + 1], whole[start.end():]) if start else (whole, '')
        inner = head[head.find('(', head.find('fn ')) + 1:]
        depth, params = 1, ''
        for c in inner:
            depth += (c in '([<') - (c in ')]>')
            if depth == 0:
                break
            params += c
        clauses = re.findall(r'^ *(?:requires|ensures)\*?(?: \w+)? (\{.*\})$', whole, re.M)
        yield m[2], text.count('\n', 0, m.start()) + 1, [q for q in re.split(r',\s*(?![^\[(<]*[\])>])', params) if q.strip()], clauses, body


def canonical(body):
    names, out = {}, []
    for t in TOKEN.findall(re.sub(r'//.*', '', body)):
        plain = t in KEEP or not re.match(r'\w', t)
        out.append(t if plain else str(names.setdefault(t, len(names))))
    return tuple(out)


def report(point, kind, places):
    print(f'{point}  {len(places):4d}  {kind}')
    if SHOW:
        for p in places:
            print('           ', p)


def main():
    enums, flags, numbers, handed, loops, indexed, equal, printing = ([] for _ in range(8))
    many, words, lengths, fields, kinds, bodies, clauses = [], [], [], [], [], defaultdict(list), defaultdict(set)
    for path in sources():
        text, name = path.read_text(), str(path.relative_to(ROOT))
        for m in re.finditer(r'\b(enum|struct) (\w+)(?:<[^>]*>)? \{\n(.*?)\n\}', text, re.S):
            body = re.sub(r'//.*', '', m[3])
            here = f'{name}: {m[2]}'
            if m[1] == 'enum':
                variants = re.findall(r'^    (\w+)(.?)', body, re.M)
                empty = [v for v, c in variants if c == ',']
                if len(variants) in (2, 3) and (len(empty) == 1 or 'Refused' in [v for v, _ in variants]):
                    enums.append(here)
            else:
                if ': bool' in body and body.count(':') > 1:
                    flags.append(here)
                if re.search(r'\blen: ', body) and '; ' in body or re.search(r'\w0: .*\n.*\w1: ', body):
                    fields.append(here)
        numbers += [f'{name}: {m[1]} = {m[2]}' for m in re.finditer(r'const (\w+): u32 = (\d+);', text)]
        handed += [f'{name}:{text.count(chr(10), 0, m.start()) + 1}' for m in re.finditer(r'(\w+::)?(Refused|Err)\((\w+)\)(?: =>| =)[^;]*?(\w+::)?(Refused|Err)\(\3\)', text)]
        for fn, line, params, own, body in functions(path):
            here = f'{name}:{line} {fn}'
            loops += [here] * len(re.findall(r'^\s*while ', body, re.M))
            for m in re.finditer(r'for (\w+) in [^{]*\.\.[^{]*\{', body):
                if re.search(rf'\[[^\]]*\b{m[1]}\b[^\]]*\]', body[m.end():]):
                    indexed.append(here)
            if re.match(r'(same|alike|equal|copy|load|store)(_|$)', fn):
                equal.append(here)
            if re.search(r'\b(text::|put\(|whole\(|spaces\()', body):
                printing.append(here)
            if len(params) >= 7:
                many.append(f'{here} ({len(params)})')
            if any(re.match(r'\s*(n|len|count|\w+s): usize', p) for p in params) and any('&[' in p or '&mut [' in p for p in params):
                lengths.append(here)
            if '[u64' in ''.join(params) or '&mut [u64]' in ''.join(params):
                words.append(here)
            if re.search(r'\bmatch \w*(step|kind|map)\b', body):
                kinds.append(here)
            c = canonical(body)
            if len(c) >= 20:
                bodies[c].append(here)
            for k in own:
                clauses[k].add(here)
    twins = [' = '.join(v) for v in bodies.values() if len(v) > 1]
    again = [f'{len(v)} × {k}' for k, v in clauses.items() if len(v) >= 3]
    report('1', 'own enums of the shape of an Option or a Result', enums)
    report('1', 'structs with a flag beside a value', flags)
    report('1', 'constants that number kinds or refusals', numbers)
    report('1', 'refusals handed on by a match', handed)
    report('2', 'groups of functions whose text differs in names and numbers alone', twins)
    report('3', 'while loops', loops)
    report('3', 'for loops over a range whose body indexes by it', indexed)
    report('4', 'functions that compare or copy by hand', equal)
    report('4', 'functions that print by hand', printing)
    report('5', 'functions of seven parameters or more', many)
    report('5', 'clauses that stand in three functions or more', again)
    report('6', 'structs with a length, or numbered fields, for a list', fields)
    report('6', 'functions with a count beside a slice', lengths)
    report('6', 'functions over an arena of words', words)
    report('7', 'functions that switch on a kind of step', kinds)
    blocks = 0
    listed = []
    for path in sorted(ROOT.glob('crates/*/proofs/**/Answers.antt')):
        if '/out/' in str(path):
            continue
        seen = defaultdict(int)
        for block in re.findall(r'(?:^ +let .*\n(?:^ {6,}.*\n)*)+', path.read_text(), re.M):
            seen[block] += 1
        more = sum(n for b, n in seen.items() if n > 1 and len(b) > 80)
        blocks += more
        if more:
            listed.append(f'{path.relative_to(ROOT)}: {more}')
    report('8', f'answer files with blocks that stand word for word more than once ({blocks} blocks)', listed)
    files = [p for p in ROOT.glob('crates/*/proofs/**/*.antt') if '/out/' not in str(p)]
    answers = [p for p in files if p.name == 'Answers.antt']
    print(f'8  {len(answers):4d}  files of answers, of {sum(len(p.read_text().splitlines()) for p in answers)} lines')


main()
