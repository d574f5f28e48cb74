#!/usr/bin/env python3
"""Counts the places of docs/DESIGN-PASS.md a second time, by another method than places.py: the text is cut into tokens, the items of a file and the matches,
loops and parameters of its functions are parsed, and what is alike is told by likeness and not by equal text.

usage: recount.py [-l] [FOLDER]        (-l: with the places; FOLDER: a checkout, default this one)

A line is a place to look at, not a verdict. It takes more than places.py on purpose: every enum, every integer constant, every loop by hand.
"""
import re
import sys
from collections import defaultdict
from itertools import combinations
from pathlib import Path

SHOW = '-l' in sys.argv
ROOT = Path(next((a for a in sys.argv[1:] if a != '-l'), '.'))
TOKEN = re.compile(r'//[^\n]*|"(?:\\.|[^"\\])*"|b?\'(?:\\.|[^\'\\\n])\'|\'[a-z]\w*|\d\w*(?:\.\d\w*)?|\w+|::|->|=>|==|!=|<=|>=|&&|\|\||\.\.=|\.\.|\S')
WORD = re.compile(r'[^\W\d]\w*$')
KEEP = set('let mut if else while for in match return self Self fn as true false break continue loop ref move impl const'.split())
INTEGERS = set('u8 u16 u32 u64 u128 usize i8 i16 i32 i64 i128 isize'.split())
BY_HAND = set('PartialEq Eq PartialOrd Ord Clone Copy From TryFrom Into Display Debug Default Hash'.split())
SHAPES, SKELETONS = 0.75, 0.85


class Tokens:
    """The tokens of a text, without its comments, and the partner of each bracket."""

    def __init__(self, text):
        self.text, self.line, self.close, opened = [], [], {}, []
        for m in TOKEN.finditer(text):
            t = m[0]
            if t.startswith('//'):
                continue
            if t in '([{':
                opened.append(len(self.text))
            elif t in ')]}' and opened:
                self.close[opened.pop()] = len(self.text)
            self.text.append(t)
            self.line.append(text.count('\n', 0, m.start()) + 1)

    def __getitem__(self, i):
        return self.text[i] if i < len(self.text) else ''

    def past(self, i, end, stops):
        """The place of the first stop from i on that is in no bracket, else the end."""
        while i < end and self.text[i] not in stops:
            i = self.close.get(i, i) + 1
        return min(i, end)

    def generics(self, i):
        """The place behind <..>, where it stands at i."""
        if self[i] != '<':
            return i
        depth = 0
        while i < len(self.text):
            depth += (self[i] == '<') - (self[i] == '>')
            i += 1
            if depth == 0:
                return i
        return i

    def parts(self, i, end):
        """What stands between commas, those in brackets of any kind left alone."""
        part, depth = [], 0
        while i < end:
            t = self.text[i]
            depth += (t == '<') - (t == '>')
            j = self.close.get(i, i)
            if t == ',' and depth <= 0:
                yield part
                part = []
            else:
                part += self.text[i:j + 1]
            i = j + 1
        if part:
            yield part


class Function:
    def __init__(self, path, owner, tokens, i):
        self.tokens, self.name, self.owner, self.clauses = tokens, tokens[i + 1], owner, []
        self.here = f'{path}:{tokens.line[i]} {self.name}'
        at = tokens.generics(i + 2)
        self.params = [(' '.join(p[:p.index(':')]), ' '.join(p[p.index(':') + 1:])) for p in tokens.parts(at + 1, tokens.close[at]) if ':' in p]
        at = tokens.close[at] + 1
        while at < len(tokens.text) and tokens[at] not in '{;':
            if tokens[at] in ('requires', 'ensures'):
                start = tokens.past(at, len(tokens.text), '{')
                self.clauses.append(tokens.text[start + 1:tokens.close[start]])
                at = tokens.close[start] + 1
            else:
                at = tokens.close.get(at, at) + 1
        self.start, self.end = (at + 1, tokens.close[at]) if tokens[at] == '{' else (at, at)
        self.after = self.end + 1
        self.body = tokens.text[self.start:self.end]
        self.lines = tokens.line[self.end] - tokens.line[self.start - 1] - 1 if self.body else 0

    def places(self, word):
        return [i for i in range(self.start, self.end) if self.tokens[i] == word and self.tokens[i - 1] not in ('.', '::')]

    def at(self, i, more=''):
        return f'{self.here}, line {self.tokens.line[i]}{more}'

    def matches(self):
        """Of each match its place and its arms: a pattern and what it leads to."""
        t = self.tokens
        for i in self.places('match'):
            start = t.past(i, self.end, '{')
            at, end, arms = start + 1, t.close[start], []
            while at < end:
                arrow = t.past(at, end, ('=>',))
                behind = t.close[arrow + 1] + 1 if t[arrow + 1] == '{' else t.past(arrow + 1, end, ',')
                arms.append((t.text[at:arrow], t.text[arrow + 1:behind]))
                at = behind + (t[behind] == ',')
            yield i, arms

    def loops(self):
        """Of each loop its place, its kind and its body."""
        t = self.tokens
        for word in ('while', 'loop', 'for'):
            for i in self.places(word):
                start = t.past(i, self.end, '{')
                over = t.past(i, start, ('in',))
                counted = word == 'for' and t.past(over, start, ('..', '..=')) < start
                yield i, 'range' if counted else word, t.text[start + 1:t.close[start]]

    def indexed(self):
        """Of each name what stands between its square brackets."""
        t = self.tokens
        for i in range(self.start, self.end):
            if t[i] == '[' and WORD.match(t[i - 1]) and t[i - 1] not in KEEP:
                yield t[i - 1], t.text[i + 1:t.close[i]]


class File:
    """The items of a file: enums, structs, constants, impls and functions."""

    def __init__(self, path, text):
        self.path, self.tokens = path, Tokens(text)
        self.enums, self.structs, self.constants, self.impls, self.functions = [], [], [], [], []
        self.items(0, len(self.tokens.text), '')

    def items(self, i, end, owner):
        t = self.tokens
        while i < end:
            word = t[i]
            if word in ('use', 'mod', 'type', 'static') or word == 'ghost':
                i = t.past(i, end, ';') + 1
            elif word == 'const' and t[i + 1] != 'fn':
                stop = t.past(i, end, ';')
                equals = t.past(i, stop, '=')
                self.constants.append((t[i + 1], ' '.join(t.text[i + 3:equals]), ' '.join(t.text[equals + 1:stop]), t.line[i]))
                i = stop + 1
            elif word in ('struct', 'enum'):
                start = t.generics(i + 2)
                inner = list(t.parts(start + 1, t.close[start])) if t[start] in '({' else []
                (self.enums if word == 'enum' else self.structs).append((t[i + 1], [' '.join(p) for p in inner], t.line[i]))
                i = t.close.get(start, start) + 1
            elif word in ('impl', 'trait'):
                start = t.past(i, end, '{')
                self.impls.append((' '.join(t.text[i:start]), t.line[i]))
                self.items(start + 1, t.close[start], t[start - 1])
                i = t.close[start] + 1
            elif word == 'fn':
                f = Function(self.path, owner, t, i)
                self.functions.append(f)
                i = f.after
            else:
                i = t.close.get(i, i) + 1


def report(point, kind, places):
    print(f'{point}  {len(places):4d}  {kind}')
    if SHOW:
        for p in places:
            print('           ', p)


def own_enums(files):
    report('1', 'enums, with their cases', [f'{f.path}:{line} {name}: {" | ".join(cases)}' for f in files for name, cases, line in f.enums])
    report('1', 'structs with a field that is a bool, with their fields',
           [f'{f.path}:{line} {name}: {", ".join(fields)}' for f in files for name, fields, line in f.structs if any(p.endswith(': bool') for p in fields)])
    report('1', 'constants of an integer type',
           [f'{f.path}:{line} {name}: {kind} = {value}' for f in files for name, kind, value, line in f.constants if kind in INTEGERS])
    handed = []
    for f in functions(files):
        for i, arms in f.matches():
            if any(re.search(r'\b(Err|None|Refused)\b', ' '.join(p)) and re.search(r'\b(Err|None|Refused)\b', ' '.join(b)) for p, b in arms):
                handed.append(f.at(i, ': match'))
        for i in f.places('else'):
            if f.tokens[i + 1] == '{' and f.tokens.text[i + 2:f.tokens.close[i + 1]] == ['return', 'None', ';']:
                handed.append(f.at(i, ': let .. else'))
        for i in f.places('if'):
            if f.tokens.text[i + 1:i + 3] == ['let', 'Err']:
                handed.append(f.at(i, ': if let Err'))
    report('1', 'a refusal or None handed on by a match, let .. else or if let', handed)


def shape(body, names):
    """The tokens, each number as one token, and so each name: of a variable or a constant alone where names is so, else of what is called or a field too."""
    for i, t in enumerate(body):
        before, behind = body[i - 1] if i else '', body[i + 1] if i + 1 < len(body) else ''
        plain = names or before not in ('.', '::') and behind not in ('(', '::', '!')
        yield '0' if t[0].isdigit() else 'x' if plain and WORD.match(t) and t not in KEEP else t


def groups(alike):
    """The sets that pairs make together."""
    of = {}
    for a, b in alike:
        joined = of.get(a, {a}) | of.get(b, {b})
        for x in joined:
            of[x] = joined
    return sorted({tuple(sorted(s)) for s in of.values()})


def twins(files):
    for least, names, most in ((4, False, SHAPES), (8, True, SKELETONS)):
        grams = {}
        for f in functions(files):
            if f.lines >= least:
                body = list(shape(f.body, names))
                grams[f.here] = {tuple(body[i:i + 5]) for i in range(len(body) - 4)}
        alike = [(a, b) for (a, x), (b, y) in combinations(grams.items(), 2)
                 if min(len(x), len(y)) > most * max(len(x), len(y)) and len(x & y) > most * len(x | y)]
        taken = 'all names' if names else 'variables'
        report('2', f'groups of functions of {least} lines or more that share more than {most} of their runs of five tokens, {taken} taken as one',
               [' ~ '.join(g) for g in groups(alike)])
    kinds = defaultdict(list)
    for f in files:
        for name, fields, _ in f.structs:
            if len(fields) > 1:
                kinds[tuple(sorted(p.split(' : ')[-1] if ' : ' in p else p for p in fields))].append(f'{f.path}: {name}')
    report('2', 'groups of structs with fields of the same types', [' = '.join(v) for v in kinds.values() if len(v) > 1])


def loops(files):
    for kind, title in (('while', 'while loops'), ('loop', 'loops without an end of their own'), ('range', 'for loops over a range, whatever they do')):
        report('3', title, [f.at(i) for f in functions(files) for i, k, _ in f.loops() if k == kind])


def by_hand(files):
    report('4', 'impls of Eq, Ord, Clone, From, Display and the like by hand',
           [f'{f.path}:{line} {head}' for f in files for head, line in f.impls
            if head.startswith('impl') and BY_HAND & set(re.findall(r'\w+', head.split(' for ')[0]))])
    chains, maps, prints = [], [], []
    for f in functions(files):
        tests = re.split(r' && | & (?!\[)', ' '.join(f.body))
        if len(tests) > 1 and all(re.fullmatch(r'[^;=<>|]* == [^;=<>|]*|[\w :]+ \([^;]*\)', t) for t in tests):
            chains.append(f'{f.here}: {len(tests)}')
        arms = next(f.matches(), (0, []))[1] if f.body[:1] == ['match'] else []
        if len(arms) > 2 and all(len(b) <= 5 and '(' not in b for _, b in arms):
            maps.append(f.here)
        calls = len(re.findall(r'\btext ::|\be?print(?:ln)? !', ' '.join(f.body)))
        if calls:
            prints.append(f'{f.here}: {calls}')
    report('4', 'functions that are a chain of equalities, or of calls, with how many', chains)
    report('4', 'functions that are one match with a constant for each case', maps)
    report('4', f'functions that print, with {sum(int(p.split()[-1]) for p in prints)} calls of text and print', prints)


def together(files):
    """The widest groups first: a parameter that a function has in one group is in no later one."""
    left, found = {f.here: frozenset(f.params) for f in functions(files)}, []
    while True:
        left = {h: p for h, p in left.items() if len(p) >= 3}
        groups = {a & b for a, b in combinations(set(left.values()), 2)} | set(left.values())
        holders = {g: [h for h, p in left.items() if g <= p] for g in groups if len(g) >= 3}
        most, widest = max(((len(g) * len(h), sorted(g)) for g, h in holders.items() if len(h) >= 3), default=(0, []))
        if not most:
            break
        found.append((widest, holders[frozenset(widest)]))
        left = {h: p - set(widest) if set(widest) <= p else p for h, p in left.items()}
    report('5', 'groups of three parameters or more that stand together in three functions or more',
           [f'{len(h)} × ({", ".join(n for n, _ in g)}): {"; ".join(x.split("crates/")[-1] for x in h)}' for g, h in found])
    clauses = defaultdict(set)
    for f in functions(files):
        known = {n.split()[-1] for n, _ in f.params} | {'self', 'result'}
        for c in f.clauses:
            names = {}
            out = [str(names.setdefault(t, len(names) + 1)) if t in known and t != 'result' and c[i - 1:i] != ['.'] else t for i, t in enumerate(c)]
            if len(out) > 4:
                clauses[' '.join(out)].add(f.here)
    report('5', 'clauses that are the same in three functions or more, but for the names of parameters',
           [f'{len(v)} × {{ {k} }}: {"; ".join(sorted(h.split("crates/")[-1] for h in v))}'
            for k, v in sorted(clauses.items(), key=lambda e: -len(e[1])) if len(v) >= 3])


def lists(files):
    by_index, handed, parallel, searches = [], [], [], []
    for f in functions(files):
        indexes = list(f.indexed())
        if any('& [' in kind or '& mut [' in kind for _, kind in f.params):
            for name in (n.split()[-1] for n, kind in f.params if kind == 'usize'):
                (by_index if any(name in inner for _, inner in indexes) else handed).append(f'{f.here}: {name}')
        alone = defaultdict(set)
        for name, inner in indexes:
            if len(inner) == 1 and WORD.match(inner[0]) and not inner[0].isupper():
                alone[inner[0]].add(name)
        parallel += [f'{f.here}: {", ".join(sorted(v))} at {k}' for k, v in alone.items() if len(v) > 1]
        searches += [f.at(i) for i, _, body in f.loops() if re.search(r'\bif [^{;]*(==|<|>)[^{;]*\{ return ', ' '.join(body))]
    report('6', 'parameters usize beside a slice by which the function indexes or slices', by_index)
    report('6', 'parameters usize beside a slice by which it does neither', handed)
    report('6', 'functions that index two lists or more by one name', parallel)
    report('6', 'loops that return at an element found by a comparison', searches)
    report('6', 'structs with an array or a slice, and a field that is a count',
           [f'{f.path}:{line} {name}: {", ".join(fields)}' for f in files for name, fields, line in f.structs
            if any('[' in p for p in fields) and any(p.endswith(': usize') for p in fields)])


def switches(files):
    over = defaultdict(list)
    for f in functions(files):
        for i, arms in f.matches():
            heads = [m[1] for p, _ in arms if (m := re.match(r'(\w+) ::', ' '.join(p)))]
            if len(arms) >= 4 and heads:
                over[heads[0] if heads[0] != 'Self' else f.owner].append(f.at(i))
            elif len(arms) >= 4:
                over['numbers or names: ' + ' '.join(arms[0][0])].append(f.at(i))
    report('7', 'matches with four arms or more over one type, in two functions or more', [f'{k}: {p}' for k, v in over.items() if len(v) > 1 for p in v])


def statements(text):
    """The name and the type of each law, the variables of the modules around it before it."""
    lines, around, i = re.sub(r'--.*', '', text).split('\n'), [], 0
    while i < len(lines):
        line, i = lines[i], i + 1
        depth = len(line) - len(line.lstrip())
        word = line.split()[0] if line.strip() else ''
        around = [m for m in around if m[0] < depth] if word else around
        if word == 'module':
            while 'where' not in line.split() and i < len(lines):
                line, i = line + ' ' + lines[i], i + 1
            around.append((depth, line.split(' ', line.count(' ', 0, depth) + 2)[-1].replace(' where', '')))
        elif (m := re.match(r" *(?:pub )?([^\s(){}]+) : (.*)", line)) and word not in ('use', 'record', 'data', 'let', '|'):
            kind = m[2]
            while i < len(lines) and lines[i].strip() and len(lines[i]) - len(lines[i].lstrip()) > depth and not lines[i].strip().startswith('unfolding'):
                kind, i = kind + ' ' + lines[i].strip(), i + 1
            yield m[1], ' '.join(v for _, v in around), kind


def renamed(variables, kind):
    """A type, and before it what it needs of the variables, each bound name as a number."""
    need, before = set(re.findall(r'[^\s(){}.,]+', kind)), []
    for names, of in reversed(re.findall(r'[({]([^(){}:]+) : ((?:[^(){}]|\([^(){}]*\))*)[)}]', variables)):
        for n in reversed([n for n in names.split() if n in need]):
            before.insert(0, f'({n} : {of}) → ')
            need |= set(re.findall(r'[^\s(){}.,]+', of))
    text = re.sub(r'\)\s*\(', ') → (', ''.join(before) + kind.replace('{', '(').replace('}', ')'))
    text = re.sub(r'\(((?:[^\s():]+ )*[^\s():]+) : ((?:[^()]|\([^()]*\))*)\)', lambda m: ' → '.join(f'({n} : {m[2]})' for n in m[1].split()), text)
    for k, n in enumerate(dict.fromkeys(re.findall(r'\(([^\s():]+) :', text))):
        text = re.sub(rf"(?<![\w.'-]){re.escape(n)}(?![\w'-])", f'#{k}', text)
    return ' '.join(text.split())


def proofs():
    proved, answers = defaultdict(list), []
    for path in sorted(ROOT.glob('crates/*/proofs/**/*.antt')):
        if '/out/' in str(path):
            continue
        name, text = str(path.relative_to(ROOT)), path.read_text()
        if path.name == 'Answers.antt' and path.parent.name != 'proofs':
            answers.append((text.count('\n'), name))
        for law, variables, kind in statements(text):
            if re.search('[≡≤<→]', kind) and not re.match(r'goal\.|.*(?:;$|Type 0$)', kind) and len(kind) > 20:
                proved[renamed(variables, kind)].append(f'{name} {law}')
    report('8', 'statements of laws that stand twice or more', [' = '.join(v) for k, v in proved.items() if len(v) > 1 and '#' in k])
    for least, most in ((100, 10000), (60, 100), (30, 60)):
        report('8', f'answer files of {least} lines or more, below {most}', [f'{p}: {n}' for n, p in sorted(answers, reverse=True) if least <= n < most])
    print(f'8  {len(answers):4d}  answer files in all, of {sum(n for n, _ in answers)} lines')


def functions(files):
    return [f for file in files for f in file.functions]


def main():
    files = [File(str(p.relative_to(ROOT)), p.read_text()) for p in sorted(ROOT.glob('crates/*/src/**/*.rt'))]
    print(f'   {len(functions(files)):4d}  functions in {len(files)} files')
    for part in (own_enums, twins, loops, by_hand, together, lists, switches):
        part(files)
    proofs()


main()
