#!/usr/bin/env python3
"""Counts the places in crates/*/src that docs/DESIGN-PASS.md tells of: `tools/places.py [-v] [CRATE..]`, at the top.

Each count is of lines that a pattern finds, of functions with the same text up to names and numbers, of clauses that stand
in the contracts of three functions or more, or of parameters that three functions or more take together. What a place is
good for has to be read: the page does that. With -v every place is printed."""
import collections
import glob
import re
import sys

NUMBER = r'(u8|u16|u32|i16|i32)'
PATTERNS = [
    ('1', 'enums and flags of the crates', r'^\s*(pub(\(crate\))? )?(enum \w+|[a-z_]+: bool,)'),
    ('1', 'numbers for kinds, refusals, signs', rf'\b(kind|number|layer|sign|comparison|shift): {NUMBER}\b|fn (number|layer_number)\(|LAYER: u8'),
    ('1', 'errors handed on by hand', r'Err\((\w+)\) => (return )?Err\(\1\)|if let (Some|Err)\((fault|error)\) =|-> Option<Fault>|let (Some|Ok|Err)\(.*\) = .* else|None => (return )?Err|Err\(_\) => (return )?Err'),
    ('3', 'loops over an index or a count', r'\bwhile\b|\bloop\b|\bfor \w+ in .*\.\.'),
    ('3', 'loops that gather or search', r'\bfor .* in (?!.*\.\.)'),
    ('4', 'order, codes and numbers by hand', r'fn (at_most|lesser|greater|code|decode|number|from_number|get|word|complaint)\b|fn new\(.*-> Option|InWords\(pub'),
    ('4', 'a value or else another, by hand', r'Some\((\w+)\) => \*?\1|None => [A-Z_]+\b|None => V::lowest|Err\(_\) => <|if .* \{ \w+ \} else \{ \w+ \}'),
    ('6', 'arrays of fixed size, counts beside', r'\[\w+; ?(16|32|64)\]|^\s+(pub )?(size|count|len|taken): usize,'),
    ('7', 'steps by switch, tables of functions', r'\bdyn\b|: fn\(|match (call|step|state|self\.state)\b'),
]
FUNCTION = re.compile(r'^( *)(?:pub(?:\(crate\))? )?(?:const )?fn (\w+)(.*?)^\1\}', re.S | re.M)
CLAUSE = re.compile(r'^\s*(?:requires|ensures)\*? *(?:\w+ )?\{ (.*) \}\s*$', re.M)


def sources(crates):
    for file in sorted(glob.glob('crates/*/src/**/*.rt', recursive=True)):
        if not crates or file.split('/')[1] in crates:
            yield file, open(file).read()


def functions(texts):
    for file, text in texts:
        for found in FUNCTION.finditer(text):
            head, brace, body = found.group(3).partition('\n' + found.group(1) + '{\n')
            yield file.removeprefix('crates/'), found.group(2), head, body if brace else ''


def shape(body):
    """The text of a body with its names and numbers blanked."""
    words = {'match', 'if', 'else', 'for', 'in', 'let', 'mut', 'return', 'while', 'as', 'Ok', 'Err', 'Some', 'None'}
    bare = re.sub(r'//.*', '', body)
    return ' '.join(w if w in words else 'x' if re.match(r'\w', w) else w for w in re.findall(r'\w+|[^\w\s]', bare))


def groups(pairs, least):
    found = collections.defaultdict(list)
    for key, where in pairs:
        if where not in found[key]:
            found[key].append(where)
    return {k: v for k, v in found.items() if len(v) >= least}


def tell(point, what, places, loud):
    print(f'{point}  {len(places):4}  {what}')
    if loud:
        for place in places:
            print('          ' + place)


def main():
    loud = '-v' in sys.argv
    texts = list(sources([a for a in sys.argv[1:] if a != '-v']))
    every = list(functions(texts))
    for point, what, pattern in PATTERNS:
        lines = [f'{f}:{n}: {line.strip()}' for f, t in texts for n, line in enumerate(t.splitlines(), 1)
                 if re.search(pattern, line) and not line.strip().startswith('//')]
        tell(point, what, lines, loud)
    twins = groups(((shape(b), f'{f} {n}') for f, n, h, b in every if len(shape(b).split()) > 8), 2)
    tell('2', 'functions alike up to names and numbers', [', '.join(v) for v in twins.values()], loud)
    clauses = groups(((c, f'{f} {n}') for f, n, h, b in every for c in CLAUSE.findall(h)), 3)
    tell('5', 'clauses in three contracts or more', [f'{len(v)} {k}: {", ".join(v)}' for k, v in clauses.items()], loud)
    names = [(f'{f} {n}', frozenset(re.findall(r'\b([a-z_]+): ', re.split('requires|ensures|->', h)[0]))) for f, n, h, b in every]
    together = {t: [w for w, a in names if t <= a] for t in {a & b for _, a in names for _, b in names} if len(t) >= 3}
    most = {t: v for t, v in together.items() if len(v) >= 3 and not any(t < u and len(together[u]) >= 3 for u in together)}
    tell('5', 'parameters that three functions or more take together',
         [f'{len(v)} {" ".join(sorted(k))}: {", ".join(v)}' for k, v in most.items()], loud)


main()
