#!/usr/bin/env python3
"""Counts the places of docs/DESIGN-PASS.md in crates/*/src, point by point: python3 tools/forms.py [-v] [FOLDER]

FOLDER is a checkout (this one if left out). -v lists the places. crates/spacetime_c is left out: tools/exports.sh writes it."""
import collections, glob, os, re, sys

verbose = '-v' in sys.argv
args = [a for a in sys.argv[1:] if a != '-v']
root = args[0] if args else os.path.join(os.path.dirname(os.path.abspath(__file__)), '..')
files = {os.path.relpath(f, root): open(f, encoding='utf-8').read()
         for f in sorted(glob.glob(os.path.join(root, 'crates/*/src/**/*.rt'), recursive=True)) if 'spacetime_c' not in f}

FN = re.compile(r'^( *)(?:pub(?:\(crate\))? )?(?:const )?fn (\w+)(?:<[^>]*>)?\(', re.M)


def functions():
    """Each function: its file, line, name, parameters, result, clauses and body."""
    for path, text in files.items():
        for m in FN.finditer(text):
            depth, i = 1, m.end()
            while depth:
                depth += {'(': 1, ')': -1}.get(text[i], 0)
                i += 1
            params = text[m.end():i - 1]
            start = re.compile(r'^' + m.group(1) + r'\{$|\{$', re.M).search(text, i)
            head = text[i:start.start()] if start else ''
            body = ''
            if start:
                depth, j = 1, start.end()
                while depth and j < len(text):
                    depth += {'{': 1, '}': -1}.get(text[j], 0)
                    j += 1
                body = text[start.end():j - 1]
            result = re.match(r'\s*->\s*([^\n{]*)', head)
            yield path, text.count('\n', 0, m.start()) + 1, m.group(2), params, result.group(1).strip() if result else '', head, body


FUNCTIONS = list(functions())


def lines(pattern, where='', skip=r'^\s*//|ghost use'):
    for path, text in files.items():
        if where in path:
            for n, line in enumerate(text.split('\n'), 1):
                if re.search(pattern, line) and not re.search(skip, line):
                    yield f'{path}:{n}: {line.strip()}'


def fns(test):
    for f in FUNCTIONS:
        if test(*f):
            yield f'{f[0]}:{f[1]}: fn {f[2]}'


def enums():
    for path, text in files.items():
        for m in re.finditer(r'^(?:pub(?:\(crate\))? )?enum (\w+) \{(.*?)^\}', text, re.M | re.S):
            if re.search(r'^\s*(Refused|Nothing|Largest)\b', m.group(2), re.M):
                yield f'{path}:{text.count(chr(10), 0, m.start()) + 1}: enum {m.group(1)}'


def twins():
    """Functions of more than one line whose bodies are the same but for names of types, literals and their own name."""
    same = collections.defaultdict(list)
    for path, line, name, params, result, head, body in FUNCTIONS:
        if body.count('\n') < 3:
            continue
        text = re.sub(r'\b(u8|u16|u32|u64|usize|i64|f64)\b', 'T', body)
        text = re.sub(r'\b\d[\w]*\b', 'N', text)
        names = {}
        text = re.sub(r'\b[a-z_]\w*\b', lambda m: names.setdefault(m.group(0), f'v{len(names)}'), text)
        same[re.sub(r'\s+', ' ', text)].append(f'{path}:{line}: fn {name}')
    for group in same.values():
        if len(group) > 1:
            yield ' = '.join(group)


def facts():
    """A fact in the `requires` of three functions or more, by its first word."""
    by = collections.defaultdict(list)
    for path, line, name, params, result, head, body in FUNCTIONS:
        clauses = ' '.join(re.findall(r'requires.*?(?=\n\s+(?:requires|ensures)|\Z)', head, re.S))
        for word in set(re.findall(r'\b(Readable|Usable|grid_sound|SideFits|Takes|exact_order_refusal|locate_refusal)\b', clauses)):
            by[word].append(name)
        if 'symbol_at tape p <' in clauses:
            by['symbols below the count'].append(name)
    for word, names in by.items():
        if len(names) >= 3:
            yield f'{word}: {len(names)} functions ({", ".join(names)})'


def groups():
    """Parameters that travel together in three functions or more."""
    tests = {
        'head and four slices of a tape': r'left_symbols.*right_lengths',
        'grid, index and store': r'grid: Grid.*store: &',
        'columns in parts (first, cells)': r'first: u64.*cells: u64',
        'symbols and lengths of a side': r'(?<![a-z_])symbols: &(?:\'a )?(?:mut )?\[u8\].*(?<![a-z_])lengths: &(?:\'a )?(?:mut )?\[u64\]',
        'a case and a place': r'case: &\[u8\]',
    }
    for what, pattern in tests.items():
        found = [f'{f[0]}:{f[1]}: fn {f[2]}' for f in FUNCTIONS if re.search(pattern, f[3], re.S)]
        if len(found) >= 3:
            yield f'{what}: {len(found)} functions' + (''.join('\n        ' + x for x in found) if verbose else '')


POINTS = [
    ('1 enums of the shape of Option or Result', list(enums())),
    ('1 constants that number the refusals', list(lines(r'^pub const [A-Z_]+: u32', 'crates/refusal/'))),
    ('1 functions that answer a refusal by number', list(fns(lambda p, n, name, ps, r, h, b: r == 'u32' and re.search(r'refus|number|memory_refusal', h + b) and 'crates/spacetime/' not in p))),
    ('1 a flag beside the value that it speaks of', list(lines(r'\b(has_\w+|given): bool'))),
    ('1 numbers for states, kinds and failures', list(lines(r'const (MORE|END|CUT_SHORT|KINDS|UNSOUND|UNJOINED|NO_ANSWER|OUTSIDE)\b|\b(question|kind|state): u\d+'))),
    ('2 twins: bodies alike but for types and literals', list(twins())),
    ('3 loops by `while`', list(lines(r'\bwhile\b'))),
    ('4 equality by hand', list(lines(r'^\s*(pub(\(crate\))? )?fn (same\w*|is_light|is_no|print_same)\b|slices::same_'))),
    ('4 what the library has: least, greatest, both, within, held, up_div, fill, clear', list(lines(r'(limits::|\bfn )(least|greatest|both|within|held|up_div|clear|either)\b|slices::(fill|clear)\b|fitting::held|\bup_div\('))),
    ('4 conversions and printing by hand', list(lines(r'fn (number_of|bit_of|wide|put_step|digit|got_number|row_number|print_byte)\b'))),
    ('5 facts in three requires or more', list(facts())),
    ('5, 6 parameters that travel together', list(groups())),
    ('7 a step picked by a number or a flag', list(lines(r'match kind|if question ==|\bfn \w+\(.*leftward: bool|^\s*leftward: bool'))),
]

for what, places in POINTS:
    print(f'{len(places):4}  {what}')
    if verbose:
        for place in places:
            print('      ' + place)
