#!/usr/bin/env python3
"""Writes old and new side by side: each public function's signature and clauses, each type with its invariant, each definition of specs/, and each
theorem in proofs/ that the pages name, where they differ between two checkouts: python3 tools/changes.py OLD NEW

What has another name or place now is paired by RENAMED."""
import glob, os, re, sys

old_root, new_root = sys.argv[1:3]
LEFT_OUT = ('spacetime_c',)

RENAMED = {
    'tape::get': 'tape::Tape::get', 'tape::window': 'tape::Tape::window', 'tape::head_from': 'tape::Head::new',
    'tape::check_tape': 'tape::Tape::check', 'tape::check_runs': 'tape::Tape::check_runs', 'tape::joined': 'tape::Tape::joined',
    'tape::symbol_at': 'tape::SoundTape::symbol_at', 'tape::fill_window': 'tape::SoundTape::fill_window',
    'refusal::next': 'refusal::require',
    'columns::range': 'columns::Window::range', 'columns::span': 'columns::Extent::span', 'columns::sound': 'columns::Columns::is_sound',
    'columns::cells': 'columns::Columns::cells_around', 'columns::bins': 'columns::Columns::bins_over', 'columns::locate': 'columns::Window::locate',
    'columns::head': 'columns::Window::head', 'columns::swept': 'columns::Window::swept', 'columns::is_beside': 'columns::Window::is_beside',
    'grid::sound': 'grid::Grid::checked', 'grid::step': 'grid::Grid::step', 'grid::index_fits': 'grid::SoundGrid::index_fits',
    'grid::store_fits': 'grid::SoundGrid::store_fits',
    'picture::upright': 'picture::Lent::upright', 'picture::equal': 'picture::Lent::equals', 'picture::number_of': 'picture::u64::from',
    'runs::get': 'runs::RunTape::get', 'runs::window': 'runs::RunTape::window',
}

MOVED = {'rows::row_refused': 'picture::row_refused', 'picture::number_is': 'picture::refusal_is'}


def files(root, pattern):
    for f in sorted(glob.glob(os.path.join(root, pattern), recursive=True)):
        crate = os.path.relpath(f, root).split('/')[1]
        if crate not in LEFT_OUT and '/out/' not in f:
            yield crate, open(f, encoding='utf-8').read()


def functions(root):
    found = {}
    for crate, text in files(root, 'crates/*/src/**/*.rt'):
        owner = gives = None
        lines = text.split('\n')
        i = 0
        while i < len(lines):
            line = lines[i]
            m = re.match(r'(?:impl(?:<[^>]*>)? )(.*?) \{$', line)
            if m:
                owner = re.sub(r'<[^>]*>', '', m.group(1).split(' for ')[-1])
                trait = ' for ' in m.group(1)
            elif line == '}':
                owner = gives = None
            if re.match(r' *ghost from_gives', line):
                gives = line.strip()
            m = re.match(r'( *)(pub (?:extern "C" )?)?fn (\w+)', line)
            if m and (m.group(2) or (owner and trait and m.group(3) == 'from')):
                j = i
                while lines[j].rstrip() != m.group(1) + '{' and not lines[j].rstrip().endswith(' {'):
                    j += 1
                    if j == len(lines):
                        break
                head = lines[i:j] if lines[j].rstrip() == m.group(1) + '{' else lines[i:j + 1]
                cut = len(m.group(1))
                name = f'{crate}::{owner}::{m.group(3)}' if owner else f'{crate}::{m.group(3)}'
                found[name] = (f'{gives}\n' if gives else '') + '\n'.join(l[cut:].rstrip(' {') if l.endswith(' {') and 'ensures' not in l and 'requires' not in l else l[cut:] for l in head)
                i = j
            i += 1
    return found


def types(root):
    found = {}
    for crate, text in files(root, 'crates/*/src/**/*.rt'):
        for m in re.finditer(r'^pub (?:struct|enum) (\w+).*?^\}', text, re.M | re.S):
            found[f'{crate}::{m.group(1)}'] = m.group(0)
        for m in re.finditer(r'^impl(?:<[^>]*>)? Model for (\w+).*?^\}', text, re.M | re.S):
            key = f'{crate}::{m.group(1)}'
            if key in found:
                found[key] += '\n\n' + re.sub(r'    ghost use [^\n]*\n+', '', m.group(0))
        for m in re.finditer(r'^pub const (\w+): [^=]*= [^\n;]{0,80};', text, re.M):
            found[f'{crate}::{m.group(1)}'] = m.group(0)
    return found


def declarations(root, pattern, only=None):
    found = {}
    for crate, text in files(root, pattern):
        for block in re.split(r'\n\n+', text):
            lines = [l for l in block.split('\n') if not l.startswith('--')]
            if not lines:
                continue
            m = re.match(r'(?:abbrev |unfoldable )*pub (?:record )?([^\s:(){}]+)', lines[0])
            if not m or lines[0].startswith(('pub mod', 'use ')):
                continue
            if only is not None and m.group(1) not in only:
                continue
            body = lines
            if only is not None:
                end = next((k for k, l in enumerate(lines) if k and re.match(re.escape(m.group(1)) + r'(?=[\s=])', l)), len(lines))
                body = [l for l in lines[:end] if not l.startswith('unfolding')]
            found[f'{crate}::{m.group(1)}'] = '\n'.join(body)
    return found


def show(title, old, new, renamed={}):
    print(f'\n### {title}\n')
    taken = set()
    rows = 0
    for name in sorted(set(old) | set(new)):
        if name in taken:
            continue
        other = renamed.get(name, name)
        a, b = old.get(name), new.get(other)
        if name not in old and name in renamed.values():
            continue
        taken.add(other)
        if a is not None and b is not None and re.sub(r'\s+', ' ', a) == re.sub(r'\s+', ' ', b) and name == other:
            continue
        rows += 1
        label = f'`{name}`' + (f', now `{other}`' if other != name else '')
        print(f'{label}\n\n    ' + (a if a is not None else '(not there before)').replace('\n', '\n    '))
        print('\n    --- now ---\n    ' + (b if b is not None else '(gone: see "What went" above)').replace('\n', '\n    ') + '\n')
    return rows


named = set()
for page in glob.glob(os.path.join(old_root, 'docs/*.md')) + [os.path.join(old_root, 'README.md')]:
    named |= set(re.findall(r'`([\w-]+)`', open(page, encoding='utf-8').read()))
named |= {name.split('::')[1] for name in MOVED.values()}

counts = [
    ('public functions', show('Public functions', functions(old_root), functions(new_root), RENAMED)),
    ('types', show('Public types and constants, with their invariants', types(old_root), types(new_root))),
    ('definitions', show('Definitions of specs/', declarations(old_root, 'crates/*/specs/**/*.antt'), declarations(new_root, 'crates/*/specs/**/*.antt'))),
    ('theorems', show('Theorems in proofs/ that the pages name', declarations(old_root, 'crates/*/proofs/*.antt', named), declarations(new_root, 'crates/*/proofs/*.antt', named), MOVED)),
]
print('\n'.join(f'{n} {what}' for what, n in counts), file=sys.stderr)
