#!/usr/bin/env python3
"""counts.py [ROOT]: what a reader has to carry, counted over crates/: lines (without the tables of numbers), answers to goals, parameters, names, what is
public. A report, but for two things that end it with 1: a function of more than eight parameters that is not the picture call or a run of it
in runs (one run holds its eight lists, two runs hold two scenes), and a `pub fn` that no other crate calls. A method counts
for its parameters; who calls it is not looked for."""
import glob
import os
import re
import sys

os.chdir(sys.argv[1] if len(sys.argv) > 1 else os.path.join(os.path.dirname(os.path.abspath(__file__)), '..'))


def read(path):
    with open(path, encoding='utf-8') as file:
        return file.read()


def files(pattern):
    return sorted(glob.glob(f'crates/{pattern}', recursive=True))


def code_of(path):
    return re.sub(r'//[^\n]*', '', read(path))


def lines(paths):
    return sum(read(path).count('\n') for path in paths)


def functions(text):
    """Name, whether public, parameters and the first clause of each function."""
    for m in re.finditer(r'^(?: {4})?(pub (?:extern "C" )?|pub\(crate\) )?fn (\w+)(?:<.*?>)?\(', text, re.M):
        depth, i = 1, m.end()
        while depth:
            depth += {'(': 1, ')': -1}.get(text[i], 0)
            i += 1
        parameters = len([p for p in text[m.end():i - 1].split(',') if p.strip()])
        yield m.group(2), (m.group(1) or '').startswith('pub ') and not m.group().startswith(' '), parameters, promise(text, i)


def promise(text, at):
    """The text of the first `ensures` of a function whose parameters end there."""
    while True:
        clause = re.compile(r'\b(requires|ensures)\*?(?:\s+\w+)?\s*\{').search(text, at)
        if not clause or text.find('{', at) < clause.start():
            return ''
        depth, at = 1, clause.end()
        while depth:
            depth += {'{': 1, '}': -1}.get(text[at], 0)
            at += 1
        if clause.group(1) == 'ensures':
            return text[clause.end():at - 1]


def plain(name):
    return re.sub(r'[^a-z0-9]', '', name.lower())


def names_of(function):
    """What a definition of that name may be called: without the width, or with Float for it."""
    bare = re.sub(r'^quicklook_', '', function)
    return {plain(n) for n in (bare, re.sub(r'_(u8|u16|u32|f32|f64)$', '', bare), re.sub(r'_f(32|64)', '', bare), re.sub(r'_f(32|64)$', '_float', bare))}


proofs = files('*/proofs/**/*.antt')
sources = [path for path in files('*/src/**/*.rt') if not path.endswith('/numbers.rt')]
answers = [read(f) for f in proofs if f.endswith('/Answers.antt')]
given = [re.search(rf'^{re.escape(name)} [^\n]*=(.*?)(?=\n\n|\Z)', text, re.M | re.S) for text in answers for name in re.findall(r'^pub (\S+) : goal\.', text, re.M)]
trivial = sum(bool(it) and re.fullmatch(r'\s*(?:search rules|omega arith)\s*', it.group(1)) is not None for it in given)
print(f'lines: code {lines(sources)}, definitions and statements {lines(files("*/specs/**/*.antt"))}, proofs {lines(proofs)}')
print(f'answers: {len(given)} in {len(answers)} files, of them trivial {trivial}; what has none, Rattle finds by itself')

definitions = set()
for path in files('*/specs/**/*.antt'):
    definitions |= set(re.findall(r'^(?:unfoldable |abbrev )pub (\w+) :', read(path), re.M))
# Definitions that a contract puts around another one: the name to compare is the next.
wrappers = {'number', 'stretch', 'bytes_of', 'first_of', 'pixels', 'lowest', 'highest', 'stored', 'places'}
code = {}
for path in sources:
    code.setdefault(path.split('/')[1], []).append((path, code_of(path)))
many, unused, differ, public, clauses = [], [], [], 0, 0
for crate, texts in code.items():
    for path, text in texts:
        for name, is_public, parameters, clause in functions(text):
            if parameters > 8:
                many.append(f'{crate}::{name} {parameters}')
            if is_public and f'extern "C" fn {name}' not in text:
                public += 1
                called = rf'\b{crate}::(?:\w+::)*(?:{name}\b|\{{[^}}]*\b{name}\b)'
                if not any(re.search(called, t) for other, rest in code.items() if other != crate for _, t in rest):
                    unused.append(f'{crate}::{name}')
            head = re.search(r'≡ (?:number \()?\(*(?:[A-Z]\w*\.)?(\w+)', clause)
            if head and head.group(1) in definitions - wrappers:
                clauses += 1
                if plain(head.group(1)) not in names_of(name):
                    differ.append(f'{crate}::{name} {head.group(1)}')
print(f'more than eight parameters: {len(many)}: {", ".join(many)}')
print(f'pub fn: {public}, without a caller outside their crate {len(unused)}: {", ".join(unused)}')
print(f'contracts that begin with a definition: {clauses}, of another name than the function {len(differ)}: {", ".join(differ)}')
allowed = {'pipeline::synthetic_rgb_picture_copol 11', 'pipeline::synthetic_rgb_picture 12', 'quicklook::quicklook_picture 12',
           'quicklook::quicklook_picture_copol 13', 'quicklook::quicklook_picture_windows 10', 'runs::altered_picture 15', 'runs::altered_windows 9',
           'runs::ranked_picture 10', 'runs::reordered_picture 17', 'runs::swapped_picture 13'}
sys.exit(bool(unused or set(many) - allowed))
