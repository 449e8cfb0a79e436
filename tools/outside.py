#!/usr/bin/env python3
"""outside.py: what can be called from outside asks nothing of its caller. Outside are the calls of include/quicklook.h and those that docs/THEOREMS.md
lists as calls (decision 78). Each stands once in crates/, has an `ensures` and no `requires`; every export is in the header, and every `pub fn` has an
`ensures`. Prints how many it looked at; exits 1 with what it found otherwise."""
import glob
import os
import re
import sys

os.chdir(os.path.join(os.path.dirname(os.path.abspath(__file__)), '..'))


def read(path):
    with open(path, encoding='utf-8') as file:
        return file.read()


def body(text, at):
    """Where a function's body begins: the first brace that opens after its parameters and is no clause's."""
    while True:
        clause = re.compile(r'\b(?:requires|ensures)\*?(?:\s+\w+)?\s*\{|\bghost\s+\w+\s*:\s*\{').search(text, at)
        brace = text.index('{', at)
        if not clause or brace < clause.start():
            return brace
        depth, at = 1, clause.end()
        while depth:
            depth += {'{': 1, '}': -1}.get(text[at], 0)
            at += 1


# The contract of each function: what stands between its parameters and its body, without comments.
contracts, public, exported = {}, [], set()
for path in sorted(glob.glob('crates/*/src/**/*.rt', recursive=True)):
    crate, text = path.split('/')[1], re.sub(r'//[^\n]*', '', read(path))
    for m in re.finditer(r'^[ \t]*(pub |pub\(crate\) )?(extern "C" )?fn (\w+)(?:<.*?>)?\(', text, re.M):
        end = body(text, m.end())
        name = f'{crate}::{m.group(3)}'
        contracts.setdefault(name, []).append(text[m.end():end])
        if m.group(1) == 'pub ':
            public.append(name)
        if m.group(2):
            exported.add(m.group(3))

header = set(re.findall(r'^uint8_t (quicklook_\w+)\(', read('include/quicklook.h'), re.M))
table = re.search(r'^\| Call \| Function \|.*?\n\n', read('docs/THEOREMS.md'), re.M | re.S)
listed = set(re.findall(r'`(\w+::\w+)`', table.group(0))) if table else set()
outside = sorted({f'quicklook::{name}' for name in header} | listed)

found = [f'{name} is exported and not in the header' for name in sorted(exported - header)]
found += [f'{name} is in the header and not exported' for name in sorted(header - exported)]
if not header or not listed:
    found.append('no calls in the header, or no table of calls in docs/THEOREMS.md')
for name in outside:
    if len(contracts.get(name, [])) != 1:
        found.append(f'{name} stands {len(contracts.get(name, []))} times in crates/')
    else:
        contract = contracts[name][0]
        if re.search(r'\brequires\b', contract):
            found.append(f'{name} can be called from outside and has a `requires`')
for name in public + outside:
    if not all(re.search(r'\bensures\b', contract) for contract in contracts.get(name, [])):
        found.append(f'{name} has no `ensures`')
print('\n'.join(found) or f'{len(outside)} calls from outside without a requires, {len(public)} public functions with an ensures')
sys.exit(bool(found))
