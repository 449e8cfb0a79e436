#!/usr/bin/env python3
"""respell.py: brings the repository's own definitions and lemmas to the spelling of today's Rattle; run once at the root, after port.py.

Definitions, lemmas, fields and local names go to snake case; types, modules and facts keep their capital; a prime is an apostrophe. A dash stays
between two parts that are both names of definitions, as in `take-map`, and is `_` elsewhere. A lemma that would get its definition's name ends in
`_lem`. Functions of src/, exported names and strings keep theirs. Edits (*.edit) and the names in backquotes of comments and documents follow.
Prints each new name beside its old one."""
import collections
import glob
import os
import re
import sys

WORD = r"[^\s:(){},.;«»`\"\[\]λ→≡×|?]+"
LIBRARY = set("""length map take drop append zip zip_with flat_map replicate get_or set slice_index slice_set sum min max cond add sub mul div sqrt le lt eq ne neg
    of_int of_bits to_bits to_unsigned finite floor ceil round trunc head tail reverse filter count_by nat_eq nat_le suc zero""".split())
# a name that falls together with another one: the lemma's or the field's new name
TOGETHER = {}


def files():
    found = []
    for pattern in ('crates/*/specs/**/*.antt', 'crates/*/proofs/**/*.antt'):
        found += glob.glob(pattern, recursive=True)
    return sorted(f for f in found if '/out/' not in f)


def declared():
    """Each name that a file of the repository declares, and the files."""
    names = collections.defaultdict(set)
    for path in files():
        by_hand = os.path.basename(path) == 'Proof.antt'
        with open(path, encoding='utf-8') as file:
            for line in file:
                if line.lstrip().startswith('--') or by_hand and not re.match(r'^pub [^ ]*-spec :', line):
                    continue
                m = re.match(rf'^\s*(?:(?:pub|abbrev|unfoldable|record|data|module)\s+)*({WORD}(?:\s*,\s*{WORD})*)\s+:\s', line)
                if m:
                    for name in re.split(r'\s*,\s*', m.group(1)):
                        names[name].add(path)
    return names


def low(part):
    return re.sub(r'(?<=[a-z0-9])([A-Z])', lambda m: '_' + m.group(1).lower(), part)


def snake(name, words):
    if name[0].isupper() and '-' not in name and '′' not in name:
        return name
    name = name.replace('′', "'")
    parts = [p if p[:1].isupper() else low(p) for p in name.split('-')]
    if parts[-1] == 'spec':
        return '_'.join(parts)
    said = parts[0]
    for before, part in zip(parts, parts[1:]):
        said += ('-' if before in words and part in words else '_') + part
    return said


def main():
    names = declared()
    words = LIBRARY | {low(n) for n, where in names.items() if '-' not in n and not n[0].isupper() and n.lower() != 'u16' and any('/specs/' in w for w in where)}
    turned = {n: snake(n, words) for n in names}
    by_new = collections.defaultdict(list)
    for old, new in turned.items():
        by_new[new].append(old)
    for new, olds in by_new.items():
        if len(olds) > 1:
            keep = sorted(olds, key=lambda n: ('-' in n, n))[0]
            for old in olds:
                if old != keep:
                    turned[old] = TOGETHER.get(old, new + '_lem')
    turned = {old: new for old, new in turned.items() if old != new}
    taken = [new for new in turned.values() if new in names]
    if taken:
        sys.exit('names that fall together: ' + ' '.join(taken))
    token = re.compile(rf"(?<![\w′'·-])({'|'.join(re.escape(n) for n in sorted(turned, key=len, reverse=True))})(?![\w′'·-])")

    def swap(text):
        return token.sub(lambda m: turned[m.group(1)], text)

    def quoted(text):
        return re.sub(r'`[^`\n]*`', lambda m: swap(m.group(0)), text)

    def split(line, mark):
        at = line.find(mark) if not line.lstrip().startswith(mark) else line.index(mark)
        return (line[:at], line[at:]) if at >= 0 else (line, '')

    def antt(text):
        done = []
        for line in text.split('\n'):
            code, note = (('', line) if line.lstrip().startswith('--') else (line, ''))
            done.append(swap(code) + quoted(note))
        return '\n'.join(done)

    def rt(text):
        done = []
        for line in text.split('\n'):
            code, note = split(line, '//')
            done.append((swap(code) if '"' not in code else code) + quoted(note))
        return '\n'.join(done)

    def edit(text):
        lines, of_antt = [], False
        for line in text.split('\n'):
            if line.startswith('file: '):
                of_antt = line.endswith('.antt')
            if re.match(r'(old|new|control): ?', line):
                head, rest = line.split(':', 1)
                line = head + ':' + (swap(rest) if of_antt or '"' not in rest else rest)
            lines.append(line)
        return '\n'.join(lines)

    every = [(p, antt) for p in files()]
    every += [(p, rt) for p in glob.glob('crates/*/src/**/*.rt', recursive=True)]
    every += [(p, edit) for p in glob.glob('crates/*/must-fail/*.edit') + glob.glob('crates/*/edits/*.edit')]
    every += [(p, quoted) for p in ['README.md', *glob.glob('docs/*.md'), *glob.glob('docs/landings/*.md')] if os.path.exists(p)]
    for path, how in every:
        with open(path, encoding='utf-8') as file:
            text = file.read()
        new = how(text)
        if new != text:
            with open(path, 'w', encoding='utf-8') as file:
                file.write(new)
    for old, new in sorted(turned.items()):
        print(old, new)


main()
