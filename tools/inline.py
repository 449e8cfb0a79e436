#!/usr/bin/env python3
"""inline.py FILE ..: in each Answers.antt, the answers that are `search rules` or `omega arith` alone go: a goal with no answer is searched all the same.
What stays is what says something. Check the crate after it, and put back what it misses; `rt tidy` then drops the imports."""
import re
import sys

ANSWER = re.compile(r'^pub (\S+) : goal\.\S+\n(?:unfolding .*\n)?\1 c = (?:search rules|omega arith)\n\n?', re.M)

for path in sys.argv[1:]:
    with open(path, encoding='utf-8') as file:
        old = file.read()
    new, gone = ANSWER.subn('', old)
    if gone:
        with open(path, 'w', encoding='utf-8') as file:
            file.write(new.rstrip('\n') + '\n')
        print(f'{path}: {old.count(chr(10))} -> {new.count(chr(10))} lines, {gone} answers')
