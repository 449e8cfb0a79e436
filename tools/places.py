#!/usr/bin/env python3
"""places.py CRATE FUNCTION: the goals of a function's proof, each with its place in the source, in the form in which its files answer them: Invariants.antt
and then Answers.antt. What may be named at a goal, `rt check --start FUNCTION --allow-holes` in the crate's folder says, where it has no file yet."""
import glob
import os
import subprocess
import sys
import tempfile

os.chdir(os.path.join(os.path.dirname(os.path.abspath(__file__)), '..'))
crate, function = sys.argv[1:]
with tempfile.TemporaryDirectory() as room:
    run = subprocess.run(['rt', 'check', '--start', function, '--generated', room], cwd=f'crates/{crate}', stdin=subprocess.DEVNULL,
                         stdout=subprocess.PIPE, stderr=subprocess.STDOUT, text=True, errors='replace', check=False)
    found = [path for name in ('InvariantsOffered', 'AnswersOffered') for path in sorted(glob.glob(f'{room}/Rattle-{crate}-proofs/**/{name}.antt', recursive=True))]
    for path in found:
        with open(path, encoding='utf-8') as file:
            print(file.read())
if not found:
    sys.exit(f'no goals of {crate}::{function}:\n{run.stdout}')
