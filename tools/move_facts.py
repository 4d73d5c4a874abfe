#!/usr/bin/env python3
"""Moves facts from specs/ to proofs/: theorems, laws, computed cases and examples.

usage: tools/move_facts.py        once, at the top of a tree that tools/respell.py has turned

What stays in specs/ is definitions alone, so that an edit of one is refused by the facts that rest on it and not as a text that cannot
be read.
"""
import pathlib
import re
import subprocess

ROOT = pathlib.Path(__file__).resolve().parent.parent
CRATES = ('rules', 'sheet_rules', 'ring_rules', 'arguments', 'buffer', 'printing', 'reader', 'rewriter', 'sheet')
FACTS = re.compile(r'^(Laws|Whole|\w*(?:Cases|Examples|Theorems|Instances))(\.antt)?$')


def main():
    moved = {}
    for crate in CRATES:
        specs, proofs = ROOT / 'crates' / crate / 'specs', ROOT / 'crates' / crate / 'proofs'
        proofs.mkdir(exist_ok=True)
        moved[crate] = {found[1] for path in specs.iterdir() if (found := FACTS.match(path.name))}
        if not moved[crate]:
            continue
        for path in sorted(specs.iterdir()):
            if FACTS.match(path.name):
                subprocess.run(['git', 'mv', str(path), str(proofs / path.name)], cwd=ROOT, check=True)
        lines = (specs / 'Lib.antt').read_text().splitlines()
        of_facts = [line for line in lines if line.split()[-1] in moved[crate]]
        (specs / 'Lib.antt').write_text('\n'.join(line for line in lines if line not in of_facts) + '\n')
        lib = proofs / 'Lib.antt'
        lib.write_text((lib.read_text() if lib.exists() else '') + '\n'.join(of_facts) + '\n')
    path_of = re.compile(r'Rattle\.(' + '|'.join(CRATES) + r')\.specs\.(\w+)')
    for path in ROOT.glob('crates/**/*'):
        if path.suffix in ('.antt', '.rt') and 'out' not in path.parts:
            text = path.read_text()
            turned = path_of.sub(lambda m: m[0].replace('.specs.', '.proofs.') if m[2] in moved[m[1]] else m[0], text)
            if turned != text:
                path.write_text(turned)
    subprocess.run(['git', 'add', '-A', 'crates'], cwd=ROOT, check=True)


main()
