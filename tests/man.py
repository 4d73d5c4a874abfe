#!/usr/bin/env python3
"""Checks the manual pages in docs/man: groff has no warning of them, their prototypes are the header's, and their
examples compile without warnings and print what the page says.

usage: tests/man.py ARCHIVE        installs groff if it is missing
"""
import pathlib
import re
import shutil
import subprocess
import sys
import tempfile

ROOT = pathlib.Path(__file__).resolve().parent.parent
HEADER = ROOT / 'include' / 'session_board.h'
C_FLAGS = ['-std=c11', '-Wall', '-Wextra', '-Wpedantic', '-Werror', f'-I{HEADER.parent}']


def run(command, **more):
    done = subprocess.run(command, capture_output=True, text=True, **more)
    if done.returncode or done.stderr:
        sys.exit(f'man: {" ".join(map(str, command))}:\n{done.stderr}')
    return done.stdout


def literal_parts(section):
    """The parts of a section that are printed as they stand."""
    return [part.replace('\\\\', '\\') for part in re.findall(r'^\.nf\n(.*?)^\.fi$', section, re.M | re.S)]


def squeezed(text):
    return ' '.join(text.split())


def check_page(page, archive, folder):
    text = page.read_text()
    run(['groff', '-man', '-Tutf8', '-ww', page])
    sections = dict(re.findall(r'^\.SH (.*)\n((?:(?!\.SH ).*\n)*)', text, re.M))
    synopsis = re.sub(r'^\.B "?(.*?)"?$', r'\1', literal_parts(sections['SYNOPSIS'])[0], flags=re.M)
    header = squeezed(HEADER.read_text())
    for prototype in re.findall(r'[^;]+;', synopsis[synopsis.index('.PP') + 3:]):
        if squeezed(prototype) not in header:
            sys.exit(f'man: {page.name}: the header has no {squeezed(prototype)}')
    program, printed = literal_parts(sections['EXAMPLE'])
    source, built = folder / 'example.c', folder / 'example'
    source.write_text(program)
    run(['gcc', *C_FLAGS, source, archive, '-o', built])
    if run([built]) != printed:
        sys.exit(f'man: {page.name}: its example prints something else')


def main():
    if len(sys.argv) != 2:
        sys.exit(__doc__)
    if not shutil.which('groff'):
        subprocess.run('apt-get -qq update && apt-get -qqy install groff', shell=True, check=True)
    pages = sorted((ROOT / 'docs' / 'man').glob('*.3'))
    with tempfile.TemporaryDirectory() as folder:
        for page in pages:
            check_page(page, sys.argv[1], pathlib.Path(folder))
    print(f'man: {len(pages)} pages, their prototypes, their examples')


if __name__ == '__main__':
    main()
