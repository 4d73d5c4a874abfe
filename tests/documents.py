#!/usr/bin/env python3
"""Checks the documents: every name in backticks is declared in the repository, and no line is longer than 120 columns.

usage: tests/documents.py [DOCUMENT ...]        by default README.md, tests/README.md, docs/*.md and docs/landings/README.md; not
       docs/PORT.md and docs/DESIGN-PASS.md, which name what has another name today

- `Table.need`: the file Table.antt declares `need`, or a record or a struct `Table` has the field.
- `board::open`, `board::Board::need`: the crate's source declares it. A path of no crate (`u128::from_le_bytes`) must occur in a source.
- `Laws/Table/EncodedStep`, `tests/host`: a file or a folder has this path, or ends with it; CRATE, NAME and NN match any name.
- `need`: a definition, a field, a constructor, a function, a constant, a type, an edit, a file or a folder, or a word of a test, a
  tool, the header or the Makefile. No word of a Markdown file is one: a document would declare its own names.
A phrase, an option, an extension and a path outside the repository (../) are ignored.
"""
import collections
import fnmatch
import os
import pathlib
import re
import sys

ROOT = pathlib.Path(__file__).resolve().parent.parent
PLACES = ['crates', 'edits', 'tests', 'tools', 'include', 'examples', 'bench', 'docs', 'Makefile', '.ci']
BUILT = ('build', 'target')
MADE = ('out', '__pycache__')  # folders below these places that are no part of the repository
WIDTH = 120           # columns
KIT = ('io', 'libc')  # crates of the toolchain
CLAUSES = {'requires', 'ensures'}
NAME = r"[\w'′-]+"
WORD = re.compile(NAME)
# A declaration of a definition, a record, a field or a constructor; of an item or a field of the code.
ANTT = re.compile(rf"^\s*(?:abbrev |unfoldable |pub |data |record |infix\w* \d+ )*({NAME}|◌\S+◌)(?=[ ]*[:({{]| [a-zA-Z({{])", re.M)
RATTLE = re.compile(r'\b(?:fn|const|struct|enum|type|trait|let|impl) (?:mut )?(\w+)|^\s*(?:pub )?(\w+)\s*(?:[:(,]|= \d+,)', re.M)
RECORD = re.compile(rf'^( *)(?:pub )?(?:record|data) ({NAME})', re.M)


def files():
    for place in PLACES:
        path = ROOT / place
        if path.is_file():
            yield path
        for folder, folders, names in os.walk(path):
            folders[:] = sorted(name for name in folders if name not in MADE)
            yield from (pathlib.Path(folder, name) for name in names)


def fields_of(text):
    """Each record or data type of a file of definitions, with the names declared in its block."""
    for found in RECORD.finditer(text):
        indent = len(found.group(1))
        block = []
        for line in text[found.end():].split('\n')[1:]:
            if line.strip() and len(line) - len(line.lstrip()) <= indent:
                break
            block.append(line)
        yield found.group(2), set(ANTT.findall('\n'.join(block)))


class Names:
    def __init__(self):
        self.paths = set()                              # every file and folder, with and without its extension
        self.modules = collections.defaultdict(set)     # Table -> what Table.antt, or a record Table, declares
        self.crates = collections.defaultdict(set)      # board -> what its source declares
        self.words = set(CLAUSES)                       # the plain names
        self.sources = []                               # the texts of the code, in Rattle and in Rust, and of the Makefile
        for file in files():
            self.add(file, file.relative_to(ROOT), file.read_text(errors='ignore'))

    def add(self, file, path, text):
        for end in range(1, len(path.parts) + 1):
            part = '/'.join(path.parts[:end])
            self.paths.update((part, re.sub(r'\.\w+$', '', part)))
            self.words.update((path.parts[end - 1], path.parts[end - 1].split('.')[0]))
        if file.suffix == '.antt':
            declared = set(ANTT.findall(text))
            self.modules[file.stem] |= declared
            self.words |= declared
            for record, fields in fields_of(text):
                self.modules[record] |= fields
        elif file.suffix == '.rt':
            declared = {name for pair in RATTLE.findall(text) for name in pair if name}
            self.crates[path.parts[1]] |= declared
            self.words |= declared
            self.sources.append(text)
        elif path.parts[0] != 'docs' and file.suffix != '.md':
            self.words.update(WORD.findall(text))
            if file.suffix == '.rs' or file.name == 'Makefile':
                self.sources.append(text)

    def has(self, mark):
        if '/' in mark:
            return self.has_path(mark.rstrip('/'))
        if '::' in mark:
            first, *_, last = mark.split('::')
            return last in self.crates[first] if first in self.crates else first in KIT or self.in_source(mark)
        if mark in self.words or re.fullmatch(r'[a-z_]+\.[a-z]+', mark) and self.in_source(mark):
            return True
        module, dot, name = mark.rpartition('.')
        return bool(dot) and name in self.modules[module.split('.')[-1]]

    def in_source(self, mark):
        return any(mark in text for text in self.sources)

    def has_path(self, mark):
        if mark.split('/')[0] in BUILT:
            return True
        pattern = re.sub('CRATE|NAME|NN', '*', mark)
        return any(fnmatch.fnmatchcase(path, pattern) or fnmatch.fnmatchcase(path, '*/' + pattern) for path in self.paths)


def names_in(text):
    for mark in re.findall(r'`([^`\n]+)`', text):
        if re.fullmatch(r"[\w'′:./*-]+", mark) and re.search(r'[A-Za-z]', mark) and mark[0] not in '.-' and mark[-1] != '.':
            yield mark


def main():
    documents = [pathlib.Path(name) for name in sys.argv[1:]]
    if not documents:
        documents = [ROOT / 'README.md', ROOT / 'tests' / 'README.md', *sorted(set(ROOT.glob('docs/*.md')) - {ROOT / 'docs/PORT.md', ROOT / 'docs/DESIGN-PASS.md'}),
                     ROOT / 'docs' / 'landings' / 'README.md']
    for document in documents:
        if not document.is_file():
            sys.exit(f'documents: no file {document}')
    names = Names()
    faults, count = [], 0
    for document in documents:
        text = document.read_text()
        for mark in names_in(text):
            count += 1
            if not names.has(mark):
                faults.append(f'{document.name}: `{mark}` is not declared')
        for number, line in enumerate(text.splitlines(), 1):
            if len(line) > WIDTH:
                faults.append(f'{document.name}:{number}: the line has {len(line)} columns')
    print(*faults, sep='\n', end='\n' if faults else '')
    print(f'documents: {count} names, {len(faults)} faults')
    sys.exit(1 if faults else 0)


main()
