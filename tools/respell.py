#!/usr/bin/env python3
"""Gives the names of this repository's definitions and lemmas today's spelling: words in snake case, modules in camel case.

usage: tools/respell.py        once, at the top of a tree that port.py has turned

- a definition, field or variable in camel case gets snake case: wordsOfBytes, words_of_bytes
- a lemma's dashes become _, but where it is made of the names of definitions they stay between these: length-mark_each
- a lemma that has or would get its definition's name gets _lem
- a folder of modules gets a capital: specs/laws/desk, specs/Laws/Desk
Names that a file imports from the library keep their spelling, and so do those of code.
"""
import collections
import pathlib
import re
import subprocess
import sys

ROOT = pathlib.Path(__file__).resolve().parent.parent
CRATES = [line.split(':')[0].split()[0] for line in (ROOT / 'crates.txt').read_text().splitlines() if line and not line.startswith('#')]

TOKEN = re.compile(r"[A-Za-z_◌][\w'◌-]*(?<![-])")
CAMEL = re.compile(r"^[a-z][\w'-]*?[A-Z]")
IMPORT = re.compile(r'^(?:ghost )?use ([\w.]+)\.\{([^}]*)\}', re.M)
DECLARED = re.compile(r"^ *(?:abbrev pub|abbrev|unfoldable pub|unfoldable|pub)? ?([^\s(){}:.]+)(?: \{[^}]*\}| \([^)]*\))* :(?= )( tie\.)?", re.M)
DEFINED = re.compile(r"^(?:abbrev|unfoldable) (?:pub )?([^\s(){}:.]+)(?: \{[^}]*\}| \([^)]*\))* : ", re.M)
FIELD = re.compile(r"^  pub ([^\s(){}:.]+) : ", re.M)
BOUND = re.compile(r"\blet ([^\s(){}:.]+)(?= [:=])")
# words of the library that begin or end the names of lemmas
WORDS = {'length', 'append', 'take', 'drop', 'set', 'map', 'replicate', 'get_or', 'reverse', 'not', 'cond', 'leb', 'ltb', 'eqb', 'sum'}


def snake(name):
    # wordsOfBytes, call16, inEdition1, deskAt2
    return re.sub(r"(?<=[a-z0-9'])([A-Z])", lambda m: '_' + m[1].lower(), name)


def sources():
    for crate in CRATES:
        for part in ('specs', 'proofs', 'src'):
            for path in sorted((ROOT / 'crates' / crate / part).rglob('*')):
                if path.suffix in ('.antt', '.rt'):
                    yield path


def external_names(texts):
    found = set()
    for text in texts.values():
        for module, names in IMPORT.findall(text):
            parts = module.split('.')
            if parts[0] == 'Rattle' and parts[1] in CRATES:
                continue
            for name in names.split(','):
                found.add(name.split(' as ')[0].strip())
    return found


def renaming(texts):
    """The new name of each name that gets one."""
    external = external_names(texts)
    camel, dashed, defined, fields, others = set(), set(), set(), set(), set()
    for path, text in texts.items():
        code = '\n'.join(line.split('//' if path.suffix == '.rt' else '-- ')[0] for line in text.splitlines())
        camel |= {token for token in TOKEN.findall(code) if CAMEL.match(token) and len(token) > 3 and token not in external}
        if path.suffix != '.antt':
            continue
        for name, answer in DECLARED.findall(code):
            if not CAMEL.match(name) and '-' not in name and not answer:
                others.add(name)
            if '-' in name and not answer:
                dashed.add(name)
        defined |= set(DEFINED.findall(code))
        fields |= set(FIELD.findall(code))
        dashed |= {name for name in BOUND.findall(code) if '-' in name}
    dashed -= external
    new = {name: snake(name) for name in camel if '-' not in name}
    known = {new.get(name, name) for name in defined if '-' not in name and len(name) > 3} | WORDS
    # a lemma whose dashes port.py has made _ already
    for name in others & set(new.values()) - fields:
        new[name] = name + '_lem'
    taken = known | external | others
    for name in sorted(dashed, key=lambda n: (len(n), n)):
        words = [snake(word) for word in name.split('-')]
        pieces, i = [], 0
        while i < len(words):
            n = next((n for n in range(len(words) - i, 0, -1) if '_'.join(words[i:i + n]) in known and n < len(words)), 0)
            pieces.append(('_'.join(words[i:i + max(n, 1)]), n > 0))
            i += max(n, 1)
        told = ('-' if all(is_known for _, is_known in pieces) else '_').join(piece for piece, _ in pieces)
        if told in taken or told in new.values() and told != name:
            told += '_lem'
        new[name] = told
    return {old: told for old, told in new.items() if old != told}, fields


def respelled(text, new, fields, every_dash):
    """The text with the new names; in comments and pages a name with dashes only where it stands in backticks."""
    def told(match):
        token = match[0]
        if token not in new:
            return token
        before = text[match.start() - 1:match.start()]
        if '-' in token and before == '.' and token not in fields:
            return token
        if '-' in token and not every_dash and not (before == '`' and text[match.end():match.end() + 1] == '`'):
            return token
        return new[token]
    return TOKEN.sub(told, text)


def in_parts(path, text, new, fields):
    """A source: code and comments differ."""
    mark = '//' if path.suffix == '.rt' else '-- '
    lines = []
    for line in text.split('\n'):
        code, found, comment = line.partition(mark)
        # in Rust's own lines a dash is an operator
        ghost = path.suffix == '.antt' or line.startswith(('ghost use', '    requires', '    ensures'))
        lines.append(respelled(code, new, fields, ghost) + found + respelled(comment, new, fields, False))
    return '\n'.join(lines)


def capital(name):
    return ''.join(word[:1].upper() + word[1:] for word in name.split('_'))


def move_modules():
    """Folders of modules get a capital, with the file beside them; folders of a function's proof keep the function's name."""
    moved = set()
    for crate in CRATES:
        specs = ROOT / 'crates' / crate / 'specs'
        if not specs.is_dir():
            continue
        for folder in sorted((p for p in specs.rglob('*') if p.is_dir() and p.name[0].islower()), key=lambda p: -len(p.parts)):
            moved.add(folder.name)
            for old in (folder, folder.with_suffix('.antt')):
                if old.exists():
                    new = old.with_name(capital(folder.name) + old.suffix)
                    subprocess.run(['git', 'mv', str(old), str(new)], cwd=ROOT, check=True)
    return moved


def main():
    subprocess.run(['git', 'add', '-A', 'crates'], cwd=ROOT, check=True)
    texts = {path: path.read_text() for path in sources()}
    new, fields = renaming(texts)
    back = collections.defaultdict(list)
    for old, told in new.items():
        back[told].append(old)
    for told, olds in sorted(back.items()):
        if len(olds) > 1:
            print(f'respell: {told} stands for {", ".join(sorted(olds))}', file=sys.stderr)
    for path, text in texts.items():
        path.write_text(in_parts(path, text, new, fields))
    folders = move_modules()
    module = re.compile(r'(?<=\.specs)((?:\.(?:' + '|'.join(sorted(folders)) + r'))+)(?=[.\s;{])')
    listed = re.compile(r'^(pub mod )(' + '|'.join(sorted(folders)) + r')$', re.M)
    for path in list(sources()):
        text = path.read_text()
        text = module.sub(lambda m: '.'.join(capital(part) for part in m[1].split('.')), text)
        if path.suffix == '.antt' and 'specs' in path.parts:
            text = listed.sub(lambda m: m[1] + capital(m[2]), text)
        path.write_text(text)
    with open(ROOT / 'tools' / 'respelled.txt', 'w') as file:
        file.writelines(f'{old} {told}\n' for old, told in sorted(new.items()))
    print(f'{len(new)} names, {len(folders)} folders')


main()
