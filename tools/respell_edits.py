#!/usr/bin/env python3
"""Turns the edits of edits/ and must-fail/ from the older Rattle's text to today's.

usage: tools/respell_edits.py COMMIT FOLDER

COMMIT is the last one in the older language; FOLDER, if it is not there, becomes a copy of it with each edited file beside the right
one, turned by port.py as the repository was (some minutes). Both files then go through tools/respell.py's table. Where the lines
that differ stand in today's file, these are the edit of today. Each edit keeps its name, its first lines and what it does; what
cannot be turned so is listed, and is done by hand. It was run once: the files that it reads have moved on since.
"""
import collections
import difflib
import pathlib
import re
import subprocess
import sys

ROOT = pathlib.Path(__file__).resolve().parent.parent
# beside the toolchain's first page
PORT = pathlib.Path(subprocess.run(['rt', 'doc'], capture_output=True, text=True).stdout.strip()).parent / 'port' / 'port.py'

# respell.py as a module: its last line runs it
respell = {'__file__': str(ROOT / 'tools' / 'respell.py')}
exec(compile((ROOT / 'tools' / 'respell.py').read_text().rsplit('\nmain()', 1)[0], 'respell.py', 'exec'), respell)
NAMES = dict(line.split(' ') for line in (ROOT / 'tools' / 'respelled.txt').read_text().splitlines())
FACTS = re.compile(r'^(Laws|Whole|\w*(?:Cases|Examples|Theorems|Instances))$')
OF_FACTS = re.compile(r'Rattle\.(rules|sheet_rules|ring_rules|arguments|buffer|printing|reader|rewriter|sheet)\.specs\.(\w+)')
OF_LAWS = re.compile(r'(?<=\.specs)((?:\.(?:bytes|desk|history|laws|lists|pairing|table))+)(?=[.\s;{])')
DECLARED = re.compile(r"^ *(?:pub )?(?!(?:abbrev|unfoldable|record|data|module|use|infix\w*)\s)([^\s(){}]+) :", re.M)


def lines_of(text):
    """The lines of an edit: ('pair', path, old, new), or ('line', text)."""
    path = old = None
    for line in text.splitlines():
        if line.startswith('file: '):
            path = line[6:]
        elif line.startswith('old: '):
            old = line[5:]
        elif line.startswith('new:'):
            yield 'pair', path, old, line[4:].removeprefix(' ')
        else:
            yield 'line', line


def pairs_of(text):
    return [line[1:] for line in lines_of(text) if line[0] == 'pair']


def edited(folder, pairs):
    """The texts that these pairs make of a crate's files."""
    texts = {}
    for path, old, new in pairs:
        text = texts.get(path) or (folder / path).read_text()
        assert text.count(old) == 1, (folder, path, old)
        texts[path] = text.replace(old, new)
    return texts


def only_body(pairs, path):
    """Whether only code is changed in a source: port.py leaves it as it is."""
    of_contract = re.compile(r'\s*(ghost|requires|ensures|use)\b|.*(⌝|\buse )')
    return path.endswith('.rt') and not any(of_contract.match(text) for at, *texts in pairs if at == path for text in texts)


def edits_of(old):
    for file in [*sorted(old.glob('edits/*/*.edit')), *sorted(old.glob('crates/*/must-fail/*.edit'))]:
        crate = file.parent.name if file.parent.name != 'must-fail' else file.parent.parent.name
        yield file, crate


def variant(path, number):
    file = pathlib.PurePath(path)
    return str(file.with_name(f'{"V" if file.suffix == ".antt" else "v"}{number:04}{file.name}'))


def make(commit, folder):
    """The two trees: FOLDER/old as it was, and FOLDER/turned by port.py, with each edited file under a name of its own."""
    for part in ('old', 'turned'):
        (folder / part).mkdir(parents=True)
        archive = subprocess.run(['git', 'archive', commit], cwd=ROOT, capture_output=True, check=True).stdout
        subprocess.run(['tar', '-x'], cwd=folder / part, input=archive, check=True)
    for number, (file, crate) in enumerate(edits_of(folder / 'old')):
        pairs = pairs_of(file.read_text())
        for path, text in edited(folder / 'old' / 'crates' / crate, pairs).items():
            if not only_body(pairs, path):
                (folder / 'turned' / 'crates' / crate / variant(path, number)).write_text(text)
    for words in (['init', '-q'], ['add', '-A'], ['-c', 'user.name=x', '-c', 'user.email=x@x', 'commit', '-qm', 'x']):
        subprocess.run(['git', *words], cwd=folder / 'turned', check=True)
    subprocess.run([sys.executable, PORT], cwd=folder / 'turned')


def fields_in(folder):
    found = set()
    for path in folder.glob('crates/*/*/**/*.antt'):
        found |= set(respell['FIELD'].findall('\n'.join(line.split('-- ')[0] for line in path.read_text().splitlines())))
    return found


def turned(file, fields):
    """A file that port.py has turned, with today's names and places."""
    text = respell['in_parts'](file, file.read_text(), NAMES, fields)
    text = OF_LAWS.sub(lambda m: '.'.join(respell['capital'](part) for part in m[1].split('.')), text)
    return OF_FACTS.sub(lambda m: m[0].replace('.specs.', '.proofs.') if FACTS.match(m[2]) else m[0], text)


def place(crate, path):
    """Where a file of a crate stands today."""
    if path.startswith('specs/laws/'):
        *folders, name = path.split('/')[2:]
        return '/'.join(['proofs/Laws', *map(respell['capital'], folders), name])
    if path.startswith('specs/') and not (ROOT / 'crates' / crate / path).exists():
        return 'proofs/' + path[6:]
    return path


def of_a_text(text):
    """A part of a line in today's spelling, as far as its words alone say it."""
    text = re.sub(r"(?<![\w'])_([^\s_(){},]+)_(?![\w'])", r'◌\1◌', text.replace('′', "'"))
    text = re.sub(r'\bgetD\b', 'get_or', text)
    text = respell['TOKEN'].sub(lambda m: NAMES.get(m[0], m[0]), text)
    text = re.sub(r"\((\w+(?:\.\w+)*)((?: \.\w+)+)\)", lambda m: m[1] + m[2].replace(' .', '.'), text)
    return re.sub(r"(?<=[\w)]) \.(?=[a-z])", '.', text)


def squeezed(line):
    return ' '.join(line.split())


def carried(before, after, now):
    """What of the lines that differ between two texts stands in today's: (today's line, the line in its place), or None."""
    before, after, now = before.splitlines(), after.splitlines(), now.splitlines()
    to = {}
    for tag, i, j, k, _ in difflib.SequenceMatcher(None, [*map(squeezed, before)], [*map(squeezed, now)], autojunk=False).get_opcodes():
        if tag == 'equal':
            to |= {i + n: k + n for n in range(j - i)}
    found = []
    for tag, i, j, k, m in difflib.SequenceMatcher(None, before, after, autojunk=False).get_opcodes():
        if tag == 'equal':
            continue
        if j - i != m - k or any(n not in to for n in range(i, j)):
            return None
        for n in range(j - i):
            line = now[to[i + n]]
            new = re.match(r'\s*', line)[0] + after[k + n].strip()
            if squeezed(line) != squeezed(new):
                found.append((line, new))
    return found


def shortest(line, new, text):
    """Of a line and the one in its place the part, from blank to blank, that differs and stands once in a text."""
    same = next((i for i, (a, b) in enumerate(zip(line, new)) if a != b), min(len(line), len(new)))
    behind = next((i for i, (a, b) in enumerate(zip(line[:same - 1:-1], new[:same - 1:-1])) if a != b), min(len(line), len(new)) - same)
    low, high = line.rfind(' ', 0, same) + 1, len(line) - behind
    high = (line.find(' ', high) + len(line) + 1) % (len(line) + 1)
    while (low or high < len(line)) and (not line[low:high].strip() or text.count(line[low:high]) != 1):
        low = line.rfind(' ', 0, max(low - 1, 0)) + 1
        if text.count(line[low:high]) != 1:
            high = (line.find(' ', high + 1) + len(line) + 1) % (len(line) + 1)
    return line[low:high], new[low:len(new) - (len(line) - high)]


def turned_pairs(folder, crate, number, pairs, fields):
    """The pairs of an edit today, by file; a file that must be done by hand has None."""
    found = {}
    for path in dict.fromkeys(path for path, _, _ in pairs):
        now = (ROOT / 'crates' / crate / place(crate, path)).read_text()
        of_path = [(old, new) for at, old, new in pairs if at == path]
        ways = [of_path] if only_body(pairs, path) else [[(of_a_text(old), of_a_text(new)) for old, new in of_path]]
        wanted = None
        if not only_body(pairs, path):
            tree = folder / 'turned' / 'crates' / crate
            rows = carried(turned(tree / path, fields), turned(tree / variant(path, number), fields), now)
            if not rows:
                found[path] = None
                continue
            wanted, whole, text = now, [], now
            for line, new in rows:
                old, new = (line, new) if text.count(line) == 1 and not line.startswith(('use ', 'ghost use ')) else shortest(line, new, text)
                wanted = text = text.replace(old, new)
                whole.append((old, new))
            ways.append(whole)
        found[path] = None
        for way in ways:
            text = now
            for old, new in way:
                text = text.replace(old, new) if text.count(old) == 1 else None
                if text is None:
                    break
            if text and wanted in (None, text):
                found[path] = way
                break
    return found


def turned_at(old, crate, line, pairs):
    """The line 'at:' of today: a function for its proof or, where it had none of its own, for the code that is changed."""
    at, _, fact = line[4:].partition(' ')
    if proof := re.fullmatch(r'proofs/(?:(\w+)/)?\+?(\w+)/Proof\.antt', at):
        return 'at: fn ' + '::'.join(filter(None, [crate, *proof.groups()]))
    if at == 'src/lib.rt':
        text = (ROOT / 'crates' / crate / at).read_text()
        name = re.match(r'(?:pub )?const (\w+)', pairs[0][1])
        ends = [m.start() for m in re.finditer(rf'\b{name[1]}\b', text)][1] if name else text.find(pairs[0][1])
        return f'at: fn {crate}::' + (re.findall(r'^(?:pub )?fn (\w+)', text[:ends], re.M) or ['?'])[-1]
    path = place(crate, at)
    if not fact:
        return f'at: {path}'
    declared = DECLARED.findall((ROOT / 'crates' / crate / path).read_text())
    name = NAMES.get(fact, fact)
    before = DECLARED.findall((old / 'crates' / crate / at).read_text())
    names = [name, fact.replace('-', '_'), fact.replace('-', '_') + '_lem', f'{name}_lem', *([declared[before.index(fact)]] if len(before) == len(declared) else [])]
    return f'at: {path} ' + next((name for name in names if name in declared), '?')


def main():
    commit, folder = sys.argv[1], pathlib.Path(sys.argv[2])
    if not folder.is_dir():
        make(commit, folder)
    old, fields = folder / 'old', fields_in(folder / 'turned')
    count = collections.Counter()
    for number, (file, crate) in enumerate(edits_of(old)):
        name, text = file.relative_to(old), file.read_text()
        pairs = pairs_of(text)
        found = turned_pairs(folder, crate, number, pairs, fields)
        if None in found.values():
            count['by hand'] += 1
            print(f'by hand: {name}')
            continue
        lines = []
        for kind, *rest in lines_of(text):
            if kind == 'line':
                lines.append(turned_at(old, crate, rest[0], pairs) if rest[0].startswith('at: ') else rest[0])
            elif rest[0] in found:
                lines.append(f'file: {place(crate, rest[0])}')
                for before, after in found.pop(rest[0]):
                    lines += [f'old: {before}', f'new: {after}']
        (ROOT / name).write_text('\n'.join(lines) + '\n')
        count['turned'] += 1
    print(f'{count["turned"]} turned, {count["by hand"]} by hand')


main()
