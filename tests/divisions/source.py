#!/usr/bin/env python3
"""Checks that functions do not divide: no `/` and no `%` is in their bodies, nor in those of the functions that they call.

usage: tests/divisions/source.py FUNCTION ...

A FUNCTION is named with its crate, as marks::mark_position; CRATE::* means every function that a crate exports to C. The
sources are crates/ and, of the toolchain's libraries, std::num and the functions of LIBRARY below. Comments and contracts may
divide: they are not run. A function counts as called where its name is a word of the text, in the same crate or one above it
(crates.txt), and a method also where its type is: a generic function of a crate below may call it. A `for` counts as a call of
every `into_iter` and `next`, and a `?` as one of `branch` and `from_residual`. So more may be read than is called; it is an error
if a function that is called, or handed on by its name, is not found, or the `next` of an iterator that the library makes. The last
line is 'divisions in the source: N functions, M divide', and the exit status is 0 only if M is 0.
"""
import collections
import functools
import pathlib
import re
import subprocess
import sys

ROOT = pathlib.Path(__file__).resolve().parent.parent.parent

COMMENT_OR_LITERAL = re.compile(r"""//[^\n]*|#!?\[[^\]]*\]|(?<!\w)b'(?:\\x..|\\.|[^'\\\n])'|(?<!\w)b"(?:\\.|[^"\\])*\"""")
RENAMED = re.compile(r'^\s*(?:pub )?use\b[^;]*\sas\s', re.M)
CLAUSE = re.compile(r'\b(?:requires|ensures|ghost)\*?(?:\s+\w+)?\s*:?\s*(?=\{)')
BRACKETED = re.compile(r'\[[^\]]*\]')
IMPORT = re.compile(r'(?<!ghost )\buse\b([^;]*);')
PATTERN = re.compile(r'\blet\b([^=;]*)|\bfor\b([^;]*?)\bin\b|\|([\w\s,&:]*)\||([^{},;=]*)=>')
FUNCTION = re.compile(r'\b(extern\s+"C"\s+)?fn\s+(\w+)')
CALL = re.compile(r'(\.?)\b(?:(\w+)::)?(\w+)\s*\(')
# A value that is a name or a path alone.
HANDED_ON = re.compile(r'(?<=[(,:=])\s*((?:\w+::)*)([a-z_]\w*)\s*(?=[,;)}])')
# What calls functions without their names: the form, and the functions.
FORMS = [(re.compile(r'\bfor\s+(?!<)[^;]*?\bin\b'), ['into_iter', 'next']), (re.compile(r'[\w)\]}]\s*\?'), ['branch', 'from_residual'])]
KEYWORDS = {'if', 'while', 'for', 'match', 'return', 'in', 'let'}
NUMBERS = {'u8', 'u16', 'u32', 'u64', 'u128', 'usize', 'i8', 'i16', 'i32', 'i64', 'isize'}
BITS = {'count_ones', 'leading_zeros', 'trailing_zeros'}
METHODS = {'len', 'wrapping_add'} | BITS

# What the crates call of the toolchain's libraries beside std::num, and what that calls in turn: the functions of each file, or those
# of one type in it. What a `for` may call is here for ranges, slices, arrays, options and iterators. Those of BUILT_IN have no body,
# because the compiler makes them.
LIBRARY = {
    'core/src/array/each.rt': ['each'],
    'core/src/array/into_iter.rt': ['at', 'empty', 'into_iter', 'new', 'next', 'put', 'take'],
    'core/src/clone/mod.rt': ['surely', 'clone'],
    'core/src/convert/mod.rt': ['from'],
    'core/src/int/u16.rt': ['from_le_bytes'],
    'core/src/int/u64.rt': ['from_le_bytes'],
    'core/src/int/u128.rt': ['from_le_bytes'],
    'core/src/iter/adapters.rt': ['Enumerate::next'],
    'core/src/iter/base.rt': ['enumerate'],
    'core/src/iter/ranges.rt': ['Range::next', 'RangeInclusive::next'],
    'core/src/iter/slices.rt': ['chunks', 'into_iter', 'Chunks::next', 'Iter::next', 'IterMut::next'],
    'core/src/iter/sources.rt': ['into_iter', 'HeldMut::next', 'Once::next', 'OptionIter::next'],
    'core/src/iter/steps.rt': ['below', 'forward'],
    'core/src/iter/traits.rt': ['into_iter', 'next'],
    'core/src/iter/upward.rt': ['RangeFrom::next', 'top'],
    'core/src/mem.rt': ['replace'],
    'core/src/mem/manually_drop.rt': ['new'],
    'core/src/ops/bounds.rt': ['start_bound', 'end_bound', 'as_ref'],
    'core/src/option.rt': ['as_ref', 'branch', 'from_residual', 'take', 'unwrap'],
    'core/src/option/more.rt': ['as_mut'],
    'core/src/ptr/copy_drop.rt': ['copy_bits'],
    'core/src/result.rt': ['branch', 'from_residual'],
    'core/src/simd/chunks.rt': ['arrays'],
    'core/src/slice/arrays.rt': ['as_array', 'some', 'as_array_ref', 'first_unchecked'],
    'core/src/slice/edits.rt': ['copy_from_slice', 'copy_over', 'fill'],
    'core/src/slice/iter_mut.rt': ['take_first'],
    'core/src/slice/mod.rt': ['is_empty'],
    'core/src/slice/ranges.rt': ['range'],
    'core/src/slots/bulk.rt': ['copy_in'],
    'core/src/slots/lends.rt': ['with_slots'],
    'std/src/slices.rt': ['copy_within'],
    'std_alloc/src/part.rt': ['within'],
    'std_alloc/src/shifts.rt': ['shift', 'copy_down', 'copy_up'],
}
BUILT_IN = {'add', 'array_from', 'as_mut_ptr', 'as_ptr', 'from_raw_parts', 'from_raw_parts_mut', 'read', 'unreachable', 'write'}
# The iterators that the compiler makes, of a..b, a..=b and a..
RANGES = ['Range', 'RangeInclusive', 'RangeFrom']

BLOCK = re.compile(r'\b(trait|impl)\b([^{;]*)\{')

# A function: its crate, its name, its text from the name on (to the next function, or of a library to its end), whether it is
# exported to C, the type whose method it is, or '', and the functions and modules that its file declares or imports.
Function = collections.namedtuple('Function', 'crate name text exported owner known')


def without_clauses(text):
    """A source without its contracts."""
    kept, index = [], 0
    while clause := CLAUSE.search(text, index):
        kept.append(text[index:clause.start()])
        index = after_closing(text, clause.end())
    return ''.join(kept) + text[index:]


def after_closing(text, start):
    """The index after the bracket that closes the one at `start`."""
    depth = 0
    for index in range(start, len(text)):
        depth += (text[index] in '({[') - (text[index] in ')}]')
        if depth == 0:
            return index + 1
    sys.exit(f'divisions: a bracket is not closed: {text[start:start + 60]!r}')


def blocks_of(text):
    """The traits and impls of a source: where each begins and ends, which of the two it is, and the type of an impl."""
    for head in BLOCK.finditer(text):
        named = re.sub(r'<[^<>]*>', '', head[2].split(' for ')[-1]).split()
        yield head.end(), after_closing(text, head.end() - 1), head[1], named[0] if named else ''


def is_declared(text):
    """Whether the text of a method, from its name on, ends before it has a body. A semicolon in [u8; 16] ends nothing."""
    plain = re.sub(r'\[[^\]]*\]', '', text)
    return ';' in plain.partition('{')[0]


def known_in(text):
    """The names that a source declares for its functions, and imports, but for those of types."""
    imported = ' '.join(IMPORT.findall(text))
    return frozenset({head[2] for head in FUNCTION.finditer(text)}.union(re.findall(r'\b[a-z_]\w*\b(?!\s*::)', imported)))


def owner_of(head, blocks):
    """The kind of the block that a function stands in, and the type of an impl."""
    return next(((kind, owner if kind == 'impl' else '') for start, stop, kind, owner in blocks if start <= head.start() < stop), ('', ''))


def functions_of(crate, text):
    text = COMMENT_OR_LITERAL.sub(' ', text)
    if RENAMED.search(text):
        sys.exit(f'divisions: {crate} renames what it imports')
    text = without_clauses(text)
    heads, blocks, known = list(FUNCTION.finditer(text)), list(blocks_of(text)), known_in(text)
    for head, end in zip(heads, [following.start() for following in heads[1:]] + [len(text)]):
        body = text[head.end():end]
        kind, owner = owner_of(head, blocks)
        if kind == 'trait' and is_declared(body):
            body = '{}'  # each impl has its own
        if '{' not in body:
            sys.exit(f'divisions: {crate}::{head[2]} has no body')
        yield Function(crate, head[2], body, bool(head[1]), owner, known)


def functions_of_library(library):
    """The functions of std::num, and those of LIBRARY."""
    yield from functions_of('std', (library / 'core' / 'src' / 'num.rt').read_text())
    for file, names in LIBRARY.items():
        text = without_clauses(COMMENT_OR_LITERAL.sub(' ', (library / file).read_text()))
        found, blocks, known = set(), list(blocks_of(text)), known_in(text)
        for head in FUNCTION.finditer(text):
            start = text.find('{', head.end())
            _, owner = owner_of(head, blocks)
            named = {head[2], f'{owner}::{head[2]}'} & set(names)
            # A method that its trait only declares ends in a semicolon.
            if named and ';' not in BRACKETED.sub(' ', text[head.end():start]):
                found |= named
                yield Function('std', head[2], text[head.end():after_closing(text, start)], False, owner, known)
        for name in set(names) - found:
            sys.exit(f'divisions: no function {name} in {file}')


@functools.cache
def iterators_of(library):
    """The types of the libraries that are iterators."""
    files = [file for part in ('core', 'std', 'std_alloc') for file in (library / part / 'src').rglob('*.rt')]
    return {name for file in files for name in re.findall(r'\bIterator for (\w+)', file.read_text())}


def variables_of(text):
    """The words of a text's patterns: behind let and for, in a closure's bars, and before an arrow."""
    return {word for found in PATTERN.findall(text) for part in found for word in re.findall(r'\w+', part)}


def dependencies_of(lines):
    """Each crate of crates.txt with the crates that it depends on."""
    pairs = [line.split('#')[0].split(':') for line in lines if ':' in line.split('#')[0]]
    return {crate.split()[0]: names.split() for crate, names in pairs}


class Sources:
    """The functions of a repository's crates, and of std."""

    def __init__(self, root, library):
        self.functions = []
        for folder in sorted(root.glob('crates/*/src')):
            for file in sorted(folder.rglob('*.rt')):
                self.functions += functions_of(folder.parent.name, file.read_text())
        self.functions += functions_of_library(library)
        self.iterators = iterators_of(library)
        self.dependencies = dependencies_of((root / 'crates.txt').read_text().splitlines())

    @functools.cache
    def below(self, crate):
        """A crate and all crates below it; std is below every crate."""
        return {crate, 'std'}.union(*map(self.below, self.dependencies.get(crate, [])))

    @functools.cache
    def visible(self, crate):
        """The functions that a crate may call, by name."""
        found = collections.defaultdict(list)
        for function in self.functions:
            if function.crate in self.below(crate):
                found[function.name].append(function)
                if function.owner:
                    found[function.owner].append(function)
        return found

    def roots(self, word):
        """The functions that a word of the command line names."""
        crate, _, name = word.partition('::')
        found = [function for function in self.functions if function.crate == crate
                 and (function.exported if name == '*' else function.name == name)]
        if not found:
            sys.exit(f'divisions: no function {word}')
        return found

    def named_in(self, function):
        """Every function that this one may call: those whose name is a word of its text, and those that its forms call."""
        visible, text = self.visible(function.crate), function.text
        parameters = set(re.findall(r'(\w+)\s*:(?!:)', text.partition('{')[0]))
        functions = function.known - parameters - variables_of(text)
        calls = [(dot, owner, name) for dot, owner, name in CALL.findall(text) if dot or owner or name not in parameters]
        # What is handed on by its name: by a path, or by a name that its file has and that is no variable here.
        calls += [('', owner[:-2], name) for owner, name in HANDED_ON.findall(text) if owner or name in functions]
        for form, names in FORMS:
            calls += [('', '', name) for name in names if form.search(text)]
        for dot, owner, name in calls:
            built_in = name in KEYWORDS or name[0].isupper() or dot and name in METHODS or owner in NUMBERS and name in BITS
            if name not in visible and not built_in and not (function.crate == 'std' and name in BUILT_IN):
                sys.exit(f'divisions: {function.crate}::{function.name} calls {name}, which is not found')
        words = re.findall(r'\w+', text) + [name for *_, name in calls]
        made = [word for word in words if function.crate == 'std' and word in self.iterators]
        for name in made + RANGES if 'next' in words else made:
            if not any(method.name == 'next' for method in visible.get(name, [])):
                sys.exit(f'divisions: {function.crate}::{function.name} has a {name}, whose next is not found')
        for word in words:
            yield from visible.get(word, [])

    def reached(self, roots):
        """Every function that these may reach, with the chain of calls by which it was found."""
        chains = {root: [root] for root in roots}
        waiting = list(roots)
        while waiting:
            caller = waiting.pop(0)
            for callee in self.named_in(caller):
                if callee not in chains:
                    chains[callee] = [*chains[caller], callee]
                    waiting.append(callee)
        return chains


def library():
    """The folder of the toolchain's libraries: beside the page to read first."""
    page = subprocess.run(['rt', 'doc'], capture_output=True, text=True, check=True).stdout.strip()
    return pathlib.Path(page).parent / 'rattle'


def check(sources, words):
    """Prints each division and the count; whether there is none."""
    chains = sources.reached([function for word in words for function in sources.roots(word)])
    dividing = [function for function in chains if re.search('[/%]', function.text)]
    for function in dividing:
        chain = ' calls '.join(f'{step.crate}::{step.name}' for step in chains[function])
        for line in function.text.splitlines():
            if re.search('[/%]', line):
                print(f'{chain}, which divides: {line.strip()}')
    print(f'divisions in the source: {len(chains)} functions, {len(dividing)} divide')
    return not dividing


def main():
    if len(sys.argv) < 2:
        sys.exit(__doc__)
    sys.exit(0 if check(Sources(ROOT, library()), sys.argv[1:]) else 1)


if __name__ == '__main__':
    main()
