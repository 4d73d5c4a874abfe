#!/usr/bin/env python3
"""Shows that the two checks of divisions can fail, and that they pass what does not divide.

usage: tests/divisions/selftest.py ARCHIVE        the last line is 'divisions: N wrong ones, all caught'

source.py reads this repository's sources and the toolchain's with one line changed, or with a function of LIBRARY left out, and
small sources of its own; archive.py reads the archive with a divide instruction in one of its functions, and the calls of
tests/wrong/divisions.c.
"""
import contextlib
import io
import pathlib
import shutil
import subprocess
import sys
import tempfile

sys.dont_write_bytecode = True
import archive
import source

# A line of a crate, a line in its place that gives the same result by dividing, and the function that it stands in.
CHANGED = [
    ('marks', 'word: j >> 4,', 'word: j / 16,', 'marks::mark_position'),
    ('marks', 'bit: j & 15,', 'bit: j % 16,', 'marks::mark_position'),
    ('marks', '>> at.bit) & 1 == 1', '>> at.bit) % 2 == 1', 'marks::marked'),
    ('desk', 'if k & 1 != 0 {', 'if k % 2 != 0 {', 'desk::sound_scan'),
    ('words', '(w >> 8) as u8', '(w / 256) as u8', 'words::put_word'),
    ('board', 'positions, t.len() >> 1)', 'positions, t.len() / 2)', 'board::open'),
]

# The same of the toolchain's libraries: a file, a line, a line in its place, the function of the library, and one that calls it.
CHANGED_LIBRARY = [
    ('core/src/int/u16.rt', 'bytes[0] as u16 + bytes[1]', 'bytes[0] as u16 / 1 + bytes[1]', 'std::from_le_bytes', 'words::word'),
    ('core/src/slice/edits.rt', 'self[n - 1] = value;', 'self[n - 1 / 1] = value;', 'std::fill', 'words::clear'),
    ('std_alloc/src/shifts.rt', 'if dest <= start {', 'if dest / 1 <= start {', 'std::shift', 'words::shift_left'),
    # The `next` of a `for` over a range, what it calls, and that of one over a slice and over its parts, which are counted.
    ('core/src/iter/ranges.rt', 'x.forward(self.end);\n            Some(x)', 'x.forward(self.end);\n            let _y = 1 / 1;\n            Some(x)', 'std::next', 'words::all_zero'),
    ('core/src/iter/steps.rt', 'fn forward(self, end: usize) -> usize {\n        self + 1', 'fn forward(self, end: usize) -> usize {\n        self + 1 / 1', 'std::forward', 'words::all_zero'),
    ('core/src/iter/slices.rt', 'self.rest = &rest[1..];\n        Some(&rest[0])', 'self.rest = &rest[1 / 1..];\n        Some(&rest[0])', 'std::next', 'desk::read_screens'),
    ('core/src/iter/slices.rt', 'rest.len() < self.size', 'rest.len() / 1 < self.size', 'std::next', 'runner::do_steps'),
    ('core/src/iter/adapters.rt', 'self.count += 1;', 'self.count += 1 / 1;', 'std::next', 'runner::do_steps'),
    # What copy_from_slice hands on, and what that calls.
    ('core/src/slice/edits.rt', 'row.copy_in(0, src);', 'row.copy_in(0 / 1, src);', 'std::copy_over', 'desk::part_tested'),
    ('core/src/ptr/copy_drop.rt', 'dst.add(i).write', 'dst.add(i / 1).write', 'std::copy_bits', 'desk::part_tested'),
    # What a `?` calls.
    ('core/src/result.rt', 'Err(F::from(residual.0))', 'let _y = 1 / 1;\n        Err(F::from(residual.0))', 'std::from_residual', 'runner::run'),
]

# What is said where LIBRARY lacks a function: its file, its name, what is said, and of what.
LACKING = [
    ('core/src/iter/ranges.rt', 'Range::next', 'has a Range, whose next is not found', 'words::all_zero'),
    ('core/src/iter/slices.rt', 'Iter::next', 'std::into_iter has a Iter, whose next is not found', 'desk::read_screens'),
    ('core/src/iter/slices.rt', 'Chunks::next', 'std::chunks has a Chunks, whose next is not found', 'runner::do_steps'),
    ('core/src/iter/adapters.rt', 'Enumerate::next', 'std::enumerate has a Enumerate, whose next is not found', 'runner::do_steps'),
    ('core/src/slice/edits.rt', 'copy_over', 'std::copy_from_slice calls copy_over, which is not found', 'desk::part_tested'),
    ('core/src/slots/lends.rt', 'with_slots', 'std::copy_from_slice calls with_slots, which is not found', 'desk::part_tested'),
]

# What a check says of a function that divides, and of one that does not.
DIVIDES, PASSES = 'which divides: ', ', 0 divide'

# The body of a function, what stands behind it in its crate, and what the check must say.
HALF = '\n    fn half(a: usize) -> usize { a / 2 }\n'
SMALL = [
    ('a >> 4 // not a / 16', '', PASSES),
    ('twice(a)', '', PASSES),
    ("is(b'/') + is(b'%')", 'fn is(a: u8) -> usize { a as usize }', PASSES),
    ('length(b"/ %")', 'fn length(a: &[u8]) -> usize { a.len() }', PASSES),
    ('a', 'pub fn not_called(a: usize) -> usize { a / 2 }', PASSES),
    ('a', 'fn not_called(a: usize) -> [u8; 2]\n    ghost { n : ℕ }\n    ensures { n / 2 }\n{ [0; 2] }', PASSES),
    ('u64::count_ones(std::num::wrapping_add_u64(a, 1))', '', PASSES),
    ('if (a) < 1 { return (a); } while (a) < 2 { match (a) { } } for b in (a)..3 { } Size(a)', '', PASSES),
    ('(b)[0..a].fill(u16::from_le_bytes([1, 2]))', '', PASSES),
    ('for b in c { } a', 'fn last() -> usize { 1 / 2 }', PASSES),
    ('with(a, twice)', 'fn with(a: usize, f: impl Fn(usize) -> usize) -> usize { f(a) }', PASSES),
    ('a / 16', '', DIVIDES),
    ('a % 16', '', DIVIDES),
    ('let mut b = a; b /= 16; b', '', DIVIDES),
    ('half(a)', 'fn half(a: usize) -> usize { a / 2 }', DIVIDES),
    ('(half)(a)', 'fn half(a: usize) -> usize { a / 2 }', DIVIDES),
    ('half(a)', 'fn half(a: usize) -> usize\n    ghost { n : ℕ }\n    ensures { n / 2 }\n{ a / 2 }', DIVIDES),
    ('half(a)', "fn half(a: usize)\n    ensures { b' }\n{ a / 2 }\nfn last()\n    ensures { b' }\n{ }", DIVIDES),
    ('first(a)', 'fn first(a: usize) -> usize { second(a) }\nfn second(a: usize) -> usize { a % 3 }', DIVIDES),
    ('other::third(a)', '', DIVIDES),
    ('depth.quarter()', '', DIVIDES),
    ('Size::half(a)', f'impl Size {{{HALF}}}', DIVIDES),
    ('Self::half(a)', f'impl Size {{{HALF}}}\nfn half() {{ }}', DIVIDES),
    ('size.half()', f"impl<'a> Size<'a> {{{HALF}}}\nimpl Other {{\n    fn half(self) {{ }}\n}}", DIVIDES),
    ('each::<Ring>(a)', f'impl Kind for Ring {{{HALF}}}', DIVIDES),
    ('each::<Ring>(a)', 'impl Kind for Ring {\n    fn half(a: [u8; 2]) -> usize { 1 }\n}', PASSES),
    ('for b in c { } a', f'fn last() {{ }}\nimpl Iterator for Size {{{HALF.replace("half", "next")}}}', DIVIDES),
    ('for (b, d) in c { } a', f'fn last() {{ }}\nimpl IntoIterator for Size {{{HALF.replace("half", "into_iter")}}}', DIVIDES),
    ('c?; a', f'fn last() {{ }}\nimpl Try for Size {{{HALF.replace("half", "branch")}}}', DIVIDES),
    ('with(a, half)', f'fn with(a: usize, f: impl Fn(usize) -> usize) -> usize {{ f(a) }}{HALF}', DIVIDES),
    ('twice(div_ceil)', 'use std::num::div_ceil;', 'small::all calls div_ceil, which is not found'),
    ('let b = std::mem::swap; a', '', 'small::all calls swap, which is not found'),
    ('absent(a)', '', 'small::all calls absent, which is not found'),
    ('usize::div_ceil(a, 2)', '', 'small::all calls div_ceil, which is not found'),
    ('u64::to_le_bytes(a)', '', 'small::all calls to_le_bytes, which is not found'),
    ('(part)(a)', 'use other::third as part;', 'small renames what it imports'),
    ('quotient(a)', 'extern "C" { fn quotient(a: usize) -> usize; }', 'small::quotient has no body'),
]
# The same, of all that the crate exports.
EXPORTING = [
    ('a', '#[unsafe(no_mangle)]\npub extern "C" fn call(a: usize) -> usize { a }\n\nfn not_called(a: usize) -> usize { a / 2 }', PASSES),
    ('a', '#[unsafe(no_mangle)] pub extern "C" fn call(a: usize) -> usize { a / 2 }', DIVIDES),
    ('a / 2', '', 'no function small::*'),
]
SMALL_CRATE = '''
use other::twice;
ghost use Rattle.std.specs.Prelude.{{◌/◌, ◌%◌}};

// a / b
pub fn all(a: usize) -> usize
    requires named {{ a / 2 ≡ a % 2 }}
    ensures {{ result ≡ a / 16 }}
{{
    {}
}}

{}
'''
# The crates around it: small uses other, which uses deep; no crate uses beside.
SMALL_CRATES = 'small: other\nother: deep\ndeep:\nbeside:\n'
AROUND = {
    'other': 'pub fn twice(a: usize) -> usize { 2 * a }\n\npub fn third(a: usize) -> usize { a / 3 }\n\n'
             'pub trait Kind {\n    fn half(a: [u8; 2]) -> usize;\n}\n\npub fn each<K: Kind>(a: usize) -> usize { K::half(a) }\n',
    'deep': 'impl Depth {\n    pub fn quarter(self) -> usize { self.0 / 4 }\n}\n',
    'beside': 'pub fn twice(a: usize) -> usize { a / 2 }\n',
}

# The calls of tests/wrong/divisions.c, and what the check must say of each.
CALLS = {
    **dict.fromkeys(['by_16', 'moves_bytes'], PASSES),
    **dict.fromkeys(['by_a_variable', 'remainder_of_words', 'of_signed_numbers', 'of_floats', 'of_long_floats', 'in_a_callee',
                     'by_a_jump', 'by_an_address', 'with_a_prefix', 'of_vectors', 'remainder_of_long_floats'], ' reaches a divide instruction in '),
    'by_a_library': 'by_a_library calls __udivti3, which is not in the archive',
    'absent': 'the archive has no absent',
}

DIV = b'\xf7\xf1'       # div %ecx


def output_of(check):
    """What a check prints, or the error with which it ends."""
    printed = io.StringIO()
    with contextlib.redirect_stdout(printed):
        try:
            passes = check()
        except SystemExit as error:
            return str(error)
    expect(passes == (PASSES in printed.getvalue()), 'the verdict is not what is printed', printed.getvalue())
    return printed.getvalue()


def of_source(folder, library, function):
    return output_of(lambda: source.check(source.Sources(folder, library), [function]))


def of_archive(library, *calls):
    return output_of(lambda: archive.check(library, calls))


def expect(good, what, printed=''):
    if not good:
        sys.exit(f'{printed}\ndivisions: {what}')


def changed_sources(folder, library):
    """Each changed line is found in its function and from the exported calls."""
    shutil.copytree(source.ROOT / 'crates', folder / 'crates', ignore=shutil.ignore_patterns('*.antt', '*.edit'))
    shutil.copy(source.ROOT / 'crates.txt', folder)
    for crate, old, new, function in CHANGED:
        file = folder / 'crates' / crate / 'src' / 'lib.rt'
        text = file.read_text()
        expect(text.count(old) == 1, f'{old!r} does not stand once in {crate}')
        file.write_text(text.replace(old, new))
        sources = source.Sources(folder, library)
        for start in function, 'host::*':
            printed = output_of(lambda: source.check(sources, [start]))
            expect(f'{function}, {DIVIDES}' in printed, f'{new!r} is not found from {start}', printed)
        file.write_text(text)
    return len(CHANGED)


def changed_libraries(folder, library):
    """Each changed line of a library is found, from a function that calls it and from the exported calls."""
    for name in ['core/src/num.rt', *source.LIBRARY]:
        (folder / name).parent.mkdir(parents=True, exist_ok=True)
        shutil.copyfile(library / name, folder / name)
    for name, old, new, function, caller in CHANGED_LIBRARY:
        text = (folder / name).read_text()
        expect(text.count(old) == 1, f'{old!r} does not stand once in {name}')
        (folder / name).write_text(text.replace(old, new))
        sources = source.Sources(source.ROOT, folder)
        for start in caller, 'host::*':
            printed = output_of(lambda: source.check(sources, [start]))
            expect(f'{function}, {DIVIDES}' in printed, f'{new!r} is not found from {start}', printed)
        (folder / name).write_text(text)
    return len(CHANGED_LIBRARY)


def lacking_library(library):
    """Each function that LIBRARY lacks is missed, from a function that calls it and from the exported calls."""
    for file, name, said, caller in LACKING:
        source.LIBRARY[file].remove(name)
        sources = source.Sources(source.ROOT, library)
        for start in caller, 'host::*':
            printed = output_of(lambda: source.check(sources, [start]))
            expect(said in printed, f'{name} is not missed from {start}', printed)
        source.LIBRARY[file].append(name)
    return len(LACKING)


def small_sources(folder, library):
    (folder / 'crates.txt').write_text(SMALL_CRATES)
    rows = [('small::all', *row) for row in SMALL] + [('small::*', *row) for row in EXPORTING]
    for start, body, more, expected in rows:
        for crate, text in {**AROUND, 'small': SMALL_CRATE.format(body, more)}.items():
            (folder / 'crates' / crate / 'src').mkdir(parents=True, exist_ok=True)
            (folder / 'crates' / crate / 'src' / 'lib.rt').write_text(text)
        printed = of_source(folder, library, start)
        expect(expected in printed, f'wrong about {body!r} with {more!r}', printed)
    return sum(expected != PASSES for *_, expected in rows)


def library_of(file):
    """An archive with this object file alone."""
    library = file.with_suffix('.a')
    library.unlink(missing_ok=True)
    subprocess.run(['ar', 'crs', library, file], check=True)
    return library


def changed_functions(folder, file):
    """A divide instruction at the start of any function of the archive is found."""
    functions = sorted(archive.Archive(file).code)
    for member, section in functions:
        changed, code = folder / member, folder / 'code'
        changed.write_bytes(subprocess.run(['ar', 'p', file, member], capture_output=True, check=True).stdout)
        subprocess.run(['objcopy', '--dump-section', f'{section}={code}', changed], check=True)
        code.write_bytes(DIV + code.read_bytes()[len(DIV):])
        subprocess.run(['objcopy', '--update-section', f'{section}={code}', changed], check=True)
        printed = of_archive(library_of(changed))
        expect(f' reaches a divide instruction in {section}: ' in printed, f'not caught in {section}', printed)
    return len(functions)


def compiled(file, source_file):
    """An archive with a C file."""
    options = ['-O2', '-ffunction-sections', '-fdata-sections']
    subprocess.run(['gcc', *options, '-x', 'c', '-c', source_file, '-o', file], check=True)
    return library_of(file)


def wrong_calls(folder):
    library = compiled(folder / 'divisions.o', source.ROOT / 'tests' / 'wrong' / 'divisions.c')
    for call, expected in CALLS.items():
        printed = of_archive(library, call)
        expect(expected in printed, f'wrong about {call}', printed)
    printed = of_archive(compiled(folder / 'empty.o', '/dev/null'))
    expect('the archive exports nothing' in printed, 'wrong about an empty archive', printed)
    return sum(expected != PASSES for expected in CALLS.values()) + 1


def main():
    if len(sys.argv) != 2:
        sys.exit(__doc__)
    library = source.library()
    with tempfile.TemporaryDirectory() as made:
        folders = [pathlib.Path(made) / name for name in ('changed', 'library', 'small', 'archive', 'calls')]
        for folder in folders:
            folder.mkdir()
        caught = changed_sources(folders[0], library) + changed_libraries(folders[1], library) + lacking_library(library)
        caught += small_sources(folders[2], library) + changed_functions(folders[3], sys.argv[1]) + wrong_calls(folders[4])
    print(f'divisions: {caught} wrong ones, all caught')


main()
