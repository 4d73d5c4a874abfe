#!/usr/bin/env python3
"""Writes the stored input and output of the program sheet_cases from the list tests/sheet_cases.txt.

usage: tests/sheet_cases.py                         writes crates/sheet_cases/stdin and stdout
       tests/sheet_cases.py --check                 checks that the stored files match the list
       tests/sheet_cases.py --references FOLDER     runs the day sheet programs of the reference on the cases, and compares
       tests/sheet_cases.py --list                  prints the numbers and names of the cases

The last line is 'sheet_cases: ..', and the exit status is 0 only if all agree.
"""
import argparse
import collections
import pathlib
import subprocess
import sys

ROOT = pathlib.Path(__file__).resolve().parent.parent
LIST = ROOT / 'tests' / 'sheet_cases.txt'
STORED = ROOT / 'crates' / 'sheet_cases'

MAX_BYTES = 65_536
EDITION_ROW = '== edition '

# A case: the edition for which a sheet is read, its bytes, and the lines that documents 01 and 02 give for it.
Case = collections.namedtuple('Case', 'name edition sheet lines')

# The reference's program for each edition.
REFERENCES = {1: 'day_sheet_reference', 2: 'day_sheet_2_reference'}


def listed():
    """The cases of the list. Its first lines document the format."""
    cases = []
    edition = 1
    for number, row in enumerate(LIST.read_text().splitlines(), 1):
        if not row.strip() or row.startswith('#'):
            continue
        try:
            if row.startswith(EDITION_ROW):
                edition = int(row.removeprefix(EDITION_ROW))
            elif not row.startswith(' '):
                name, *rest = [part.strip() for part in row.split('|')]
                sheet = bytes.fromhex(rest[0]) if rest else b''
                cases.append(Case(name, edition, sheet, rest[1:]))
            else:
                of_record, line = [part.strip() for part in row.split('|')]
                last = cases[-1]
                cases[-1] = last._replace(sheet=last.sheet + bytes.fromhex(of_record), lines=last.lines + [line] * (line != ''))
        except (ValueError, IndexError) as error:
            sys.exit(f'{LIST}:{number}: {error}')
    return cases


# In a hall of 1, 1, 1: a swap to 65,535, a swap to 0, a retire and a collect, which are accepted; then six takes with numbers of three
# bytes, and a collect of desk 128. There are no such desks.
SWAP, RETIRE, COLLECT = '03 01 01', '04 01', '05 01'
TAKE_65535, COLLECT_128 = '01' + 3 * ' FF FF 03', '05 80 01'
TURN_LINES = ['3 0 0', '3 0 65535', '4 0 65535', '5 0 65535', *6 * ['1 6 0'], '5 6 0']
TURN = f'{SWAP} FF FF 03 {SWAP} 00 {RETIRE} {COLLECT}' + 6 * TAKE_65535 + COLLECT_128
TURNS = 851

# The same in edition 2.
SWAP_2, RETIRE_2, COLLECT_2 = '0B 01', '0C', '0D'
TAKE_65535_2 = '09' + 2 * ' FF FF 03'
TURN_2 = f'{SWAP} FF FF 03 {SWAP_2} 00 {RETIRE_2} {COLLECT_2}' + TAKE_65535 + 5 * TAKE_65535_2 + COLLECT_128
TURNS_2 = 1110


def turned(header, turn, turns, rest, *more):
    """The sheet of a header, the turns and a rest, and its lines. The last ones, those of the rest and the end, are given."""
    sheet = bytes.fromhex(header) + turns * bytes.fromhex(turn) + bytes.fromhex(rest)
    assert len(sheet) == MAX_BYTES
    lines = [f'{record} {line}' for record, line in enumerate(turns * TURN_LINES, 1)]
    return sheet, ['0 0 0 0', *lines, *more]


def longest():
    """The cases of 65,536 bytes and of one more, in edition 1."""
    def one(rest, *more):
        return turned('01 01 01', TURN, TURNS, rest, *more)

    sheet, lines = one(f'{SWAP} FF FF 03', '9362 3 0 0', 'end 3405 5957 851')
    cut, cut_lines = one(f'{COLLECT_128} {SWAP}', '9362 5 6 0', '9363 3 15 65536', 'end 3404 5958 851')
    padded, padded_lines = one(f'{COLLECT_128} 05 81 00', '9362 5 6 0', '9363 5 19 65534', 'end 3404 5958 851')
    return [
        Case('the longest sheet, read to its end', 1, sheet, lines),
        Case('one byte more: nothing is run', 1, sheet + b'\x05', ['0 0 18 0', 'end 0 0 0']),
        Case('65,536 zeros: P is 0', 1, bytes(MAX_BYTES), ['0 0 1 0', 'end 0 0 0']),
        Case('65,537 zeros: 18 is asked before P', 1, bytes(MAX_BYTES + 1), ['0 0 18 0', 'end 0 0 0']),
        Case('65,537 bytes, and P is padded: 18 is asked before 19', 1, b'\x81' + bytes(MAX_BYTES), ['0 0 18 0', 'end 0 0 0']),
        Case('the longest sheet, its last session missing', 1, cut, cut_lines),
        Case('the longest sheet, its last desk padded', 1, padded, padded_lines),
    ]


def longest_2():
    """The cases of 65,536 bytes and of one more, in edition 2: after the turns a swap, collects of one byte and an end."""
    def two(end, collects, *more):
        lines = ['12211 3 0 0', *(f'{12_212 + collect} 5 0 0' for collect in range(collects))]
        return turned('00 02 01 01 01', TURN_2, TURNS_2, f'{SWAP} FF FF 03' + collects * COLLECT_2 + end, *lines, *more)

    sheet, lines = two('', 35, 'end 4476 7770 1110')
    cut, cut_lines = two(SWAP_2, 33, '12245 3 15 65536', 'end 4474 7770 1110')
    padded, padded_lines = two('0A 81 00', 32, '12244 2 19 65534', 'end 4473 7770 1110')
    unchanged, unchanged_lines = two(COLLECT, 33, '12245 5 20 0', 'end 4474 7770 1110')
    return [
        Case('edition 2: the longest sheet, read to its end', 2, sheet, lines),
        Case('edition 2: one byte more: nothing is run', 2, sheet + b'\x0d', ['0 0 18 0', 'end 0 0 0']),
        Case('edition 2: 65,537 ones: 18 is asked before 21', 2, b'\x01' * (MAX_BYTES + 1), ['0 0 18 0', 'end 0 0 0']),
        Case('edition 2: the longest sheet, its last session missing', 2, cut, cut_lines),
        Case('edition 2: the longest sheet, its last screen padded', 2, padded, padded_lines),
        Case('edition 2: the longest sheet, its last desk written out though unchanged', 2, unchanged, unchanged_lines),
    ]


def text(lines):
    return ''.join(f'{line}\n' for line in lines).encode()


def stored(cases):
    """The contents of the files stdin and stdout: each sheet after its edition and its length, and its lines after its number."""
    stdin = b''.join(bytes([case.edition]) + len(case.sheet).to_bytes(3, 'little') + case.sheet for case in cases)
    stdout = b''.join(text([f'case {number}', *case.lines]) for number, case in enumerate(cases, 1))
    return {STORED / 'stdin': stdin, STORED / 'stdout': stdout}


def compared(cases, folder):
    """Runs the reference's program on each case; returns how many differ."""
    wrong = 0
    for number, case in enumerate(cases, 1):
        program = folder / REFERENCES[case.edition]
        found = subprocess.run([program], input=case.sheet, stdout=subprocess.PIPE, check=True).stdout
        if found != text(case.lines):
            wrong += 1
            print(f'case {number}, {case.name}: it printed', *found.decode(errors='replace').splitlines()[-3:], sep='\n    ')
    return wrong


def main():
    parser = argparse.ArgumentParser(usage=__doc__)
    parser.add_argument('--check', action='store_true')
    parser.add_argument('--references', metavar='FOLDER', type=pathlib.Path)
    parser.add_argument('--list', action='store_true')
    options = parser.parse_args()
    cases = listed() + longest() + longest_2()
    wrong = 0
    if options.list:
        for number, case in enumerate(cases, 1):
            print(number, case.name)
        return 0
    if options.check:
        for path, content in stored(cases).items():
            if not path.exists() or path.read_bytes() != content:
                wrong += 1
                print(f"{path.relative_to(ROOT)} does not match the list ('tests/sheet_cases.py' writes it)")
    if options.references:
        wrong += compared(cases, options.references)
    if not options.check and not options.references:
        for path, content in stored(cases).items():
            path.write_bytes(content)
    print(f'sheet_cases: {len(cases)} cases' + (f', {wrong} wrong' if wrong else ''))
    return 1 if wrong else 0


if __name__ == '__main__':
    sys.exit(main())
