#!/usr/bin/env python3
"""Checks that calls of an archive do not divide: no divide instruction is in the machine code that they reach.

usage: tests/divisions/archive.py ARCHIVE [CALL ...]        by default all that the archive exports

What a call can reach is found section by section: the compiler gives each function a section of its own, and wherever one
refers to another, by a call, a jump, a table of jumps or an address, there is a relocation. A function outside the archive is
an error, unless it only moves bytes: a compiler may also divide by calling its own library. The last line is
'divisions in the archive: N calls, M functions, K divide instructions', and the exit status is 0 only if K is 0.
"""
import collections
import re
import subprocess
import sys

# Of integers (div, idiv), of floating point numbers (divsd, vdivps, fdivr ..), and x87's remainders.
DIVIDE = re.compile(r'\b(?:i?div|v?div[ps][sdh]|fi?divr?p?|fprem1?)[bwlqs]?\b')
MOVES_BYTES = {'memcpy', 'memmove', 'memset'}

# The lines of objdump.
MEMBER = re.compile(r'^(\S+):\s+file format ')
SYMBOL = re.compile(r'^[0-9a-f]{16} (.{7}) (\S+)\t[0-9a-f]{16} (?:\.hidden )?(\S+)$')
RELOCATIONS_OF = re.compile(r'^RELOCATION RECORDS FOR \[(.+)\]:$')
RELOCATION = re.compile(r'^[0-9a-f]{16} R_\S+\s+(.+?)(?:[+-]0x[0-9a-f]+)?$')
CODE_OF = re.compile(r'^Disassembly of section (.+):$')
INSTRUCTION = re.compile(r'^ *[0-9a-f]+:\t(.*)$')


class Archive:
    """The sections of an archive, each named (member, section): what they refer to, and their divide instructions."""

    def __init__(self, file):
        self.exported = []
        self.symbols = {}                                   # (member, symbol), or a global symbol -> its section
        self.references = collections.defaultdict(set)      # section -> the (member, symbol) that it refers to
        self.code = set()                                   # the sections with instructions
        self.divides = collections.defaultdict(list)        # section -> its divide instructions
        member = section = None
        for line in objdump(file):
            if found := MEMBER.match(line):
                member, section = found[1], None
            elif found := SYMBOL.match(line):
                self.add_symbol(member, *found.groups())
            elif found := RELOCATIONS_OF.match(line) or CODE_OF.match(line):
                section = (member, found[1])
            elif found := RELOCATION.match(line):
                self.references[section].add((member, found[1]))
            elif found := INSTRUCTION.match(line):
                self.add_instruction(section, found[1])

    def add_symbol(self, member, flags, section, symbol):
        if section == '*UND*':
            return
        self.symbols[member, symbol] = (member, section)
        if flags[0] in 'gu' or flags[1] == 'w':
            self.symbols[symbol] = (member, section)
            self.exported.append(symbol)

    def add_instruction(self, section, text):
        self.code.add(section)
        if DIVIDE.search(text):
            self.divides[section].append(text)

    def reached(self, call):
        """The sections that a call reaches, and the names that it refers to outside the archive."""
        reached, outside, waiting = set(), set(), [self.symbols[call]]
        while waiting:
            section = waiting.pop()
            if section in reached:
                continue
            reached.add(section)
            for member, symbol in self.references[section]:
                target = self.symbols.get((member, symbol)) or self.symbols.get(symbol)
                if target:
                    waiting.append(target)
                else:
                    outside.add(symbol)
        return reached, outside


def objdump(file):
    """The lines of the symbols, of the relocations, then of the instructions."""
    for option in '--syms', '--reloc', '--disassemble':
        words = ['objdump', '--no-show-raw-insn', option, '--', file]
        yield from subprocess.run(words, capture_output=True, text=True, check=True).stdout.splitlines()


def check(file, calls=()):
    """Prints each divide instruction that a call reaches, and the count; whether there is none."""
    archive, functions, divides = Archive(file), set(), {}
    calls = calls or archive.exported
    if not calls:
        sys.exit('divisions: the archive exports nothing')
    for call in calls:
        if call not in archive.symbols:
            sys.exit(f'divisions: the archive has no {call}')
        reached, outside = archive.reached(call)
        if outside - MOVES_BYTES:
            sys.exit(f'divisions: {call} calls {min(outside - MOVES_BYTES)}, which is not in the archive')
        functions |= archive.code & reached
        for section in sorted(reached):
            for instruction in archive.divides[section]:
                divides.setdefault((section, instruction), call)
    for ((_, section), instruction), call in divides.items():
        print(f'{call} reaches a divide instruction in {section}: {instruction}')
    print(f'divisions in the archive: {len(calls)} calls, {len(functions)} functions, {len(divides)} divide instructions')
    return not divides


def main():
    if len(sys.argv) < 2:
        sys.exit(__doc__)
    sys.exit(0 if check(sys.argv[1], sys.argv[2:]) else 1)


if __name__ == '__main__':
    main()
