#!/usr/bin/env python3
"""Compares every store of the calls of both rooms, of the board with rings, and of runs, with the footprint of the call.

usage: tests/stores/check.py DRIVER [ARGUMENT ..]

DRIVER is driver.c with an archive. It runs under valgrind's lackey, which prints every store with its address and size.
The driver stores to its marker before and after each call, and prints the footprint of each call, table by table. A
store that changes nothing counts like any other. A turn, which is a collect of a ring that hands a session back and
does nothing else, must store to the same number of words, whatever the hall and the length of the list. The last line
is 'stores: N calls, M stores into tables, K stray, W words a turn', and the exit status is 0 only if K is 0.
"""
import os
import subprocess
import sys
import tempfile


class Lent:
    """A table that a call is lent, as the driver prints it. The footprint is a list of ranges of its bytes, empty for a
    refusal; the required ones must be stored to."""

    def __init__(self, text):
        self.name, address, first, past, *ranges = text.split()
        self.address, self.first, self.past = int(address), int(first), int(past)
        self.footprint = [self.parsed(part) for part in ranges]
        self.required = [self.parsed(part) for part in ranges if part.endswith('!')]
        self.stored = set()

    @staticmethod
    def parsed(part):
        return tuple(map(int, part.rstrip('!').split('-')))

    def is_near(self, address, size):
        """Whether a store is to the memory in or around the table."""
        return self.first < address + size and address < self.past

    def store(self, address, size):
        """Notes the bytes of the table that are stored to. Returns the offset of the first that is outside the
        footprint, or None."""
        stored = range(address - self.address, address - self.address + size)
        self.stored.update(stored)
        for byte in stored:
            if not any(first <= byte < past for first, past in self.footprint):
                return byte
        return None

    def is_complete(self):
        return all(self.stored.issuperset(range(*part)) for part in self.required)


class Call:
    def __init__(self, line):
        self.name, self.hall, *lent = line.removeprefix('call ').split('|')
        self.lent = [Lent(text) for text in lent]
        self.call = self.name.split()[0]            # board_take

    def is_complete(self):
        """If the trace does not show a store that an accepted call must make, the trace is broken, or the board."""
        return all(table.is_complete() for table in self.lent)


def words_of_turns(calls):
    """To how many words a turn stores. Several numbers, or none, are an error."""
    words = {len({byte // 2 for byte in table.stored})
             for call in calls if call.name.endswith('(turn)') for table in call.lent}
    if len(words) != 1:
        sys.exit(f'stores: turns of a ring store to {sorted(words)} words')
    return words.pop()


def traced(command):
    """What the driver prints, its exit status, and its stores as lackey prints them."""
    reading, writing = os.pipe()
    with tempfile.TemporaryFile() as printed:
        valgrind = subprocess.Popen(['valgrind', '--tool=lackey', '--trace-mem=yes', f'--log-fd={writing}', *command],
                                    stdout=printed, pass_fds=[writing])
        os.close(writing)
        with open(reading, 'rb') as trace:
            # ' S' is a store, ' M' a load and a store by one instruction.
            stores = [line for line in trace if line.startswith((b' S', b' M'))]
        status = valgrind.wait()
        printed.seek(0)
        return printed.read().decode().splitlines(), status, stores


def parsed(lines, status):
    """The marker's address and the calls."""
    if status != 0 or not lines or lines[-1] != 'done':
        for line in lines[-2:]:
            print(line)
        sys.exit(f'stores: the driver ended with status {status}')
    return int(lines[0].removeprefix('marker ')), [Call(line) for line in lines if line.startswith('call ')]


def during_calls(stores, marker, calls):
    """Each store made during a call: the call, the address and the size."""
    running, ended = None, 0
    for line in stores:
        address, size = line[3:].split(b',')
        address = int(address, 16)
        if address == marker:
            if running is None:
                running = calls[ended]
            else:
                running, ended = None, ended + 1
        elif running is not None:
            yield running, address, int(size)
    if running is not None or ended != len(calls):
        sys.exit(f'stores: {len(calls)} calls, but the trace has {ended}')


def main():
    if len(sys.argv) < 2:
        sys.exit(__doc__)
    lines, status, stores = traced(sys.argv[1:])
    marker, calls = parsed(lines, status)
    count, stray = 0, {}
    for call, address, size in during_calls(stores, marker, calls):
        for table in call.lent:
            if not table.is_near(address, size):
                continue
            count += 1
            byte = table.store(address, size)
            if byte is not None:
                stray.setdefault(call.call, []).append((call, table, byte, size))
    for call, table, byte, size in (found[0] for found in stray.values()):
        print(f'stores: {call.name} in a hall of {call.hall}: a store of {size} bytes to byte {byte} of the '
              f'{table.name} (word {byte // 2}), outside its footprint')
    for call in calls:
        if not call.is_complete():
            sys.exit(f'stores: {call.name} in a hall of {call.hall}: accepted, but the trace does not show all its '
                     'stores')
    strays = sum(map(len, stray.values()))
    print(f'stores: {len(calls)} calls, {count} stores into tables, {strays} stray, {words_of_turns(calls)} words a turn')
    sys.exit(1 if strays else 0)


main()
