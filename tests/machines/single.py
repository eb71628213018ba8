#!/usr/bin/env python3
"""Makes cases of the program `machines` out of those of the bench program: single.py FOLDER CASE..

The card and the calls of a case, and what they print, become those of a single machine, and of machine 2 among four, with allowance for every step; the
other machines have card K and stay idle. So every answer is that of the bench program with the machine's number put in behind the verb. The lines of a
change's text, and lines without a comma, stay as they are; what was malformed stays malformed, so `turn`, which this program alone knows, is misspelt."""
import pathlib
import re
import sys

CARD_K = b"card,1,1,1,100\nvar,7\nsheet,4\nins,1,0,0,0\nins,3,1,0,0\nins,4,0,0,0\nins,11,0,1,0\n"
NUMBER = rb"(0|[1-9][0-9]*)"
CHANGE = re.compile(rb"change,%s,%s,%s\n" % (NUMBER, NUMBER, NUMBER))
WORD_END = 2**32


def read(path):
    """A file; none where it is not there."""
    return path.read_bytes() if path.exists() else None


def put_in(line, machine):
    if line.rstrip(b"\n") == b"turn":
        return b"turns\n"
    return line.replace(b",", b",%d," % machine, 1)


def commands(calls, machine):
    """The calls with the machine's number; a well-formed change has its text with it."""
    text = 0
    for line in re.findall(rb"[^\n]*\n|[^\n]+", calls):
        yield line if text else put_in(line, machine)
        change = CHANGE.fullmatch(line)
        if text:
            text -= 1
        elif change and all(int(number) < WORD_END for number in change.groups()):
            text = int(change[3])


def answers(printed, machine):
    """The printed lines with the machine's number, but for those of a malformed line and of calls that are too long."""
    for line in printed.splitlines(True):
        yield line if line.startswith((b"line,", b"calls,")) else put_in(line, machine)


def make(case, folder, machine, count):
    folder.mkdir(parents=True)
    (folder / "machines.txt").write_text(f"machines,{count},100000\n" + "machine,0,100000\n" * count)
    for at in range(count):
        card = read(case / "card.txt") if at == machine else CARD_K
        if card is not None:
            (folder / f"card{at}.txt").write_bytes(card)
    calls = read(case / "calls.txt")
    if calls is not None:
        (folder / "calls.txt").write_bytes(b"".join(commands(calls, machine)))
    (folder / "expected.txt").write_bytes(b"".join(answers(read(case / "expected.txt"), machine)))


target, *cases = map(pathlib.Path, sys.argv[1:])
for case in cases:
    make(case, target / f"{case.name} as a single machine", 0, 1)
    make(case, target / f"{case.name} as machine 2 of four", 2, 4)
