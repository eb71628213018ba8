#!/usr/bin/env python3
"""Writes the cases of crates/text_cases (stdin) and the lines that are expected of them (stdout).

The judge below goes by document 01 ('The card text' and 'Turned back') alone: it splits a text into lines and fields."""
import os
import re

HERE = os.path.dirname(os.path.abspath(__file__))
CRATE = os.path.join(HERE, "..", "..", "crates", "text_cases")
WORD = 2**32
LIMIT = 10**18


def fields(line, word, count):
    """The numbers of a line, or None where it has the wrong form."""
    parts = line.split(b",")
    if parts[0] != word or len(parts) != count + 1:
        return None
    if not all(re.fullmatch(rb"0|[1-9][0-9]*", p) for p in parts[1:]):
        return None
    return [int(p) for p in parts[1:]]


def judge_instruction(n, code, *operands):
    """0 where an instruction is good, else 4, 12 or 13 (document 02, order 8)."""
    register, unused = range(4), None
    kinds = {2: (register, range(WORD), unused), 3: (register, range(n), unused), 4: (range(n), register, unused), 12: (unused,) * 3}
    kinds.update({code: (register, register, unused) for code in (1, 5, 6, 7, 8, 11)})
    kinds.update({code: (register, register, range(1, 32)) for code in (9, 10)})
    kinds.update({code: (register, unused, unused) for code in (13, 14)})
    if code not in kinds:
        return 4
    if any(kind is not unused and x not in kind for kind, x in zip(kinds[code], operands)):
        return 12
    return 13 if any(kind is unused and x for kind, x in zip(kinds[code], operands)) else 0


def judge(text):
    """(0, 0) where the text opens, else the refusal and its line."""
    if len(text) > 16384:
        return 1, 0
    pieces = text.split(b"\n")
    lines, rest = pieces[:-1], pieces[-1]
    number = 0

    class Refused(Exception):
        pass

    def take(word, count, refusal):
        """The numbers of the next line, judged by a function of them that gives 0 or a refusal."""
        nonlocal number
        number += 1
        if number > len(lines):
            raise Refused(2)
        values = fields(lines[number - 1], word, count)
        if values is None:
            raise Refused(2)
        if refusal(*values):
            raise Refused(refusal(*values))
        return values

    def unless(fits):
        """Refusal 3 of numbers that are out of range."""
        return lambda *values: 0 if fits(*values) else 3

    try:
        card = take(b"card", 4, unless(lambda p, n, s, l: 1 <= p <= 8 and 1 <= n <= 64 and 1 <= s <= 8 and 1 <= l <= LIMIT))
        n = card[1]
        for _ in range(n):
            take(b"var", 1, unless(lambda v: v < WORD))
        for _ in range(card[2]):
            length = take(b"sheet", 1, unless(lambda m: 1 <= m <= 32))[0]
            codes = [take(b"ins", 4, lambda *numbers: judge_instruction(n, *numbers))[0] for _ in range(length)]
            if sum(1 if code in (3, 4, 5, 6) else 2 if code in (13, 14) else 0 for code in codes) > 32:
                raise Refused(14)
        number += 1
        if number <= len(lines) or rest:
            raise Refused(2)
    except Refused as why:
        return why.args[0], number
    return 0, 0


def card(p=1, n=1, s=1, limit=100, starts=None, sheets=None):
    starts = starts or ["7"] * n
    sheets = sheets or [["12,0,0,0"]] * s
    lines = ["card,%s,%s,%s,%s" % (p, n, s, limit)] + ["var," + v for v in starts]
    for sheet in sheets:
        lines += ["sheet,%d" % len(sheet)] + ["ins," + i for i in sheet]
    return ("\n".join(lines) + "\n").encode()


def edited(text, line, new):
    """The text with a line (from 1) replaced; None takes it away."""
    lines = text.split(b"\n")
    lines[line - 1 : line] = [] if new is None else [new]
    return b"\n".join(lines)


def longest():
    sheet = ["2,0,4294967295,0"] * 32
    return card(8, 64, 8, LIMIT, ["4294967295"] * 64, [sheet] * 8)


def cases():
    k = card(sheets=[["1,0,0,0", "3,1,0,0", "4,0,0,0", "11,0,1,0"]])
    yield k
    yield card(8, 3, 2, LIMIT, ["0", "4294967295", "10"], [["5,3,2,0", "6,3,3,0", "7,0,3,0"], ["8,1,2,0", "9,0,3,31", "10,3,0,1", "12,0,0,0"]])
    # the edges of the card
    yield longest()
    yield card(n=64)
    yield card(n=65)
    yield card(sheets=[["12,0,0,0"] * 32])
    yield card(sheets=[["12,0,0,0"] * 33])
    for p, n, s, limit in [(8, 1, 8, 1), (0, 1, 1, 5), (9, 1, 1, 5), (1, 0, 1, 5), (1, 1, 0, 5), (1, 1, 9, 5), (1, 1, 1, 0), (1, 1, 1, LIMIT + 1), (1, 1, 1, 2**64), (1, 1, 1, 2**64 + 1), (2**64 + 1, 1, 1, 1)]:
        yield card(p, n, s, limit, ["7"] * min(n, 64), [["12,0,0,0"]] * min(max(s, 1), 8))
    # the length of the text
    yield b"x" * 16384
    yield b"x" * 16385
    yield k + b"\n" * (16384 - len(k))
    yield k + b"\n" * (16385 - len(k))
    # missing, left over, empty and unended lines
    yield b""
    yield b"\n"
    count = k.count(b"\n")
    for line in (1, 2, 3, count):
        yield edited(k, line, None)
        yield edited(k, line, b"")
        yield b"\n".join(k.split(b"\n")[: line - 1] + [b""])
        yield b"\n".join(k.split(b"\n")[:line])
    yield k[:-1]
    yield k + b"\n"
    yield k + b"var,1\n"
    yield k + b"x"
    # a wrong form at the first, a middle and the last line: leading zeros, signs, blanks, odd bytes, long numbers
    long = b"9" * 40
    for line, word, tail in ((1, b"card,", b",1,1,100"), (2, b"var,", b""), (count, b"ins,", b",0,1,0")):
        for number in (b"01", b"00", b"+1", b"-1", b" 1", b"1 ", b"", b"1\r", b"1\x00", b"\x00", b"\xc8", b"1,", b"x", b"0x1", long, b"0" * 40, b"1" + b"0" * 39):
            yield edited(k, line, word + number + tail)
        yield edited(k, line, word.upper() + b"1" + tail)
        yield edited(k, line, word[:-1])
        yield edited(k, line, b" " + word + b"1" + tail)
    yield edited(k, 3, b"sheet,04")
    yield edited(k, 3, b"sheet,0")
    yield edited(k, 3, b"sheet,33")
    yield edited(k, 3, b"sheet," + long)
    # refusal 3 in the first and the last line that can have it, and in the middle
    three = card(2, 3, 2, 9, ["1", "2", "3"], [["12,0,0,0"], ["12,0,0,0"]])
    for line, new in ((1, b"card,9,3,2,9"), (2, b"var,4294967296"), (3, b"var,4294967296"), (4, b"var,4294967296"), (5, b"sheet,33"), (7, b"sheet,0")):
        yield edited(three, line, new)
    # refusals 4, 12 and 13: every code with an operand out of range or not 0 where unused, and codes that are none
    bad = [b"0,0,0,0", b"15,0,0,0", b"4294967297,0,0,0", b"1,4,0,0", b"1,0,4,0", b"1,0,0,1", b"2,4,0,0", b"2,0,4294967296,0", b"2,0,0,1", b"3,4,0,0", b"3,0,1,0", b"3,0,0,1", b"4,1,0,0", b"4,0,4,0", b"4,0,0,1"]
    for code in (5, 6, 7, 8, 11):
        bad += [b"%d,4,0,0" % code, b"%d,0,4,0" % code, b"%d,0,0,1" % code]
    for code in (13, 14):
        bad += [b"%d,4,0,0" % code, b"%d,0,1,0" % code, b"%d,0,0,1" % code, b"%d,3,0,0" % code]
    for code in (9, 10):
        bad += [b"%d,4,0,1" % code, b"%d,0,4,1" % code, b"%d,0,0,0" % code, b"%d,0,0,32" % code]
    bad += [b"12,1,0,0", b"12,0,1,0", b"12,0,0,1", b"1,256,0,0", b"3,0,256,0", b"9,0,0,257"]
    # the sequence of the three, and operands of any length
    bad += [b"0,9,9,9", b"1,4,0,7", b"1,0,0,7", b"2,4,0,1", b"4,0,0," + long, b"1," + long + b",0,7", b"12," + long + b",0,0", long + b",4,4,4", b"9," + long + b",0,1", b"9,0,0," + long]
    for operands in bad:
        yield edited(k, 6, b"ins," + operands)
    for line in (4, count):
        for operands in (b"15,0,0,0", b"1,4,0,7", b"1,0,0,7"):
            yield edited(k, line, b"ins," + operands)
    # a lower refusal does not wait for a later line, and a later line is not judged before an earlier one
    yield edited(edited(k, 2, b"var,4294967296"), 3, b"sheet,x")
    yield edited(edited(k, 2, b"var,x"), 1, b"card,9,1,1,100")
    yield edited(edited(k, 4, b"ins,1,0,0,7"), 5, b"ins,15,0,0,0")
    yield edited(edited(k, 4, b"ins,1,4,0,0"), 5, b"ins,15,0,0,0")
    # refusal 14 (document 02, order 9) at the last line of a program that counts more than 32, after 4, 12 and 13, before any later line
    for heavy in (["13,0,0,0"] * 16, ["14,3,0,0"] * 8 + ["3,0,0,0"] * 16, ["13,0,0,0", "14,0,0,0"] * 8, ["4,0,0,0"] * 32):
        for more in ([], ["12,0,0,0"], ["3,0,0,0"], ["13,0,0,0"], ["14,0,0,0", "12,0,0,0"], ["14,0,0,1"], ["15,0,0,0"], ["14,4,0,0"]):
            if len(heavy + more) <= 32:
                yield card(1, 1, 1, 9, ["7"], [heavy + more])
                yield card(1, 1, 2, 9, ["7"], [["12,0,0,0"], heavy + more])
                yield edited(card(1, 1, 2, 9, ["7"], [heavy + more, ["12,0,0,0"]]), 4 + len(heavy + more), b"sheet,x")


def agreement(wanted, told, written):
    """Whether the bytes written are those wanted, a 0 for each that is missing there; the bytes past them are as they were."""
    same = written == (wanted + bytes(told))[:told]
    return ",same" if same else ",differs"


def expected(number, text, wanted):
    """The line of a text whose card is written and compared with a text that is wanted."""
    refusal, line = judge(text)
    size = len(text)
    if refusal:
        return "%d,refused,%d,%d" % (number, refusal, line) + (",0" + agreement(wanted, 0, b"")) * 4
    whole = ",%d" % size + agreement(wanted, size, text)
    short = ",refused,11" + agreement(wanted, 0, b"")
    return "%d,accepted" % number + whole * 2 + short * 2


def main():
    texts = list(cases())
    assert len(longest()) == 6440 and judge(longest()) == (0, 0)
    with open(os.path.join(CRATE, "stdin"), "wb") as f:
        for text in texts:
            f.write(b"%d\n" % len(text) + text)
    with open(os.path.join(CRATE, "stdout"), "w") as f:
        # a case that must differ: the first text compared with itself from its second byte on
        f.write(expected(0, texts[0], texts[0][1:]) + "\n")
        for number, text in enumerate(texts, 1):
            f.write(expected(number, text, text) + "\n")


if __name__ == "__main__":
    main()
