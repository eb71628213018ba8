#!/usr/bin/env python3
"""What a waveform viewer's own reader gives back of our dumps, beside ours: viewer.py WAVES READINGS

GTKWave's converters (Debian's package gtkwave) read a dump into GTKWave's own format and write it from there: `vcd2fst`, `fst2vcd`. The dumps are those
that WAVES prints for the examples and the stored sessions, and the stored dumps that are taken; at every time the values of every variable must be those
that READINGS prints. Where the converters are not installed, one line says that this part was skipped.

The last line is a count; what does not hold has a line of its own and makes this fail."""
import pathlib
import re
import shutil
import subprocess
import sys
import tempfile

HERE = pathlib.Path(__file__).resolve().parent
EXAMPLES = HERE.parent.parent / "examples"


def printed(folder, *command):
    return subprocess.run(command, cwd=folder, capture_output=True, check=True).stdout


def through_the_viewer(dump, room):
    """The dump as GTKWave's own reader and writer give it back."""
    (room / "dump.vcd").write_bytes(dump)
    printed(room, "vcd2fst", "dump.vcd", "dump.fst")
    return printed(room, "fst2vcd", "-f", "dump.fst").decode()


def rows(text):
    """Of any value change dump with wires of module card: each time and all values from then on, by the names v0, v1, .."""
    header, changes = text.split("$enddefinitions $end\n")
    declared = re.findall(r"\$var wire 32 (\S+) v(\d+)(?: \[31:0\])? \$end", header)
    variable = {code: int(number) for code, number in declared}
    found, values = [], {}
    for line in changes.splitlines():
        if line.startswith("#"):
            found.append((int(line[1:]), values := dict(values)))
        elif line.startswith("b"):
            bits, code = line[1:].split(" ")
            values[variable[code]] = int(bits, 2)
        elif line not in ("$dumpvars", "$end"):
            raise ValueError(f"a line that this test does not know: {line}")
    return [(time, [values[v] for v in sorted(variable.values())]) for time, values in found]


def our_rows(dump, readings, room):
    (room / "ours.vcd").write_bytes(dump)
    lines = printed(room, readings, "ours.vcd").decode().splitlines()
    numbers = [[int(field) for field in line.split(",")] for line in lines]
    return [(time, values) for time, *values in numbers]


def dumps(waves):
    """Names and dumps: of sessions, and stored ones that are taken. A dump without variables is none that the viewer reads."""
    for folder in sorted([*EXAMPLES.iterdir(), *(HERE / "sessions").iterdir()]):
        dump = printed(folder, waves)
        if dump.startswith(b"$timescale"):
            yield folder.name, dump
    for folder in sorted((HERE / "dumps").iterdir()):
        dump = (folder / "dump.vcd").read_bytes()
        if not (folder / "expected.txt").read_text().startswith("dump,refused") and b"$var" in dump:
            yield folder.name, dump


def main():
    if len(sys.argv) != 3:
        sys.exit("usage: viewer.py WAVES READINGS")
    if not all(shutil.which(tool) for tool in ("vcd2fst", "fst2vcd")):
        print("skipped: a viewer's own reader of our dumps (GTKWave's vcd2fst and fst2vcd are not installed)")
        return
    waves, readings = (str(pathlib.Path(program).resolve()) for program in sys.argv[1:])
    count = times = failed = 0
    with tempfile.TemporaryDirectory() as folder:
        room = pathlib.Path(folder)
        for name, dump in dumps(waves):
            ours, theirs = our_rows(dump, readings, room), rows(through_the_viewer(dump, room))
            count, times = count + 1, times + len(ours)
            if ours != theirs:
                failed += 1
                print(f"differs: {name}: ours {ours}, the viewer's {theirs}")
    print(f"a viewer's own reader: {count} dumps passed, {times} times with all values, {failed} failed")
    sys.exit(failed != 0)


main()
