#!/usr/bin/env python3
"""Times the program `schedules` against tests/speed/schedules/schedules.rs, by turns: three processes, 11 and 12 steps, on card K and on a card of
weight 8. Both must print the same.

usage: run.py [ROUNDS [PROGRAM]]   (default 5, and schedules, which is proved and built first)

It prints seconds of processor time in user mode, the least and the median of all rounds, and the ratio of each.
"""
import os
import pathlib
import statistics
import subprocess
import sys
import tempfile

HERE = pathlib.Path(__file__).resolve().parent
ROOT = HERE.parents[2]
PROCESSES = 3
LENGTHS = (11, 12)


def card_k():
    lines = (ROOT / "examples/card-k/card.txt").read_text().split("\n", 1)
    return f"card,{PROCESSES},1,1,100\n{lines[1]}"


def heavy_card():
    """Its sheet writes the input to eight variables."""
    stores = "".join(f"ins,4,{variable},0,0\n" for variable in range(8))
    return f"card,{PROCESSES},8,1,100\n" + 8 * "var,7\n" + "sheet,9\nins,1,0,0,0\n" + stores


def timed(program, length, folder, output):
    """Seconds in user mode of one run, which writes to a file."""
    with open(output, "wb") as out:
        child = subprocess.Popen([program, str(length)], cwd=folder, stdout=out, stderr=subprocess.DEVNULL)
        _, status, usage = os.wait4(child.pid, 0)
        child.returncode = os.waitstatus_to_exitcode(status)
    if child.returncode != 0:
        sys.exit(f"run.py: {program} ended with status {child.returncode}")
    return usage.ru_utime


def same(first, second):
    return subprocess.run(["cmp", "-s", first, second], check=False).returncode == 0


def race(name, card, length, programs, rounds, room):
    (room / "card.txt").write_text(card)
    (room / "calls.txt").write_text("".join(f"call,{i},0,{9 + i},0,0,0\n" for i in range(PROCESSES)))
    listings = [room / "listing-rattle", room / "listing-rust"]
    for program, listing in zip(programs, listings):
        timed(program, length, room, listing)
    if not same(*listings):
        sys.exit(f"run.py: the two programs list {name} with {length} steps in other words")
    seconds = [[timed(program, length, room, os.devnull) for program in programs] for _ in range(rounds)]
    rattle, rust = zip(*seconds)
    for what, of in (("least", min), ("median", statistics.median)):
        print(f"{name}, {length} steps, {what}: Rattle {of(rattle):.3f} s, Rust {of(rust):.3f} s, ratio {of(rattle) / max(of(rust), 1e-3):.2f}")


def main():
    rounds = int(sys.argv[1]) if len(sys.argv) > 1 else 5
    if len(sys.argv) > 2:
        program = pathlib.Path(sys.argv[2]).resolve()
    else:
        built = subprocess.run([ROOT / "tools/build", "schedules"], check=True, stdout=subprocess.PIPE, text=True)
        program = pathlib.Path(built.stdout.removesuffix("\n"))
    with tempfile.TemporaryDirectory() as folder:
        room = pathlib.Path(folder)
        rust = room / "schedules_rust"
        subprocess.run(["rustc", "--edition", "2021", "-O", "-o", rust, HERE / "schedules.rs"], check=True)
        for name, card in (("card K", card_k()), ("weight 8", heavy_card())):
            for length in LENGTHS:
                race(name, card, length, (program, rust), rounds, room)


if __name__ == "__main__":
    main()
