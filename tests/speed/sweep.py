#!/usr/bin/env python3
"""Times sweeps on card K's sheet with eight processes against tests/speed/steps/steps.rs, by turns: the program `sweep`, and the test program `sweep_speed`,
which makes the same run over a schedule and prints the shared cells and the counts at its end. The processes step by pseudo-random numbers, and in
`sweep_speed` also one after the other. What is printed, every field of gate, announcements and record among it, must be the same.

usage: sweep.py [STEPS [ROUNDS [SWEEP SWEEP_SPEED]]]   (default 10,000,000, 5 and the programs, which are proved and built first)
       sweep.py check [SWEEP_SPEED]          (times nothing: the cells and counts of many short runs, with limits that are reached in the middle of a schedule,
                                              processes that the card has not, tables of calls and loans that are too short)

It prints milliseconds of processor time in user mode, the least and the median of all rounds, the ratio of each, and steps a second.
"""
import os
import pathlib
import statistics
import subprocess
import sys
import tempfile

HERE = pathlib.Path(__file__).resolve().parent
ROOT = HERE.parents[1]
PROGRAMS = ("sweep", "sweep_speed")
SEED = 88172645463325252


def timed(call, words, room):
    """What one run prints, and its milliseconds in user mode."""
    with open(room / "words", "w+b") as given, open(room / "printed", "w+b") as printed:
        given.write(words)
        given.seek(0)
        child = subprocess.Popen(call, cwd=room, stdin=given, stdout=printed, stderr=subprocess.DEVNULL)
        _, status, usage = os.wait4(child.pid, 0)
        child.returncode = os.waitstatus_to_exitcode(status)
        if child.returncode != 0:
            sys.exit(f"sweep.py: {call[0]} ended with status {child.returncode}")
        printed.seek(0)
        return printed.read().decode(), usage.ru_utime * 1000


def race(name, call, words, rust, part, steps, rounds, room):
    """Runs a program by turns with the Rust program, of whose output `part` gives what both must print."""
    times = []
    for _ in range(rounds):
        expected, by_rust = timed(rust, b"", room)
        printed, by_rattle = timed(call, words, room)
        if printed != part(expected):
            sys.exit(f"sweep.py: {name}: it prints\n{printed}and the Rust program\n{part(expected)}")
        times.append((by_rattle, by_rust))
    for what, of in (("least", min), ("median", statistics.median)):
        rattle, beside = (of(column) for column in zip(*times))
        ratio = rattle / max(beside, 1)
        print(f"{name}, {what}: Rattle {rattle:.0f} ms ({steps / max(rattle, 1) / 1000:.1f} million steps a second), Rust {beside:.0f} ms, ratio {ratio:.2f}")


def cells(text):
    return text.split("steps,")[0]


def lines(text):
    return "steps," + text.split("steps,")[1]


# A schedule of at most this many bytes, in whole rounds of its processes, is run again and again; 4,000 are whole rounds of eight.
LENGTH = 4000
FOREVER = 10**18


def asked(count, limit, words, loan, last):
    """What `sweep_speed` is given, and the Rust program's words for the same."""
    schedule = bytes(range(last + 1)) * (LENGTH // (last + 1)) if last else b""
    steps = count * len(schedule) if last else count
    return f"{count},{limit},{words},{loan}\n".encode() + schedule, [steps, "sweep", last, limit, words, loan]


def check(test, rust, room):
    """Short runs of every kind."""
    runs = 0
    for last in (0, 1, 7, 8, 15, 255):
        counts = (0, 1, 2, 3) if last else (0, 1, 9, 4095, 4096, 4097, 20000)
        for count in counts:
            for limit in (5, 4000, 4001, 9999, FOREVER):
                tables = (40, 39, 36, 5, 4, 0) if last else (40,)  # pseudo-random pieces end with the first refused step, so all are called again
                for words, loan in [(words, 48) for words in tables] + [(40, 47), (40, 0)]:
                    given, call = asked(count, limit, words, loan, last)
                    expected, _ = timed([rust, *map(str, call)], b"", room)
                    printed, _ = timed([test], given, room)
                    if printed != cells(expected):
                        sys.exit(f"sweep.py: {call}: it prints\n{printed}and the Rust program\n{cells(expected)}")
                    runs += 1
    print(f"sweeps over lent schedules: {runs} runs with the cells and counts of the Rust program")


def main():
    arguments = sys.argv[1:]
    is_check = arguments[:1] == ["check"]
    numbers = [] if is_check else arguments[:2]
    steps, rounds = (int(word) for word in (numbers + ["10000000", "5"][len(numbers) :]))
    wanted = PROGRAMS[1:] if is_check else PROGRAMS
    given = arguments[1:] if is_check else arguments[2:]
    if not given:
        built = subprocess.run([ROOT / "tools/build", *wanted], check=True, stdout=subprocess.PIPE, text=True)
        given = built.stdout.splitlines()
    if len(given) != len(wanted):
        sys.exit(__doc__)
    *sweep, test = (pathlib.Path(path).resolve() for path in given)
    with tempfile.TemporaryDirectory() as name:
        room = pathlib.Path(name)
        rust = str(room / "steps")
        subprocess.run(["rustc", "--edition", "2021", "-O", "-o", rust, HERE / "steps/steps.rs"], check=True)
        if is_check:
            check(test, rust, room)
            return
        _, sheet = (ROOT / "examples/card-k/card.txt").read_text().split("\n", 1)
        (room / "card.txt").write_text(f"card,8,1,1,{FOREVER}\n{sheet}")
        (room / "calls.txt").write_text("".join(f"call,{i},0,{i},0,0,0\n" for i in range(8)))
        print(f"{steps} steps, {rounds} rounds")
        given, words = asked(steps, FOREVER, 40, 48, 0)
        call = [rust, *map(str, words)]
        race("sweep, pseudo-random", [*sweep, str(steps), str(SEED)], b"", call, lines, steps, rounds, room)
        race("run, pseudo-random", [test], given, call, cells, steps, rounds, room)
        given, words = asked(steps // LENGTH, FOREVER, 40, 48, 7)
        call = [rust, *map(str, words)]
        race("run, one after the other", [test], given, call, cells, words[0], rounds, room)


if __name__ == "__main__":
    main()
