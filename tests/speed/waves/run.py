#!/usr/bin/env python3
"""Times the proved programs `waves` and `readings` beside straightforward Rust on the same files, by turns: run.py [ROUNDS [WAVES READINGS]]

The Rust programs are waves.rs and readings.rs of this folder, optimised. The proved ones are built first (which proves them)
where they are not given. Both must print the same. Printed for each case: milliseconds of user time, the least and the median of all rounds, and the ratio."""
import os
import pathlib
import statistics
import subprocess
import sys
import tempfile

HERE = pathlib.Path(__file__).resolve().parent
ROOT = HERE.parents[2]
PROGRAMS = ("waves", "readings")
MOST_CALLS = 65_536
MOST_DUMP = 4_194_304
GREATEST = (1 << 32) - 1


def header(variables):
    declared = [f"$var wire 32 {chr(33 + v)} v{v} $end" for v in range(variables)]
    return ["$timescale 1 us $end", "$scope module card $end", *declared, "$upscope $end", "$enddefinitions $end"]


def largest_dump(variables):
    """Every variable changes at every time, between two values of 32 bits, or 0 and 1 where there is only one; as many times as a dump has room for."""
    text = "".join(line + "\n" for line in header(variables))
    groups, size, time = [text], len(text), 0
    while size <= MOST_DUMP:
        values = [time % 2 if variables == 1 else GREATEST - v - time % 2 for v in range(variables)]
        groups.append(f"#{time}\n" + "".join(f"b{value:b} {chr(33 + v)}\n" for v, value in enumerate(values)))
        size, time = size + len(groups[-1]), time + 1
    return "".join(groups[:-1])


def as_often_as_fits(operation):
    """Commands of one operation after the other, each given its number."""
    return "".join(operation(i) for i in range(MOST_CALLS // len(operation(0))))


def card_k():
    card = (ROOT / "examples/card-k/card.txt").read_text().replace(",100\n", ",1000000\n", 1)
    return card, as_often_as_fits(lambda i: f"call,0,0,{10 + i % 90},0,0,0\n" + 14 * "step,0\n")


def wide_card():
    """One operation writes 31 of 64 variables, in 74 steps."""
    stores = "".join(f"ins,4,{v},0,0\n" for v in range(63, 32, -1))
    card = "card,1,64,1,1000000\n" + 64 * "var,4294967295\n" + f"sheet,32\nins,1,0,0,0\n{stores}"
    return card, as_often_as_fits(lambda i: f"call,0,0,{GREATEST - 1 - i % 2},0,0,0\n" + 74 * "step,0\n")


def cases(room):
    """What is timed: a name, the program, its arguments, the folder it runs in and how often a round runs it."""
    for name, (card, calls) in {"card K": card_k(), "64 variables": wide_card()}.items():
        folder = room / name
        folder.mkdir()
        (folder / "card.txt").write_text(card)
        (folder / "calls.txt").write_text(calls)
        yield f"waves, {name}, {calls.count('step')} steps", "waves", [], folder, 10
    for variables in (1, 64):
        text = largest_dump(variables)
        (room / f"{variables}.vcd").write_text(text)
        about = f"{len(text):,} bytes, {variables} variable{'s' * (variables > 1)}"
        yield f"readings, every time, {about}", "readings", [f"{variables}.vcd"], room, 4
        yield f"readings, a step, {about}", "readings", [f"{variables}.vcd", "1000"], room, 4


def user_time(program, arguments, folder, times):
    """Milliseconds of user time of one run, and what it printed."""
    spent = 0.0
    with tempfile.TemporaryFile() as output:
        for _ in range(times):
            output.seek(0)
            output.truncate()
            child = subprocess.Popen([program, *arguments], cwd=folder, stdout=output)
            _, status, usage = os.wait4(child.pid, 0)
            child.returncode = os.waitstatus_to_exitcode(status)
            spent += usage.ru_utime
        output.seek(0)
        return 1000 * spent / times, output.read()


def main():
    rounds = int(sys.argv[1]) if len(sys.argv) > 1 else 5
    given = sys.argv[2:]
    if not given:
        built = subprocess.run([ROOT / "tools/build", *PROGRAMS], check=True, stdout=subprocess.PIPE, text=True)
        given = built.stdout.splitlines()
    if len(given) != len(PROGRAMS):
        sys.exit(__doc__)
    proved = {name: pathlib.Path(path).resolve() for name, path in zip(PROGRAMS, given)}
    with tempfile.TemporaryDirectory() as folder:
        room = pathlib.Path(folder)
        for name in PROGRAMS:
            subprocess.run(["rustc", "--edition", "2021", "-O", "-o", room / f"rust-{name}", HERE / f"{name}.rs"], check=True)
        for what, program, arguments, place, times in cases(room):
            spent = {"Rattle": [], "Rust": []}
            for _ in range(rounds):
                ours, printed = user_time(proved[program], arguments, place, times)
                plain, expected = user_time(room / f"rust-{program}", arguments, place, times)
                if printed != expected:
                    sys.exit(f"run.py: {what}: the two programs print other bytes")
                spent["Rattle"].append(ours)
                spent["Rust"].append(plain)
            least = {name: min(all_of) for name, all_of in spent.items()}
            median = {name: statistics.median(all_of) for name, all_of in spent.items()}
            figures = ", ".join(f"{name} {least[name]:.1f} ms least, {median[name]:.1f} median" for name in spent)
            print(f"{what}: {figures}; ratio {least['Rattle'] / max(least['Rust'], 0.001):.1f}")


main()
