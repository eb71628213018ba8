#!/usr/bin/env python3
"""Replays docs/FORMATS.md through the proved programs in the out/ of their crates and through the commands at the top of the repository, which find nothing to prove.

- A block marked `text FILE` is a file; one marked `text ./COMMAND ..` is what that command prints, with FOLDER for one with the files last shown, and so
  without arguments. Lines that begin with the command's name and a colon are its standard error.
- A line in backquotes followed by `in [NAME](../examples/NAME)` is one that this example prints.
- The tables are complete (refusals, codes, labels and commands by the definitions, programs by the scripts), and the program judges every range, weight and refusal.

The last line is a count; what does not hold has a line of its own and makes this fail."""
import os
import pathlib
import re
import shutil
import subprocess
import sys
import tempfile

ROOT = pathlib.Path(__file__).resolve().parent.parent.parent
PAGE = (ROOT / "docs/FORMATS.md").read_text()
CARD_K = (ROOT / "examples/card-k/card.txt").read_text().splitlines()
VARIABLES = 4  # of the card that codes are tried on

checks = failures = 0


def holds(what, found, expected):
    """Counts whether two things are the same."""
    global checks, failures
    checks += 1
    if found != expected:
        failures += 1
        print(f"does not hold: {what}: {found!r}, expected {expected!r}")


def built(name):
    """The program that the toolchain has built."""
    return ROOT / "crates" / name / "out" / name


def section(name):
    return PAGE.split(f"\n## {name}\n")[1].split("\n## ")[0]


def rows(name, first):
    """The cells of the rows of a section's table whose head begins so."""
    table = section(name).split(f"\n| {first} |")[1].split("\n\n")[0].splitlines()[2:]
    return [[cell.strip() for cell in row.strip("|").split("|")] for row in table]


def quoted(cell):
    return re.findall(r"`([^`]*)`", cell)


def ask(card, calls, command="./bench FOLDER"):
    """What a program prints, line by line."""
    program, _, *arguments = command.split()
    with tempfile.TemporaryDirectory() as room:
        for name, lines in (("card.txt", card), ("calls.txt", calls)):
            (pathlib.Path(room) / name).write_text("".join(line + "\n" for line in lines))
        call = [built(program[2:]), *arguments]
        return subprocess.run(call, cwd=room, capture_output=True, text=True).stdout.splitlines()


def ask_quoted(card, commands):
    """The same; a command of the repository may stand first, and the lines of the calls follow."""
    if commands and commands[0].startswith("./machines "):
        return ask_machines(card, commands[1:])
    if commands and commands[0].startswith("./"):
        return ask(card, commands[1:], commands[0])
    return ask(card, commands)


def ask_machines(card, lines):
    """The lines of machines.txt stand before the commands; machine 0 has the card."""
    first = next((place for place, line in enumerate(lines) if not line.startswith("machine")), len(lines))
    with tempfile.TemporaryDirectory() as room:
        for name, text in (("machines.txt", lines[:first]), ("card0.txt", card), ("calls.txt", lines[first:])):
            (pathlib.Path(room) / name).write_text("".join(line + "\n" for line in text))
        return subprocess.run([built("machines")], cwd=room, capture_output=True, text=True).stdout.splitlines()


def blocks(path):
    """Files and printed lines as they follow each other on the page; `path` has an rt that only tells its version."""
    with tempfile.TemporaryDirectory() as room:
        for mark, text in re.findall(r"^```text (.*?)\n(.*?)^```", PAGE, re.M | re.S):
            words = mark.split()
            if not words[0].startswith("./"):
                (pathlib.Path(room) / words[0]).write_text(text)
                continue
            words = [room if word == "FOLDER" else word for word in words]
            if words == ["./bench"]:
                words.append(room)
            ran = subprocess.run(words, cwd=ROOT, capture_output=True, text=True, env={**os.environ, "PATH": path})
            told = re.findall(rf"^{words[0][2:]}: .*\n", text, re.M)
            holds(f"standard output of {mark}", ran.stdout, "".join(line for line in text.splitlines(True) if line not in told))
            holds(f"standard error of {mark}", ran.stderr, "".join(told))
            holds(f"exit status of {mark}", ran.returncode, 0)


def lines_of_examples():
    for line, name in re.findall(r"`([^`]*)` in \[([^]]*)\]\(\.\./examples/\2\)", PAGE):
        folder = ROOT / "examples" / name
        printed = ask((folder / "card.txt").read_text().splitlines(), (folder / "calls.txt").read_text().splitlines())
        holds(f"{line} in {name}", line in printed, True)


def ends(operand):
    """The first and last number of an operand, as 'number, 0 to 4,294,967,295'."""
    found = re.search(r"(\d+) to (n - 1|[\d,]+)", "0 to 3" if operand == "register" else operand)
    return int(found[1]), VARIABLES - 1 if found[2] == "n - 1" else int(found[2].replace(",", ""))


def codes():
    """Every operand at the ends of its range and past them, and what the code weighs beside code 13, which weighs 2."""

    def answer(*instructions):
        sheet = [f"sheet,{len(instructions)}", *instructions]
        return ask([f"card,1,{VARIABLES},1,9", *["var,0"] * VARIABLES, *sheet], ["step,0"])[0]

    definitions = (ROOT / "crates/construction/specs/Instructions.antt").read_text()
    table = rows("Codes", "code")
    holds("a row for each code", [int(row[0]) for row in table], list(range(1, 1 + len(re.findall(r"∷ row ", definitions)))))
    line = VARIABLES + 3
    for code, *operands, _, weight, example in table:
        instruction = quoted(example)[0]
        holds(f"{instruction} is accepted", answer(instruction), "step,0,refused,8")
        fields = instruction.split(",")
        for place, operand in enumerate(operands):

            def at(value):
                return answer(",".join(fields[: 2 + place] + [str(value)] + fields[3 + place :]))

            what = f"operand {'abc'[place]} of code {code}"
            if operand == "0":
                holds(what, at(1), f"card,refused,13,{line}")
                continue
            low, high = ends(operand)
            holds(what, [at(low), at(high), at(high + 1)], ["step,0,refused,8"] * 2 + [f"card,refused,12,{line}"])
            if low > 0:
                holds(what, at(low - 1), f"card,refused,12,{line}")
        taking = "ins,13,0,0,0"
        beside = [answer(*[taking] * 16, instruction), answer(*[taking] * 15, instruction, instruction)]
        holds(f"the weight of code {code}", beside, [f"card,refused,14,{line + 16}" if int(weight) > most else "step,0,refused,8" for most in (0, 1)])


def refusals():
    """Each row's example on card K: lines changed, then commands; or a card that is too long, or a sheet that is too heavy."""
    definitions = (ROOT / "crates/construction/specs/Answers.antt").read_text()
    table = rows("Refusals", "no.")
    numbers = sorted({int(number) for number in re.findall(r"^number_of \w+ = (\d+)", definitions, re.M)})
    holds("a row for each refusal", [int(row[0]) for row in table], numbers)
    for number, _, example, answer, _ in table:
        if not answer:
            continue
        card, commands = list(CARD_K), quoted(example)
        changed = re.match(r"line (\d+) is `([^`]*)`", example)
        long = re.search(r"([\d,]+) bytes", example)
        heavy = re.search(r"(\d+) lines `([^`]*)`", example)
        if changed:
            card[int(changed[1]) - 1] = changed[2]
            commands = commands[1:]
        elif long:
            card = ["x" * (int(long[1].replace(",", "")) - 1)]
        elif heavy:
            card[2:] = [f"sheet,{heavy[1]}", *[heavy[2]] * int(heavy[1])]
        holds(f"example of refusal {number}", ask_quoted(card, commands)[-1:], quoted(answer))


def refusals_of_changes():
    """Each row's example on card K: a change with its text, or one whose text is too long."""
    table = rows("Refusals", "no. | of a change")
    [command] = [row for row in rows("Commands", "command") if quoted(row[0])[0].startswith("change,")]
    numbers = sorted(int(number) for number in re.findall(r"\d+", command[3]))
    holds("a row for each refusal of a change", [int(row[0]) for row in table] + [15, 16], numbers)
    for number, _, example, answer, _ in table:
        long = re.search(r"([\d,]+) bytes", example)
        commands = ["change,0,2,1", "x" * (int(long[1].replace(",", "")) - 1)] if long else quoted(example)
        holds(f"example of refusal {number} of a change", ask(CARD_K, commands), quoted(answer))


def refusals_of_listings():
    """Each row's example on card K, which has one process; or calls that are too long."""
    table = rows("Refusals", "no. | of a listing")
    told = re.findall(r"`(?:calls|line,N|schedules),refused,(\d+)`", section("Every short schedule"))
    holds("a row for each refusal of a listing", [row[0] for row in table] + ["17"], told)
    for number, _, example, answer, _ in table:
        long = re.search(r"([\d,]+) bytes", example)
        commands = ["./schedules FOLDER 3", "x" * (int(long[1].replace(",", "")) - 1)] if long else quoted(example)
        holds(f"example of refusal {number} of a listing", ask_quoted(CARD_K, commands), quoted(answer))


def refusals_of_sweeps():
    """Each row's example on card K, which has one process; or calls that are too long."""
    table = rows("Refusals", "no. | of a sweep")
    told = re.findall(r"`(?:calls|line,N|call,process),refused,(\d+)`", section("Sweeps"))
    holds("a row for each refusal of a sweep", [row[0] for row in table], told)
    for number, _, example, answer, _ in table:
        long = re.search(r"([\d,]+) bytes", example)
        commands = ["./sweep FOLDER 9 1", "x" * (int(long[1].replace(",", "")) - 1)] if long else quoted(example)
        holds(f"example of refusal {number} of a sweep", ask_quoted(CARD_K, commands), quoted(answer))


def refusals_of_dumps():
    """Each row's example: the dump of the page with a line changed, cut off, or with too many bytes."""
    [dump] = re.findall(r"^```text \./waves examples/card-k\n(.*?)^```", PAGE, re.M | re.S)
    for what, example, answer in rows("Waveforms", "what is wrong"):
        lines = dump.splitlines(True)
        changed = re.match(r"line (\d+) is `([^`]*)`", example)
        cut = re.match(r"the dump ends after line (\d+)", example)
        if changed:
            lines[int(changed[1]) - 1] = changed[2] + "\n"
        elif cut:
            del lines[int(cut[1]) :]
        else:
            size = int(re.search(r"([\d,]+) bytes", example)[1].replace(",", ""))
            lines.append("x" * (size - len(dump)))
        with tempfile.TemporaryDirectory() as room:
            (pathlib.Path(room) / "dump.vcd").write_text("".join(lines))
            ran = subprocess.run([built("readings"), "dump.vcd"], cwd=room, capture_output=True, text=True)
        holds(f"refused dump: {what}", ran.stdout.splitlines(), quoted(answer))


def refusals_of_machines():
    """Each row's example, of which machine 0 has card K; or a text that is too long."""
    table = rows("Refusals", "no. | of machines")
    holds("a row for each refusal of machines", [row[0] for row in table], ["1", "2", "5"])
    for number, _, example, answer, _ in table:
        long = re.search(r"([\d,]+) bytes", example)
        lines = ["./machines FOLDER", "machine" + "x" * (int(long[1].replace(",", "")) - 8)] if long else quoted(example)
        holds(f"example of refusal {number} of machines", ask_quoted(CARD_K, lines), quoted(answer))


def commands_of_machines():
    """Those of the bench program with the machine behind the verb, with the same refusals and 5, or 19 besides; and `turn`."""
    single = {quoted(row[0])[0]: row[2:] for row in rows("Commands", "command")}
    table = {quoted(row[0])[0]: row[2:] for row in rows("Several machines", "command")}
    holds("the answer of turn", table.pop("turn", None), ["`taken`", ""])
    wanted = {}
    for command, (answers, refused) in single.items():
        verb, rest = command.split(",", 1)
        named = refused if refused.startswith("5") else f"5{';' if verb == 'change' else ','} {refused}"
        wanted[f"{verb},machine,{rest}"] = [answers, named + ", 19" if verb in ("step", "trace") else named]
    holds("a row for each command of machines", table, wanted)


def others():
    """A row for each label, for each command of the bench program, and for each script at the top that runs a program."""
    labels = re.findall(r'word = "(\w+)"', (ROOT / "crates/construction/specs/Reports.antt").read_text())
    holds("a row for each label", [row[0] for row in rows("Traced steps", "label | cell")], labels)
    words = re.findall(r'= fields "(\w+)"', (ROOT / "crates/commands/specs/CommandFields.antt").read_text())
    holds("a row for each command", sorted(quoted(row[0])[0].split(",")[0] for row in rows("Commands", "command")), sorted(words))
    scripts = [path.name for path in ROOT.iterdir() if path.is_file() and "tools/prove-and-run" in path.read_text()]
    holds("a row for each program", sorted(quoted(row[0])[0].split()[0][2:] for row in rows("Programs", "call")), sorted(scripts))


with tempfile.TemporaryDirectory() as bin_folder:
    stand_in = pathlib.Path(bin_folder) / "rt"
    stand_in.write_text(f'#!/bin/sh\n[ "$1" = version ] && exec {shutil.which("rt")} version\necho "rt was asked: $*" >&2\nexit 1\n')
    stand_in.chmod(0o755)
    blocks(f"{bin_folder}:{os.environ['PATH']}")
lines_of_examples()
codes()
refusals()
refusals_of_changes()
refusals_of_listings()
refusals_of_sweeps()
refusals_of_dumps()
refusals_of_machines()
commands_of_machines()
others()
print(f"page of formats: {checks} checks, {failures} failed")
sys.exit(failures != 0)
