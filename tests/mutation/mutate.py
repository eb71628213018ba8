#!/usr/bin/env python3
"""Mutation test of the contracts: small changes to a crate's source that the prover should refuse.

    tests/mutation/mutate.py CRATE [MOST]

Each change alters one token of the code (a constant, a byte, a comparison, an operator, a truth value, a variant, two operands or
arguments swapped; never a contract, a comment or a type) in a copy of the repository, and the prover is asked. The verdicts:

    refused        a fact that the contract asks for no longer holds
    reshaped       the proof names parts that the changed code lacks, which shows nothing of the contract (tests/must_fail/reasons.py tells them apart)
    invalid        the compiler's front end refuses the change
    caught         a program is still proved, as no contract says what is read or written, and its stored output or its cases tell the change
    still proved   the change has no effect, or the contract leaves something open: printed for a person to judge

With MOST, an even sample of that many changes is tried. The prover is asked by `rt check`, which begins with what it has kept of the crate as it stands; a
program that is still proved is built and run. Not part of the gate.
"""
import os
import pathlib
import queue
import re
import shutil
import subprocess
import sys
import tempfile
import threading

ROOT = pathlib.Path(__file__).resolve().parents[2]
sys.path.insert(0, str(ROOT / "tests" / "must_fail"))
from reasons import reason  # noqa: E402

WORKERS = os.cpu_count() or 1
VERDICTS = ("refused", "reshaped", "invalid", "caught", "still proved")

# The stored cases of a program, tried where it is still proved and writes what its file 'stdout' has; a program is named by {}.
CASES = {
    "bench": ["tests/bench/run.sh", "{bench}"],
    "lent_session": ["tests/lent/run.sh", "{lent_session}"],
    "machines": ["tests/machines/run.sh", "{machines}"],
    "readings": ["tests/waves/run.sh", "{waves}", "{readings}"],
    "schedules": ["tests/schedules/run.sh", "{schedules}"],
    "sweep": ["tests/sweep/run.sh", "{sweep}"],
    "sweep_speed": ["tests/speed/sweep.py", "check", "{sweep_speed}"],
    "waves": ["tests/waves/run.sh", "{waves}", "{readings}"],
}

SWAPS = {"<": "<=", "<=": "<", "==": "!=", "!=": "==", "+": "-", "-": "+", "&&": "||", "||": "&&", "true": "false", "false": "true"}
OPERAND = r"[a-z_][\w.]*(?:\[[\w.]+\])?"
VARIANT = r"\b([A-Z]\w*)::([A-Z]\w*)\b(?!\s*[({])"


def code_lines(text):
    """The lines of function bodies, with their numbers: no contracts, types, comments or imports."""
    depth, clause, inside = 0, 0, False
    for number, line in enumerate(text.splitlines()):
        stripped = line.strip()
        braces = line.count("{") - line.count("}")
        if depth == 0 and clause == 0:
            inside = bool(re.match(r"(pub(\(crate\))? )?((const|unsafe|extern \"C\") )*fn ", stripped)) or (inside and stripped != "")
        if inside and (clause > 0 or stripped.startswith(("requires", "ensures", "ghost", "prove!"))):
            clause = max(0, clause + braces)
            continue
        if inside and depth > 0 and not stripped.startswith("//"):
            yield number, line
        depth += braces if inside else 0


def variants(text):
    """The variants without data of each enum that the source names, as Enum::Variant."""
    found = {}
    for enum, variant in re.findall(VARIANT, text):
        found.setdefault(enum, set()).add(variant)
    return {enum: sorted(names) for enum, names in found.items()}


def innermost(start):
    """The bracket that is open at the end of a line's start."""
    depth = 0
    for char in reversed(start):
        depth += (char in ")]}") - (char in "([{")
        if depth < 0:
            return char
    return ""


def changes(line, enums):
    """Every changed form of a line, one token at a time."""
    for match in re.finditer(r"(?<![\w.'])\d+(?![\w.'])", line):
        yield match, str(int(match.group()) + 1)
    for match in re.finditer(r"(?<=b')[^\\'](?=')", line):
        yield match, chr(ord(match.group()) + 1)
    for match in re.finditer(r"(?<=[\w)\]] )(<=|<|==|!=|\+|-|&&|\|\|)(?= [\w(!])", line):
        yield match, SWAPS[match.group()]
    for match in re.finditer(r"\b(true|false)\b", line):
        yield match, SWAPS[match.group()]
    for match in re.finditer(VARIANT, line):
        names = enums.get(match.group(1), [])
        if len(names) > 1:
            other = names[(names.index(match.group(2)) + 1) % len(names)]
            yield match, f"{match.group(1)}::{other}"
    for match in re.finditer(rf"(?<![\w.])({OPERAND}) (-|<|<=|%) ({OPERAND})(?![\w.(\[']|::)", line):
        yield match, f"{match.group(3)} {match.group(2)} {match.group(1)}"
    for match in re.finditer(rf"(?<=[(\s])({OPERAND}), ({OPERAND})(?=[,)])", line):
        if match.group(1) != match.group(2) and innermost(line[: match.start()]) == "(":
            yield match, f"{match.group(2)}, {match.group(1)}"


def all_changes(crate):
    """All changes of a crate: the file, the line's number, the line before and after."""
    source = ROOT / "crates" / crate / "src"
    for path in sorted(source.glob("**/*.rt")):
        text = path.read_text()
        enums = variants(text)
        for number, line in code_lines(text):
            for match, new in changes(line, enums):
                yield path.relative_to(ROOT), number, line, line[: match.start()] + new + line[match.end():]


def ask(copy, crate):
    """The verdict of the toolchain."""
    answer = subprocess.run(["rt", "check"], cwd=copy / "crates" / crate, capture_output=True, text=True)
    output = answer.stdout + answer.stderr
    if answer.returncode == 0:
        return "still proved"
    if "logic=not-proved" not in output:
        return "invalid"
    return "refused" if reason(output)[0] == "fact" else "reshaped"


def is_program(crate):
    return (ROOT / "crates" / crate / "src" / "main.rt").is_file()


def built(copy, crate):
    """The program, proved and built."""
    return subprocess.run([copy / "tools/build", crate], check=True, stdout=subprocess.PIPE, stderr=subprocess.DEVNULL, text=True).stdout.rstrip("\n")


def writes_as_stored(copy, crate):
    """Whether a program writes what its crate's file 'stdout' has, on the files stdin, args and data/ beside it."""
    place = copy / "crates" / crate

    def stored(name):
        return (place / name).read_bytes() if (place / name).is_file() else b""

    program = built(copy, crate)
    with tempfile.TemporaryDirectory() as room:
        if (place / "data").is_dir():
            shutil.copytree(place / "data", room, dirs_exist_ok=True)
        call = [program, *stored("args").decode().splitlines()]
        try:
            ran = subprocess.run(call, cwd=room, input=stored("stdin"), stdout=subprocess.PIPE, stderr=subprocess.DEVNULL, timeout=120)
        except subprocess.TimeoutExpired:
            return False
    return ran.stdout == stored("stdout") and ran.returncode == int(stored("status") or 0)


def passes(copy, crate):
    """Whether a program that is still proved writes what is stored, and passes its cases."""
    if not writes_as_stored(copy, crate):
        return False
    words = [built(copy, word[1:-1]) if word.startswith("{") else word for word in CASES.get(crate, ["true"])]
    return subprocess.run(words, cwd=copy, capture_output=True).returncode == 0


def judge(copy, crate, change):
    """What the prover says of a change."""
    file, number, before, after = change
    target = copy / file
    text = target.read_text()
    lines = text.split("\n")
    assert lines[number] == before
    lines[number] = after
    target.write_text("\n".join(lines))
    verdict = ask(copy, crate)
    if verdict == "still proved" and is_program(crate) and not passes(copy, crate):
        verdict = "caught"
    target.write_text(text)
    return verdict


def copies(scratch, crate):
    """One copy of the repository for each worker, with the crate as it stands proved; `rt` begins there with what it has kept of the same files."""
    every = [pathlib.Path(scratch) / str(worker) for worker in range(WORKERS)]
    for copy in every:
        shutil.copytree(ROOT, copy, ignore=shutil.ignore_patterns(".git", "out", "target"))
        if ask(copy, crate) != "still proved" or (is_program(crate) and not passes(copy, crate)):
            sys.exit(f"{crate} is not proved as it stands, or fails its cases")
    return every


def work(copy, crate, jobs, verdicts):
    """Changes in one copy, until none is left."""
    while True:
        try:
            index, change = jobs.get_nowait()
        except queue.Empty:
            return
        verdicts[index] = judge(copy, crate, change)


def main():
    if len(sys.argv) < 2:
        sys.exit(__doc__)
    crate = sys.argv[1]
    every = list(all_changes(crate))
    most = int(sys.argv[2]) if len(sys.argv) > 2 else len(every)
    step = max(1, len(every) / max(1, most))
    chosen = [every[int(k * step)] for k in range(min(most, len(every)))]
    jobs, verdicts = queue.Queue(), {}
    for item in enumerate(chosen):
        jobs.put(item)
    with tempfile.TemporaryDirectory() as scratch:
        workers = [threading.Thread(target=work, args=(copy, crate, jobs, verdicts)) for copy in copies(scratch, crate)]
        for worker in workers:
            worker.start()
        for worker in workers:
            worker.join()
    counts = ", ".join(f"{list(verdicts.values()).count(verdict)} {verdict}" for verdict in VERDICTS)
    print(f"{crate}: {len(every)} changes found, {len(chosen)} tried: {counts}")
    for index, (file, number, before, after) in enumerate(chosen):
        if verdicts.get(index) in ("still proved", "reshaped"):
            print(f"  {verdicts[index]}: {file}:{number + 1}: {before.strip()}  ->  {after.strip()}")


if __name__ == "__main__":
    main()
