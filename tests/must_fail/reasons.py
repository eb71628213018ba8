#!/usr/bin/env python3
"""Why the prover refused a change: at a fact, or only for names and shape, which shows nothing of a contract.

    tests/must_fail/reasons.py OUTPUT [CRATE..]   reads what `rt ci` or `rt must-fail` printed of the must-fail edits, of every crate or of those named
    tests/must_fail/reasons.py --self-test        reads the stored logs in samples/, whose names begin with what is to be found
    tests/must_fail/reasons.py --form             reads the edits alone: whether `rt` can make each of them

Reading an output, it prints a line for each edit that shows nothing and then a count, and fails if there is such an edit. `rt` keeps no log of an edit. It
prints one line for it, and says there where the edit was refused only because a proof file names what is gone, or at a limit of the prover, which gave no
verdict. `told` goes by that line. `reason` is the rule for the whole log of a check, which tests/mutation/mutate.py has; it is stricter than `rt`, as it
takes a goal that a proof file names by another name for one that was renamed. An edit has a line each for `file:`, `old:` and `new:`, and what stands
after `old:` stands once in that file.
"""
import pathlib
import re
import sys

ROOT = pathlib.Path(__file__).resolve().parents[2]
SAMPLES = pathlib.Path(__file__).resolve().parent / "samples"
# Edits that the gate leaves out; wide.sh tries them.
WIDE = pathlib.Path(__file__).resolve().parent / "wide"

# What follows from another error says nothing by itself.
CONSEQUENCE = re.compile(r"\b(was|were) not (admitted|checked)\b")
# The proof names what the changed code lacks, or is handed what it has no place for.
LACKS = re.compile(r" has no (`|field|member|module|function|constructor|clause|case|implicit argument)")
NAMES = re.compile(
    r"\bnot in scope\b"
    r"|expected a type, but|(expected type|has type) `[^`]*\b(Need|InvT|MeasureT)-"
    r"|this λ has \d+ binders, but its type has room for|explicit arguments? more than"
)
# A definition or a contract that is not well formed: no proof stands in these folders, so that an error there is about a fact only where the prover
# searched for a proof by itself.
DEFINITIONS = re.compile(r"(\./)?(src|specs)/")
SOUGHT = re.compile(r"`(search|omega)`: ")
ERROR = re.compile(r"^(?!note:|\s)(?P<file>\S+?)(:\d+:\d+)?: error: (?P<text>.*)")
# A goal that the prover found no proof of, and where it found values at which it is false.
GOAL = re.compile(r"^note: (?P<file>\S+?):\d+:\d+: (?P<text>it is not proved that .*)")
FALSE = "allow values at which this goal is false"
# What the goals of a loop are taken from.
INVARIANTS = "Invariants.antt"
# A line of an edit in what `rt` prints.
EDIT = re.compile(r"^rt: must-fail (?P<crate>\w+)/(?P<name>[\w.-]+)\.edit: (?P<text>.*)")
REFUSED = "refused, as it must be"


def messages(log):
    """The messages of a log: the first line of each, and all its lines in one. Lines that go on with a message begin with a space."""
    whole = []
    for line in log.splitlines():
        if whole and line.startswith(" "):
            whole[-1][1] += " " + line.strip()
        else:
            whole.append([line, line])
    return whole


def errors(log):
    """The errors of a log in order: the file, 'fact' or 'form', and the text. Consequences of other errors are left out."""
    for line, whole in messages(log):
        match = ERROR.match(line)
        if match and not CONSEQUENCE.search(match["text"]):
            definition = DEFINITIONS.match(match["file"]) and not SOUGHT.search(match["text"])
            form = definition or NAMES.search(match["text"]) or LACKS.search(whole)
            yield match["file"], "form" if form else "fact", match["text"]
        match = GOAL.match(line)
        if match:
            yield match["file"], "fact", match["text"]


def reason(log):
    """Why a change was refused: 'fact' if its first error is about a fact, in a file without an error about names or shape, or if a goal is false, whose
    invariants are not lost; else 'form'. And the error."""
    found = list(errors(log))
    if not found:
        return "form", "no error but those that follow from others"
    shapes = [(file, text) for file, kind, text in found if kind == "form"]
    false = [text for _, _, text in found if FALSE in text]
    if false and not any(file.endswith(INVARIANTS) for file, _ in shapes):
        return "fact", false[0]
    for file, text in shapes:
        if file == found[0][0]:
            return "form", text
    return found[0][1], found[0][2]


def told(text):
    """What a line of `rt` says of an edit: 'fact' or 'form', and why."""
    if not text.startswith(f"{REFUSED}: "):
        return "form", text.removeprefix(f"{REFUSED} ")
    return reason(text.removeprefix(f"{REFUSED}: "))


def judge_edits(output, crates):
    """Prints each must-fail edit that shows nothing, and the count; true if there is none."""
    said = {(match["crate"], match["name"]): match["text"] for match in map(EDIT.match, output.read_text(errors="replace").splitlines()) if match}
    edits = sorted(path for path in ROOT.glob("crates/*/must-fail/*.edit") if not crates or path.parts[-3] in crates)
    failures = 0
    for edit in edits:
        crate, name = edit.parts[-3], edit.stem
        kind, text = told(said.get((crate, name), "nothing is told of it"))
        if kind != "fact":
            failures += 1
            print(f"must-fail {crate}/{name}: refused for names or shape, not at a fact: {text[:300]}")
    print(f"{len(edits)} must-fail edits, {failures} not refused at a fact")
    return failures == 0


def fault_of(edit):
    """What is wrong with the form of an edit, if anything."""
    crate = ROOT / "crates" / (edit.parts[-3] if edit.parts[-2] == "must-fail" else edit.parts[-2])
    sources, file, old = {}, None, None
    for line in edit.read_text().splitlines():
        word, _, rest = line.partition(":")
        if line.startswith("#") or not line:
            continue
        if word == "file":
            file = crate / rest.strip()
            if not file.is_file():
                return f"no file {rest.strip()}"
            sources.setdefault(file, file.read_text())
        elif word == "old" and file:
            old = rest.removeprefix(" ")
            if sources[file].count(old) != 1:
                return f"stands {sources[file].count(old)} times: {old}"
        elif word == "new" and old:
            sources[file], old = sources[file].replace(old, rest.removeprefix(" ")), None
        else:
            return f"a line of another form: {line}"
    changed = any(text != path.read_text() for path, text in sources.items())
    return None if changed and not old else "nothing is changed"


def form_test():
    """Reads the edits alone; true if each can be made."""
    edits = sorted([*ROOT.glob("crates/*/must-fail/*.edit"), *WIDE.glob("*/*.edit")])
    faults = [(edit, fault) for edit in edits if (fault := fault_of(edit))]
    for edit, fault in faults:
        print(f"{edit.relative_to(ROOT)}: {fault}")
    print(f"{len(edits)} must-fail edits, {len(faults)} that cannot be made")
    return bool(edits) and not faults


def self_test():
    """Judges the stored logs, of checks and of single lines of `rt`; true if each has what its name begins with."""
    samples = sorted(SAMPLES.glob("*.log"))
    wrong = []
    for path in samples:
        log = path.read_text()
        line = EDIT.match(log)
        found = told(line["text"]) if line else reason(log)
        if found[0] != path.name.split("-")[0]:
            wrong.append(path.name)
            print(f"samples/{path.name}: not what its name says: {found}")
    print(f"{len(samples)} stored logs, {len(wrong)} judged wrongly")
    return bool(samples) and not wrong


if __name__ == "__main__":
    tests = {"--self-test": self_test, "--form": form_test}
    arguments = sys.argv[1:]
    if not arguments:
        sys.exit(__doc__)
    fine = tests[arguments[0]]() if arguments[0] in tests else judge_edits(pathlib.Path(arguments[0]), arguments[1:])
    sys.exit(0 if fine else 1)
