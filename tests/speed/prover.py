#!/usr/bin/env python3
"""Where the prover's time goes: seconds of each function of a crate, and of each kind of module that the toolchain makes of it.

    tests/speed/prover.py CRATE [MOST]       the MOST dearest (default 12)

The crate is checked from nothing by `rt check`, by one process, which writes a file for each module as soon as it is checked: a module's seconds are those
since the file before it. What was kept of it here goes; `rt` takes over what another copy of the repository on this machine has kept, if one has, and
then nothing is told. Not the verdict, and not part of the gate.
"""
import collections
import pathlib
import re
import shutil
import subprocess
import sys

ROOT = pathlib.Path(__file__).resolve().parents[2]


def modules(folder):
    """The checked modules in order of time, with their seconds."""
    files = [path for path in folder.rglob("*.oantt") if path.parent.name != "records" and not path.parent.name.endswith("-offers")]
    times = sorted((path.stat().st_mtime_ns, path.name.removesuffix(".oantt")) for path in files)
    return [((later - earlier) / 1e9, name) for (earlier, _), (later, name) in zip(times, times[1:])]


def summed(parts):
    sums = collections.Counter()
    for seconds, key in parts:
        sums[key] += seconds
    return sums.most_common()


def main(arguments):
    if len(arguments) not in (1, 2):
        print(__doc__)
        return False
    crate, most = arguments[0], int(arguments[1]) if len(arguments) == 2 else 12
    place = ROOT / "crates" / crate
    folder = place / "out" / "incremental"
    shutil.rmtree(folder, ignore_errors=True)
    # an empty folder, so that rt takes over no other copy's work
    folder.mkdir(parents=True)
    checked = subprocess.run(["rt", "check", "--jobs", "1"], cwd=place, capture_output=True, text=True)
    if checked.returncode != 0:
        print(f"prover.py: {crate} is not proved")
        return False
    taken = re.search(rf"^rt: {crate}: begins with what a check kept in (.*)", checked.stdout, re.M)
    if taken:
        print(f"prover.py: rt took over what {taken[1]} has kept of the same crate; remove its out/incremental and try again")
        return False
    found = [(seconds, name.removeprefix(f"Rattle-{crate}-proofs.").split(".")) for seconds, name in modules(folder)]
    kinds = summed((seconds, path[-1] if path[-1][:1].isupper() else "contract") for seconds, path in found)
    functions = summed((seconds, ".".join(word for word in path if not word[:1].isupper())) for seconds, path in found)
    print(f"{crate}: {sum(seconds for seconds, _ in found):.1f} s")
    print("by kind: " + ", ".join(f"{name} {seconds:.1f}" for name, seconds in kinds[:6]))
    for name, seconds in functions[:most]:
        print(f"{seconds:6.1f} {name or '(laws)'}")
    return True


if __name__ == "__main__":
    sys.exit(0 if main(sys.argv[1:]) else 1)
