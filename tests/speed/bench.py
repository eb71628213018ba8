#!/usr/bin/env python3
"""Times the bench program on card K and as many whole calls as 65,536 bytes hold: tests/speed/bench.py

Builds the program (which proves it), runs it five times and prints the shortest time.
"""
import pathlib
import subprocess
import tempfile
import time

ROOT = pathlib.Path(__file__).resolve().parents[2]
ROUND = "call,0,0,9,0,0,0\n" + 14 * "step,0\n"


def main():
    [bench] = subprocess.run([ROOT / "tools/build", "bench"], check=True, stdout=subprocess.PIPE, text=True).stdout.split("\n")[:-1]
    with tempfile.TemporaryDirectory() as folder:
        card = (ROOT / "examples/card-k/card.txt").read_text().replace(",100\n", ",1000000\n", 1)
        (pathlib.Path(folder) / "card.txt").write_text(card)
        (pathlib.Path(folder) / "calls.txt").write_text(65536 // len(ROUND) * ROUND)
        seconds = []
        for _ in range(5):
            start = time.perf_counter()
            output = subprocess.run([bench], cwd=folder, check=True, capture_output=True).stdout
            seconds.append(time.perf_counter() - start)
    print(f"{output.count(10)} lines, {min(seconds):.3f} s")


if __name__ == "__main__":
    main()
