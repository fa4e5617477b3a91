#!/usr/bin/env python3
"""The scripts of this folder through the proved runner (crates/speed) and through the interpreter, the fastest of several runs each.

Both lend 4,000 cells in the chain store, 3,000 entries on each stack and a thousand million steps. Build both first: `rt run` in crates/speed,
`cargo build --release --offline` in bench/interpreter."""

import os
import re
import subprocess
import tempfile

HERE = os.path.dirname(os.path.abspath(__file__))
TOP = os.path.dirname(os.path.dirname(HERE))
PROVED = os.path.join(TOP, "crates", "speed", "out", "speed")
PLAIN = os.path.join(TOP, "bench", "interpreter", "target", "release", "interpreter")
SIZES = ["--first", "3000", "--second", "3000", "--cells", "4000", "--allowance", "1000000000", "--time", "10"]
TIMES = 5


def proved(script):
    """Steps, cells taken and nanoseconds of a run."""
    with tempfile.TemporaryDirectory() as folder:
        with open(script, "rb") as it, open(os.path.join(folder, "script.com"), "wb") as to:
            to.write(it.read())
        ran = subprocess.run([PROVED], cwd=folder, stdin=subprocess.DEVNULL, capture_output=True, text=True, check=True)
    steps, cells = map(int, re.match(r"(\d+) steps, (\d+) cells", ran.stdout).groups())
    return steps, cells, float(ran.stderr.split()[0])


def plain(script):
    ran = subprocess.run([PLAIN, *SIZES, script], stdin=subprocess.DEVNULL, capture_output=True, text=True, check=True)
    steps, cells, time = re.search(r"(\d+) steps, (\d+) cells taken, in ([\d.]+) us", ran.stdout + ran.stderr).groups()
    return int(steps), int(cells), float(time) * 1000


def main():
    print("| script | steps | cells taken | proved | plain |\n|---|---|---|---|---|")
    for name in sorted(it for it in os.listdir(HERE) if it.endswith(".com")):
        script = os.path.join(HERE, name)
        # in turn, so that what else the machine does falls on both
        pairs = [(proved(script), plain(script)) for _ in range(TIMES)]
        one, other = (min(it, key=lambda r: r[2]) for it in zip(*pairs))
        assert one[:2] == other[:2], f"{name}: {one[:2]} and {other[:2]}"
        steps, cells, _ = one
        if cells > steps:
            told = [f"{r[2] / cells:.1f} ns a cell" for r in (one, other)]
        else:
            told = [f"{steps / r[2] * 1000:.0f} million steps a second" for r in (one, other)]
        print(f"| `{name}` | {steps:,} | {cells:,} | {told[0]} | {told[1]} |")


if __name__ == "__main__":
    main()
