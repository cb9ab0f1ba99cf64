#!/usr/bin/env python3
"""Measures how fast s3r_manifest reads a manifest of 20,000 lines, beside Python's own csv and urllib:

    bench/manifest/measure.py [PROGRAM]

PROGRAM is crates/s3r_manifest_rows/out/s3r_manifest_rows where none is named; `rt run` in its crate makes it. It reads each
manifest fifty times by its row `many`. What it takes to start and to make the text is measured by reading it no times, and is
taken off. Each figure is of the best of five runs, in processor time of the user, so that other work on the machine counts
little. It is no part of the gate.
"""

import csv
import io
import resource
import subprocess
import sys
import time
from pathlib import Path

sys.dont_write_bytecode = True
TOP = Path(__file__).resolve().parents[2]
sys.path.insert(0, str(TOP / "tests"))
import manifest_rows  # noqa: E402

LINES = 20_000
TIMES = 50
RUNS = 5

# What is measured, and a line of it: the key of the second is as long as keys often are, the third has escapes.
MANIFESTS = {
    "keys of 10 bytes": "abc,folder/key",
    "keys of 64 bytes": "photos-of-the-year,2026/12/02/" + "k" * 53,
    "keys with three escapes": "abc,a%2520folder/a%2520key%252b1",
    "keys in quotes": 'abc,"folder, with a key"',
}


def children():
    return resource.getrusage(resource.RUSAGE_CHILDREN).ru_utime


def program_time(program, times, line):
    """The user's time of one run of the program."""
    row = f"many {times} {LINES} * {line}%0A\n"
    before = children()
    answer = subprocess.run([program], input=row.encode(), capture_output=True, check=True).stdout.decode()
    if answer != f"lines in all: {times * LINES}\n":
        sys.exit(f"the program answered {answer!r}")
    return children() - before


def python_time(work):
    before = time.process_time()
    work()
    return time.process_time() - before


def rate(seconds, lines):
    return f"{lines / seconds:>12,.0f}"


def main():
    program = sys.argv[1] if len(sys.argv) > 1 else str(TOP / "crates/s3r_manifest_rows/out/s3r_manifest_rows")
    print(f"{'lines a second of user time':28}{'s3r_manifest':>12}{'python':>12}{'python, csv alone':>20}")
    for name, line in MANIFESTS.items():
        text = manifest_rows.text_of(f"{LINES} * {line}%0A")
        string = text.decode("latin-1")
        full = min(program_time(program, TIMES, line) for _ in range(RUNS))
        none = min(program_time(program, 0, line) for _ in range(RUNS))
        whole = min(python_time(lambda: manifest_rows.lines_of(False, text)) for _ in range(RUNS))
        alone = min(python_time(lambda: list(csv.reader(io.StringIO(string, newline="")))) for _ in range(RUNS))
        print(f"{name:28}{rate(full - none, TIMES * LINES)}{rate(whole, LINES)}{rate(alone, LINES):>20}")


if __name__ == "__main__":
    main()
