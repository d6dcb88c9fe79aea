#!/usr/bin/env python3
"""Runs the tests of a crate many times in a row, to look for an outcome that depends on the schedule of threads.

    tools/repeat_tests.py CRATE [TIMES]

`rt test` in the crate's folder must have built the tests. Each test runs TIMES times (100 if not said), each run in a
process of its own that has 60 seconds. The status is 0 where every run passed. No proof rests on this.
"""

import pathlib
import subprocess
import sys


def main(words):
    if len(words) not in (1, 2):
        print(__doc__, file=sys.stderr)
        return 1
    crate, times = words[0], int(words[1]) if len(words) == 2 else 100
    root = pathlib.Path(__file__).resolve().parent.parent
    program = root / "crates" / crate / "out" / f"{crate}_tests"
    listed = subprocess.run([program, "--list"], capture_output=True, text=True, check=True).stdout
    tests = [line.removesuffix(": test") for line in listed.splitlines() if line.endswith(": test")]
    failed = 0
    for test in tests:
        for _ in range(times):
            try:
                run = subprocess.run([program, test], capture_output=True, timeout=60)
                passed = run.returncode == 0
            except subprocess.TimeoutExpired:
                passed = False
            failed += not passed
    print(f"{len(tests)} tests, {times} times each: {failed} failed")
    return 0 if tests and failed == 0 else 1


sys.exit(main(sys.argv[1:]))
