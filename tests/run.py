#!/usr/bin/env python3
"""Runs the built program on all cases in `cases`, and compares the exit code, the report and the line on the standard
error with what each case says. `README.md` beside this file says how a case is written.

usage: run.py [PROGRAM]

Without PROGRAM it is the one that `rt ci` or `rt run` leaves. A line is printed for each fault, and last how many runs
there were. The exit code is 1 where there are faults, also where there is no program.
"""

import sys
from pathlib import Path

from case_files import all_runs, faults_of_origins
from case_inputs import BadCase
from faults import show
from running import PROGRAM, faults_of
from rust_text import NoBody


def names_twice(runs):
    """A fault for each name that stands twice."""
    names = sorted(run.name for run in runs)
    return [f"{name}: stands twice" for name, next_name in zip(names, names[1:]) if name == next_name]


def main():
    if len(sys.argv) > 2:
        sys.exit("usage: run.py [PROGRAM]")
    program = Path(sys.argv[1]).resolve() if len(sys.argv) == 2 else PROGRAM
    if not program.is_file():
        print(f"cases: there is no program {program}")
        return 1
    try:
        runs = list(all_runs())
    except (BadCase, NoBody) as fault:
        print(f"cases: {fault}")
        return 1
    faults = [*names_twice(runs), *faults_of_origins(), *faults_of(program, runs)]
    show("cases", faults)
    print(f"cases: {len(runs)} runs, {len(faults)} faults")
    return 1 if faults else 0


if __name__ == "__main__":
    sys.exit(main())
