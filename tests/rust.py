#!/usr/bin/env python3
"""Runs the built program on worlds that were made of Rust files, and compares the values with those of the compiler.

usage: rust.py [PROGRAM] [--only NAME]
       rust.py --remake [--write] [--only NAME]

Without PROGRAM it is the one that `rt ci` or `rt run` leaves; where there is none, nothing is tested. For each
`tests/rust/NAME.rs` there are `NAME.json`, the world that `front/world` made of it, and `NAME.expected`, a line for
each goal that says what the compiler does with it (`rust_expected.py`). An answer that a form isn't built is
counted apart, and is no failure.

With `--remake` the worlds and the expectations are made anew, by `front/world` and rustc, and compared with the files;
with `--write` they are written. `--only` takes the file with this name alone. The exit code is 1 where something
differs.
"""

import argparse
import subprocess
import sys
from concurrent.futures import ThreadPoolExecutor
from pathlib import Path

from rust_expected import MADE_WITH, agrees, compiler_version, read_expected, remake

TESTS = Path(__file__).resolve().parent
RUST = TESTS / "rust"
PROGRAM = TESTS.parent / "crates" / "mirconst" / "out" / "mirconst"
NOT_BUILT = 'NotSupported("form not built")'
SECONDS = 600
THREADS = 3


def files(only):
    """The Rust files, by their names."""
    found = sorted(RUST.glob("*.rs"))
    return [file for file in found if only is None or file.stem == only]


def answers(report):
    """The answer to each goal, without its number: ("value", TYPE, HEX) or ("error", FAULT)."""
    for line in report.split("\n"):
        if line.startswith("goal "):
            _, _, sort, rest = line.split(" ", 3)
            if sort == "value":
                ty, _, shown = rest.rpartition(" ")
                yield "value", ty, shown
            else:
                yield "error", rest


def compare(program, file):
    """How many goals of a file agree and how many wait, and a line for each that differs."""
    world = file.with_suffix(".json").read_bytes()
    expected = read_expected(file.with_suffix(".expected"))
    done = subprocess.run([str(program)], input=world, capture_output=True, timeout=SECONDS, check=False)
    if done.returncode not in (0, 1):
        return 0, 0, [f"exit code {done.returncode}: {done.stderr.decode('utf-8', 'replace').strip()}"]
    told = list(answers(done.stdout.decode("utf-8")))
    if len(told) != len(expected):
        return 0, 0, [f"{len(told)} answers to {len(expected)} goals"]
    agreed, waiting, wrong = 0, 0, []
    for answer, wanted in zip(told, expected):
        if agrees(answer, wanted):
            agreed += 1
        elif answer[0] == "error" and NOT_BUILT in answer[1]:
            waiting += 1
        else:
            wrong.append(f"{wanted.name}: {' '.join(answer)}, where {wanted.says()} is expected")
    return agreed, waiting, wrong


def run(program, only):
    """Compares all files, and answers the exit code."""
    agreed, waiting, differ = 0, 0, 0
    with ThreadPoolExecutor(THREADS) as threads:
        compared = list(threads.map(lambda file: compare(program, file), files(only)))
    for file, (file_agreed, file_waiting, wrong) in zip(files(only), compared):
        for line in wrong:
            print(f"rust: {file.stem}: {line}")
        agreed, waiting, differ = agreed + file_agreed, waiting + file_waiting, differ + len(wrong)
    print(f"rust: {agreed} goals agree with the compiler, {waiting} wait for a form, {differ} differ")
    return 1 if differ else 0


def check_made(only, write):
    """Makes all worlds and expectations anew, and answers the exit code."""
    found = compiler_version()
    if found != MADE_WITH:
        print(f"rust: skipped, as the worlds are made with rustc {MADE_WITH}, and there is {found or 'none'}")
        return 1 if write else 0
    stale = 0
    for file in files(only):
        for path, text in remake(file):
            if path.exists() and path.read_text(encoding="utf-8") == text:
                continue
            if write:
                path.write_text(text, encoding="utf-8")
                print(f"rust: {path.name} written")
            else:
                stale += 1
                print(f"rust: {path.name} is not what is made now")
    print(f"rust: {len(files(only))} files made anew, {stale} differ")
    return 1 if stale else 0


def main(words):
    parser = argparse.ArgumentParser(prog="rust.py")
    parser.add_argument("program", nargs="?", type=Path, default=PROGRAM)
    parser.add_argument("--remake", action="store_true")
    parser.add_argument("--write", action="store_true")
    parser.add_argument("--only")
    chosen = parser.parse_args(words)
    if chosen.remake:
        return check_made(chosen.only, chosen.write)
    if not chosen.program.is_file():
        print(f"rust: skipped, as there is no program {chosen.program}")
        return 0
    return run(chosen.program, chosen.only)


if __name__ == "__main__":
    sys.exit(main(sys.argv[1:]))
