#!/usr/bin/env python3
"""Counts the processor's instructions that a turn of a loop takes, a call, or a round of work on arrays, and tells in which functions of the program.

usage: instructions.py [--program PATH] [--only NAME]... [--top N]

The sources are those of `loops.py`, `calls.py` and `elements.py`. Each is run under valgrind's callgrind twice, at a number and at twice that number; of
both runs the first is taken off the second, so that what stands is that of the turns, of the calls or of the rounds between the two. The
counts are the same on every run of the same program and input, whatever else the machine does: they tell where the time goes, and not how much.
A function that the compiler put into another one counts for that one.
"""

import argparse
import re
import subprocess
import sys
import tempfile
from pathlib import Path

import calls
import elements
import loops

# How many turns the first of the two runs has, and the source's number there: of Fibonacci this is the argument.
TURNS, FIBONACCI = 2000, 14
# A line of callgrind's list: the instructions of a function, and its name.
LINE = re.compile(r"^\s*([\d,]+) \([^)]*\)\s+\S*?:(\S+)")


def fibonacci_calls(number):
    """How many calls the evaluation of `fib(number)` makes."""
    return 1 if number < 2 else 1 + fibonacci_calls(number - 1) + fibonacci_calls(number - 2)


def pairs_of(name):
    """The texts of the two files of a source, and how many turns, calls or rounds the second has more."""
    if name == "fibonacci":
        more = fibonacci_calls(FIBONACCI + 2) - fibonacci_calls(FIBONACCI)
        return calls.source_of(name, FIBONACCI), calls.source_of(name, FIBONACCI + 2), more
    if name in elements.SOURCES:
        return elements.source_of(name, 1), elements.source_of(name, 2), 1
    source_of = calls.source_of if name in calls.SOURCES else loops.source_of
    return source_of(name, TURNS), source_of(name, 2 * TURNS), TURNS


def counts(program, text, folder):
    """The instructions of a run of the program on the world of a file, by function."""
    file = Path(folder) / "source.rs"
    file.write_text(text, encoding="utf-8")
    found = Path(folder) / "found"
    words = ["valgrind", "--tool=callgrind", f"--callgrind-out-file={found}", str(program), "eval"]
    subprocess.run(words, input=loops.world_of(file), stdout=subprocess.DEVNULL, stderr=subprocess.DEVNULL, check=True)
    listed = subprocess.run(["callgrind_annotate", "--threshold=100", str(found)], stdout=subprocess.PIPE, check=True, text=True).stdout
    made = {}
    for line in listed.splitlines():
        if match := LINE.match(line):
            name = match[2].split("::<#")[0]
            made[name] = made.get(name, 0) + int(match[1].replace(",", ""))
    return made


def report(program, name, top, folder):
    """Prints what a turn, a call or a round of a source takes, and the functions that take most of it."""
    first, second, more = pairs_of(name)
    one, two = counts(program, first, folder), counts(program, second, folder)
    each = {function: (two[function] - one.get(function, 0)) / more for function in two}
    whole = sum(each.values())
    print(f"{name}: {whole:.0f} instructions for each of {more} more", flush=True)
    for function, count in sorted(each.items(), key=lambda pair: -pair[1])[:top]:
        print(f"  {count:8.0f} {100 * count / whole:5.1f} %  {function}", flush=True)


def main():
    parser = argparse.ArgumentParser(prog="instructions.py")
    parser.add_argument("--program", type=Path, default=loops.PROGRAM)
    parser.add_argument("--only", action="append", choices=[*loops.SOURCES, *calls.SOURCES, *elements.SOURCES])
    parser.add_argument("--top", type=int, default=8)
    chosen = parser.parse_args()
    if not chosen.program.exists():
        sys.exit(f"instructions: there is no program {chosen.program}")
    with tempfile.TemporaryDirectory() as folder:
        for name in chosen.only or [*loops.SOURCES, *calls.SOURCES, *elements.SOURCES]:
            report(chosen.program.resolve(), name, chosen.top, folder)


if __name__ == "__main__":
    main()
