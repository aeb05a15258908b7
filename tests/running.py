"""Runs of the built program: what goes in, what has to come out, and what is wrong where something else does."""

import os
import subprocess
from concurrent.futures import ThreadPoolExecutor
from dataclasses import dataclass
from pathlib import Path
from typing import Callable

ROOT = Path(__file__).resolve().parent.parent
PROGRAM = ROOT / "crates" / "mirconst" / "out" / "mirconst"

# What the standard input and the standard output may be, where they are no pipes.
DIRECTORY, FULL = "directory", "full"

THREADS = 3
# The longest input takes half a minute, and more where the machine is busy.
SECONDS = 300
SHOWN = 300


@dataclass(frozen=True)
class Run:
    """A run with its words, and what it has to end with.

    `input` makes the bytes of the standard input. `goals` has a text for each goal, where each has two lines in the
    report: a fault of such a goal is told with its text.
    """

    name: str
    input: Callable[[], bytes]
    exit: int
    report: str = ""
    line: str = ""
    words: tuple = ()
    stdin: str = ""
    stdout: str = ""
    goals: tuple = ()


def ended(program, run):
    """Runs the program. The answer has the exit code and what was written to the pipes."""
    words = [program, *(os.fsencode(word) for word in run.words)]
    options = {"stderr": subprocess.PIPE, "timeout": SECONDS, "check": False}
    with open("/dev/full" if run.stdout == FULL else os.devnull, "wb") as sink:
        options["stdout"] = sink if run.stdout == FULL else subprocess.PIPE
        if run.stdin != DIRECTORY:
            return subprocess.run(words, input=run.input(), **options)
        folder = os.open("/", os.O_RDONLY)
        try:
            return subprocess.run(words, stdin=folder, **options)
        finally:
            os.close(folder)


def shown(text):
    """The beginning of a text, in quotes."""
    return repr(text if len(text) <= SHOWN else text[:SHOWN] + "..")


def first_difference(found, wanted):
    """What is wrong in a report: its first line that isn't the wanted one."""
    lines, others = found.split("\n"), wanted.split("\n")
    place = next((i for i, (one, other) in enumerate(zip(lines, others)) if one != other), min(len(lines), len(others)))
    line, other = ("".join(texts[place : place + 1]) for texts in (lines, others))
    return f"line {place + 1} of the report is {shown(line)}, and not {shown(other)}"


def faults_of_goals(found, wanted, goals):
    """What is wrong in the lines of each goal."""
    lines, others = found.split("\n"), wanted.split("\n")
    for place, goal in enumerate(goals):
        line, other = (" ".join(texts[2 * place : 2 * place + 2]) for texts in (lines, others))
        if line != other:
            yield f"{goal}: {shown(line)}, and not {shown(other)}"


def faults_of_run(program, run):
    """Runs the program. The answer is what is wrong."""
    try:
        found = ended(program, run)
    except subprocess.TimeoutExpired:
        return [f"no end after {SECONDS} s"]
    line = found.stderr.decode(errors="replace").removesuffix("\n")
    report = (found.stdout or b"").decode(errors="replace")
    if report == run.report and (found.returncode, line) == (run.exit, run.line):
        return []
    faults = list(faults_of_goals(report, run.report, run.goals))
    if (found.returncode, line) != (run.exit, run.line):
        ends = f"exit {found.returncode} with the line {shown(line)}, and not {run.exit} with {shown(run.line)}"
        return [ends] if found.returncode > 1 or not faults else faults
    return faults or [first_difference(report, run.report)]


def faults_of(program, runs):
    """What is wrong in these runs, each with its name."""
    with ThreadPoolExecutor(THREADS) as pool:
        answers = pool.map(lambda run: faults_of_run(program, run), runs)
        return [f"{run.name}: {fault}" for run, faults in zip(runs, answers) for fault in faults]
