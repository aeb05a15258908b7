#!/usr/bin/env python3
"""Compares the time that calls take with that of the Rust compiler's own evaluation, and measures the memory of calls in one another.

usage: calls.py [--program PATH] [--rustc PATH] [--runs N] [--only NAME]... [--depth N]...

Each source in `SOURCES` is a constant that calls functions, at a number: of Fibonacci, or of the turns of a loop that calls. Its time
is measured as `loops.py` measures loops, in `rustc` and in the program, and that of the same source at the number 1 is taken off both.

Then, for each depth, the peak memory of the program for so many calls in one another, of a function whose cells take few bytes, and
of one with a cell of 65536 bytes (`thin` and `wide`). No call returns before the innermost one is entered. From one depth to the next
it tells how many bytes a call takes: where the memory is in proportion to the depth, as many each time. The peak of a small run is that of
the Python that begins it, so the depths are such that the program takes more.
"""

import argparse
import json
import sys
import tempfile
from pathlib import Path

from loops import BLOCKS, BYTES, PROGRAM, RUNS, Bench, load, world_of
from measure import run_once

sys.path.insert(0, str(Path(__file__).resolve().parent.parent / "tests"))

from rust_text import read, read_function  # noqa: E402
from typed_bodies import body_row, world_of_bodies  # noqa: E402
from worlds import U8, array_of, sized  # noqa: E402


# The name of each source, what it is about, its number, and its text, in which NUMBER is that number.
SOURCES = {
    "fibonacci": (
        "two calls in each call",
        25,
        "const fn fib(n: u32) -> u32 { if n < 2 { n } else { fib(n - 1) + fib(n - 2) } } pub const GOAL: u32 = fib(NUMBER);",
    ),
    "loop": (
        "a call in each turn",
        1000000,
        "const fn step(s: u64, i: u64) -> u64 { (s ^ i) & 0xffff_ffff } pub const GOAL: u64 = "
        "{ let mut i = 0u64; let mut s = 0u64; while i < NUMBER { s = step(s, i); i = i + 1; } s };",
    ),
}
FILE = "#![allow(long_running_const_eval, unused)]\n{}\n"

# How many bytes a cell takes that the body of the function has besides those of its names and values.
CELLS = {"thin": 0, "wide": 65536}
DEPTHS = {"thin": (100000, 200000, 400000, 800000), "wide": (500, 1000, 2000, 4000)}


def source_of(name, number):
    """The text of a file with this source."""
    return FILE.format(SOURCES[name][2].replace("NUMBER", str(number)))


def chain(depth, cell):
    """The input of a constant that makes so many calls in one another, of a function with a cell of so many bytes."""
    called = read_function("fn down(n: u32) -> u32 { if n > 1 { down(n - 1) + 1 } else { 0 } }")
    made = world_of_bodies([(body_row(read(f"down({depth})"), "u32", functions=[called]), "u32")], [called])
    if cell:
        ty = array_of(U8, cell)
        row = made["world"]["bodies"][1]
        row["body"]["bindings"].append({"name": "wide", "mode": "Unannotated"})
        row["infer"]["binding_types"].append(ty)
        made["world"]["layouts"] = [*made["world"]["layouts"], sized(ty, cell, 1)]
    made["goals"][0]["limits"] = {"blocks": BLOCKS, "nesting": 100, "bytes": BYTES}
    return json.dumps(made).encode()


class Calls(Bench):
    """What is measured with, and how often."""

    def times(self, name, number, folder):
        """The times of the program and of rustc for a source at a number, and how many blocks the program enters."""
        file = Path(folder) / f"{name}_{number}.rs"
        file.write_text(source_of(name, number), encoding="utf-8")
        ours, report = self.program_time(world_of(file))
        return ours, self.rustc_time(file, folder), int(report.split("  turns ")[1].split()[0])

    def compare_calls(self, name, folder):
        """Prints the times of a source, and the factor."""
        about, number, _ = SOURCES[name]
        our_one, rust_one, _ = self.times(name, 1, folder)
        ours, theirs, blocks = self.times(name, number, folder)
        ours, theirs = ours - our_one, theirs - rust_one
        factor = f"factor {ours / theirs:.2f}" if theirs > 0 else "no factor, as rustc took no time"
        print(f"{name}: {about}, {number}. At 1: program {our_one:.3f} s, rustc {rust_one:.3f} s", flush=True)
        print(f"  program {ours:.3f} s, rustc {theirs:.3f} s, {factor}; {ours / blocks * 1e9:.0f} ns a block, {blocks} blocks", flush=True)

    def peak(self, tree, folder):
        """The median peak memory of the program on an input, in bytes."""
        file = Path(folder) / "input"
        file.write_bytes(tree)
        runs = [run_once(file, [str(self.program)]) for _ in range(self.runs)]
        if any(run[3] for run in runs):
            sys.exit(f"calls: the program ended with {[run[3] for run in runs]}")
        return sorted(run[2] for run in runs)[self.runs // 2] * 1e6

    def memory(self, name, depths, folder):
        """Prints the peak memory for each depth, and how many bytes a call takes from the depth before."""
        before, last = 0, None
        for depth in sorted(depths):
            peak = self.peak(chain(depth, CELLS[name]), folder)
            each = "" if last is None else f", {(peak - last) / (depth - before):.0f} bytes a call more"
            print(f"{name}: {depth} calls: {peak / 1e6:.1f} MB{each}", flush=True)
            before, last = depth, peak


def main(words):
    parser = argparse.ArgumentParser(prog="calls.py")
    parser.add_argument("--program", type=Path, default=PROGRAM)
    parser.add_argument("--rustc", default="rustc")
    parser.add_argument("--runs", type=int, default=RUNS)
    parser.add_argument("--only", choices=[*SOURCES, *CELLS], action="append")
    parser.add_argument("--depth", type=int, action="append")
    chosen = parser.parse_args(words)
    if min(chosen.depth or [1]) < 1:
        sys.exit("calls: a depth is 1 at least")
    if not chosen.program.is_file():
        sys.exit(f"calls: there is no program {chosen.program}")
    bench = Calls(chosen.program.resolve(), chosen.rustc, chosen.runs)
    print(f"load before: {load()}", flush=True)
    with tempfile.TemporaryDirectory() as folder:
        for name in SOURCES:
            if chosen.only is None or name in chosen.only:
                bench.compare_calls(name, folder)
        for name in CELLS:
            if chosen.only is None or name in chosen.only:
                bench.memory(name, chosen.depth or DEPTHS[name], folder)
    print(f"load after: {load()}")


if __name__ == "__main__":
    main(sys.argv[1:])
