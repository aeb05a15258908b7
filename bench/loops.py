#!/usr/bin/env python3
"""Compares the time that loops take with that of the Rust compiler's own evaluation, and measures the parts of a turn.

usage: loops.py [--program PATH] [--rustc PATH] [--turns N]... [--runs N] [--only NAME]...

Each source in `SOURCES` is a constant whose block has a loop of N turns. Its time is measured twice in the same run: in
`rustc`, which evaluates the constant when it compiles the file, and in the program, on the world that `front/world` makes
of the file. Of both the time of the same source with one turn is taken off, so that what stands is that of the turns alone.
Then worlds that are written by hand tell what it takes to enter a block, to go on behind a drop, and to assign the value
of one operator to a number of 8 bytes.

Each time is the median of five runs, or of as many as `--runs` says. Each factor is the program's time by rustc's. The load
of the machine is printed before and after: the numbers are worth something on a quiet machine alone.
"""

import argparse
import json
import os
import statistics
import subprocess
import sys
import tempfile
import time
from pathlib import Path

ROOT = Path(__file__).resolve().parent.parent
PROGRAM = ROOT / "crates" / "mirconst" / "out" / "mirconst"
FRONT = ROOT / "front" / "world"
TURNS = (200000, 2000000)
RUNS = 5
BLOCKS, BYTES = 2**63, 2**59

# What stands around a source in its file, and the options of the compiler: no code is made, and overflow panics.
FILE = "#![allow(long_running_const_eval, unused)]\npub const GOAL: {}\n"
OPTIONS = ["--edition", "2024", "--crate-type", "lib", "--crate-name", "loops", "--emit=metadata"]

# The name of each source, what it is about, and its text, in which TURNS is how many turns there are.
SOURCES = {
    "five": (
        "five assignments and a condition",
        "u64 = { let mut i = 0u64; let mut s = 0u64; while i < TURNS "
        "{ s = s + i; s = s % 1_000_003; s = s ^ i; s = s & 0xffff_ffff; i = i + 1; } s };",
    ),
    "fields": (
        "the same over parts of tuples",
        "u64 = { let mut t = (0u64, (0u64, 0u8)); while t.0 < TURNS "
        "{ t.1.0 = t.1.0 + t.0; t.1.0 %= 1_000_003; t.1.0 ^= t.0; t.1.0 &= 0xffff_ffff; t.0 += 1; } t.1.0 };",
    ),
    "structs": (
        "the same over fields of structs",
        "u64 = { let mut t = Outer { turn: 0, inner: Inner { sum: 0, byte: 0 } }; while t.turn < TURNS "
        "{ t.inner.sum = t.inner.sum + t.turn; t.inner.sum %= 1_000_003; t.inner.sum ^= t.turn; t.inner.sum &= 0xffff_ffff; t.turn += 1; } t.inner.sum };\n"
        "#[derive(Clone, Copy)] struct Inner { sum: u64, byte: u8 }\n"
        "#[derive(Clone, Copy)] struct Outer { turn: u64, inner: Inner }",
    ),
    "sum": (
        "three operators and a condition",
        "u64 = { let mut i = 0u64; let mut s = 0u64; while i < TURNS { s = (s ^ i) & 0xffff_ffff; i = i + 1; } s };",
    ),
    "jumps": (
        "nested blocks, break and continue",
        "u64 = { let mut i = 0u64; let mut s = 0u64; 'all: loop { { i = i + 1; if i > TURNS { break 'all; } "
        "{ let a = s ^ i; if a & 3 == 1 { continue 'all; } 'part: { if a & 3 == 2 { break 'part; } s = a; } } } } s };",
    ),
    "wide": (
        "numbers of 128 bits",
        "u128 = { let mut i = 0u64; let mut s = 1u128; while i < TURNS "
        "{ s = (s * 25 + 7) % 1_000_000_000_000_000_000_000_000_007; i = i + 1; } s };",
    ),
    "signed": (
        "signed numbers of 4 bytes, and a byte",
        "i32 = { let mut i = 0i32; let mut s = 0i32; let mut b = 0u8; while i < TURNS "
        "{ s = (s * 3 - i) % 1000; b = (b ^ 5) & 31; i = i + 1; } if b > 9 { s } else { 0 - s } };",
    ),
    "exits": (
        "a loop in each turn, which is left early",
        "u64 = { let mut i = 0u64; let mut s = 0u64; while i < TURNS { let found = 'search: { let mut d = 2; "
        "while d < 7 { if i % d == 1 { break 'search d; } d = d + 1; } 0 }; s = (s + found) & 0xffff; i = i + 1; } s };",
    ),
}

# How often a block is entered, or an operator's value assigned, in the worlds that are written by hand.
TIMES = 5000000
# How many assignments stand in one turn there.
IN_A_TURN = 10

USIZE, UNIT = {"Uint": "Usize"}, {"Tuple": []}


def source_of(name, turns):
    """The text of a file with this source."""
    return FILE.format(SOURCES[name][1].replace("TURNS", str(turns)))


def world_of(file):
    """The input that `front/world` makes of a Rust file, with limits that no loop here comes to."""
    words = [str(FRONT), "--blocks", str(BLOCKS), "--bytes", str(BYTES), str(file)]
    return subprocess.run(words, stdout=subprocess.PIPE, check=True).stdout


def endless(statements, copies, blocks):
    """The input of a constant `{ let a = 5; let b = 3; loop { .. } }`, in whose loop so many statements `a ^ b;` stand, and
    which ends once it has entered so many blocks. Numbers and `()` are `Copy`, or nothing is."""
    exprs = [{"Literal": {"Int": ["5", None]}}, {"Literal": {"Int": ["3", None]}}]
    names = []
    for _ in range(statements):
        left = len(exprs)
        names += [[left, {"LocalBinding": 0}], [left + 1, {"LocalBinding": 1}]]
        operator = {"BinaryOp": {"lhs": left, "rhs": left + 1, "op": {"ArithOp": "BitXor"}}}
        exprs += [{"Path": "a"}, {"Path": "b"}, operator]
    types = [USIZE] * len(exprs)
    inside = [{"Expr": {"expr": 4 + 3 * place, "has_semi": True}} for place in range(statements)]
    lets = [{"Let": {"pat": place, "initializer": place}} for place in (0, 1)]
    exprs += [{"Block": {"statements": inside}}, {"Loop": {"body": len(exprs)}}]
    exprs.append({"Block": {"statements": lets, "tail": len(exprs) - 1}})
    body = {
        "exprs": exprs,
        "pats": [{"Bind": {"id": 0}}, {"Bind": {"id": 1}}],
        "bindings": [{"name": name, "mode": "Unannotated"} for name in ("a", "b")],
        "body_expr": len(exprs) - 1,
    }
    found = {
        "expr_types": [*types, UNIT, UNIT, UNIT],
        "pat_types": [USIZE, USIZE],
        "binding_types": [USIZE, USIZE],
        "value_res": names,
        "binding_modes": [[0, "Move"], [1, "Move"]],
        "copy_types": [USIZE, UNIT] if copies else [UNIT],
    }
    sizes = [(USIZE, 8), (UNIT, 0)]
    layouts = [[ty, {"size": size, "align": size or 1, "sized": True, "variants": {"Single": 0}}] for ty, size in sizes]
    world = {
        "crates": [{"pointer_bytes": 8}],
        "consts": [{"name": "GOAL", "krate": 0, "ty": UNIT, "body": 0}],
        "bodies": [{"body": body, "infer": found}],
        "layouts": layouts,
    }
    limits = {"blocks": blocks, "nesting": 100, "bytes": BYTES}
    goals = [{"def": {"ConstId": 0}, "limits": limits}]
    return json.dumps({"version": 1, "world": world, "goals": goals}).encode()


class Bench:
    """What is measured with, and how often."""

    def __init__(self, program, rustc, runs):
        self.program, self.rustc, self.runs = program, rustc, runs

    def median(self, words, stdin, status):
        """The median time of a command, which has to end with this status, and what it wrote last."""
        times = []
        for _ in range(self.runs):
            start = time.monotonic()
            done = subprocess.run(words, input=stdin, stdout=subprocess.PIPE, check=False)
            times.append(time.monotonic() - start)
            if done.returncode != status:
                sys.exit(f"loops: {words[0]} ended with {done.returncode}\n{done.stdout.decode()}")
        return statistics.median(times), done.stdout.decode()

    def program_time(self, stdin, status=0):
        """The time of the program on an input."""
        return self.median([str(self.program)], stdin, status)

    def rustc_time(self, file, folder):
        """The time in which a file is compiled."""
        return self.median([self.rustc, *OPTIONS, "--out-dir", str(folder), str(file)], b"", 0)[0]

    def both(self, name, turns, folder):
        """The times of the program and of rustc for a source with so many turns, and what the program reports."""
        file = Path(folder) / f"{name}_{turns}.rs"
        file.write_text(source_of(name, turns), encoding="utf-8")
        world = world_of(file)
        ours, report = self.program_time(world)
        return ours, self.rustc_time(file, folder), report

    def compare(self, name, turns, folder):
        """Prints a line for each number of turns of a source."""
        our_one, rust_one, _ = self.both(name, 1, folder)
        print(f"{name}: {SOURCES[name][0]}. One turn: program {our_one:.3f} s, rustc {rust_one:.3f} s")
        for count in turns:
            ours, theirs, report = self.both(name, count, folder)
            ours, theirs = ours - our_one, theirs - rust_one
            blocks = int(report.split("  turns ")[1].split()[0])
            factor = f"factor {ours / theirs:.2f}" if theirs > 0 else "no factor, as rustc took no time"
            each = f"{ours / count * 1e9:.0f} and {theirs / count * 1e9:.0f} ns a turn, {blocks} blocks"
            print(f"  {count} turns: program {ours:.3f} s, rustc {theirs:.3f} s, {factor}; {each}", flush=True)

    def endless_time(self, statements, copies, blocks):
        """The time of the program for an endless loop, which ends at its limit on blocks."""
        return self.program_time(endless(statements, copies, blocks), 1)[0]

    def parts(self):
        """Prints what a block, a drop and an assignment take."""
        jump = self.endless_time(0, True, TIMES) - self.endless_time(0, True, 1)
        print(f"a block that jumps to itself, entered {TIMES} times: {jump:.3f} s, {jump / TIMES * 1e9:.1f} ns each")
        turns = TIMES // IN_A_TURN
        empty = self.endless_time(0, True, turns) - self.endless_time(0, True, 1)
        filled = self.endless_time(IN_A_TURN, True, turns) - self.endless_time(IN_A_TURN, True, 1) - empty
        print(f"a ^ b on numbers of 8 bytes, assigned {TIMES} times: {filled:.3f} s, {filled / TIMES * 1e9:.1f} ns each")
        # Of the blocks of one turn all but one stand behind a drop.
        blocks = turns * (IN_A_TURN + 1)
        dropping = self.endless_time(IN_A_TURN, False, blocks) - self.endless_time(IN_A_TURN, False, 1) - filled - empty
        print(f"a block behind a drop, entered {TIMES} times: {dropping:.3f} s, {dropping / TIMES * 1e9:.1f} ns each")


def load():
    """The load of the machine."""
    return " ".join(f"{one:.2f}" for one in os.getloadavg())


def main(words):
    parser = argparse.ArgumentParser(prog="loops.py")
    parser.add_argument("--program", type=Path, default=PROGRAM)
    parser.add_argument("--rustc", default="rustc")
    parser.add_argument("--turns", type=int, action="append")
    parser.add_argument("--runs", type=int, default=RUNS)
    parser.add_argument("--only", choices=[*SOURCES, "parts"], action="append")
    chosen = parser.parse_args(words)
    if not chosen.program.is_file():
        sys.exit(f"loops: there is no program {chosen.program}")
    bench = Bench(chosen.program.resolve(), chosen.rustc, chosen.runs)
    print(f"load before: {load()}", flush=True)
    with tempfile.TemporaryDirectory() as folder:
        for name in SOURCES:
            if chosen.only is None or name in chosen.only:
                bench.compare(name, chosen.turns or TURNS, folder)
    if chosen.only is None or "parts" in chosen.only:
        bench.parts()
    print(f"load after: {load()}")


if __name__ == "__main__":
    main(sys.argv[1:])
