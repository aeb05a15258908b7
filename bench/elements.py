#!/usr/bin/env python3
"""Compares the time that elements of arrays take with that of the Rust compiler's own evaluation.

usage: elements.py [--program PATH] [--rustc PATH] [--rustc-only] [--rounds N]... [--runs N] [--only NAME]...

Each source in `SOURCES` is a constant that does the same work in each of so many rounds, with locals only: a sieve, a checksum by a table, a
product of matrices. Its time is measured as `loops.py` measures loops, in `rustc` and in the program, and that of the same source with no round is taken off
both. The program's value has to be the one that stands here, which a program has that rustc compiled. With `--rustc-only` the program isn't run.
"""

import argparse
import sys
import tempfile
from pathlib import Path

from loops import FILE, PROGRAM, RUNS, Bench, load, world_of

# The name of each source, what it is about, its value at any round, as the report has it, and its text, in which ROUNDS is how many rounds there are.
SOURCES = {
    "sieve": (
        "the primes below 10000, in an array of truth values, and how many there are",
        "u32 cd040000",
        "u32 = { let mut n = 0; let mut round = 0; while round < ROUNDS { let mut s = [true; 10000]; s[0] = false; s[1] = false; "
        "let mut i = 2; while i * i < 10000 { if s[i] { let mut j = i * i; while j < 10000 { s[j] = false; j += i; } } i += 1; } "
        "n = 0; i = 0; while i < 10000 { if s[i] { n += 1; } i += 1; } round += 1; } n };",
    ),
    "crc": (
        "the table of CRC-32, 10000 bytes, and their checksum by the table",
        "u32 160ae5d5",
        "u32 = { let mut c = 0u32; let mut round = 0; while round < ROUNDS { let mut t = [0u32; 256]; let mut i = 0; "
        "while i < 256 { let mut x = i as u32; let mut k = 0; while k < 8 { x = if x & 1 == 1 { 0xedb8_8320 ^ (x >> 1) } else { x >> 1 }; k += 1; } t[i] = x; i += 1; } "
        "let mut d = [0u8; 10000]; i = 0; while i < 10000 { d[i] = (i * 7 + 3) as u8; i += 1; } "
        "c = !0; i = 0; while i < 10000 { c = t[((c ^ d[i] as u32) & 255) as usize] ^ (c >> 8); i += 1; } c = !c; round += 1; } c };",
    ),
    "matrix": (
        "the product of two matrices of 16 by 16, and the sum of its diagonal",
        "i64 41ffffffffffffff",
        "i64 = { let mut s = 0; let mut round = 0; while round < ROUNDS { let mut a = [[0i64; 16]; 16]; let mut b = a; let mut n = 0; "
        "while n < 256 { a[n / 16][n % 16] = n as i64 % 17 - 8; b[n / 16][n % 16] = n as i64 * 3 % 17 - 8; n += 1; } "
        "let mut p = [[0i64; 16]; 16]; let mut i = 0; while i < 16 { let mut j = 0; while j < 16 { let mut k = 0; "
        "while k < 16 { p[i][j] += a[i][k] * b[k][j]; k += 1; } j += 1; } i += 1; } "
        "s = 0; i = 0; while i < 16 { s += p[i][i]; i += 1; } round += 1; } s };",
    ),
}
# How many rounds there are, where none are told: such that rustc takes about a second.
ROUNDS = {"sieve": 20, "crc": 20, "matrix": 40}


def source_of(name, rounds):
    """The text of a file with a source of so many rounds."""
    return FILE.format(SOURCES[name][2].replace("ROUNDS", str(rounds)))


class Elements(Bench):
    """What is measured with, and how often."""

    def times(self, name, rounds, folder, has_program):
        """The times of the program and of rustc for a source with so many rounds, and how many blocks the program enters."""
        value = SOURCES[name][1]
        file = Path(folder) / f"{name}_{rounds}.rs"
        file.write_text(source_of(name, rounds), encoding="utf-8")
        theirs = self.rustc_time(file, folder)
        if not has_program:
            return 0, theirs, 0
        ours, report = self.program_time(world_of(file))
        if rounds and not report.startswith(f"goal 0 value {value}\n"):
            sys.exit(f"elements: {name} has not the value {value}:\n{report}")
        return ours, theirs, int(report.split("  turns ")[1].split()[0])

    def compare_elements(self, name, counts, folder, has_program):
        """Prints a line for each number of rounds of a source."""
        our_none, rust_none, _ = self.times(name, 0, folder, has_program)
        none = f"program {our_none:.3f} s, rustc {rust_none:.3f} s" if has_program else f"rustc {rust_none:.3f} s"
        print(f"{name}: {SOURCES[name][0]}. No round: {none}")
        for count in counts:
            ours, theirs, blocks = self.times(name, count, folder, has_program)
            ours, theirs = ours - our_none, theirs - rust_none
            if not has_program:
                print(f"  {count} rounds: rustc {theirs:.3f} s, {theirs / count * 1e3:.2f} ms a round", flush=True)
                continue
            factor = f"factor {ours / theirs:.2f}" if theirs > 0 else "no factor, as rustc took no time"
            each = f"{ours / count * 1e3:.2f} and {theirs / count * 1e3:.2f} ms a round, {blocks} blocks"
            print(f"  {count} rounds: program {ours:.3f} s, rustc {theirs:.3f} s, {factor}; {each}", flush=True)


def main(words):
    parser = argparse.ArgumentParser(prog="elements.py")
    parser.add_argument("--program", type=Path, default=PROGRAM)
    parser.add_argument("--rustc", default="rustc")
    parser.add_argument("--rustc-only", action="store_true")
    parser.add_argument("--rounds", type=int, action="append")
    parser.add_argument("--runs", type=int, default=RUNS)
    parser.add_argument("--only", choices=[*SOURCES], action="append")
    chosen = parser.parse_args(words)
    if min(chosen.rounds or [1]) < 1:
        sys.exit("elements: there is one round at least")
    if not chosen.rustc_only and not chosen.program.is_file():
        sys.exit(f"elements: there is no program {chosen.program}")
    bench = Elements(chosen.program.resolve(), chosen.rustc, chosen.runs)
    print(f"load before: {load()}", flush=True)
    with tempfile.TemporaryDirectory() as folder:
        for name in SOURCES:
            if chosen.only is None or name in chosen.only:
                bench.compare_elements(name, chosen.rounds or [ROUNDS[name]], folder, not chosen.rustc_only)
    print(f"load after: {load()}")


if __name__ == "__main__":
    main(sys.argv[1:])
