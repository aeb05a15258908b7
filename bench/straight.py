#!/usr/bin/env python3
"""Measures the parts of the time that a long body without jumps takes: reading and checking it, and lowering and running it.

usage: straight.py [--program PATH] [--statements N]... [--runs N]

The body is that of `const GOAL: u64 = { let mut s = 0u64; s = s ^ 1; .. s };` with N assignments. Of the program it takes the median
time of the processor on the world without its goal, which is read and checked, and the time that the same world takes more with the
goal. Then it prints the median time from the start of the program to its end on the sample, `crates/mirconst/stdin`.
"""

import argparse
import json
import statistics
import sys
import tempfile
from pathlib import Path

from loops import BLOCKS, BYTES, PROGRAM, ROOT, Bench, load
from measure import run_once

STATEMENTS = (20000, 60000)
RUNS = 5

U64, UNIT = {"Uint": "U64"}, {"Tuple": []}


def straight(statements):
    """The input of the constant, without its goal and with it."""
    exprs, inside = [{"Literal": {"Uint": ["0", "U64"]}}], []
    types, names, targets = [U64], [], []
    for place in range(1, statements + 1):
        left = len(exprs)
        made = {"BinaryOp": {"lhs": left, "rhs": left + 1, "op": {"ArithOp": "BitXor"}}}
        exprs += [{"Path": "s"}, {"Literal": {"Int": ["1", None]}}, made, {"Assignment": {"target": place, "value": left + 2}}]
        types += [U64, U64, U64, UNIT]
        names.append([left, {"LocalBinding": 0}])
        targets.append([place, {"LocalBinding": 0}])
        inside.append({"Expr": {"expr": left + 3, "has_semi": True}})
    tail = len(exprs)
    names.append([tail, {"LocalBinding": 0}])
    exprs += [{"Path": "s"}, {"Block": {"statements": [{"Let": {"pat": 0, "initializer": 0}}, *inside], "tail": tail}}]
    body = {
        "exprs": exprs,
        "pats": [{"Bind": {"id": 0}}, *[{"Path": "s"}] * statements],
        "bindings": [{"name": "s", "mode": "Mutable"}],
        "body_expr": tail + 1,
    }
    infer = {
        "expr_types": [*types, U64, U64],
        "pat_types": [U64] * (statements + 1),
        "binding_types": [U64],
        "value_res": names,
        "pat_value_res": targets,
        "binding_modes": [[0, "Move"]],
        "copy_types": [U64, UNIT],
    }
    layouts = [[ty, {"size": size, "align": size or 1, "sized": True, "variants": {"Single": 0}}] for ty, size in ((U64, 8), (UNIT, 0))]
    world = {
        "crates": [{"pointer_bytes": 8}],
        "consts": [{"name": "GOAL", "krate": 0, "ty": U64, "body": 0}],
        "bodies": [{"body": body, "infer": infer}],
        "layouts": layouts,
    }
    goal = {"def": {"ConstId": 0}, "limits": {"blocks": BLOCKS, "nesting": 100, "bytes": BYTES}}
    return [json.dumps({"version": 1, "world": world, "goals": goals}).encode() for goals in ([], [goal])]


def processor(program, text, runs, folder):
    """The median time of the processor of the program on an input."""
    path = Path(folder) / "input.json"
    path.write_bytes(text)
    done = [run_once(path, [str(program)]) for _ in range(runs)]
    if any(status for _, _, _, status in done):
        sys.exit("straight: the program has no value")
    return statistics.median(seconds for _, seconds, _, _ in done)


def main(words):
    parser = argparse.ArgumentParser(prog="straight.py")
    parser.add_argument("--program", type=Path, default=PROGRAM)
    parser.add_argument("--statements", type=int, action="append")
    parser.add_argument("--runs", type=int, default=RUNS)
    chosen = parser.parse_args(words)
    if not chosen.program.is_file():
        sys.exit(f"straight: there is no program {chosen.program}")
    bench = Bench(chosen.program.resolve(), "rustc", chosen.runs)
    print(f"load before: {load()}", flush=True)
    with tempfile.TemporaryDirectory() as folder:
        for count in chosen.statements or STATEMENTS:
            read, whole = (processor(bench.program, text, chosen.runs, folder) for text in straight(count))
            each = f"{(whole - read) / count * 1e9:.0f} ns a statement"
            print(f"{count} statements: {read:.3f} s to read and check, {whole - read:.3f} s more to lower and run, {each}", flush=True)
    start, _ = bench.program_time((ROOT / "crates" / "mirconst" / "stdin").read_bytes())
    print(f"the sample, from start to end: {start * 1000:.1f} ms")
    print(f"load after: {load()}")


if __name__ == "__main__":
    main(sys.argv[1:])
