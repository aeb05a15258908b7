#!/usr/bin/env python3
"""Runs `front/world` on small Rust files, and compares its exit code, what it says, and the goals that it makes, and for some the body of
a goal.

usage: front.py

Where there is no rustc of a version that was tried, nothing is tested. The worlds are held to the schema, where python3
has the package `jsonschema`. The exit code is 1 where something is wrong. The values of constants are the business of
`rust.py`.
"""

import json
import subprocess
import sys
import tempfile
from dataclasses import dataclass
from pathlib import Path

ROOT = Path(__file__).resolve().parent.parent
WORLD = ROOT / "front" / "world"
sys.path.insert(0, str(ROOT / "front"))

from compiler import TRIED  # noqa: E402
from rust_expected import compiler_version  # noqa: E402

try:
    from jsonschema import Draft202012Validator
except ImportError:
    Draft202012Validator = None

SECONDS = 120


@dataclass(frozen=True)
class Case:
    """A Rust file, the words of the command, and what is expected: the exit code, texts that the standard error has, the names of the
    goals, and, where some stand here, the expressions of the last goal's body and what names in them are resolved to."""

    name: str
    source: str
    words: tuple = ()
    code: int = 0
    says: tuple = ()
    goals: tuple = ()
    others: tuple = ()
    exprs: tuple = ()
    found: tuple = ()


def literal(number):
    """A literal without a suffix."""
    return {"Literal": {"Int": [str(number), None]}}


def record(name, *fields, base=None):
    """A struct with these fields, which stand with their expressions."""
    written = [{"name": field, "expr": expr} for field, expr in fields]
    return {"RecordLit": {"path": name, "fields": written, "spread": "None" if base is None else {"Expr": base}}}


POINT = "struct P { x: i32, y: i32 }\n"
NUMBERED = "struct N(u8, u16);\n"

CASES = [
    Case("constants and statics", "const A: u8 = 1;\nstatic B: u8 = 2;\nfn f() {}\n", goals=("A", "B")),
    Case("in modules and functions", "mod m { const A: u8 = 1; }\nfn f() { const B: u8 = 2; }\n", goals=("m::A", "f::B")),
    Case("without generic parameters", "struct S<T>(T);\nimpl<T> S<T> { const A: u8 = 1; }\nconst B: u8 = 2;\n", goals=("B",)),
    Case("associated", "struct S;\nimpl S { const A: u8 = 1; }\n", goals=("{impl#0}::A",)),
    Case("one by its name", "const A: u8 = 1;\nconst B: u8 = 2;\n", ("--goal", "B"), goals=("B",)),
    Case("one by its path", "const A: u8 = 1;\nmod m { pub const A: u8 = 2; }\n", ("--goal", "m::A"), goals=("m::A",)),
    Case("no such name", "const A: u8 = 1;\n", ("--goal", "B"), code=1, says=("no constant, static or function", "named B")),
    Case("no constant", "fn f() {}\n", code=1, says=("no constant, no static and no `const fn`",)),
    Case("empty", "", code=1, says=("no constant, no static and no `const fn`",)),
    Case("functions", "const fn f() -> u8 { 1 }\nconst A: u8 = f();\nconst fn g() {}\n", goals=("f", "A", "g")),
    Case("functions in modules, functions and implementations", "mod m { pub const fn f() -> u8 { 1 } }\nfn g() { const fn f() -> u8 { 2 } }\nstruct S;\nimpl S { const fn f() -> u8 { 3 } }\n", goals=("m::f", "g::f", "{impl#0}::f")),
    Case("functions with parameters", "const fn f(x: u8) -> u8 { x }\nconst fn g<T>() -> u8 { 1 }\nconst fn h<const N: u8>() -> u8 { N }\nstruct S<T>(T);\nimpl<T> S<T> { const fn f() -> u8 { 2 } const fn g(&self) -> u8 { 3 } }\nconst fn k<'a>() -> u8 { 4 }\n", goals=("k",)),
    Case("functions that aren't const", "fn f() -> u8 { 1 }\nunsafe fn g() -> u8 { 2 }\nconst A: u8 = 3;\ntrait T { fn f() -> u8 { 4 } }\n", goals=("A",)),
    Case("a function that isn't const, by its name", "fn f() -> u8 { return 1; }\nconst A: u8 = 3;\n", ("--goal", "f"), goals=("f",)),
    Case("a function with a parameter, by its name", "const fn f(x: u8) -> u8 { x }\n", ("--goal", "f"), code=1, says=("no constant, static or function without parameters named f",)),
    Case("a function of a trait, by its name", "trait T { fn f() -> u8 { 4 } }\n", ("--goal", "f"), code=1, says=("named f",)),
    Case("a function and a constant of one name", "const A: u8 = 1;\nmod m { #[allow(non_snake_case)] pub const fn A() -> u8 { 2 } }\n", ("--goal", "m::A", "--goal", "A"), goals=("m::A", "A")),
    Case("a function that panics", "const fn f() -> u8 { 255 + 1 }\nconst A: u8 = f();\nconst fn g() -> u8 { if A == 0 { return f(); } 1 }\n", goals=("f", "A", "g")),
    Case("a function that never ends", "const fn f() -> u8 { loop {} }\nconst fn g() -> ! { loop {} }\n", goals=("f", "g")),
    Case("an async function, by its name", "async fn f() -> u8 { 1 }\n", ("--goal", "f"), code=1, says=("left out: f", "none of the 1 goals")),
    Case("wrong syntax", "const A: u8 = 1 +;\n", code=1, says=("error: expected expression", "case.rs:1:18")),
    Case("wrong type", "const A: u8 = true;\n", code=1, says=("error[E0308]", "expected `u8`, found `bool`", "case.rs:1:15")),
    Case("wrong borrow", "const A: &u8 = { let x = 1; &x };\n", code=1, says=("error[E0597]",)),
    Case("a cycle", "const A: u8 = B;\nconst B: u8 = A;\n", code=1, says=("error[E0391]",)),
    Case("no compiler", "const A: u8 = 1;\n", ("--rustc", "/nowhere/rustc"), code=1, says=("no compiler",)),
    Case("no words", "const A: u8 = 1;\n", ("--blocks",), code=2, says=("usage:",)),
    Case("panics", "const A: u8 = 255 + 1;\nconst B: u8 = A + 1;\nstatic C: u8 = 3 - 4;\n", goals=("A", "B", "C")),
    Case("a panic in a module", "mod m { const A: u8 = f(3); const fn f(x: u8) -> u8 { x - 4 } }\n", goals=("m::A",)),
    Case("a panic of the library's macro", 'const A: u8 = if 2 > 1 { panic!("no") } else { 1 };\n', goals=("A",)),
    Case("a panic over lines", "const A: u8 = {\n    let x = 255;\n    x + 1\n};\nconst B: u8 = 3;\n", goals=("A", "B")),
    Case("a panic in an associated constant", "struct S;\nimpl S { const A: u8 = 0 - 1; }\n", goals=("{impl#0}::A",)),
    Case("a panic behind a comment", "const A: u8 /* = 1; */ = 0 - 1; // = 2;\nconst B: u8 = 3;\n", goals=("A", "B")),
    Case("array lengths", "const N: usize = 3;\nconst A: [u8; N] = [1; N];\n", goals=("N", "A")),
    Case("another file", "mod other;\nconst A: u8 = other::B + 1;\n", goals=("A", "other::B"), others=(("other.rs", "pub const B: u8 = 7;\n"),)),
    Case("private fields", "mod m { pub struct S { a: Option<u8> } impl S { pub const fn new() -> S { S { a: None } } } }\nconst A: m::S = m::S::new();\n", goals=("m::{impl#0}::new", "A")),
    Case("a type in a function", "const A: u8 = { struct S { a: (u8, u16) } let s = S { a: (1, 2) }; s.a.0 };\n", goals=("A",)),
    Case("a generic type with bounds", "struct S<T: Copy, const N: usize> where T: Sized { a: [T; N] }\nconst A: u8 = S { a: [1, 2] }.a[1];\n", goals=("A",)),
    Case("a type that holds itself", "struct N<'a> { v: u8, n: Option<&'a N<'a>> }\nconst A: u8 = N { v: 3, n: None }.v;\n", goals=("A",)),
    Case("a closure", "const A: u8 = 1;\nconst B: u8 = { let f = |x: u8| x; 2 };\n", says=("case.rs:2:21: a closure can't be said; left out: B",), goals=("A",)),
    Case("a place behind a probe", "struct S { a: Option<u8> } const A: u8 = { let f = |x: u8| x; 2 };\nconst B: u8 = 1;\n", says=("case.rs:1:48: a closure",), goals=("B",)),
    Case("nothing that can be said", "const B: u8 = { let f = |x: u8| x; 2 };\n", code=1, says=("none of the 1 goals",)),
    Case("a method of the library", "const A: u32 = 5u32.pow(3).rotate_left(4);\n", goals=("A",)),
    Case("a base", f"{POINT}const A: P = P {{ y: 1, ..P {{ x: 2, y: 3 }} }};\n", goals=("A",), exprs=(literal(1), literal(2), literal(3), record("P", ("x", 1), ("y", 2)), record("P", ("y", 0), base=3)), found=(("variant_res", [[3, {"StructId": 0}], [4, {"StructId": 0}]]),)),
    Case("a base alone", f"{POINT}const A: P = {{ let p = P {{ x: 2, y: 3 }}; P {{ ..p }} }};\n", goals=("A",), exprs=(literal(2), literal(3), record("P", ("x", 0), ("y", 1)), {"Path": "p"}, record("P", base=3), {"Block": {"statements": [{"Let": {"pat": 0, "initializer": 2}}], "tail": 4}}), found=(("value_res", [[3, {"LocalBinding": 0}]]), ("variant_res", [[2, {"StructId": 0}], [4, {"StructId": 0}]]))),
    Case("a base of a struct whose fields have numbers", f"{NUMBERED}const A: N = N {{ 1: 5, ..N {{ 1: 6, 0: 7 }} }};\n", goals=("A",), exprs=(literal(5), literal(6), literal(7), record("N", ("1", 1), ("0", 2)), record("N", ("1", 0), base=3))),
    Case("a struct whose fields have numbers, in braces and brackets", f"{NUMBERED}const A: N = ((N {{ 1: 6, 0: (7) }}));\n", goals=("A",), exprs=(literal(6), literal(7), record("N", ("1", 0), ("0", 1))), found=(("variant_res", [[2, {"StructId": 0}]]),)),
    Case("a struct that is built by a call", f"{NUMBERED}const A: N = (N(7, {{ 6 }}));\n", goals=("A",), exprs=({"Path": "N"}, literal(7), literal(6), {"Block": {"statements": [], "tail": 2}}, {"Call": {"callee": 0, "args": [1, 3]}}), found=(("value_res", [[0, {"StructId": 0}]]),)),
    Case("a struct without fields", "struct U;\nconst A: U = (U);\n", goals=("A",), exprs=({"Path": "U"},), found=(("value_res", [[0, {"StructId": 0}]]), ("variant_res", None))),
    Case("a struct without fields, in braces", "struct U;\nconst A: U = U {};\n", goals=("A",), exprs=(record("U"),), found=(("value_res", None), ("variant_res", [[0, {"StructId": 0}]]))),
    Case("a struct without fields, of a base", "struct U;\nconst A: U = U { ..U };\n", goals=("A",), exprs=({"Path": "U"}, record("U", base=0)), found=(("value_res", [[0, {"StructId": 0}]]), ("variant_res", [[1, {"StructId": 0}]]))),
    Case("a struct without fields, by a macro", "struct U;\nmacro_rules! u { () => { U {} } }\nmacro_rules! v { () => { U } }\nconst A: (U, U) = (u!(), v!());\n", goals=("A",), exprs=(record("U"), {"Path": "U"}, {"Tuple": {"exprs": [0, 1]}})),
    Case("a struct without fields, as Self", "struct U;\nimpl U { const A: U = Self; }\n", goals=("{impl#0}::A",), exprs=({"Path": "Self"},), found=(("value_res", [[0, "ImplSelf"]]),)),
    Case("a struct without fields, in another file", "mod other;\nuse other::*;\n", goals=("other::A",), others=(("other.rs", "pub struct U;\n\npub const A: (U, U) = (U {}, U);\n"),), exprs=(record("U"), {"Path": "U"}, {"Tuple": {"exprs": [0, 1]}})),
    Case("a struct with braces and without fields", "struct E {}\nconst A: E = E {};\n", goals=("A",), exprs=(record("E"),)),
    Case("two structs of one name in one body", "struct U;\nconst A: u8 = { struct U { n: u8 } { struct U; let _u = U; } U { n: 5 }.n };\nconst B: U = U;\n", says=("the fields of the type A::U can't be said; left out: A",), goals=("B",)),
    Case("letters beyond ASCII", "const GR\u00d6SSE: u8 = 1; // \u20ac\nconst A: char = '\u20ac';\n", goals=("GR\u00d6SSE", "A")),
    Case("an older edition", "const async: u8 = 1;\n", ("--edition", "2015"), goals=("async",)),
    Case("deep", f"const A: u32 = {'!' * 420}1;\nconst B: u8 = 1;\n", says=("nests more than", "left out: A"), goals=("B",)),
]  # fmt: skip


def run(case, folder):
    """What is wrong with a case: lines, none where all is as expected."""
    file = Path(folder) / "case.rs"
    file.write_text(case.source, encoding="utf-8")
    for name, text in case.others:
        (Path(folder) / name).write_text(text, encoding="utf-8")
    names = Path(folder) / "names"
    words = [str(WORLD), "case.rs", "--names", "names", *case.words]
    done = subprocess.run(words, cwd=folder, capture_output=True, timeout=SECONDS, check=False)
    said, shown = done.stderr.decode("utf-8"), done.stdout.decode("utf-8")
    if done.returncode != case.code:
        yield f"exit code {done.returncode}, where {case.code} is expected: {said}"
        return
    for text in case.says:
        if text not in said:
            yield f"`{text}` isn't said: {said}"
    if case.code == 0:
        if not case.says and said:
            yield f"something is said: {said}"
        made = names.read_text(encoding="utf-8").splitlines()
        if made != list(case.goals):
            yield f"the goals are {made}, where {list(case.goals)} are expected"
        yield from faults(json.loads(shown), len(case.goals))
        yield from faults_of_body(json.loads(shown), case)
    elif shown:
        yield "something is printed on the standard output"


def faults(world, goals):
    """What is wrong with a world by itself."""
    if len(world["goals"]) != goals:
        yield f"there are {len(world['goals'])} goals"
    if Draft202012Validator is not None:
        schema = json.loads((ROOT / "schema" / "world.schema.json").read_text(encoding="utf-8"))
        for error in Draft202012Validator(schema).iter_errors(world):
            yield f"refused by the schema at {error.json_path}"


def faults_of_body(world, case):
    """What is wrong with the body of a world's last goal."""
    number = world["goals"][-1]["def"].get("ConstId")
    body = world["world"]["bodies"][world["world"]["consts"][number]["body"]] if number is not None else {}
    if case.exprs and body.get("body", {}).get("exprs") != list(case.exprs):
        yield f"the expressions are {body.get('body', {}).get('exprs')}, where {list(case.exprs)} are expected"
    for name, wanted in case.found:
        if body.get("infer", {}).get(name) != wanted:
            yield f"{name} is {body.get('infer', {}).get(name)}, where {wanted} is expected"


def main():
    version = compiler_version()
    if version not in TRIED:
        print(f"front: skipped, as there is no rustc of a version that was tried: {version}")
        return 0
    wrong = 0
    for case in CASES:
        with tempfile.TemporaryDirectory() as folder:
            for line in run(case, folder):
                wrong += 1
                print(f"front: {case.name}: {line}")
    print(f"front: {len(CASES)} files, {wrong} faults")
    return 1 if wrong else 0


if __name__ == "__main__":
    sys.exit(main())
