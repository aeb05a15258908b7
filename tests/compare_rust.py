#!/usr/bin/env python3
"""Compares the expected values of cases with what Rust itself gives, where there is `rustc`.

usage: compare_rust.py

The tables of operators and the texts of types are compared with what the programs in `rust_programs` print. Each case
in `cases` whose values come from `Rust` is compiled as the body of a function, and its value or its panic is compared. A method
is one of a trait there, with its name, that its type implements. The layouts of tuples, arrays and structs in the worlds of cases in Rust
are compared with those that it chooses.
Rust checks for overflow here. The exit code is 1 where something differs.
"""

import json
import re
import shutil
import subprocess
import sys
import tempfile
from collections import Counter
from pathlib import Path

from call_costs import shown_type, struct_in
from case_files import CASES, RUST, all_rows
from case_inputs import INPUTS, json_of
from faults import show
from part_layouts import has_parts
from running import ROOT
from rust_text import read_struct

PROGRAMS = Path(__file__).resolve().parent / "rust_programs"
TYPES = PROGRAMS / "types.rs"
OPTIONS = ["--edition", "2024", "-C", "overflow-checks=on"]
METHOD = re.compile(r"fn (\w+)\((mut )?self: (\w+|\([^)]*\)|\[[^\]]*\])")

# What stands around the sources of cases. A case's line is its number and the bytes of its value, or `panic`.
FRONT = """#![allow(arithmetic_overflow, non_camel_case_types, path_statements, unconditional_panic, unused)]
trait Bytes { fn bytes(self) -> Vec<u8>; }
macro_rules! integers { ($($ty:ident)*) => { $(impl Bytes for $ty {
    fn bytes(self) -> Vec<u8> { self.to_le_bytes().to_vec() }
})* }; }
integers!(i8 i16 i32 i64 i128 isize u8 u16 u32 u64 u128 usize);
impl Bytes for bool { fn bytes(self) -> Vec<u8> { vec![self as u8] } }
impl Bytes for char { fn bytes(self) -> Vec<u8> { (self as u32).bytes() } }
impl Bytes for () { fn bytes(self) -> Vec<u8> { vec![] } }
impl<T: Bytes, const N: usize> Bytes for [T; N] {
    fn bytes(self) -> Vec<u8> { self.into_iter().flat_map(Bytes::bytes).collect() }
}
// the bytes between the parts are zero
macro_rules! tuples { ($(($($ty:ident $part:tt)*))*) => { $(impl<$($ty: Bytes),*> Bytes for ($($ty,)*) {
    fn bytes(self) -> Vec<u8> {
        let mut whole = vec![0; size_of::<Self>()];
        $(let (part, start) = (self.$part.bytes(), std::mem::offset_of!(Self, $part));
        whole[start..start + part.len()].copy_from_slice(&part);)*
        whole
    }
})* }; }
tuples!((A 0) (A 0 B 1) (A 0 B 1 C 2) (A 0 B 1 C 2 D 3) (A 0 B 1 C 2 D 3 E 4) (A 0 B 1 C 2 D 3 E 4 F 5));
fn shown(bytes: Vec<u8>) -> String {
    if bytes.is_empty() { "-".to_string() } else { bytes.iter().map(|byte| format!("{byte:02x}")).collect() }
}
// the bytes of a struct, by those of its fields
macro_rules! fields { ($whole:ident $ty:ident $(($field:tt $part:expr))*) => {
    $(let (part, start) = ($part.bytes(), std::mem::offset_of!($ty, $field));
    $whole[start..start + part.len()].copy_from_slice(&part);)*
}; }
fn show<T: Bytes>(number: usize, run: fn() -> T) {
    println!("{number} {}", std::panic::catch_unwind(run).map_or("panic".to_string(), |value| shown(value.bytes())));
}
fn main() {
std::panic::set_hook(Box::new(|_| {}));
"""


def output_of(source, folder):
    """Builds a Rust program and runs it. The answer has the lines that it prints."""
    program = Path(folder) / source.stem
    subprocess.run(["rustc", *OPTIONS, "-A", "warnings", "-o", program, source], check=True)
    return subprocess.run([program], capture_output=True, check=True, text=True).stdout.splitlines()


def faults_of_operators(folder):
    """Rows of the tables that Rust doesn't print, and the other way around."""
    printed = output_of(PROGRAMS / "operators.rs", folder)
    rows = [row for path in (CASES / "operators").glob("*.tsv") for row in path.read_text(encoding="utf-8").splitlines()]
    yield from (f"operators: Rust gives {row!r}" for row in sorted(set(printed) - set(rows)))
    yield from (f"operators: Rust doesn't give {row!r}" for row in sorted(set(rows) - set(printed)))
    yield from (f"operators: {row!r} stands twice" for row, count in Counter(rows).items() if count > 1)


def faults_of_types(folder, rows):
    """Texts of types that Rust doesn't print."""
    printed = set(output_of(TYPES, folder))
    named = [row["written"] for row in rows if row["from"] == str(TYPES.relative_to(ROOT))]
    yield from (f"types: Rust doesn't write {text!r}" for text in named if text not in printed)


def item_of(text):
    """A function of a row as an item: a method stands in a trait that its type implements."""
    found = METHOD.match(text)
    if found is None:
        return text
    name, _, ty = found.groups()
    declared = METHOD.sub(f"fn {name}(self", text.partition("{")[0]).replace("mut ", "")
    return f"trait has_{name} {{ {declared}; }} impl has_{name} for {ty} {{ {text} }}"


def declared(text):
    """A struct of a row, which is `Copy`, with what makes its bytes."""
    one = read_struct(text)
    parts = " ".join(f"({field} self.{field})" for field, _ in one.fields)
    made = f"let mut whole = vec![0; size_of::<Self>()]; fields!(whole {one.name} {parts}); whole"
    return f"#[derive(Clone, Copy)] {text} impl Bytes for {one.name} {{ fn bytes(self) -> Vec<u8> {{ {made} }} }}"


def with_structs(row_structs, call):
    """A statement behind structs."""
    return f"{{ {' '.join(map(declared, row_structs))} {call} }}" if row_structs else call


def closure_body(row):
    """The source of a row, behind the functions that it may call."""
    functions = [item_of(text) for text in row.get("functions", [])]
    return f"{{ {' '.join(functions)} {row['source']} }}" if functions else row["source"]


def program_of(rows):
    """A Rust program that shows the values of the sources of these rows."""
    calls = [
        with_structs(row.get("structs", []), f"show::<{row['type']}>({number}, || {closure_body(row)});")
        for number, row in enumerate(rows)
    ]
    return "\n".join([FRONT, *calls, "}", ""])


def wanted(row):
    """What Rust has to give where the answer of a row is right: the bytes of its value, or `panic`."""
    found = re.fullmatch(r"value .+ (\S+)", row["answer"])
    return found.group(1) if found else "panic"


def faults_of_sources(folder, rows):
    """Cases whose values differ from those of Rust."""
    rows = [row for row in rows if row["from"] == RUST]
    source = Path(folder) / "sources.rs"
    source.write_text(program_of(rows), encoding="utf-8")
    for line, (number, row) in zip(output_of(source, folder), enumerate(rows), strict=True):
        if line != f"{number} {wanted(row)}":
            yield f"{row['name']}: Rust gives {line.partition(' ')[2]}, and not {wanted(row)}: {json_of(row)}"


def layouts_of(rows):
    """The layouts of types with parts in the worlds of the sources of these rows, by the texts of the types and of the structs of the
    row, with how their parts are called."""
    made = {}
    for row in rows:
        world = json.loads(INPUTS["source"](row))["world"] if "source" in row else {"layouts": []}
        structs = world.get("structs", [])
        for ty, found in world["layouts"]:
            if has_parts(ty):
                made[shown_type(ty, structs), tuple(row.get("structs", []))] = parts_of(ty, structs), found
    return made


def parts_of(ty, structs):
    """How the parts of a tuple and the fields of a struct are called."""
    number = struct_in(ty)
    return range(len(ty.get("Tuple", []))) if number is None else [one["name"] for one in structs[number[0]].get("fields", [])]


def faults_of_layouts(folder, rows):
    """Layouts that differ from those of Rust. It has no layout to show of a tuple with a part of type `!`."""
    made = {named: known for named, known in layouts_of(rows).items() if "!" not in named[0]}
    calls = []
    for number, ((text, structs), (parts, _)) in enumerate(made.items()):
        offsets = ", ".join(f"std::mem::offset_of!({text}, {part})" for part in parts)
        shown = f"[size_of::<{text}>(), align_of::<{text}>(), {offsets}]"
        calls.append(f'{{ {" ".join(structs)} println!("{number} {{:?}}", {shown}); }}')
    source = Path(folder) / "layouts.rs"
    source.write_text("\n".join(["fn main() {", *calls, "}", ""]), encoding="utf-8")
    for line, (number, ((text, _), (_, found))) in zip(output_of(source, folder), enumerate(made.items()), strict=True):
        wanted_line = f"{number} {[found['size'], found['align'], *found.get('offsets', [])]}"
        if line != wanted_line:
            yield f"{text}: Rust has the layout {line}, and not {wanted_line}"


def main():
    if len(sys.argv) > 1:
        sys.exit("usage: compare_rust.py")
    if shutil.which("rustc") is None:
        print("rust: skipped, as there is no rustc here")
        return 0
    rows = [row for _, row in all_rows()]
    with tempfile.TemporaryDirectory() as folder:
        faults = [*faults_of_operators(folder), *faults_of_types(folder, rows), *faults_of_sources(folder, rows)]
        faults += faults_of_layouts(folder, rows)
    show("rust", faults)
    print(f"rust: {len(faults)} faults")
    return 1 if faults else 0


if __name__ == "__main__":
    sys.exit(main())
