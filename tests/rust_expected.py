"""What the compiler says of the constants and functions of a Rust file, and whether an answer of the program agrees.

A line of `NAME.expected` has parts that tabs separate: the constant or function, its type, a word, and what the word is
about. A function has no parameters, and is evaluated as a constant that is its call.

    A    u8    value    07                 the bytes, as a program that rustc compiled prints them
    B    u8    fault    eval InFunction(Panic("Overflow in Add"), [])
                                           it panics in its own body: the whole fault
    C    u8    panic    Overflow in Add    a function or a constant that it names panics, so that the fault also tells
                                           of the way there: the panic's word
    D    u8    fails    a constant that..  it fails otherwise, for this cause in the compiler's words
    E    i8    differs  80                 rustc refuses it, and here it has this value, by a rule of
                                           `docs/DIFFERENCES.md`: unary minus wraps on the least number

None of this comes from the program that is tested.
"""

import re
import subprocess
import sys
import tempfile
from pathlib import Path

ROOT = Path(__file__).resolve().parent.parent
sys.path.insert(0, str(ROOT / "front"))

from compiler import ITEMS, Compiler, CompilerMissing  # noqa: E402
from edits import Edits  # noqa: E402
from items import read_items  # noqa: E402
from source import Source  # noqa: E402
import stand_ins  # noqa: E402

EDITION = "2024"
SECONDS = 600
# Other versions choose other layouts.
MADE_WITH = "1.95.0"

OPERATORS = {"+": "Add", "-": "Sub", "*": "Mul", "/": "Div", "%": "Rem", "<<": "Shl", ">>": "Shr"}
OVERFLOW = re.compile(r"attempt to compute `\S+ (\S+) \S+`, which would overflow$")
WORDS = [
    (re.compile(r"attempt to divide `.*` by zero$"), "Div"),
    (re.compile(r"attempt to calculate the remainder of `.*` with a divisor of zero$"), "Rem"),
    (re.compile(r"attempt to compute the remainder of `.*`, which would overflow$"), "Rem"),
    (re.compile(r"attempt to shift left by `.*`, which would overflow$"), "Shl"),
    (re.compile(r"attempt to shift right by `.*`, which would overflow$"), "Shr"),
]
OUT_OF_BOUNDS = re.compile(r"index out of bounds: the length is (\d+|usize::MAX) but the index is (\d+|usize::MAX)$")
NEGATED = re.compile(r"attempt to negate `(i\d+|isize)::MIN`, which would overflow$")
PANICKED = re.compile(r"evaluation panicked: (.*)", re.DOTALL)


# The program that prints types and bytes, up to the line of the first item.
PRINTER = [
    "fn __show<T>(name: &str, value: &T) {",
    "    let start = value as *const T as *const u8;",
    "    let bytes = unsafe { core::slice::from_raw_parts(start, core::mem::size_of::<T>()) };",
    "    let shown: String = bytes.iter().map(|byte| format!(\"{byte:02x}\")).collect();",
    "    let shown = if shown.is_empty() { \"-\" } else { &shown };",
    "    println!(\"{name}\\t{}\\t{shown}\", core::any::type_name::<T>());",
    "}",
    "fn __show_type<T>(name: &str, _: impl FnOnce() -> T) { println!(\"{name}\\t{}\\t-\", core::any::type_name::<T>()); }",
    "fn main() {",
]


class Expected:
    """What is expected of one goal."""

    def __init__(self, name, ty, word, about):
        self.name, self.ty, self.word, self.about = name, ty, word, about

    def says(self):
        return f"{self.word} {self.ty} {self.about}"

    def line(self):
        return "\t".join((self.name, self.ty, self.word, self.about)) + "\n"


def read_expected(path):
    """The lines of a file of expectations."""
    lines = path.read_text(encoding="utf-8").splitlines()
    return [Expected(*line.split("\t")) for line in lines]


def agrees(answer, wanted):
    """Whether an answer is as it is expected."""
    if answer[0] == "value":
        return wanted.word in ("value", "differs") and answer[1:] == (wanted.ty, wanted.about)
    fault = answer[1]
    if wanted.word == "fault":
        return fault == wanted.about
    if wanted.word == "panic":
        return fault.startswith("eval ") and f'Panic("{wanted.about}")' in fault
    return wanted.word == "fails" and fault.startswith("eval ")


# From the compiler.


def compiler_version():
    """The version of the machine's compiler, or None where there is none."""
    try:
        return Compiler("rustc", str(ROOT), EDITION, SECONDS).version()
    except CompilerMissing:
        return None


def remake(file):
    """The world and the expectations of a Rust file, as pairs of a path and a text."""
    asked = Asked(file)
    goals = [item.path for item in asked.named()]
    words = [str(ROOT / "front" / "world"), str(file), *(word for goal in goals for word in ("--goal", goal))]
    done = subprocess.run(words, capture_output=True, timeout=SECONDS, check=False)
    if done.returncode or done.stderr:
        raise SystemExit(f"front/world {file.name}: {done.stderr.decode('utf-8', 'replace')}")
    yield file.with_suffix(".json"), done.stdout.decode("utf-8")
    expected = asked.expected()
    yield file.with_suffix(".expected"), "".join(expected[goal].line() for goal in goals)


class Asked:
    """A Rust file, with what the compiler says of its constants and functions."""

    def __init__(self, file):
        self.source = Source(str(file), file.read_text(encoding="utf-8"))
        self.compiler = Compiler("rustc", str(file.parent), EDITION, SECONDS)
        told, _, _ = self.compiler.text(ITEMS, self.source.text, file.stem)
        self.items, _ = read_items(told, self.source)
        self.failed = {}

    def named(self):
        """The constants, the statics, and each `const fn` without generics and parameters, that have a path from the root, in
        the order of the file: those inside of functions and implementations have none."""
        found = [item for item in self.items.values() if _has_value(item) and self._in_modules(item)]
        return sorted(found, key=lambda item: item.span.start)

    def _in_modules(self, item):
        above = item.parent
        while above:
            if above not in self.items or self.items[above].sort != "mod":
                return False
            above = self.items[above].parent
        return True

    def expected(self):
        """What is expected of each constant, static and function, by its path."""
        made = {}
        for path, (ty, shown) in self._printed().items():
            made[path] = Expected(path, ty, "value", shown)
        for path, (_, message, own) in self.failed.items():
            made[path] = self._of_failure(path, made[path].ty, message, own)
        return made

    def _of_failure(self, path, ty, message, own):
        word, built_in = panic_word(message)
        if NEGATED.search(message):
            bits = 64 if ty == "isize" else int(ty[1:])
            return Expected(path, ty, "differs", (1 << bits - 1).to_bytes(bits // 8, "little").hex())
        if word is None:
            return Expected(path, ty, "fails", message)
        if own and built_in:
            return Expected(path, ty, "fault", f'eval InFunction(Panic("{word}"), [])')
        return Expected(path, ty, "panic", word)

    def _printed(self):
        """The type and the bytes of each, as a compiled program prints them. Constants that fail get a value of zero bytes
        first, functions that fail aren't called, and their failures are kept."""
        while True:
            edits = Edits(self.source.text)
            for item, _, _ in self.failed.values():
                if item.sort != "fn":
                    stand_ins.wrap(edits, item, self.source)
            for line in [*PRINTER, *map(self._shows, self.named()), "}"]:
                edits.append(line)
            with tempfile.TemporaryDirectory() as folder:
                program = Path(folder) / "printer"
                messages = self._compile(edits.text(), program)
                if program.exists():
                    shown = subprocess.run([str(program)], capture_output=True, timeout=SECONDS, check=True).stdout
                    return dict(_printed_line(line) for line in shown.decode("utf-8").splitlines())
            self._note_failures(messages, edits)

    def _compile(self, text, program):
        words = ["--crate-type", "bin", "--edition", EDITION, "--cap-lints", "allow", "--error-format=json"]
        return self.compiler.build([*words, "-o", str(program), "-"], text)

    def _shows(self, item):
        """The line of the program that prints an item's type and bytes. A function is called while the program is compiled,
        and one that fails isn't called."""
        if item.sort != "fn":
            return f"    __show(\"{item.path}\", &crate::{item.path});"
        call = f"unsafe {{ crate::{item.path}() }}"
        if item.path in self.failed:
            return f"    __show_type(\"{item.path}\", || {call});"
        return f"    __show(\"{item.path}\", &const {{ {call} }});"

    def _note_failures(self, messages, edits):
        found, others = stand_ins.failing(messages, self.items, edits)
        fresh = {path: one for path, one in found.items() if path not in self.failed}
        for message in others:
            item = self._called(message, edits)
            if item is not None and message.code == "E0080":
                fresh[item.path] = (item, message)
        for message in messages:
            self._note_dependent(message, edits)
        if not fresh:
            raise SystemExit("".join(message.rendered for message in others) or "the compiler fails without a cause")
        for path, (item, message) in fresh.items():
            self.failed[path] = (item, message.text, _is_own(item, message))

    def _called(self, message, edits):
        """The function in whose line of the program the place of a message is, or None."""
        primary = message.primary()
        number = 0 if primary is None else primary["line_start"] - len(edits.lines) - len(PRINTER)
        named = self.named()
        item = named[number - 1] if 0 < number <= len(named) else None
        return item if item is not None and item.sort == "fn" else None

    def _note_dependent(self, message, edits):
        """What names a failing constant has no error of its own, but a note."""
        primary = message.primary()
        if message.text != "erroneous constant encountered" or primary is None:
            return
        place = edits.source_place((primary["line_start"], primary["column_start"]))
        around = [self._called(message, edits)]
        for item in self.items.values():
            if item.sort in ("const", "static") and item.span.start <= place < item.span.end:
                around.append(item)
        for item in around:
            if item is not None:
                self.failed.setdefault(item.path, (item, "a constant that it names fails", False))


def _has_value(item):
    """Whether an item is evaluated without arguments."""
    if item.sort == "fn":
        return item.is_const and not item.has_params and not item.generics
    return item.sort in ("const", "static")


def _is_own(item, message):
    """Whether an item fails in its own body. Each call on the way to the failure is in a label or a note: for a function the
    first one is of itself."""
    if item.sort == "fn":
        return sum(note.startswith("inside ") for note in message.notes) == 1
    return "inside this call" not in " ".join(span.get("label") or "" for span in message.spans)


def _printed_line(line):
    """The name of a constant, and its type and bytes. Paths in the type are left out."""
    name, ty, shown = line.split("\t")
    return name, (re.sub(r"(?:\w+::)+", "", ty), shown)


def panic_word(message):
    """The word of a panic, as the program has it, of one that the compiler tells of, and whether it is one of an
    operator or an index; the word is None where there is none."""
    if OUT_OF_BOUNDS.search(message):
        return "Index out of bounds", True
    found = OVERFLOW.search(message)
    if found and found.group(1) in OPERATORS:
        return f"Overflow in {OPERATORS[found.group(1)]}", True
    for pattern, operator in WORDS:
        if pattern.search(message):
            return f"Overflow in {operator}", True
    found = PANICKED.match(message)
    return (found.group(1) if found else None), False
