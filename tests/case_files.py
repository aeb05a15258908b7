"""Reads the cases in `cases`: files of rows in JSON, and the tables of operators."""

import itertools
import json
import re
from pathlib import Path

from case_inputs import INPUTS, SAMPLE, BadCase, bytes_of, json_of
from operator_rows import run_of_table
from running import DIRECTORY, FULL, ROOT, Run

CASES = Path(__file__).resolve().parent / "cases"
NO_JSON = "mirconst: input is not JSON"

# Where an expected value may come from: Rust itself, as `compare_rust.py` compares it; a file of the repository, with
# a heading in it; or a page of the Rust Reference, with a section.
RUST = "Rust"
REFERENCE = "Rust Reference: "

ENDS = {"exit", "report", "line"}
ANSWERS = {"answer", "turns"}
UNPLACED = {"written", "layout_error"}
KEYS = {"name", "from", "words", "stdin", "stdout", "functions", "structs", "goal", "type", "copies", "borrows", "blocks", "nesting", "bytes", *UNPLACED, *ENDS, *ANSWERS, *INPUTS}


def lines(texts):
    """A text of these lines."""
    return "".join(f"{text}\n" for text in texts)


def answer_of(row):
    """The answer of a row's only goal, where it has one."""
    if "unplaced" in row:
        return f"error eval LayoutError({row.get('layout_error', 'Unknown')}, {row['written']})"
    return row.get("answer")


def end_of(row):
    """The exit code, the report and the line on the standard error that a row wants."""
    answer = answer_of(row)
    if answer is None:
        return row.get("exit", 0), lines(row.get("report", [])), row.get("line", "")
    turns = row.get("turns", 0 if "unplaced" in row else 1)
    return 0 if answer.startswith("value ") else 1, lines([f"goal 0 {answer}", f"  turns {turns}"]), ""


def input_of(row):
    """What makes the bytes of a row's input: those of the sample where the row tells none."""
    kinds = [kind for kind in INPUTS if kind in row]
    if len(kinds) > 1:
        raise BadCase("it has several inputs")
    return lambda: bytes_of(INPUTS[kinds[0]](row)) if kinds else SAMPLE.read_bytes()


def is_known_origin(text):
    """Whether an expected value comes from somewhere: `docs/MEANING.md: Operators` has to have that heading."""
    if text == RUST or text.startswith(REFERENCE):
        return True
    name, _, heading = text.partition(": ")
    path = ROOT / name
    if not path.is_file():
        return False
    if path.suffix != ".md":
        return heading == ""
    return re.search(rf"^#+ {re.escape(heading)}$", path.read_text(encoding="utf-8"), re.MULTILINE) is not None


def check_row(row):
    """Raises where a row is no case."""
    unknown = sorted(set(row) - KEYS)
    if unknown:
        raise BadCase(f"it has the key {unknown[0]}")
    if row.get("stdin", DIRECTORY) != DIRECTORY or row.get("stdout", FULL) != FULL:
        raise BadCase("its streams are unknown ones")


def run_of_row(topic, row):
    """The run of a row."""
    name = f"{topic}, {row.get('name', json_of(row))}"
    try:
        check_row(row)
        code, report, line = end_of(row)
        streams = {"stdin": row.get("stdin", ""), "stdout": row.get("stdout", "")}
        return Run(name, input_of(row), code, report, line, tuple(row.get("words", [])), **streams)
    except (BadCase, KeyError) as fault:
        raise BadCase(f"{name}: {fault}") from fault


def faults_of_origins():
    """A fault for each row whose expected values come from nowhere."""
    for topic, row in all_rows():
        if not is_known_origin(row.get("from", "")):
            yield f"{topic}, {row.get('name')}: its values come from nowhere: {row.get('from')}"


def rows_of_file(path):
    """The rows of a file of cases."""
    return json.loads(path.read_text(encoding="utf-8"))


def all_rows():
    """All rows of the files of cases, each with the name of its file."""
    for path in sorted(CASES.glob("*.json")):
        yield from ((path.stem, row) for row in rows_of_file(path))


def run_of_prefix(length):
    """The run over a front part of the sample."""
    return Run(f"prefixes, {length} bytes of the sample", lambda: SAMPLE.read_bytes()[:length], 3, line=NO_JSON)


def blocks_of(path):
    """The indented blocks of a page, each as its text."""
    inside = (line.removeprefix("    ") if line.startswith("    ") else None for line in path.read_text("utf-8").split("\n"))
    groups = itertools.groupby(inside, lambda line: line is None)
    return [lines(group) for is_gap, group in groups if not is_gap]


def runs_of_page(path):
    """The runs over the inputs that a page shows, each of which has its report in the next block."""
    blocks = blocks_of(path)
    for number, (block, report) in enumerate(zip(blocks, blocks[1:])):
        if block.startswith('{"version"'):
            name = f"{path.name}, block {number + 1}"
            yield Run(name, lambda text=block: bytes_of(text), 1 if " error " in report else 0, report)


def all_runs():
    """The runs of all cases: the rows, the tables of operators, the inputs that a page shows, and each front part of
    the sample."""
    yield from (run_of_row(topic, row) for topic, row in all_rows())
    yield from runs_of_page(ROOT / "docs" / "INPUT.md")
    yield from (run_of_table(path) for path in sorted((CASES / "operators").glob("*.tsv")))
    yield from (run_of_prefix(length) for length in range(len(SAMPLE.read_bytes().rstrip())))
