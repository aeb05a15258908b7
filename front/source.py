"""The source file: its lines, and the text at a place."""

from pathlib import Path

from debug_text import STANDARD_INPUT
from edits import between_lines


class Source:
    """A Rust file. Lines and columns count from 1, columns in characters."""

    def __init__(self, path, text):
        self.path, self.text = path, text
        self.lines = text.split("\n")
        self.others = {}

    def at(self, span):
        """The text at a span of the file, or of another one, or "" where it is in none."""
        lines = self._lines_of(span)
        return between_lines(lines, span.start, span.end) if _have(lines, span) else ""

    def behind(self, span):
        """The rest of the line behind a span, and the next line."""
        lines = self._lines_of(span)
        if not _have(lines, span):
            return ""
        line, column = span.end
        return lines[line - 1][column - 1 :] + "\n" + (lines[line] if line < len(lines) else "")

    def before(self, place):
        """Up to 40 lines before a place."""
        line, column = place
        return "\n".join([*self.lines[max(0, line - 41) : line - 1], self.lines[line - 1][: column - 1]])

    def _lines_of(self, span):
        """The lines of the file that a span is in: none where it can't be read. A file of a module is named from the folder of this one."""
        if span.file in ("", STANDARD_INPUT):
            return self.lines
        if span.file not in self.others:
            try:
                self.others[span.file] = (Path(self.path).parent / span.file).read_text(encoding="utf-8").split("\n")
            except (OSError, UnicodeError):
                self.others[span.file] = []
        return self.others[span.file]


def _have(lines, span):
    """Whether lines have a span."""
    return 0 < span.start[0] <= span.end[0] <= len(lines)
