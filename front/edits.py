"""Insertions into a source text, and the way back from a place in the edited text to the source.

The compiler is asked about a file by putting small items of the front's own into it. No line is added but behind
the last one, so that a line of the edited text is the same line of the source, and only columns move.
"""


class Edits:
    """What is put into a source at which places. Lines and columns count from 1, columns in characters."""

    def __init__(self, text):
        self.lines = text.split("\n")
        self.inserted = {}
        self.tail = []

    def insert(self, place, text):
        """Puts a text in at a line and column, behind what was put in there before."""
        line, column = place
        self.inserted.setdefault(line, []).append((column, text))

    def append(self, line):
        """Adds a line behind the last one."""
        self.tail.append(line)

    def text(self):
        """The edited source."""
        lines = list(self.lines)
        for number, pieces in self.inserted.items():
            lines[number - 1] = _with_pieces(lines[number - 1], sorted(pieces, key=lambda p: p[0]))
        return "\n".join(lines + self.tail) + "\n"

    def source_place(self, place):
        """The place in the source of one in the edited text; one inside an insertion goes to where that is."""
        line, column = place
        shift = 0
        for at, text in sorted(self.inserted.get(line, ()), key=lambda p: p[0]):
            if column < at + shift:
                break
            if column < at + shift + len(text):
                return line, at
            shift += len(text)
        return line, column - shift


def _with_pieces(line, pieces):
    parts, last = [], 1
    for column, text in pieces:
        parts.append(line[last - 1 : column - 1])
        parts.append(text)
        last = column
    parts.append(line[last - 1 :])
    return "".join(parts)


def between_lines(lines, start, end):
    """The text from one place to another."""
    (first, column), (last, end_column) = start, end
    if first == last:
        return lines[first - 1][column - 1 : end_column - 1]
    middle = lines[first : last - 1]
    return "\n".join([lines[first - 1][column - 1 :], *middle, lines[last - 1][: end_column - 1]])
