"""A Rust file: its items, its goals, and its typed bodies, as the compiler tells them."""

import os
import re
import sys

import compiler as rustc
import library_bodies
import probes
import stand_ins
from crate import Crate
from debug_text import STANDARD_INPUT
from edits import Edits
from items import read_items
from reach import fn_key
from source import Source

# How often the compiler is asked for the bodies: each time at least one more constant or probe was found to fail.
TRIES = 60
PROBE = re.compile(probes.PREFIX + r"(\d+)")


class Refused(Exception):
    """The file gives no world: the text says why."""


class File:
    """A Rust file, with what the compiler tells of it."""

    def __init__(self, path, compiler):
        with open(path, encoding="utf-8-sig") as file:
            text = file.read()
        self.path, self.compiler = path, compiler
        self.source = Source(path, text)
        # The crate's name is that of the file, as rustc has it.
        stem = os.path.basename(path).removesuffix(".rs")
        self.name = "_" + "".join(c if c.isascii() and c.isalnum() else "_" for c in stem)
        self.items, self.adts = {}, {}
        self.library = library_bodies.text_for(text)
        self.wrapped = []
        self.failures = {}

    def read_items(self):
        """Asks for the items."""
        told, messages, fine = self.compiler.text(rustc.ITEMS, self.source.text, self.name)
        if not fine:
            self._complain(messages)
        self.items, self.adts = read_items(told, self.source)

    def edits(self):
        """The source, with stand-ins for the constants that fail."""
        edits = Edits(self.source.text)
        for item in self.wrapped:
            stand_ins.wrap(edits, item, self.source)
        return edits

    def read_bodies(self):
        """Asks for the typed bodies, and answers the crate. Constants that fail are wrapped, and probes that the
        compiler refuses are left out, until it prints them."""
        asked = {}
        for number, adt in enumerate(self.adts.values()):
            text = probes.probe(number, self.items[adt.path], adt, self.source)
            if text is not None and self.items[adt.path].span.is_written:
                asked[number] = (adt, text)
        for _ in range(TRIES):
            edits = self.edits()
            for adt, text in asked.values():
                edits.insert(self.items[adt.path].span.end, text)
            if self.library is not None:
                edits.append(self.library)
            compiled = edits.text()
            told, messages, fine = self.compiler.text(rustc.TYPED, compiled, self.name)
            if fine:
                crate = Crate(self.items, self.adts, told, Source(self.path, compiled))
                crate.edits = edits
                self._learn(asked, crate)
                return crate
            self._mend(messages, edits, asked)
        raise Refused("the compiler found new faults again and again")

    def _mend(self, messages, edits, asked):
        """Takes out what the compiler refused; a fault of the file itself is its end."""
        found, others = stand_ins.failing(messages, self.items, edits)
        wrapped = {item.path for item in self.wrapped}
        fresh = [(item, message) for path, (item, message) in found.items() if path not in wrapped]
        refused = asked.keys() & {_probe_of(message) for message in others}
        for number in refused:
            del asked[number]
        for item, message in fresh:
            if not stand_ins.wrap(Edits(self.source.text), item, self.source):
                raise Refused(f"the constant {item.path} fails, and stands in no plain text")
            self.wrapped.append(item)
            self.failures[item.path] = message
        if not fresh and not refused:
            self._complain(messages)

    def _learn(self, asked, crate):
        bodies = {path.rpartition("::")[2]: path for path in crate.texts if probes.PREFIX in path}
        for number, (adt, _) in asked.items():
            path = bodies.get(f"{probes.PREFIX}{number}")
            if path is not None:
                probes.learn(crate.thir(path), adt)

    def _complain(self, messages):
        """Prints what the compiler says of the file."""
        text = self.compiler.complaints(self.path)
        sys.stderr.write(text or "".join(message.rendered for message in messages))
        raise Refused(f"{self.path} doesn't compile")

    def goals(self, names):
        """The keys of the goals: those that are named, or each constant without generics, each static, and each `const fn`
        without generics and value parameters. Any other function without these has to be named."""
        usable = [item for item in self.items.values() if item.name != "_" and self._is_evaluated(item)]
        if names is not None:
            return [_key(self._named(name, usable)) for name in names]
        usable = [item for item in usable if item.sort != "fn" or item.is_const]
        usable.sort(key=lambda item: (item.span.file != STANDARD_INPUT, item.span.file, item.span.start))
        return [_key(item) for item in usable]

    def _is_evaluated(self, item):
        """Whether an item has a value without any arguments."""
        has_value = item.sort in ("const", "static") or (item.sort == "fn" and not item.has_params)
        return has_value and not self._has_generics(item)

    def _has_generics(self, item):
        parent = self.items.get(item.parent)
        if parent is not None and parent.sort == "trait":
            return True
        above = parent.generics if parent is not None and parent.sort == "impl" else []
        return bool(item.generics or above)

    def _named(self, name, usable):
        found = [item for item in usable if item.path == name or item.name == name]
        exact = [item for item in found if item.path == name] or found
        if len(exact) != 1:
            reason = "no constant, static or function without parameters" if not exact else "several items"
            raise Refused(f"{self.path} has {reason} named {name}")
        return exact[0]


def _key(item):
    """The key of the definition that an item is."""
    return fn_key("", item.path, ()) if item.sort == "fn" else (item.sort, item.path)


def _probe_of(message):
    """The number of the probe that a message is about, or None: its name stands before the place."""
    primary = message.primary()
    if primary is None or not primary["text"]:
        return None
    line = primary["text"][0]
    names = PROBE.findall(line["text"][: line["highlight_end"] - 1])
    return int(names[-1]) if names else None
