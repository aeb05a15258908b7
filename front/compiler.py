"""Runs rustc, and reads its messages.

The texts that are read here are rustc's own, for its developers: it promises nothing about them. They are asked for
with flags that a stable compiler takes where RUSTC_BOOTSTRAP is set.
"""

import json
import os
import re
import subprocess

# The versions with which all files of `tests/rust` were made, with one result. Of a nightly one it is the build.
TRIED = ("1.95.0", "1.97.0-nightly (e50aa6fba 2026-05-19)")

TYPED, ITEMS = "-Zunpretty=thir-flat", "-Zunpretty=hir-tree"


class CompilerMissing(Exception):
    """There is no compiler, or it doesn't say which one it is."""


class CompilerTooSlow(Exception):
    """The compiler didn't end in time."""


class Message:
    """A message of the compiler: its code as "E0080" or "", its text, its spans, the texts of the notes below it, and how
    people read it."""

    def __init__(self, raw):
        self.code = (raw.get("code") or {}).get("code", "")
        self.text, self.level = raw["message"], raw["level"]
        self.spans = raw.get("spans", [])
        self.notes = [note["message"] for note in raw.get("children", [])]
        self.rendered = raw.get("rendered") or ""

    def primary(self):
        """The span that the message is about, or None."""
        return next((span for span in self.spans if span["is_primary"]), None)


class Compiler:
    """A rustc, for one file. Sources are handed to it on the standard input, from the folder of the file, so that
    modules in other files are found."""

    def __init__(self, program, folder, edition, seconds):
        self.program, self.folder = program, folder
        self.edition, self.seconds = edition, seconds
        self.spent = 0.0

    def version(self):
        """The version, as "1.95.0"; of a nightly one the whole first line, as its texts change from day to day."""
        code, out, err = self._run([self.program, "-vV"])
        found = re.search(r"^release: (\S+)$", out, re.MULTILINE)
        if code or not found:
            raise CompilerMissing(f"{self.program} -vV does not say its version: {err.strip()}")
        return found.group(1) if "-" not in found.group(1) else out.split("\n")[0].removeprefix("rustc ").strip()

    def text(self, what, source, crate_name):
        """One of the texts about a source: the text, the messages, and whether there was no error."""
        return self._compile([what], source, crate_name)

    def check(self, source, crate_name, flags):
        """Compiles a source without making code, and answers the messages."""
        return self._compile(["--emit=metadata", "-o", os.devnull, *flags], source, crate_name)[1]

    def build(self, words, source):
        """Runs the compiler with these words on a source, and answers the messages."""
        return list(_messages(self._run([self.program, *words], source)[2]))

    def complaints(self, file):
        """What the compiler says of the file itself, as people read it."""
        flags = ["--crate-type", "lib", "--edition", self.edition, "--cap-lints", "allow", "--emit=metadata"]
        code, _, err = self._run([self.program, *flags, "-o", os.devnull, file], folder=None)
        return err if code else ""

    def _compile(self, flags, source, crate_name):
        fixed = ["--crate-type", "lib", "--crate-name", crate_name, "--edition", self.edition]
        # Lints are silenced, as some of them are errors where nothing is said; `error-format` gives places.
        fixed += ["--cap-lints", "allow", "--error-format=json"]
        code, out, err = self._run([self.program, *fixed, *flags, "-"], source)
        return out, list(_messages(err)), code == 0

    def _run(self, words, text=None, folder=""):
        env = {**os.environ, "RUSTC_BOOTSTRAP": "1"}
        stdin = None if text is None else text.encode("utf-8")
        before = os.times()
        try:
            done = subprocess.run(
                words, input=stdin, cwd=self.folder if folder == "" else folder, env=env, capture_output=True,
                timeout=self.seconds, check=False,
            )  # fmt: skip
        except FileNotFoundError as error:
            raise CompilerMissing(f"there is no compiler {self.program}") from error
        except PermissionError as error:
            raise CompilerMissing(f"{self.program} cannot be run") from error
        except subprocess.TimeoutExpired as error:
            raise CompilerTooSlow(f"the compiler took more than {self.seconds} seconds") from error
        self.spent += os.times().elapsed - before.elapsed
        return done.returncode, done.stdout.decode("utf-8"), done.stderr.decode("utf-8", "replace")


def _messages(text):
    for line in text.split("\n"):
        if line.startswith("{"):
            raw = json.loads(line)
            if raw.get("$message_type", "diagnostic") == "diagnostic":
                yield Message(raw)
