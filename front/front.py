"""The command `world`: makes a world of a Rust file, and prints it."""

import argparse
import json
import os
import sys
import threading

import compiler as rustc
from debug_text import DebugTextError
from layouts import LayoutError
from making import make_world, say
from reach import definition_path
from rust_file import File, Refused
from type_text import TypeTextError

DONE, FAILED = 0, 1
# What reading ends in where the compiler prints something else than it did when this was written.
TEXT_FAULTS = (DebugTextError, TypeTextError, LayoutError, LookupError, AttributeError, TypeError, ValueError)
# Bodies nest, and Python's own stack has to be as deep.
STACK, DEEPEST = 512 << 20, 20000


def options(words):
    """The words of the command."""
    parser = argparse.ArgumentParser(
        prog="world", description="Prints a world with goals, for mirconst, from the constants and functions of a Rust file."
    )
    parser.add_argument("file", metavar="FILE.rs")
    parser.add_argument("--goal", metavar="NAME", action="append", help="only this constant, static or function; may be repeated")
    parser.add_argument("--blocks", type=int, metavar="N", help="how many blocks a run may enter")
    parser.add_argument("--nesting", type=int, metavar="N", help="how deep evaluations may nest")
    parser.add_argument("--bytes", type=int, metavar="N", help="how many bytes a run may take")
    parser.add_argument("--edition", default="2024", metavar="YEAR", help="the edition of the file (2024)")
    parser.add_argument("--rustc", default="rustc", metavar="PATH", help="the compiler")
    parser.add_argument("--untried", action="store_true", help="go on with a compiler whose version was never tried")
    parser.add_argument("--seconds", type=float, default=300, metavar="N", help="how long the compiler may run (300)")
    parser.add_argument("--names", metavar="OUT", help="write the names of the goals to this file, one a line")
    parser.add_argument("--times", action="store_true", help="say on the standard error how long it took")
    return parser.parse_args(words)


def check_version(compiler, untried):
    """Refuses a compiler whose texts were never read."""
    version = compiler.version()
    if version in rustc.TRIED:
        return
    tried = ", ".join(rustc.TRIED)
    say(f"{compiler.program} is of version {version}, which was never tried (tried: {tried})")
    if not untried:
        raise Refused("its texts may be other ones; --untried goes on all the same")


def limits_of(chosen):
    """The limits of the goals, or None where none is given."""
    if chosen.blocks is None and chosen.nesting is None and chosen.bytes is None:
        return None
    default = {"blocks": 10000000, "nesting": 100, "bytes": 1000000000}
    return {name: value if getattr(chosen, name) is None else getattr(chosen, name) for name, value in default.items()}


def printed(made):
    """Prints the input for mirconst. Whether it could be written."""
    try:
        json.dump(made, sys.stdout, separators=(",", ":"), ensure_ascii=False)
        sys.stdout.write("\n")
        sys.stdout.flush()
    except BrokenPipeError:
        # Whoever reads has ended; nothing more can be written, also not at the interpreter's end.
        os.dup2(os.open(os.devnull, os.O_WRONLY), sys.stdout.fileno())
        return False
    return True


def run(chosen):
    """The command: its exit code is 0 where a world was printed."""
    folder = os.path.dirname(os.path.abspath(chosen.file))
    began = os.times()
    try:
        compiler = rustc.Compiler(chosen.rustc, folder, chosen.edition, chosen.seconds)
        check_version(compiler, chosen.untried)
        made, goals = make_world(File(chosen.file, compiler), chosen.goal, limits_of(chosen))
    except OSError as error:
        say(f"{chosen.file}: {error.strerror}")
        return FAILED
    except (Refused, rustc.CompilerMissing, rustc.CompilerTooSlow) as error:
        say(str(error))
        return FAILED
    except UnicodeDecodeError:
        say(f"{chosen.file}: the file is not UTF-8")
        return FAILED
    except TEXT_FAULTS as error:
        say(f"{chosen.file}: the compiler's text is not as it is read here: {type(error).__name__}: {error}")
        return FAILED
    if not printed(made):
        return FAILED
    if chosen.names:
        with open(chosen.names, "w", encoding="utf-8") as out:
            out.writelines(f"{definition_path(goal)}\n" for goal in goals)
    if chosen.times:
        whole = os.times().elapsed - began.elapsed
        say(f"{whole:.2f} s, of them {compiler.spent:.2f} s in the compiler")
    return DONE


def main(words):
    """Runs the command on a deep stack, as bodies nest deep."""
    chosen = options(words)
    codes = []
    sys.setrecursionlimit(DEEPEST)
    threading.stack_size(STACK)
    thread = threading.Thread(target=lambda: codes.append(run(chosen)))
    thread.start()
    thread.join()
    return codes[0] if codes else FAILED
