"""A source of C as a database: compiles it, and tells its tables and procedures by their sections."""
import os
import re
import subprocess
import sys
from collections import namedtuple

from objects import Object

HERE = os.path.dirname(os.path.realpath(__file__))
VERSION = 19
LONGEST = 60  # seconds that the compiler may take
FLAGS = (
    "--target=bpfel -mcpu=v4 -O2 -g -ffreestanding -fwrapv -fno-finite-loops -fno-jump-tables -mllvm -unroll-runtime "
    "-Wall -Wextra -Wno-pass-failed -Werror=padded -Werror=return-type -Werror=incompatible-pointer-types -Werror=int-conversion "
    "-Werror=deprecated-non-prototype -Werror=unused-result -Werror=uninitialized -Werror=sometimes-uninitialized"
).split()
# what clang says in words of its own, and what is meant
UNUSED = "put a field there, since a row is compared and kept as bytes"
MESSAGES = [
    (
        r"Looks like the BPF stack limit.*",
        "rows, arguments and what the compiler puts aside take more than the stack's 512 bytes: keep fewer "
        "of them at once, or write fewer turns of a loop, since a sum over rows is put aside row by row",
    ),
    (
        r"A call to built-in function '__\w*[sd]f.*",
        "there are no numbers with a fraction: count in the least unit, as cents",
    ),
    (r"A call to built-in function '__mul.*", "there is no product of 128 bits: bound both factors before"),
    (
        r"passing arguments to a function without a prototype.*",
        "a helper without its arguments' types: take those of dsmdb.h, which have them",
    ),
    (r"padding (struct '.*?') with (\d+ bytes?) to align '(.*?)'.*", rf"\2 of \1 lie unused before '\3': {UNUSED}"),
    (r"padding size of '(.*?)' with (\d+ bytes?) to alignment.*", rf"\2 lie unused at the end of '\1': {UNUSED}"),
    (r"ignoring return value of function.*", "this doesn't end the call by itself: return cancel(CODE);"),
    (r"redefinition of enumerator 'procedure_(\d+)'", r"two procedures have number \1"),
    (r"redefinition of enumerator 'table_(\d+)'", r"two tables have number \1"),
    (r"conflicting types for '(row|range)_\w+'", r"a table can't be named \1: the helpers are"),
    (r"redefinition of '(row|range)_\w+' as different kind of symbol", r"a table can't be named \1: the helpers are"),
]

Table = namedtuple("Table", "number width")
Procedure = namedtuple("Procedure", "number name section args_len")


def compiler():
    """Returns clang's command: that of the version that the committed programs were made with, where it is there."""
    return os.environ.get("CLANG", f"clang-{VERSION}")


def in_words(said):
    """Returns what clang said, in the words of MESSAGES, each message once, by its first line, without notes on macros."""
    for theirs, ours in MESSAGES:
        said = re.sub(theirs, ours, said)
    said = re.sub(r"^(?:(?:\S*dsmdb\.h|<scratch space>)\S* note: |\S+ note: could not determine).*\n(?: .*\n)*", "", said, flags=re.M)
    messages = re.split(r"^(?=\S+?:\d+:\d+: (?:error|warning|fatal error): )", said, flags=re.M)
    by_line = {}
    for it in messages:
        by_line.setdefault(it.partition("\n")[0], it)
    return "".join(by_line.values())


def compile_source(source, to, *more):
    """Compiles a source, with further flags, and ends with what clang says where it can't be."""
    try:
        words = [compiler(), *FLAGS, *more, f"-I{HERE}", "-c", source, "-o", to]
        ran = subprocess.run(words, stderr=subprocess.PIPE, text=True, timeout=LONGEST)
    except subprocess.TimeoutExpired:
        sys.exit(f"{source}: {compiler()} took more than {LONGEST} s: write fewer turns of a loop")
    except OSError:
        sys.exit(f"{compiler()} isn't here: apt-get install clang-{VERSION}")
    sys.stderr.write(in_words(ran.stderr))
    if ran.returncode:
        sys.exit(1)
    return Object(to)


def number_of(word):
    if not re.fullmatch("0|[1-9][0-9]*", word):
        raise ValueError(f"a table or procedure has number {word}: write it in decimal digits")
    return int(word)


def tables(found):
    """Returns the tables by their numbers."""
    rows = {it.removeprefix("dsmdb/table/"): row for it, row in found.sections.items() if it.startswith("dsmdb/table/")}
    return sorted(Table(number_of(it), len(row)) for it, row in rows.items())


def procedures(found):
    """Returns the procedures by their numbers."""
    sections = [it for it in found.sections if it.startswith("dsmdb/proc/")]
    parts = [(number_of(it.split("/")[2]), it.split("/")[3], it) for it in sections]
    return [Procedure(*it, len(found.sections.get(f"dsmdb/args/{it[1]}", b""))) for it in sorted(parts)]
