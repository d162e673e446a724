"""Which program there is: the one that was proved and built here, or the one that is shipped in release/.

Beside each stands its origin: the sum of the sources that it was built from, its own sum, and the kit that built it.
"""
import collections
import contextlib
import hashlib
import os
import re
import shutil
import subprocess
import sys

import workspace
from workspace import ROOT

NAME = "dsmdb"
BUILT = f"{ROOT}/crates/{NAME}/out/{NAME}"
SHIPPED = f"{ROOT}/release/{NAME}"
BACK = "`git checkout -- release` brings it back"
PARTS = ("src", "specs", "proofs")  # what a crate is built from
EDITORS = re.compile(r"\.#.*|#.*#|.*~|\..*\.sw[a-p]")  # what they leave beside a file that is open
Origin = collections.namedtuple("Origin", "sources program kit")


class Changed(Exception):
    """A shipped program that isn't the one that its origin names."""


def sum_of(path):
    with open(path, "rb") as file:
        return hashlib.sha256(file.read()).hexdigest()


def crates():
    """Returns the program and the crates below it, in order of their names."""
    return sorted({NAME, *workspace.below(NAME)})


def sources():
    """Returns a sum over what the program is built from, the same on every machine: of each crate its line in crates.txt,
    and the paths and bytes of its files."""
    whole = hashlib.sha256()
    for crate in crates():
        whole.update(f"{workspace.lines()[crate]}\n".encode())
        for path in workspace.files(crate):
            if path.split("/")[2] in PARTS and not EDITORS.fullmatch(os.path.basename(path)):
                whole.update(f"{path} {hashlib.sha256(workspace.read(path)).hexdigest()}\n".encode())
    return whole.hexdigest()


def sources_of(tree):
    """Returns the sum of the sources of another tree, or of this one as it is by now."""
    words = [sys.executable, "-B", "-c", "import programs; print(programs.sources())"]
    return subprocess.check_output(words, cwd=f"{tree}/gate", text=True).strip()


def origin_path(program):
    return f"{program}.origin"


def origin_of(program):
    """Returns the origin that stands beside a program; None where none can be read."""
    try:
        with open(origin_path(program), encoding="utf-8") as file:
            found = re.fullmatch(r"sources (\S+)\nprogram (\S+)\nkit (.*)\n", file.read())
    except (OSError, UnicodeDecodeError):
        return None
    return Origin(*found.groups()) if found else None


def write_origin(program, of_sources, kit):
    with open(origin_path(program), "w", encoding="utf-8") as file:
        file.write(f"sources {of_sources}\nprogram {sum_of(program)}\nkit {kit}\n")


def forget_built():
    """Removes the program that was built here, so that one which stands there later is new."""
    for path in (BUILT, origin_path(BUILT)):
        with contextlib.suppress(FileNotFoundError):
            os.remove(path)


def kit_here():
    """Returns the kit's one line, or None where there is no kit."""
    if not shutil.which("rt"):
        return None
    ran = subprocess.run(["rt", "version"], capture_output=True, text=True)
    return ran.stdout.strip() if ran.returncode == 0 else None


def is_built(of_sources):
    """Whether the program that was built here is whole, and of these sources."""
    origin = origin_of(BUILT)
    return bool(origin) and origin.sources == of_sources and os.path.isfile(BUILT) and sum_of(BUILT) == origin.program


def runs_here():
    """Whether this machine runs the shipped program."""
    here = os.uname()
    return (here.sysname, here.machine) == ("Linux", "x86_64")


def is_shipped(of_sources):
    """Whether the shipped program is of these sources, and runs here. Raises Changed where it isn't the one named."""
    origin = origin_of(SHIPPED)
    if not origin or origin.sources != of_sources or not runs_here():
        return False
    try:
        found = sum_of(SHIPPED)
    except OSError as error:
        raise Changed(f"{named(SHIPPED)} can't be read: {error.strerror}; {BACK}") from error
    if found != origin.program:
        raise Changed(f"{named(SHIPPED)} was changed: {named(origin_path(SHIPPED))} names the sum {origin.program[:16]}.., and its sum is {found[:16]}..; {BACK}")
    if not os.access(SHIPPED, os.X_OK):
        raise Changed(f"{named(SHIPPED)} can't be run: its mode isn't 755, or its file system is mounted noexec")
    return True


def found(of_sources):
    """Returns the path of the program of these sources: the one built here, else the shipped one; None where neither is."""
    if is_built(of_sources):
        return BUILT
    return SHIPPED if is_shipped(of_sources) else None


def ship(program, of_sources, kit):
    """Writes a release: the program and its origin."""
    os.makedirs(os.path.dirname(SHIPPED), exist_ok=True)
    shutil.copyfile(program, f"{SHIPPED}.new")
    os.chmod(f"{SHIPPED}.new", 0o755)
    os.replace(f"{SHIPPED}.new", SHIPPED)
    write_origin(SHIPPED, of_sources, kit)


def release_state(of_sources):
    """Says in a few words whether there is a release of these sources: `none`, `stale`, `of these sources`, or that its
    origin can't be read."""
    origin = origin_of(SHIPPED)
    if not origin:
        return "its origin can't be read" if os.path.lexists(SHIPPED) or os.path.lexists(origin_path(SHIPPED)) else "none"
    return "of these sources" if origin.sources == of_sources else "stale"


def difference(program, shipped=SHIPPED):
    """Says where the shipped program differs from another; nothing where both are the same to the byte."""
    with open(program, "rb") as one, open(shipped, "rb") as other:
        ours, theirs = one.read(), other.read()
    if ours == theirs:
        return ""
    at = next((at for at, (a, b) in enumerate(zip(ours, theirs)) if a != b), min(len(ours), len(theirs)))
    return f"the shipped program has {len(theirs)} bytes, the one that was proved {len(ours)}, and they differ first at byte {at}"


def named(path):
    return os.path.relpath(path, ROOT)
