"""Tests of `./dsmdb` and of `./test` without a program: on a copy of the tree, with no kit on the path, so that nothing
can be built. A release of the program that is tested stands there.
"""
import os
import shutil
import subprocess
import sys
import tempfile

import programs
import workspace
from workspace import ROOT

SCRIPT = "examples/two-replicas.dsm"
CHANGED = "crates/dsmdb/src/main.rt"
KIT = "a kit"  # which the release in the copy names
LIMIT = 300  # seconds, after which a command has failed


class Copy:
    """A copy of what the launcher reads, and what it answers there."""

    def __init__(self, folder, program):
        self.folder, self.path = f"{folder}/tree", f"{folder}/bin"
        os.mkdir(self.path)
        os.symlink(sys.executable, f"{self.path}/python3")
        for crate in programs.crates():
            for part in programs.PARTS:
                if os.path.isdir(f"{ROOT}/crates/{crate}/{part}"):
                    shutil.copytree(f"{ROOT}/crates/{crate}/{part}", f"{self.folder}/crates/{crate}/{part}")
        for folder in ("gate", "tests"):
            shutil.copytree(f"{ROOT}/{folder}", f"{self.folder}/{folder}", ignore=shutil.ignore_patterns("__pycache__", "*.cases"))
        for name in ("dsmdb", "test", "crates.txt", ".gitignore"):
            shutil.copy(f"{ROOT}/{name}", self.folder)
        os.chmod(f"{self.folder}/{CHANGED}", 0o644)
        self.shipped = f"{self.folder}/release/dsmdb"
        self.sources = programs.sources_of(self.folder)
        self.put(program, self.shipped)
        self.files = self.listing()

    def put(self, program, path):
        """Puts a program beside an origin that says that it is of these sources."""
        os.makedirs(os.path.dirname(path), exist_ok=True)
        shutil.copy(program, path)
        os.chmod(path, 0o755)
        programs.write_origin(path, self.sources, KIT)

    def listing(self):
        return {os.path.relpath(f"{at}/{name}", self.folder) for at, _, names in os.walk(self.folder) for name in names}

    def asked(self, *words):
        """Runs a command of the copy, and returns its status, its output and its lines of faults."""
        how = {"cwd": self.folder, "env": {"PATH": self.path}, "capture_output": True, "text": True, "errors": "replace"}
        ran = subprocess.run(words, timeout=LIMIT, **how)
        return ran.returncode, ran.stdout, ran.stderr.splitlines()

    def replayed(self):
        return self.asked("./dsmdb", "replay", f"{ROOT}/{SCRIPT}")


def change_byte(path):
    """Changes one byte in the middle of a file."""
    with open(path, "r+b") as file:
        at = os.path.getsize(path) // 2
        file.seek(at)
        byte = file.read(1)[0]
        file.seek(at)
        file.write(bytes([byte ^ 1]))


def refused(found, *pieces):
    """Whether nothing was run, and one line says why, with these pieces."""
    status, output, faults = found
    return (status, output, len(faults)) == (3, "", 1) and all(it in faults[0] for it in pieces)


def try_shipped(copy, output, tally):
    """The shipped program answers, and the first answer says which program it is."""
    first, second = copy.replayed(), copy.replayed()
    told = len(first[2]) == 1 and KIT in first[2][0] and "./prove --program" in first[2][0]
    tally.tell("the shipped program answers", first[:2] == (0, output) and told, str(first)[:300])
    tally.tell("it is told of once", second == (0, output, []), str(second)[:300])
    made = copy.listing() - copy.files
    ignored = workspace.read(".gitignore").decode().splitlines()
    tally.tell("it leaves nothing that git would see", made == {"out/told"} and "out/" in ignored, str(made))


def try_built(copy, program, output, tally):
    """A program that was built here is taken before the shipped one, as long as it is whole."""
    built = f"{copy.folder}/crates/dsmdb/out/dsmdb"
    shutil.rmtree(f"{copy.folder}/out", ignore_errors=True)
    copy.put(program, built)
    found = copy.replayed()
    tally.tell("the program that was built here comes first", found == (0, output, []), str(found)[:300])
    change_byte(built)
    found = copy.replayed()
    tally.tell("a changed one that was built here doesn't", found[:2] == (0, output) and len(found[2]) == 1, str(found)[:300])
    shutil.rmtree(os.path.dirname(built))


def try_changed_release(copy, program, tally):
    """A release that isn't what its origin says isn't run."""
    tally.tell("a program is the same as itself", not programs.difference(program, program))
    change_byte(copy.shipped)
    found = copy.replayed()
    tally.tell("a changed byte of the release is refused", refused(found, "was changed"), str(found)[:300])
    found = programs.difference(program, copy.shipped)
    at = os.path.getsize(program) // 2
    tally.tell("a changed byte of the release is found by the gate", found.endswith(f"first at byte {at}"), found)
    with open(copy.shipped, "r+b") as file:
        file.truncate(at)
    found = copy.replayed()
    tally.tell("a cut release is refused", refused(found, "was changed"), str(found)[:300])
    os.remove(copy.shipped)
    found = copy.replayed()
    tally.tell("a release without its program is refused", refused(found, "can't be read"), str(found)[:300])
    copy.put(program, copy.shipped)
    os.chmod(copy.shipped, 0o644)
    found = copy.replayed()
    tally.tell("a release that isn't executable is refused", refused(found, "755"), str(found)[:300])
    os.chmod(copy.shipped, 0o755)


def try_changed_sources(copy, tally):
    """No program of other sources is run, or tested."""
    with open(f"{copy.folder}/{CHANGED}", "a") as file:
        file.write("\n")
    found = copy.replayed()
    tally.tell("a changed source isn't run", refused(found, "aren't those of the shipped program", "kit"), str(found)[:300])
    status, output, faults = copy.asked("./test")
    well = (status, output, len(faults)) == (2, "", 1) and "--program" in faults[0]
    tally.tell("a changed source isn't tested", well, f"{status} {output} {faults}"[:300])
    os.remove(programs.origin_path(copy.shipped))
    found = copy.replayed()
    tally.tell("a release without its origin is none", refused(found, "isn't built yet", "kit"), str(found)[:300])
    found = copy.asked("./dsmdb", "--unproved", "--version")
    tally.tell("without a kit nothing is compiled", refused(found, "kit"), str(found)[:300])


def run(program, tally):
    with open(f"{ROOT}/{SCRIPT}".replace(".dsm", ".out")) as file:
        output = file.read()
    with tempfile.TemporaryDirectory(prefix="launcher-") as folder:
        copy = Copy(folder, program)
        try_shipped(copy, output, tally)
        try_built(copy, program, output, tally)
        try_changed_release(copy, program, tally)
        try_changed_sources(copy, tally)
