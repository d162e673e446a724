"""Tests of the kit for procedures (sdk/), by a program: what the stories of examples/ print, the
programs, settings and pictures that are committed, and, where clang is there, that they come out of their sources again."""
import glob
import os
import re
import shutil
import subprocess
import sys
import tempfile

import workspace

KIT = f"{workspace.ROOT}/sdk"
VERSION = 19  # of clang, with which the committed programs were made
LIMIT = 600  # seconds, after which a command has failed
OLDEST = 18  # that makes programs as the kit asks
MADE = ("layout.json", "settings")  # beside a source of examples/, for a server
INSTALL = f"apt-get install clang-{VERSION} libclang-rt-{VERSION}-dev"


def ran(words, program, **more):
    how = {"env": {**os.environ, "DSMDB": program}, "capture_output": True, "text": True, "errors": "replace", "timeout": LIMIT}
    return subprocess.run(words, **how, **more)


def text_of(path):
    with open(path) as file:
        return file.read()


def accepts(program, script):
    """Whether the programs beside a script are those of its `proc` and `add` lines, and are accepted for its tables."""
    lines = [it.split() for it in text_of(script).splitlines()]
    tables = [f"{it[1]}:{it[2]}" for it in lines if it[:1] == ["table"]]
    stored = [it for it in lines if it[:1] in (["proc"], ["add"])]
    for _, name, _, args_len, code in stored:
        path = f"{os.path.dirname(script)}/{name}.bpf"
        with open(path, "rb") as file:
            same = file.read().hex() == code
        if not same or not ran([program, "check", path, args_len, *tables], program).stdout.startswith("accepted"):
            return False
    return bool(stored)


def begins(program, settings):
    """Whether an engine takes a server's settings as they stand, for a new database whose order opens sessions."""
    said = [it for it in text_of(settings).splitlines() if not it.startswith("#")]
    *dumped, last = ran([program, "site", settings], program, input="dump\n").stdout.splitlines() or [""]
    return sorted(dumped) == sorted(said) and "origin 0 0" in said and last == f"position 0 lines {len(said)}"


def draws(program, picture):
    drawn = ran([f"{KIT}/draw", picture.removesuffix(".svg") + ".dsm"], program)
    return drawn.returncode == 0 and drawn.stdout == text_of(picture)


def version_of(command):
    """Returns the version of a clang that makes programs for BPF as the kit asks, or 0."""
    if not shutil.which(command):
        return 0
    found = re.search(r"version (\d+)", subprocess.run([command, "--version"], capture_output=True, text=True).stdout)
    return int(found[1]) if found and int(found[1]) >= OLDEST else 0


def same_file(path, other):
    with open(path, "rb") as one, open(other, "rb") as two:
        return one.read() == two.read()


def compiles(program, folder, room, clang, of_bytes):
    """Whether a source compiles, passes its test on the host, and its stories print what is committed; of the version
    that made the committed programs and scripts, also whether these come out again, byte for byte."""
    name = os.path.basename(folder)
    anew = shutil.copytree(folder, f"{room}/{name}", ignore=shutil.ignore_patterns("*.bpf", "*.dsm", "*.o", "*.set", *MADE))
    made = ["--layout", f"{anew}/layout.json", "--settings", f"{anew}/settings"]
    built = ran([f"{KIT}/c/build", f"{anew}/{name}.c", *made], program)
    if built.returncode:
        print(built.stdout + built.stderr)
        return False
    stories = glob.glob(f"{anew}/*.story")
    for story in stories:
        answered = ran([f"{KIT}/c/story", f"{anew}/{name}.o", story, "--expected"], program)
        if answered.stdout != text_of(story.removesuffix(".story") + ".out"):
            print(f"{story} prints otherwise: {answered.stderr}")
            return False
    flags = ["-fsanitize=undefined", "-fno-sanitize-recover=all", "-fwrapv", f"-I{KIT}/c"]
    words = [clang, *flags, f"{anew}/{name}_test.c", f"{KIT}/c/host.c", "-o", f"{anew}/test"]
    for step in (words, [f"{anew}/test"]):
        if (it := ran(step, program)).returncode:
            print(it.stdout + it.stderr)
            return False
    committed = [*glob.glob(f"{folder}/*.bpf"), *glob.glob(f"{folder}/*.dsm"), *(f"{folder}/{it}" for it in MADE)]
    return bool(stories) and (not of_bytes or all(same_file(it, f"{anew}/{os.path.basename(it)}") for it in committed))


def named(path):
    return os.path.relpath(path, workspace.ROOT)


def run_in_c(program, folders, clang, tally):
    """Compiles the sources of examples/ anew, and tries what the kit answers to mistakes in such sources."""
    os.environ["CLANG"] = clang
    with tempfile.TemporaryDirectory(prefix="procedures-") as room:
        for it in folders:
            tally.tell(f"source of {named(it)}", compiles(program, it, room, clang, version_of(clang) == VERSION))
    if version_of(clang) == VERSION:  # whose words the kit has in words of its own
        answered = ran([f"{KIT}/c/tests/refused"], program)
        tally.tell("answers to mistakes in C", answered.returncode == 0, answered.stderr[-300:])


def run_layouts(program, tally):
    """Compares the kit's layouts of procedures with what clang made, on drawn arguments and rows."""
    clang = clang_here()
    if clang:
        os.environ["CLANG"] = clang
        compared = ran([f"{KIT}/c/tests/compare_layouts"], program)
        tally.tell("layouts of procedures", compared.returncode == 0, compared.stderr[-300:])
    else:
        tally.leave_out("layouts of procedures", INSTALL)


def clang_here():
    """Returns the command of a clang that makes programs for BPF as the kit asks; None where there is none."""
    return next((it for it in (f"clang-{VERSION}", "clang") if version_of(it) and sanitizes(it)), None)


def sanitizes(command):
    """Whether a clang links a program of the host with its checks of undefined behaviour, for which it needs libclang-rt."""
    with tempfile.TemporaryDirectory(prefix="procedures-") as room:
        words = [command, "-fsanitize=undefined", "-x", "c", "-", "-o", f"{room}/it"]
        return subprocess.run(words, input=b"int main(void) { return 0; }", capture_output=True).returncode == 0


def run(program, tally):
    sys.stdout.flush()
    folders = sorted(os.path.dirname(it) for it in glob.glob(f"{workspace.ROOT}/examples/*/README.md"))
    for it in sorted(glob.glob(f"{workspace.ROOT}/examples/**/*.svg", recursive=True)):
        tally.tell(f"picture {named(it)}", draws(program, it))
    for folder in folders:
        scripts = glob.glob(f"{folder}/*.dsm")
        tally.tell(f"programs of {named(folder)}", scripts and all(accepts(program, it) for it in scripts))
    for it in [*glob.glob(f"{workspace.ROOT}/examples/*.settings"), *(f"{it}/settings" for it in folders)]:
        tally.tell(f"settings {named(it)}", begins(program, it))
    clang = clang_here()
    if clang:
        run_in_c(program, folders, clang, tally)
    if version_of(clang or "") != VERSION:
        tally.leave_out("procedures in C, to the byte, and answers to mistakes in C" if clang else "procedures in C", INSTALL)
