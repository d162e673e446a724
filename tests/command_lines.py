"""Command lines of the program, each with its exit status, what it prints and how its fault begins: the contracts of
the engines say nothing of words and files. What is expected is what docs/FORMATS.md and docs/REFUSALS.md say.
"""
import collections
import contextlib
import os
import pty
import re
import shutil
import subprocess
import tempfile

import explanations
import workspace

NOBODY = 65534  # who may read no file of mode 0, as the superuser may
ARGS = "dsmdb: ARGS must be a number from 0 to 256: "
TABLE = "dsmdb: T:W must be a table from 1 to 64 and its row width from 1 to 128: "
EXECUTORS = "dsmdb: --executors must be a number from 1 to 16: "
LOG = "dsmdb: --log must be a number from 1 to 1048576: "
NUMBER = "dsmdb: NUMBER must be a refusal's"
ACCEPTED = "accepted slots 17 bound 17\n"
LISTING = """\
   0 18000000010000000000000002000000 lddw dst 0 src 0 off 0 imm 8589934593
   2 9500000000000000 exit dst 0 src 0 off 0 imm 0
"""

# Words, with one space between them; the exit status; what is printed: the whole text, or pieces of it; how the fault
# begins, or nothing of one; which stream is the device that takes no byte; whether somebody watches the faults; the input.
Row = collections.namedtuple("Row", "words status output fault full watched given", defaults=["", "", "", False, ""])

PROGRAMS = {
    "wide.bpf": "1800000001000000 0000000002000000 9500000000000000",
    "cut.bpf": "1800000001000000",
    "into.bpf": "0500010000000000 1800000001000000 0000000000000000 9500000000000000",
    "exit.bpf": "9500000000000000",
    "one.bpf": "b700000001000000 9500000000000000",
    "nothing": "",
}
SCRIPTS = {
    "settings.dsm": "# no line that acts\nwindow 4\nreplicas 2\ntable 1 8",
    "zero.dsm": "window 0\n",
    "fault.dsm": "window 4\nreplicas 2\ndeliver 1 1\njump 1\ndeliver 2 1\n",
    "early.dsm": "deliver 1 1\n",
    "refused.dsm": "window 4\nreplicas 2\ntable 1 8\nproc x 1 0 9500000000000000\n",
    "site.settings": "window 4\ntable 1 8\nadditions\n",
    "long.dsm": "window 4\nreplicas 2\n" + 2_500 * "begin 1 x 00\n",
}

LISTS = [
    Row("list wide.bpf", 0, LISTING),
    Row("list cut.bpf", 1, "refused B7 slot 0\n"),
    Row("list into.bpf", 1, "refused B10 slot 0\n"),
    Row("list nothing", 1, "refused B1 slot 0\n"),
]
CHECKS = [
    Row("check add.bpf 16 1:8", 0, ACCEPTED),
    Row("check add.bpf 256 64:128 1:8", 0, ACCEPTED),
    Row("check one.bpf 0", 0, "accepted slots 2 bound 2\n"),
    Row("check add.bpf 8 1:8", 1, "refused V4 slot 1\n"),
    Row("check add.bpf 16 1:16", 1, "refused V9 slot 6\n"),
    Row("check add.bpf 16 2:8", 1, "refused V7 slot 6\n"),
    Row("check add.bpf 16 1:8 1:8", 1, "refused S3\n"),
    Row("check nothing 16 1:8 1:8", 1, "refused S3\n"),
    Row("check into.bpf 16 1:8", 1, "refused B10 slot 0\n"),
    Row("check exit.bpf 0", 1, "refused V1 slot 0\n"),
]
REPLAYS = [
    Row("replay settings.dsm", 0),
    Row("replay nothing", 0),
    Row("replay fault.dsm", 1, "replica 1 refused P6\n", "line 4: L2\n"),
    Row("replay zero.dsm", 1, "", "line 1: L4\n"),
    Row("replay early.dsm", 1, "", "line 1: L5\n"),
    Row("replay refused.dsm", 1, "", "line 4: L7 V1 slot 0\n"),
]
NONE_CALLED = """\
total committed 0 read 0 cancelled 0 conflict 0 stale 0 repeat 0 other 0
replica 1 position 0 commits 0 running
replica 2 position 0 commits 0 running
agreement yes
"""
LONG = ["call 1 refused P2\n", "call 2500 refused P2\n", " other 2500\n", "agreement yes\n"]
RUNS = [
    Row("run settings.dsm", 0, NONE_CALLED),
    Row("run settings.dsm --executors 16 --log 1048576", 0, NONE_CALLED),
    Row("run nothing", 1, "", "line 0: L5\n"),
    Row("run fault.dsm", 1, "", "line 3: L5\n"),
    Row("run zero.dsm", 1, "", "line 1: L4\n"),
    Row("run early.dsm", 1, "", "line 1: L5\n"),
    Row("run refused.dsm", 1, "", "line 4: L7 V1 slot 0\n"),
    Row("run long.dsm", 0, LONG),
    Row("run long.dsm", 0, LONG, "dsmdb: made 1000 of 2500 calls\r\ndsmdb: made 2000 of 2500 calls\r\n", watched=True),
    Row("run settings.dsm", 0, NONE_CALLED, watched=True),
]
# A site answers each line of its input; what has no LF at its end is none.
SITES = [
    Row("site site.settings", 0),
    Row("site site.settings", 0, "position 0\nfault L2\nposition 0 rows 0\n", given="position\njump\n# none\nrows\nposition"),
    Row("site site.settings", 0, "entry 1 nothing E1\nposition 1\n", given="entry -\nposition\n"),
    Row("site settings.dsm", 1, "", "line 3: L5\n", given="position\n"),
    Row("site nothing", 1, "", "line 0: L5\n", given="position\n"),
    Row("site fault.dsm", 1, "", "line 2: L5\n"),
    Row("site zero.dsm", 1, "", "line 1: L4\n"),
]
# The words are read first, then the file is opened, then the schema is made, and then the program is read: a folder can
# be opened, and not read.
FILES = [
    *[Row(words, 3, "", "dsmdb: missing: ") for words in ("list missing", "check missing 16", "replay missing", "run missing", "site missing")],
    *[Row(words, 3, "", "dsmdb: secret: ") for words in ("list secret", "check secret 16", "replay secret", "run secret", "site secret")],
    *[Row(words, 3, "", "dsmdb: ") for words in ("list folder", "check folder 16", "replay folder", "run folder", "site folder")],
    Row("list ", 3, "", "dsmdb: "),
    Row("check missing 257", 2, "", ARGS),
    Row("check missing 16 1:129", 2, "", TABLE),
    Row("check missing 16 1:8 1:8", 3, "", "dsmdb: missing: "),
    Row("check folder 16 1:8 1:8", 1, "refused S3\n"),
]
WORDS = [
    *[Row(f"check add.bpf {it} 1:8", 2, "", f"{ARGS}'{it}'") for it in ("257", "65536", "01", "00", "+1", "x", "1:8", "")],
    *[Row(f"check add.bpf 16 1:8 {it}", 2, "", f"{TABLE}'{it}'")
      for it in ("0:8", "65:8", "257:8", "1:0", "1:129", "1:65537", "1", "1:", ":8", "1:8:9", "01:8", "1:08", "x:8", "+1:8", "")],
    *[Row(f"run settings.dsm --executors {it}", 2, "", f"{EXECUTORS}'{it}'") for it in ("0", "17", "01", "x")],
    *[Row(f"run settings.dsm --log {it}", 2, "", f"{LOG}'{it}'") for it in ("0", "1048577", "4294967296", "x")],
    *[Row(f"explain {it}", 2, "", NUMBER) for it in ("V13", "v5", "V05", "V0", "5", "")],
    *[Row(it, 2, "", "error: ") for it in (
        None, "", "jump", "--jump", "list", "list add.bpf b", "check", "check add.bpf", "check add.bpf -1",
        "replay", "replay settings.dsm b", "run", "run settings.dsm b", "run settings.dsm --executors", "site", "site site.settings b", "explain", "explain V5 V6", "list --jump")],
]
FULL = [
    *[Row(it, 3, "", "dsmdb: ", "output") for it in (
        "list wide.bpf", "list cut.bpf", "check add.bpf 16 1:8", "check add.bpf 8 1:8", "replay two-replicas.dsm",
        "run settings.dsm", "explain V5", "--help", "list --help", "--version")],
    Row("site site.settings", 3, "", "dsmdb: ", "output", given="position\n"),
    # A fault that can't be said changes neither output nor status.
    *[it._replace(fault="", full="faults", watched=False) for it in (
        LISTS[0], CHECKS[3], *REPLAYS, *RUNS, *SITES, *FILES,
        Row("check add.bpf 257", 2), Row("explain V13", 2), Row(None, 2), Row("jump", 2), Row("list", 2))],
]


def asked():
    """The command lines that ask for help, the version and what a number says."""
    version = re.search(r"^## (\S+)", workspace.read("docs/CHANGES.md").decode(), re.M)[1]
    scripts = workspace.read("docs/FORMATS.md").decode().split("\n## Scripts\n")[1].split("\n## ")[0]
    script_words = re.findall(r"^\| `([a-z]+)\b", scripts, re.M)
    lines = workspace.read("docs/FORMATS.md").decode().split("\n## The lines of a site\n")[1].split("\n## ")[0]
    site_words = [*re.findall(r"^\| `([a-z]+)\b", lines, re.M), "additions", "origin"]
    pieces = {"list": ("FILE",), "check": ("FILE", "ARGS", "T:W"), "replay": ("SCRIPT", *script_words),
              "run": ("SCRIPT", "--executors", "--log"), "site": ("SETTINGS", *site_words), "explain": ("NUMBER",)}
    explained = [Row(f"explain {it['Number']}", 0, tuple(filter(None, it.values()))) for it in rows_of_refusals()]
    helped = [Row(f"{it} --help", 0, (f"dsmdb {it}", *words)) for it, words in pieces.items()]
    return [Row("--help", 0, tuple(pieces)), *helped, Row("--version", 0, f"dsmdb {version}\n"), *explained]


def rows_of_refusals():
    """Each row of the tables of refusals, but for the place of a fault, which isn't explained."""
    return [{name: cell for name, cell in it.items() if name != "Slot"} for it in explanations.tables()]


def rows():
    with open(f"{workspace.ROOT}/examples/two-replicas.out") as file:
        replayed = Row("replay two-replicas.dsm", 0, file.read())
    with open(f"{workspace.ROOT}/examples/two-replicas-run.out") as file:
        called = Row("run two-replicas-run.dsm --executors 1 --log 1", 0, file.read())
    return [*LISTS, *CHECKS, replayed, *REPLAYS, called, *RUNS, *SITES, *FILES, *WORDS, *asked(), *FULL]


def furnish(room, program):
    """Puts the program and the files that the rows name into a folder that everybody may enter."""
    os.chmod(room, 0o755)
    shutil.copy(program, f"{room}/dsmdb")
    for name in ("add.bpf", "two-replicas.dsm", "two-replicas-run.dsm"):
        shutil.copy(f"{workspace.ROOT}/examples/{name}", room)
    for name, code in PROGRAMS.items():
        with open(f"{room}/{name}", "wb") as file:
            file.write(bytes.fromhex(code))
    for name, text in {**SCRIPTS, "secret": "window 4\n"}.items():
        with open(f"{room}/{name}", "w") as file:
            file.write(text)
    os.mkdir(f"{room}/folder")
    for name in os.listdir(room):
        os.chmod(f"{room}/{name}", 0 if name == "secret" else 0o755)


def become_nobody():
    os.setgroups([])
    os.setgid(NOBODY)
    os.setuid(NOBODY)


def ran(room, row, faults=subprocess.PIPE):
    """Runs a command line. Returns its status and what it wrote to each stream that isn't the full device."""
    words = [] if row.words is None else row.words.split(" ")
    with open("/dev/full", "wb") as full:
        return subprocess.run(
            [f"{room}/dsmdb", *words], cwd=room, env={}, input=row.given.encode(), timeout=60,
            stdout=full if row.full == "output" else subprocess.PIPE,
            stderr=full if row.full == "faults" else faults,
            preexec_fn=become_nobody if os.geteuid() == 0 else None)


def watched(room, row):
    """Runs a command line whose faults go to a terminal. Returns the same."""
    keeper, terminal = pty.openpty()
    try:
        found = ran(room, row, terminal)
        os.set_blocking(keeper, False)
        with contextlib.suppress(BlockingIOError):
            found.stderr = os.read(keeper, 4_096)
        return found
    finally:
        os.close(keeper)
        os.close(terminal)


def unlike(room, row):
    """Says what a command line does otherwise than its row says; nothing where it is as it should be."""
    try:
        found = watched(room, row) if row.watched else ran(room, row)
    except (OSError, subprocess.SubprocessError) as error:
        return str(error)
    output, fault = ((it or b"").decode(errors="replace") for it in (found.stdout, found.stderr))
    whole = isinstance(row.output, str)
    printed = output == row.output if whole else all(it in output for it in row.output)
    said = fault.startswith(row.fault) if row.fault else not fault
    if (found.returncode, printed, said) == (row.status, True, True):
        return ""
    return f"status {found.returncode} and not {row.status}, or unlike: {output[:200]!r} {fault[:200]!r}"


def failures(program):
    """Runs each command line with the program at a path. Returns which failed, with what they did."""
    with tempfile.TemporaryDirectory(prefix="command-lines-") as room:
        furnish(room, program)
        found = [(row, unlike(room, row)) for row in rows()]
    said = lambda row: " ".join(["dsmdb", *([] if row.words is None else [row.words])]) + (f", full {row.full}" if row.full else "")
    return [f"{said(row)}: {why}" for row, why in found if why]


def run(program, tally):
    """Counts the command lines, and prints which failed."""
    failed, count = failures(program), len(rows())
    for it in failed:
        print(f"command line {it}: FAILED", flush=True)
    print(f"command lines: {count - len(failed)} of {count} as they should be", flush=True)
    tally.count(count - len(failed), len(failed))
