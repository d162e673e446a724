"""Proves and builds the program here, by all processors. What was proved is kept when that is interrupted."""
import contextlib
import os
import re
import signal
import subprocess
import sys

import programs
from workspace import ROOT

FOLDER = f"{ROOT}/crates/{programs.NAME}"
MEMORY = 4 << 30  # what a check may take, in bytes


def say(text):
    """Writes a line to standard error. Where nobody takes it, what was begun goes on."""
    with contextlib.suppress(OSError):
        os.write(2, f"dsmdb: {text}\n".encode(errors="replace"))


def number_in(path, pattern):
    """Returns the first number of a file that follows the pattern, or 0."""
    with contextlib.suppress(OSError), open(path) as file:
        if found := re.search(pattern, file.read()):
            return int(found[1])
    return 0


def jobs():
    """Returns how many crates to prove at a time: one a processor, as far as memory goes."""
    processors = len(os.sched_getaffinity(0))
    quota, period = (number_in("/sys/fs/cgroup/cpu.max", it) for it in (r"^(\d+)", r" (\d+)"))
    if quota and period:
        processors = min(processors, max(quota // period, 1))
    free = 1024 * number_in("/proc/meminfo", r"MemAvailable:\s+(\d+)")
    if limit := number_in("/sys/fs/cgroup/memory.max", r"^(\d+)"):
        free = min(free, limit - number_in("/sys/fs/cgroup/memory.stat", r"anon (\d+)"))
    return max(min(processors, free // MEMORY), 1)


def run(words, folder, heard):
    """Runs a command in a folder, hands on each line that it prints, and returns its status. It ends with this program."""
    how = {"stdin": subprocess.DEVNULL, "stdout": subprocess.PIPE, "stderr": subprocess.STDOUT, "text": True, "errors": "replace"}
    with subprocess.Popen(words, cwd=folder, **how) as command:
        try:
            for line in command.stdout:
                heard(line.rstrip("\n"))
        except BaseException:
            command.terminate()
            raise
    return command.returncode


class Progress:
    """Tells of each crate when it is proved, and keeps what was said of those that weren't."""

    def __init__(self, count):
        self.count, self.done, self.block, self.failed = count, 0, [], []

    def hear(self, line):
        if line.startswith("== "):
            self.end_block()
            self.block = [line]
        elif line.startswith("rt: waiting for another rt"):
            say(line.removeprefix("rt: "))
        else:
            self.block.append(line)

    def end_block(self):
        """A block is what was said of one crate: nothing where it was proved before."""
        head, *said = self.block or [""]
        name, proved = head.removeprefix("== "), [it for it in said if it.startswith("logic=")][-1:]
        if name in (head, "summary"):
            self.failed += self.block
        elif not said or proved and proved[0].startswith("logic=proved"):
            self.done += 1
            if said:
                say(f"proved {self.done} of {self.count}: {name}")
        else:
            self.failed += self.block
            say(f"not proved: {name}")


def prove_all():
    """Proves the program and all below it. Returns the status, and what was said where that failed."""
    at_once, count = jobs(), len(programs.crates())
    say(f"proving and building it, {count} crates, {at_once} at a time, from nothing half an hour or more")
    while True:
        progress = Progress(count)
        status = run(["rt", "all", "check", "--jobs", str(at_once)], FOLDER, progress.hear)
        progress.end_block()
        was_killed = any("failed (-9)" in it for it in progress.failed)
        if status == 0 or not was_killed or at_once == 1:
            return status, progress.failed
        at_once = max(at_once // 2, 1)
        say(f"memory ran out: going on with {at_once} at a time")


def prove_and_link(reason):
    """Proves and builds the program. Returns why there is none, or nothing."""
    say(f"{reason}; what is proved is kept when this is interrupted")
    of_sources = programs.sources()
    status, said = prove_all()
    if status == 0:
        said = []
        say("linking")
        status = run(["rt", "run", "--jobs", str(jobs()), "--", "--help"], FOLDER, said.append)
    if status or not os.path.isfile(programs.BUILT):
        print("\n".join(said), file=sys.stderr)
        return "the build failed"
    if programs.sources_of(ROOT) != of_sources:
        return "its sources changed while it was built; what was proved is kept, and the next run goes on from there"
    programs.write_origin(programs.BUILT, of_sources, programs.kit_here())
    return ""


def build(reason):
    """Proves and builds the program. Returns 0, or says why there is none and returns the status to end with."""
    for number in (signal.SIGTERM, signal.SIGHUP):
        if signal.getsignal(number) == signal.SIG_DFL:
            signal.signal(number, signal.default_int_handler)
    try:
        why, status = prove_and_link(reason), 3
    except KeyboardInterrupt:
        why, status = "interrupted: what was proved is kept, and the next run goes on from there", 130
    if why:
        say(why)
    return status if why else 0
