"""Calls on threads. `./test`: full houses by `dsmdb run`, with what it prints. `./prove`: growths of memory that are refused,
one after another, to `dsmdb run` and to a node of two replicas with one session (crates/scarce_node); drawn ones, under a
node of eight replicas with 128 callers (crates/node_bench).

A program whose growths are refused has the library of tests/refusing.c preloaded.

tests/threads.py [CALLS [SEED]]   such a soak alone, of 1,000,000 calls or as many as are said; crates/node_bench is built
"""
import collections
import os
import random
import re
import subprocess
import sys
import tempfile

ROOT = os.path.dirname(os.path.dirname(os.path.realpath(__file__)))
sys.path[:0] = [f"{ROOT}/gate", f"{ROOT}/tests"]
from tally import Tally

LIMIT = 60  # seconds that a run may take
# add KEY AMOUNT adds to a row and replies with the sum; put KEY ROW puts a row
ADD = (
    "79160000000000007917080000000000b701000001000000bf62000000000000bfa300000000000007030000f8ffffff850000000100000079a8f8ff00000000"
    "0f780000000000007b8af8ff00000000b701000001000000bf62000000000000bfa300000000000007030000f8ffffff8500000002000000bf80000000000000"
    "9500000000000000")
PUT = "791200000000000079140800000000007b4af8ff00000000bfa300000000000007030000f8ffffffb70100000100000085000000020000009500000000000000"
KINDS = ["committed", "read", "cancelled", "conflict", "stale", "repeat"]  # as the `total` line has them; `other` stands behind
OTHERS = ["no memory", "full", "stopped", "refused"]
ENTRY_KINDS = ["committed", "conflict", "repeat", "stopped"]  # whose first number is the entry's position
SOAKED = 20_000  # calls of a soak in the gate
BEGUN = 4_000  # growths, by which a node of eight replicas of 16 threads has its accounts and its callers
GROWN = 12  # growths of each call of a soak there, at least

Call = collections.namedtuple("Call", "kind numbers")
Replica = collections.namedtuple("Replica", "position commits state")


def stopped_in(replicas):
    return [it for it in replicas if it.state == "stopped"]


# ---- what `dsmdb run` prints


class Printed:
    """What a run printed, as data. A line of another form is an error."""

    def __init__(self, output):
        self.calls, self.replicas, self.totals, self.agreement = [], [], {}, None
        for line in output.splitlines():
            if it := re.fullmatch(rf"call (\d+) ({'|'.join(KINDS + OTHERS)})((?: \w+)*)", line):
                self.calls.append(Call(it[2], [int(word) for word in it[3].split() if word.isdecimal()]))
                if int(it[1]) != len(self.calls):
                    raise ValueError(f"{line} is call {len(self.calls)}")
            elif it := re.fullmatch(r"replica (\d+) position (\d+) commits (\d+) (running|stopped)", line):
                self.replicas.append(Replica(int(it[2]), int(it[3]), it[4]))
            elif line.startswith("total "):
                words = line.split()[1:]
                self.totals = dict(zip(words[::2], map(int, words[1::2])))
            elif line in ("agreement yes", "agreement no"):
                self.agreement = line == "agreement yes"
            else:
                raise ValueError(f"{line!r} is no line of a run")

    def faults(self, calls, replicas):
        """Says where answers, totals and ends don't agree with each other, and where there aren't as many as there should be."""
        if (len(self.calls), len(self.replicas)) != (calls, replicas):
            yield f"{len(self.calls)} calls and {len(self.replicas)} replicas"
        counts = collections.Counter(it.kind for it in self.calls)
        if self.totals != {**{it: counts[it] for it in KINDS}, "other": sum(counts[it] for it in OTHERS)}:
            yield f"totals {self.totals} of answers {dict(counts)}"
        if not self.agreement:
            yield "no agreement"
        yield from self.faults_of_entries(counts)

    def faults_of_entries(self, counts):
        """Says where the positions that calls and replicas name aren't those of one log."""
        places = [it.numbers[0] for it in self.calls if it.kind in ENTRY_KINDS]
        running, stopped = [it for it in self.replicas if it.state == "running"], stopped_in(self.replicas)
        if len({*places}) < len(places):
            yield "two calls are one entry"
        for it in self.calls:
            if it.kind == "stopped" and not any(replica.position < it.numbers[0] for replica in stopped):
                yield f"{it}, and no replica stopped before it"
        for replica in running:
            # of a call that is answered `stale` the answer doesn't say whether it is ordered
            if not len(places) <= replica.position <= len(places) + counts["stale"] or max(places, default=0) > replica.position:
                yield f"a running replica ends at {replica.position}, with calls at {sorted(places)}"
            if not counts["committed"] <= replica.commits <= counts["committed"] + counts["stopped"]:
                yield f"{replica.commits} commits, {counts['committed']} of them answered"
        if len({(it.position, it.commits) for it in running}) > 1:
            yield f"running replicas end otherwise: {running}"
        if any(it.position >= replica.position for it in stopped for replica in running):
            yield f"a replica stopped at the end: {self.replicas}"


def ran(words, room, limit=LIMIT, more=None):
    """Runs a program to its end, with no input."""
    how = {"cwd": room, "env": {**os.environ, **(more or {})}, "stdin": subprocess.DEVNULL, "timeout": limit}
    return subprocess.run(words, capture_output=True, text=True, **how)


def script(room, window, replicas, begins):
    """Writes a script of calls, each a replica, a procedure, a key and a number. Returns its path."""
    lines = [f"window {window}", f"replicas {replicas}", "table 1 8", f"proc add 1 16 {ADD}", f"proc put 2 16 {PUT}"]
    for replica, procedure, key, number in begins:
        lines.append(f"begin {replica} {procedure} {key.to_bytes(8, 'little').hex()}{number.to_bytes(8, 'little').hex()}")
    path = f"{room}/calls-{window}-{replicas}.dsm"
    with open(path, "w") as file:
        file.write("\n".join(lines) + "\n")
    return path


# ---- full houses

NONE_BUT = "total committed {} read 0 cancelled 0 conflict 0 stale 0 repeat 0 other {}"


def one_place(printed, output):
    """Two calls at two replicas for a log of one place: one commits there, and the other is told that the log is full."""
    kinds = sorted(it.kind for it in printed.calls)
    wanted = "replica 1 position 1 commits 1 running\nreplica 2 position 1 commits 1 running\nagreement yes\n"
    return kinds == ["committed", "full"] and output.endswith(f"{NONE_BUT.format(1, 1)}\n{wanted}")


def one_key(printed, _):
    """200 increments of one row by 128 threads: whoever commits adds 1 to what is there, and the others are told why not."""
    replies = [it.numbers[1] for it in sorted(printed.calls, key=lambda it: it.numbers) if it.kind == "committed"]
    answered = sum(it.kind in ("committed", "conflict", "stale") for it in printed.calls)
    commits = {it.commits for it in printed.replicas}
    return answered == 200 and replies == [*range(1, len(replies) + 1)] and commits == {len(replies)} and len(replies) > 0


def many_keys(printed, output):
    """200 puts of as many rows by 32 threads: all of them commit."""
    wanted = "".join(f"replica {it} position 200 commits 200 running\n" for it in (1, 2))
    places = sorted(it.numbers[0] for it in printed.calls)
    return places == [*range(1, 201)] and output.endswith(f"{NONE_BUT.format(200, 0)}\n{wanted}agreement yes\n")


HOUSES = [
    (one_place, (4, 2, [(1, "put", 1, 1), (2, "put", 2, 2)]), ["--log", "1"]),
    (one_key, (4, 8, [(1 + it % 8, "add", 5, 1) for it in range(200)]), ["--executors", "16"]),
    (many_keys, (4_096, 2, [(1 + it % 2, "put", it, 1) for it in range(200)]), ["--executors", "16"]),
]


def run(program, tally):
    with tempfile.TemporaryDirectory(prefix="threads-") as room:
        for wanted, calls, options in HOUSES:
            found = ran([program, "run", script(room, *calls), *options], room)
            printed = Printed(found.stdout)
            why = [*printed.faults(len(calls[2]), calls[1]), *found.stderr.splitlines()]
            if not wanted(printed, found.stdout):
                why.append(found.stdout[-600:])
            tally.tell(f"full house, {wanted.__doc__.split(':')[0]}", not found.returncode and not why, "; ".join(why))


# ---- refused growths


def refusing(room):
    """Compiles the library that refuses growths. Returns its path, or nothing where there is no compiler."""
    path = f"{room}/refusing.so"
    try:
        subprocess.run(["gcc", "-O1", "-shared", "-fPIC", "-Wall", "-Werror", "-o", path, f"{ROOT}/tests/refusing.c"], check=True)
    except FileNotFoundError:
        return None
    return path


def refused(library, words, room, limit=LIMIT, **which):
    """Runs a program to which growths are refused. Returns what ran, and how many growths there were and were refused: none
    where the program didn't come to its end."""
    told = f"{room}/told"
    more = {"LD_PRELOAD": library, "REFUSE_TOLD": told, **{f"REFUSE_{name}": str(it) for name, it in which.items()}}
    found = ran(words, room, limit, more)
    if not os.path.exists(told):
        return found, 0, 0
    with open(told) as file:
        growths, count = map(int, file.read().split())
    os.remove(told)
    return found, growths, count


def each_refused(library, words, room):
    """Refuses each growth in turn, until there are no more. Yields the growth's number and what ran."""
    number, beyond = 0, 0
    while beyond < 3:  # since threads need more growths at one time than at another
        number += 1
        found, growths, count = refused(library, words, room, FROM=number)
        beyond = 0 if count or not growths else beyond + 1
        if count or not growths:
            yield number, found
        if not growths:  # a program that was killed is told of once
            return


def told_of_each(name, runs, faults, events, tally):
    """Counts one test: what is at fault in any of these runs, by a function, and which of the events never came."""
    why, met, number = [], collections.Counter(), 0
    for number, found in runs:
        try:
            why += [f"growth {number}: {it}" for it in faults(found, met)]
        except ValueError as fault:
            why.append(f"growth {number}: {fault}")
    why += [f"never {it}" for it in events if not met[it]]
    tally.tell(f"each of {number} growths of {name} refused: {dict(met)}", not why, "; ".join(why[:5]))


# How a run ends that found no memory, with nothing printed.
WITHOUT_MEMORY = re.compile(r"(line \d+: L9|(dsmdb|error): (N4: )?out of memory|dsmdb: N5: a thread wasn't started)\n")
CALLS = [(1 + it % 2, "add", it % 3, 1) for it in range(6)]


def faults_of_run(found, met):
    """Says what is at fault in a run to which one growth was refused, and notes what came of that."""
    if found.returncode == 3 and not found.stdout and WITHOUT_MEMORY.fullmatch(found.stderr):
        met["nothing printed"] += 1
        return
    if found.returncode or found.stderr:
        yield f"status {found.returncode}: {found.stdout}{found.stderr}"
        return
    printed = Printed(found.stdout)
    yield from printed.faults(len(CALLS), 2)
    kinds, stopped = [it.kind for it in printed.calls], stopped_in(printed.replicas)
    if kinds.count("no memory") + len(stopped) > 1 or {"full", "refused"} & {*kinds}:
        yield f"more than one growth explains: {found.stdout}"
    met["no memory"] += "no memory" in kinds
    met["stopped"] += bool(stopped)


class Session:
    """What crates/scarce_node printed: each call's answer and its helpers by then, the call of each entry, the ends."""

    def __init__(self, output):
        self.calls, self.entries, self.replicas = [], [], []
        for line in output.splitlines():
            if it := re.fullmatch(r"call (\d+) helpers (\d+) (\w+)(?: \{ position: (\d+)(?:, reply: 3)? \})?", line):
                self.calls.append((int(it[2]), it[3], int(it[4] or 0)))
            elif it := re.fullmatch(r"entry (\d+) call (\d+)", line):
                self.entries.append(int(it[2]))
            elif it := re.fullmatch(r"replica (\d+) position (\d+) commits (\d+) (running|stopped)", line):
                self.replicas.append(Replica(int(it[2]), int(it[3]), it[4]))
            else:
                raise ValueError(f"{line!r} is no line of a session")
        if (len(self.calls), len(self.replicas)) != (8, 2):
            raise ValueError(f"{len(self.calls)} calls and {len(self.replicas)} replicas")

    def faults(self):
        """Says where answers, entries and ends don't agree."""
        for number, call in enumerate(self.calls, 1):
            # call 1 is made at replica 2, the next at replica 1, and so on
            yield from (f"call {number}: {it}" for it in faults_of_call(*call, self.replicas[number % 2]))
        ordered = sorted((position, number) for number, (_, kind, position) in enumerate(self.calls, 1) if kind in ("Committed", "Stopped"))
        if ordered != [*enumerate(self.entries, 1)]:
            yield f"entries {self.entries} of calls that were ordered {ordered}"
        for replica in self.replicas:
            if replica.commits != replica.position or (replica.position == len(self.entries)) != (replica.state == "running"):
                yield f"{replica} of {len(self.entries)} entries"
        if sum(kind == "NoMemory" for _, kind, _ in self.calls) + len(stopped_in(self.replicas)) > 1:
            yield "more than one growth explains"


def faults_of_call(helpers, kind, position, replica):
    """Says what is at fault in the answer to a call at a replica that has ended so."""
    stopped = replica.state == "stopped"
    well = {
        "Committed": helpers == 3 and 0 < position <= replica.position,
        "Stopped": helpers == 3 and stopped and position > replica.position,
        "Behind": helpers == 0 and stopped,
        "NoMemory": helpers in (0, 1, 2, 3),
    }
    if not well.get(kind, False):
        yield f"{kind} {position} with {helpers} helpers at {replica}"


def faults_of_session(found, met):
    """Says what is at fault in a session of which one growth was refused, and notes what came of that."""
    if (found.returncode, found.stdout, found.stderr) == (1, "", "scarce_node: memory is wanting\n"):
        met["not started"] += 1
        return
    if found.returncode or found.stderr:
        yield f"status {found.returncode}: {found.stdout}{found.stderr}"
        return
    session = Session(found.stdout)
    yield from session.faults()
    met["wanting before the first helper"] += any((kind, helpers) == ("NoMemory", 0) for helpers, kind, _ in session.calls)
    met["wanting after the last helper"] += any((kind, helpers) == ("NoMemory", 3) for helpers, kind, _ in session.calls)
    met["stopped"] += bool(stopped_in(session.replicas))


EVENTS = ["not started", "wanting before the first helper", "wanting after the last helper", "stopped"]


def try_soak(library, room, tally, calls, seed):
    """Refuses drawn growths while 128 callers call at eight replicas of 16 threads, and drawn replicas are made anew. First
    the same calls are made with no growth refused: no answer and no rebuild then wants memory."""
    words, limit = [f"{ROOT}/crates/node_bench/out/node_bench", "soak", "8", "16", str(calls), str(seed)], LIMIT + calls // 100
    ample, _, _ = refused(library, words, room, limit, FROM=0)
    quiet = "other 0, of which stopped 0\nrebuilds without memory 0, replicas stopped at the end 0\n"
    well = ample.returncode == 0 and ample.stderr.endswith(quiet)
    tally.tell(f"soak of {calls} calls (seed {seed})", well, f"{ample.returncode}: {ample.stdout}{ample.stderr}"[-800:])
    # some 200 are refused, none of them behind the calls, where the comparison has to find memory
    found, _, count = refused(library, words, room, limit, FROM=BEGUN, UNTIL=GROWN * calls, ONE_IN=max(GROWN * calls // 200, 1), SEED=seed)
    well = found.returncode == 0 and count > 0
    tally.tell(f"soak of {calls} calls, {count} growths refused (seed {seed})", well, f"{found.returncode}: {found.stdout}"[-800:])
    print("".join(f"  {line}\n" for line in found.stderr.splitlines()), end="", flush=True)


def run_long(program, tally):
    """Refused growths."""
    with tempfile.TemporaryDirectory(prefix="threads-") as room:
        library = refusing(room)
        if library is None:
            tally.leave_out("refused growths on threads", "apt-get install gcc")
            return
        session = each_refused(library, [f"{ROOT}/crates/scarce_node/out/scarce_node"], room)
        told_of_each("a node with one session", session, faults_of_session, EVENTS, tally)
        runs = each_refused(library, [program, "run", script(room, 4, 2, CALLS)], room)
        told_of_each("dsmdb run", runs, faults_of_run, ["nothing printed", "no memory", "stopped"], tally)
        try_soak(library, room, tally, SOAKED, random.randrange(1 << 30))


def main():
    tally, numbers = Tally(), [int(it) for it in sys.argv[1:3]]
    calls, seed = [*numbers, 1_000_000, random.randrange(1 << 30)][:2] if len(numbers) != 1 else [*numbers, random.randrange(1 << 30)]
    with tempfile.TemporaryDirectory(prefix="threads-") as room:
        library = refusing(room)
        if library is None:
            tally.leave_out("refused growths on threads", "apt-get install gcc")
        else:
            try_soak(library, room, tally, calls, seed)
    return 0 if tally.end(complete=True) else 1


if __name__ == "__main__":
    sys.exit(main())
