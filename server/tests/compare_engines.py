#!/usr/bin/env python3
"""compare_engines.py COMMAND SEED COUNT: draws orders and lines between, gives them to an engine, which COMMAND site
SETTINGS runs, and to the plain one, and compares all answers, line for line.

An order has strings that sites have submitted, soon or late, once or again, changed or cut, and strings that are none.
Three sites are given each, some later than others, with calls of their own between, some of them asked again. Every
other order ends with its drawing, and one more is drawn over the settings that a site dumps then.
"""
import os
import random
import shlex
import subprocess
import sys
import tempfile
from collections import Counter

sys.dont_write_bytecode = True
sys.path.insert(0, os.path.dirname(os.path.realpath(__file__)))
import fixtures
from fixtures import ADD, CLAIM, ONE, words
from plain_engine import LAST, LAST_KEY, Site, answer_of

PUT = "79120000000000007914080000000000" "7b4af8ff00000000bfa3000000000000" "07030000f8ffffffb701000001000000"
PUT += "85000000020000009500000000000000"
COUNT = "79161000000000007912000000000000" "7913080000000000b701000001000000" "8500000004000000bf07000000000000"
COUNT += "7b7af8ff00000000b701000001000000" "bf62000000000000bfa3000000000000" "07030000f8ffffff8500000002000000"
COUNT += "bf700000000000009500000000000000"
NEXT = "79161000000000007912000000000000" "7913080000000000bfa4000000000000" "07040000f8ffffffbfa5000000000000"
NEXT += "07050000f0ffffffb701000001000000" "8500000005000000b701000001000000" "bf62000000000000bfa3000000000000"
NEXT += "07030000f0ffffff8500000002000000" "79a0f8ff000000009500000000000000"
DELETE = "7912000000000000b701000001000000" "85000000030000009500000000000000"
NOTHING = "b7000000070000009500000000000000"
PROCEDURES = [("add", 1, 16, ADD), ("claim", 2, 8, CLAIM), ("put", 3, 16, PUT), ("count", 4, 24, COUNT)]
ADDED = [
    ("next", 5, 24, NEXT), ("delete", 6, 8, DELETE), ("nothing", 7, 0, NOTHING), ("one", 5, 0, ONE),
    ("put", 9, 16, PUT),
]
NO_PROGRAMS = [
    "-", "95", "9500000001000000", "b700000000000000", "0500ffff000000009500000000000000",
    "bf0b0000000000009500000000000000",
]
FAULTS = [
    "jump", " position", "position ", "position 1", "call add 00 1", "call add 0 1 1", "call add 00 01 1", "entry",
    "entry 0", "entry zz", "entry 00 00", "add one 9 257 00", "add one 65536 0 00", "rows 1", "rows\t", "#\t",
    "call add 00 4294967296 1", "scan 256 0 0 1", "scan 1 0 0 0", "scan 1 0 0", "scan 1 0 18446744073709551616 1", "scan 1 00 1 1",
]
KINDS = ["add"] * 4 + ["claim", "claim", "put", "put", "count", "next", "delete", "nothing", "one", "none"]
SITES = 3
STEPS = 120  # lines that a site is asked


class Drawn:
    """An order, and sites that are given it: the lines that each is asked, and what the plain engine answers. It goes on
    from an order that has ended, where one is given."""

    def __init__(self, seed, ended=None):
        self.random = random.Random(f"{seed} behind" if ended else seed)
        self.settings = ended.dumped() if ended else self.drawn_settings()
        self.before = ended.done() if ended else self.before
        self.sites = [Site(self.settings.encode()) for _ in range(SITES)]
        self.lines, self.answers = ([[] for _ in range(SITES)] for _ in range(2))
        self.order, self.submitted, self.given = [], [], [0] * SITES
        self.asked, self.settled = [], []  # calls; what settles calls, as (position, snapshot, call)
        while min(map(len, self.lines)) < STEPS:
            self.step(self.random.randrange(SITES))
        for at in range(SITES):
            while self.given[at] < len(self.order):
                self.give(at)
            self.ask(at, "rows")
            self.ask(at, "dump")

    def drawn_settings(self):
        additions = self.random.random() < 0.8
        settings = f"window {self.random.choice([1, 2, 4, 8, 16])}\ntable 1 8\n"
        settings += "additions\n" if additions else ""
        settings += "".join(f"proc {name} {number} {args} {code}\n" for name, number, args, code in PROCEDURES)
        return settings + self.beginning()

    def dumped(self):
        """Returns the settings that a site dumped last."""
        said = answer_of(self.sites[0], b"dump")
        return said[: said.rindex("position ")]

    def done(self):
        """Returns the pairs that were done before an order that goes on from here: those of the settings that go on, and
        where sessions' numbers only rise, all that were done in this order or before it."""
        told = {(session, last[0]) for session, last in self.sites[0].sessions.items() if last[0] > 0}
        return told if self.sites[0].origin is None else told | self.before | {it[1] for it in self.committed()} - {(0, 0)}

    def committed(self):
        """Returns the positions at which calls committed, with pair, procedure and arguments, and the snapshot."""
        found = []
        for d, writes in enumerate(self.sites[0].writes, 1):
            if writes:
                _, pair, of, args, snapshot = self.sites[0].head(self.order[d - 1])
                found.append((d, pair, of, args, snapshot))
        return found

    def beginning(self):
        """Returns lines of rows and of requests that were done before, or none."""
        drawn = lambda least, most: sorted(self.random.sample(range(least, least + most), self.random.randint(0, most)))
        rows, sessions = drawn(0, self.random.choice([0, 4])), drawn(1, self.random.choice([0, 3]))
        requests = [(session, self.random.randint(0, 30)) for session in sessions]
        self.before = {pair for pair in requests if pair[1] > 0}
        lines = [f"row 1 {key} {words(self.random.randrange(100))}\n" for key in rows]
        if self.random.random() < 0.5:
            lines.append(f"origin {self.random.choice([0, 5, 5, LAST_KEY - 9])} {self.random.choice([0, 1, 4]) + max(sessions, default=0)}\n")
        lines += [f"request {s} {q} {self.random.randrange(100)} {self.random.randrange(3)} {self.random.choice(['-', '0aFF'])}\n" for s, q in requests]
        return "".join(lines)

    def ask(self, at, line):
        answer = answer_of(self.sites[at], line.encode())
        self.lines[at].append(line)
        if answer is None:
            return
        self.answers[at].extend(answer.split("\n"))
        if answer.startswith("submit "):
            self.submitted.append(bytes.fromhex(answer.removeprefix("submit ")))
        elif answer.startswith(("read", "cancelled")):
            _, name, args, session, sequence = line.split(" ")
            number = self.sites[at].procedures[name][0]
            position = int(answer.split(" ")[1])
            asked = ((int(session), int(sequence)), number, b"" if args == "-" else bytes.fromhex(args))
            self.settled.append((position, position, asked))

    def give(self, at):
        """Gives a site the next string of the order, which is drawn where it has had all. A full order takes none."""
        behind = self.order[self.given[at] :]
        string = behind[0] if behind else self.string()
        self.ask(at, f"entry {string.hex() or '-'}")
        if self.answers[at][-1] == "fault O1":
            return
        self.order += [] if behind else [string]
        self.given[at] += 1
        if self.answers[at][-1].split(" ")[2] in ("conflict", "stale"):
            _, *asked, snapshot = self.sites[at].head(string)
            self.settled.append((self.given[at], snapshot, tuple(asked)))

    def lie(self):
        """Returns a commit that can't be: of a pair that was done, of a session that has gone on, or one that an answer had
        ruled out: behind it, of the same call, on rows that aren't newer."""
        committed = []
        for d, *asked, snapshot in self.committed():
            if asked[0] in [*self.before, *committed]:
                return f"{asked} was done before, and commits at {d}"
            session, sequence = asked[0]
            if self.sites[0].origin is not None and any(s == session and q > sequence for s, q in [*self.before, *committed]):
                return f"{asked} commits at {d}, though its session has gone on"
            committed += [asked[0]] if session else []
            for position, newest, settled in self.settled:
                if settled == tuple(asked) and settled[0] != (0, 0) and position < d and snapshot <= newest:
                    return f"{settled} was settled at {position}, and commits at {d}"
        return None

    def step(self, at):
        chosen = self.random.random()
        if chosen < 0.45:
            self.give(at)
        elif chosen < 0.85:
            self.ask(at, self.call())
        elif chosen < 0.92:
            self.ask(at, self.addition())
        elif chosen < 0.96:
            self.ask(at, self.random.choice(["rows", "position", "dump", "", "# a comment", self.scan()]))
        else:
            self.ask(at, self.random.choice(FAULTS))

    def call(self):
        """Returns a call, which may have been asked before."""
        if self.asked and self.random.random() < 0.3:
            return self.random.choice(self.asked[-20:])
        self.asked.append(self.new_call())
        return self.asked[-1]

    def new_call(self):
        name, few = self.random.choice(KINDS), lambda: self.random.randrange(4)
        blocks = {"add": (few(), few()), "claim": (few(),), "put": (few(), few()), "delete": (few(),)}
        blocks["count"] = blocks["next"] = (few(), few(), 10 + few())
        args = words(*blocks.get(name, ())) or "-"
        if self.random.random() < 0.05:
            args = "00"
        pair = self.random.choice([(0, 0), (7, 0), *[(self.random.randint(1, 3), self.random.randint(1, 30))] * 10])
        return f"call {name} {args} {pair[0]} {pair[1]}"

    def scan(self):
        table, most = self.random.choice([0, 1, 1, 1, 1, 2, 255]), self.random.choice([1, 2, 3, 100, LAST])
        return f"scan {table} {self.random.randrange(4)} {self.random.choice([0, 1, 2, 3, LAST_KEY])} {most}"

    def addition(self):
        name, number, args_len, code = self.random.choice(ADDED)
        if self.random.random() < 0.2:
            code = self.random.choice(NO_PROGRAMS)
        return f"add {self.random.choice([name, name, name, 'na-me'])} {number} {args_len} {code}"

    def string(self):
        """Returns a string of the order."""
        chosen = self.random.random()
        if chosen < 0.1 or not self.submitted:
            others = [b"\0", b"\0\2" + bytes(15), b"\0\2" + bytes(17), b"\1", b"\2", b"\3", self.random.randbytes(60)]
            return self.random.choice([b"", *others, *[b"\0\2" + self.random.randbytes(16)] * 7])
        if chosen < 0.2 and self.order:
            return self.random.choice(self.order)
        recent = self.submitted[-6:] if chosen < 0.85 else self.submitted
        string = self.random.choice(recent)
        if string[:1] == b"\1" and self.before and self.random.random() < 0.1:  # a pair that was done before
            return string[:1] + b"".join(it.to_bytes(4, "little") for it in min(self.before)) + string[9:]
        return self.changed(string) if self.random.random() < 0.25 else string

    def changed(self, string):
        """Returns a string with another byte, shorter, or longer. An addition's program stays, or decodes no more."""
        if string[:1] == b"\2":
            name_end = 6 + string[5]
            at = self.random.choice([1, 5, *range(6, name_end), name_end, name_end + 4])
            return string[:at] + bytes([0xFF]) + string[at + 1 :]
        args_len = int.from_bytes(string[15:17], "little")
        # session, sequence, call, procedure, length, arguments, snapshot, reply
        head = [1, 5, 9, 13, 15, 17, 17 + args_len, 21 + args_len]
        at = self.random.choice([self.random.randrange(len(string)), *head])
        at = min(at, len(string) - 1)
        if self.random.random() < 0.3:
            return string[:at]
        if self.random.random() < 0.1:
            return string + b"\0"
        return string[:at] + bytes([self.random.choice([0, 1, string[at] ^ 1, 255])]) + string[at + 1 :]


def answers_of(command, drawn, at, folder):
    path = f"{folder}/settings"
    with open(path, "w") as file:
        file.write(drawn.settings)
    given = "".join(f"{it}\n" for it in drawn.lines[at])
    asked = [*shlex.split(command), "site", path]
    ran = subprocess.run(asked, input=given, capture_output=True, text=True, timeout=fixtures.LONG)
    ended = [] if (ran.returncode, ran.stderr) == (0, "") else [f"{ran.returncode}: {ran.stderr}"]
    return ran.stdout.splitlines() + ended


def compare(command, seed, folder):
    """Returns the first line that is answered differently, with both answers, or what an answer had ruled out, or None;
    and the answers."""
    chain = [Drawn(seed)]
    chain += [Drawn(seed, chain[0])] if seed % 2 else []
    for link, drawn in enumerate(chain, 1):
        for at in range(SITES):
            found, expected = answers_of(command, drawn, at, folder), drawn.answers[at]
            for n, (one, other) in enumerate(zip(found + [""] * len(expected), expected + [""] * len(found))):
                if one != other:
                    return f"order {seed}.{link}, site {at + 1}, answer {n + 1}: {one!r}, and plainly {other!r}", []
        if lie := drawn.lie():
            return f"order {seed}.{link}: {lie}", []
    return None, [answer for drawn in chain for answers in drawn.answers for answer in answers]


def kind_of(answer):
    """Returns what kind of answer it is: its words that aren't numbers or HEX."""
    said = answer.split(" ")
    if said[0] == "entry":
        return " ".join([said[0], said[2], *(said[3:4] if said[2] in ("nothing", "taken") else [])])
    return " ".join(said[:2]) if said[0] in ("refused", "fault") else said[0]


def compare_all(command, seed, count):
    """Returns the differences, and how often each kind of answer came."""
    differences, kinds = [], Counter()
    with tempfile.TemporaryDirectory(prefix="engines-") as folder:
        for it in range(seed, seed + count):
            difference, answers = compare(command, it, folder)
            differences += [difference] if difference else []
            kinds.update(kind_of(answer) for answer in answers if not answer.startswith(" "))
    return differences, kinds


if __name__ == "__main__":
    if len(sys.argv) != 4:
        sys.exit(__doc__)
    found, counted = compare_all(sys.argv[1], int(sys.argv[2]), int(sys.argv[3]))
    for kind, number in sorted(counted.items()):
        print(f"{number:7} {kind}")
    print("\n".join(found) or "all answers are alike")
    sys.exit(1 if found else 0)
