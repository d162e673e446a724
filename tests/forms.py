#!/usr/bin/env python3
"""What a form of programs and entries is, by cases whose answers never change: tests/forms/N.cases for form N.

A file is blocks, each the settings of a site (`= LINE`), lines that are given to it (`> LINE`), and behind each its
answer. A block ends in the sum of all that is above (`sum HEX`), so whoever changes an old line breaks each later sum. An
answer is that of the plain engine of server/tests, a program in Python by the definitions (`< LINE`); or, of programs that
the verifier refuses, of which that engine knows nothing, what docs/REFUSALS.md says, by hand (`! LINE`): to `add`
`refused P11 V..`, and to an `entry` that adds one `nothing E2`.

  tests/forms.py FORM BLOCK [--program PATH]     puts a block behind the others: its settings and lines, and answers by
                                                 hand, as they stand in the file BLOCK

Nothing is added where the plain engine or the program answers otherwise. No command changes what stands. The sum of the
last block stands in LAST, by hand.
"""
import argparse
import glob
import hashlib
import os
import re
import subprocess
import sys
import tempfile
from typing import NamedTuple

sys.dont_write_bytecode = True
sys.path.append(f"{os.path.dirname(os.path.realpath(__file__))}/../gate")
import workspace

FOLDER = f"{workspace.ROOT}/tests/forms"
LAST = {  # by form, the sum of its last block
    "1": "4ca7eb40f13140964ea5960dd1eee1a8e85057d235dff36c724ad0acf237a4b2",
    "2": "e3c927b37fc00ae24e9a4689d56a92aaa54fd8fd59f7ce658c7bb8723ec029f4",
}
LIMIT = 120  # seconds, after which a program has failed


class Case(NamedTuple):
    line: str
    answers: list  # of one line each, but for `rows`
    by_hand: bool


class Block(NamedTuple):
    notes: list  # what it is about
    settings: list
    cases: list

    def text(self):
        """Returns the block as it stands in a file, without its sum."""
        lines = [*(f"# {it}" for it in self.notes), *(f"= {it}" for it in self.settings)]
        for case in self.cases:
            lines += [f"> {case.line}", *(f"{'!' if case.by_hand else '<'} {it}" for it in case.answers)]
        return "".join(f"{it}\n" for it in lines)


def block_of(lines):
    notes, settings, cases = [], [], []
    for line in lines:
        kind, rest = line[:1], line[2:]
        if kind == "#" and not settings:
            notes.append(rest)
        elif kind == "=" and not cases:
            settings.append(rest)
        elif kind == ">":
            cases.append(Case(rest, [], False))
        elif kind in ("<", "!") and cases:
            cases[-1] = Case(cases[-1].line, [*cases[-1].answers, rest], kind == "!")
        elif line:
            raise ValueError(f"{line!r} is no line of a block")
    return Block(notes, settings, cases)


def sum_of(text):
    return hashlib.sha256(text.encode()).hexdigest()


def read(path):
    """Returns the blocks of a file and their sums. Raises ValueError where a sum isn't that of what is above it."""
    blocks, sums, lines, above = [], [], [], ""
    with open(path, encoding="ascii") as file:
        for line in file:
            if line.startswith("sum "):
                sums.append(line.split()[1])
                if sums[-1] != sum_of(above):
                    raise ValueError(f"block {len(sums)}: a line was changed")
                blocks.append(block_of(lines))
                lines = []
            else:
                lines.append(line.rstrip("\n"))
            above += line
    if any(lines):
        raise ValueError("lines stand behind the last sum")
    return blocks, sums


# ---- answers


def told(program, block):
    """Returns what a program answers to a block's lines, all in one list."""
    with tempfile.NamedTemporaryFile("w", suffix=".settings") as settings:
        settings.write("".join(f"{it}\n" for it in block.settings))
        settings.flush()
        given = "".join(f"{it.line}\n" for it in block.cases)
        how = {"input": given, "capture_output": True, "text": True, "timeout": LIMIT}
        ran = subprocess.run([program, "site", settings.name], **how)
    if ran.returncode or ran.stderr:
        raise ValueError(f"status {ran.returncode}, {ran.stderr[:200]!r}")
    return ran.stdout.splitlines()


def answered(block):
    """Returns the block with the plain engine's answers to each line that has none by hand."""
    sys.path.insert(0, f"{workspace.ROOT}/server/tests")
    import plain_engine

    site = plain_engine.Site("".join(f"{it}\n" for it in block.settings).encode())
    cases = []
    for case in block.cases:
        if case.by_hand:
            cases.append(Case(case.line, refused_by_the_verifier(site, case), True))
            continue
        answer = plain_engine.answer_of(site, case.line.encode())
        cases.append(case if answer is None else Case(case.line, answer.split("\n"), False))
    return Block(block.notes, block.settings, cases)


def refused_by_the_verifier(site, case):
    """Returns the answers by hand to an addition that the plain engine takes. Raises ValueError where they can't be right."""
    import plain_engine

    position = len(site.writes) + 1
    before = dict(site.procedures)
    answer = plain_engine.answer_of(site, case.line.encode())
    site.procedures = before
    if answer.startswith("submit 02") and re.fullmatch(r"refused P11 V\d+ \S+ \d+.*", case.answers[0]):
        return case.answers
    if answer.startswith(f"entry {position} added ") and case.answers == [f"entry {position} nothing E2"]:
        site.known[-1] = before
        return case.answers
    raise ValueError(f"{case.line[:200]!r}: no answer by hand, since the plain engine answers {answer[:80]!r}")


def difference(program, block):
    """Says which line a program answers otherwise, nothing where it answers all as they stand."""
    try:
        found = told(program, block)
    except (OSError, subprocess.TimeoutExpired, ValueError) as fault:
        return str(fault)
    for case in block.cases:
        there, found = found[: len(case.answers)], found[len(case.answers) :]
        if there != case.answers:
            return f"{case.line[:200]!r} is answered {there}, and not {case.answers}"
    return f"and then {found[0]!r}" if found else ""


# ---- the suite


def named(path):
    return os.path.basename(path).removesuffix(".cases")


def run(program, tally):
    for path in sorted(glob.glob(f"{FOLDER}/*.cases")):
        form = named(path)
        try:
            blocks, sums = read(path)
        except ValueError as fault:
            tally.tell(f"form {form}", False, fault)
            continue
        tally.tell(f"form {form}: its blocks", LAST.get(form) == sums[-1], "LAST of tests/forms.py has another sum")
        for at, block in enumerate(blocks, 1):
            why = difference(program, block)
            tally.tell(f"form {form}, block {at}, {len(block.cases)} lines", not why, why)
            plain = answered(block)
            changed = [it.line for it, other in zip(block.cases, plain.cases) if it != other]
            tally.tell(f"form {form}, block {at}, by the plain engine", not changed, changed[:1])
    forms = {named(it) for it in glob.glob(f"{FOLDER}/*.cases")}
    tally.tell("forms", {*LAST} == forms, f"{sorted(forms)} have cases")


# ---- adding cases


def add(form, path, program):
    """Puts a block behind the others, and returns its sum. Raises ValueError where it isn't answered alike."""
    with open(path, encoding="ascii") as file:
        block = answered(block_of(file.read().splitlines()))
    if why := difference(program, block):
        raise ValueError(why)
    to = f"{FOLDER}/{form}.cases"
    above = ""
    if os.path.exists(to):
        read(to)
        with open(to, encoding="ascii") as file:
            above = file.read()
    found = sum_of(above + block.text())
    with open(to, "a", encoding="ascii") as file:
        file.write(f"{block.text()}sum {found}\n")
    return found


def main():
    import programs

    words = argparse.ArgumentParser(prog="tests/forms.py", description=__doc__, formatter_class=argparse.RawDescriptionHelpFormatter)
    words.add_argument("form", type=int)
    words.add_argument("block")
    words.add_argument("--program", metavar="PATH")
    asked = words.parse_args()
    program = asked.program or programs.found(programs.sources())
    try:
        print(f"sum {add(asked.form, asked.block, program)}: put it into LAST")
    except (OSError, ValueError) as fault:
        print(f"tests/forms.py: {fault}", file=sys.stderr)
        return 1
    return 0


if __name__ == "__main__":
    sys.exit(main())
