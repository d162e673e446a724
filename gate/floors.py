"""The floors of the workspace: the blocks of crates.txt, the edges between crates, and the map of both.

In crates.txt each block begins with a comment, `## Name: what it is`. Blocks and crates stand lowest first: a crate lists
none that stands behind it. What a crate is stands at its head: the first sentence of its root file's documentation.
`python3 gate/floors.py` writes docs/MAP.md.
"""
import itertools
import re
import textwrap

import programs
import promises
import workspace

MADE = "docs/MAP.md"
INSIDE = 62  # the width of a box between its sides
HEAD = """\
# Map

Every crate, by block: the program's crates first, then what tests and measures them. A crate stands above those of its block that it uses. At the right stand the blocks right below, which stand on the others. The blocks of meaning hold definitions: [read these first](DEFINITIONS.md). [The life of a call](ARCHITECTURE.md) says how the parts work together. `python3 gate/floors.py` makes this page of `crates.txt` and of the crates' heads, whose first sentence is the subject.

"""


def blocks():
    """Returns (name, what it is, crates) of each block, lowest first."""
    found = []
    for line in workspace.text("crates.txt").splitlines():
        if it := re.fullmatch(r"## ([^:]+): (.+)", line):
            found.append((it[1], it[2], []))
        elif (words := line.split("#")[0].split()) and found:
            found[-1][2].append(words[0].removesuffix(":"))
    return found


def faults():
    """Says which crates stand in no block, and which list one that stands behind them."""
    housed, place = {it for _, _, crates in blocks() for it in crates}, {it: at for at, it in enumerate(workspace.lines())}
    yield from (f"crates.txt: {it} stands in no block" for it in place if it not in housed)
    for crate in place:
        yield from (f"crates.txt: {crate} lists {it}, which stands behind it" for it in workspace.direct(crate) if place[it] > place[crate])


def rows(crates):
    """Returns the crates of a block in rows, highest first, each above those that it uses."""
    depth = {}
    for crate in crates:
        depth[crate] = 1 + max((depth[it] for it in workspace.direct(crate) if it in depth), default=0)
    return [[it for it in reversed(crates) if depth[it] == at] for at in sorted({*depth.values()}, reverse=True)]


def right_below(found):
    """Returns for each block, by its number from below, the numbers of those that it uses and that are below no other of them."""
    floor, below, right = {crate: at for at, (_, _, crates) in enumerate(found) for crate in crates}, [], []
    for at, (_, _, crates) in enumerate(found):
        used = {floor[it] for crate in crates for it in workspace.direct(crate)} - {at}
        below.append(used.union(*(below[it] for it in used)))
        right.append([it for it in sorted(used, reverse=True) if not any(it in below[other] for other in used)])
    return right


def picture(found, chosen):
    """Returns a picture of the blocks of some numbers."""
    lines, right = [], right_below(found)
    for at in chosen:
        name, _, crates = found[at]
        edges = "├┤" if lines else "┌┐"
        lines.append(f"{edges[0]}{f'─ {name} ':─<{INSIDE}}{edges[1]}")
        inside = [line for row in rows(crates) for line in textwrap.wrap("   ".join(row), INSIDE - 2)]
        for line, under in itertools.zip_longest(inside, (found[it][0] for it in right[at]), fillvalue=""):
            lines.append(f"│{line:^{INSIDE}}│ {under}".rstrip())
    return "\n".join(["```", *lines, f"└{'─' * INSIDE}┘", "```", ""])


def subject(crate):
    """Returns the first sentence of a crate's head, without its full stop."""
    return re.split(r"[.:](?: |$)", promises.head_of(crate), maxsplit=1)[0].replace("|", "\\|")


def made():
    found = blocks()
    numbers = range(len(found) - 1, -1, -1)
    of_the_program = [it for it in numbers if {*found[it][2]} & {*programs.crates()}]
    beside = [it for it in numbers if it not in of_the_program]
    parts = [HEAD, picture(found, of_the_program), "\n", picture(found, beside)]
    for name, said, crates in (found[it] for it in (*of_the_program, *beside)):
        head = ["", f"## {name}", "", f"{said[0].upper()}{said[1:]}.", "", "| Crate | Subject |", "|---|---|"]
        parts.append("\n".join([*head, *(f"| `{crate}` | {subject(crate)} |" for crate in reversed(crates)), ""]))
    return "".join(parts)


if __name__ == "__main__":
    with open(f"{workspace.ROOT}/{MADE}", "w") as file:
        file.write(made())
