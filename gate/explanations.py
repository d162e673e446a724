"""The rows that `dsmdb explain` prints: those of the tables in docs/REFUSALS.md.

`python3 gate/explanations.py` writes them into the crate `command_line`.
"""
import re
import textwrap

import workspace

PAGE = "docs/REFUSALS.md"
MADE = "crates/command_line/src/rows.rt"
ROW = re.compile(r"\| [A-Z]\d+ \|")
HEAD = """\
//! The rows of docs/REFUSALS.md, as gate/explanations.py copies them.

use crate::explanation::Explanation;

"""


def tables():
    """Yields each row of a refusal, as its cells by the heads of their columns."""
    heads = []
    for line in workspace.text(PAGE).splitlines():
        cells = [it.strip() for it in line.strip("|").split("|")] if line.startswith("|") else []
        if cells and cells[0] == "Number":
            heads = cells
        elif ROW.match(line):
            yield dict(zip(heads, cells))


def text(words):
    """A string of Rust, over as many lines as it needs."""
    whole = words.replace("\\", "\\\\").replace('"', '\\"')
    return '"' + " \\\n            ".join(textwrap.wrap(whole, 100, break_long_words=False, break_on_hyphens=False) or [""]) + '"'


def row(cells):
    cause = cells.get("Cause") or cells["When"]
    fields = {"number": cells["Number"], "cause": cause, "cure": cells["What to do"], "in_c": cells.get("In C", "")}
    return "    Explanation {\n" + "".join(f"        {name}: {text(it)},\n" for name, it in fields.items()) + "    },\n"


def constant(name, what, rows):
    return f"/// {what}, each once.\npub const {name}: [Explanation; {len(rows)}] = [\n{''.join(map(row, rows))}];\n"


def made():
    """Two tables: the checker runs out of steps over a function that names one of some sixty rows."""
    rows = [*tables()]
    of_procedures = [it for it in rows if it["Number"][0] in "BSVC"]
    of_runs = [it for it in rows if it["Number"][0] not in "BSVC"]
    return (HEAD + constant("OF_PROCEDURES", "The refusals of programs, schemas and procedures", of_procedures) + "\n"
            + constant("OF_RUNS", "The refusals of what is run", of_runs))


if __name__ == "__main__":
    with open(f"{workspace.ROOT}/{MADE}", "w") as file:
        file.write(made())
