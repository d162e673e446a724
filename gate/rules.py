"""The workspace's own rules: what crates list, how files are laid out, what is made of others, what pages name."""
import glob
import os
import re
import shutil
import subprocess

import explanations
import floors
import workspace
from programs import PARTS
from workspace import ROOT


def unnamed():
    """Says which libraries a crate's line has that none of its files names."""
    for crate in workspace.lines():
        text = "\n".join(workspace.text(it) for it in workspace.files(crate) if it.endswith((".rt", ".antt")))
        lost = (it for it in workspace.libraries(crate) if not re.search(rf"\b{it}\b", text))
        yield from (f"crates.txt: {crate} lists {it}, which no file of it names" for it in lost)


def unformatted():
    """Says which files `rt fmt` would change, where the kit is here."""
    if rt := shutil.which("rt"):
        files = [it for crate in workspace.lines() for it in workspace.files(crate) if it.endswith((".rt", ".antt"))]
        check = [f"{os.path.dirname(os.path.realpath(rt))}/rattle", "fmt", "--check", *files]
        yield from subprocess.run(check, cwd=ROOT, capture_output=True, text=True).stdout.splitlines()


def is_there(path):
    """Whether a path of the tree, or of some crate, is there. A name in capitals stands for any."""
    pattern = re.sub(r"(?<=/)[A-Z]+(?=/|$)", "*", path.removeprefix("./"))
    crate = re.match(r"crates/(\w+)", path)
    found = glob.glob(f"{ROOT}/{pattern}", recursive=True) or glob.glob(f"{ROOT}/crates/*/{pattern}")
    return bool(found) and (not crate or crate[1] in workspace.lines() or crate[1].isupper())


def lost_paths():
    """Says which paths and crates pages name, in code and in links, that aren't there."""
    tops = {*(it for it in os.listdir(ROOT) if os.path.isdir(f"{ROOT}/{it}")), *PARTS, "must-fail", "."}
    for page in ("README.md", "CONTRIBUTING.md", *(f"docs/{it}" for it in sorted(os.listdir(f"{ROOT}/docs")) if it.endswith(".md"))):
        text = workspace.text(page)
        words = [word for span in re.findall(r"`([^`\n]+)`", text) for word in span.split()]
        paths = [it for it in words if re.fullmatch(r"[\w.*-]+(/[\w.*-]+)*/?", it) and "/" in it and it.split("/")[0] in tops]
        links = re.findall(r"\]\(([^):#]+)(?:#[^)]*)?\)", text)
        gone = {it for it in links if not os.path.exists(f"{ROOT}/{os.path.dirname(page)}/{it}")}
        yield from (f"{page}: {it} isn't there" for it in sorted(gone.union(it for it in paths if not is_there(it))))


def lost_edits():
    """Says which must-fail edits TESTING's table of mistakes names that aren't there."""
    table = workspace.text("docs/TESTING.md").partition("\n| Plausible mistake |")[2].partition("\n\n")[0]
    named = re.findall(r"[|;] ([\w, ]+): ([\w, ]*\w)", table)
    pairs = ((crate, edit) for crates, edits in named for crate in crates.split(", ") for edit in edits.split(", "))
    paths = (f"crates/{crate}/must-fail/{edit}.edit" for crate, edit in pairs)
    yield from (f"docs/TESTING.md: {it} isn't there" for it in paths if not os.path.exists(f"{ROOT}/{it}"))


def run(tally):
    found = [*unnamed(), *unformatted(), *floors.faults(), *lost_paths(), *lost_edits()]
    made = (it for it in (floors, explanations) if workspace.text(it.MADE) != it.made())
    found += [f"{it.MADE} isn't that of its sources: python3 gate/{it.__name__}.py" for it in made]
    tally.tell("workspace", not found, "; ".join(found))
