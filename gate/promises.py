"""What is promised, read off the sources: the definitions of each crate with the comments at them, and each public
function with its documentation and its clauses. `./prove --promises` prints them.
"""
import re

import workspace

WITHOUT = re.compile(r".*_(tests|bench)")
HEAD = re.compile(r"(?P<indent> *)(?:#\[[^\]]*\] *)?(?P<public>pub )?(?:const )?fn (?P<name>\w+)")
IMPL = re.compile(r"impl(?:<.*?>)? (?:(?P<interface>[\w:]+)(?:<.*?>)? for )?&?(?:'\w+ )?(?:mut )?(?P<type>\w+)")
CLAUSE = re.compile(r" *(?:requires|ensures)\b")


def head_of(crate):
    """Returns what a crate's root says of it: its first paragraph of documentation."""
    texts = (workspace.text(f"crates/{crate}/src/{root}.rt") for root in ("lib", "main"))
    return " ".join(it.strip() for text in texts for it in re.findall("//!(.+)", re.match("(//!.+\n)*", text)[0]))


def shown(crate):
    """Returns the names that a crate's root hands on, and the modules that are public whole."""
    root = workspace.text(f"crates/{crate}/src/lib.rt")
    names = {name for it in re.findall(r"^pub use [^;]*;", root, re.M) for name in re.findall(r"\w+", it.partition("::")[2])}
    names |= {*re.findall(r"^pub (?:struct|enum|trait|fn) (\w+)", root, re.M)}
    return names, {*re.findall(r"^pub mod (\w+);", root, re.M)}


def clauses_of(lines, at):
    """Returns the lines of a function's clauses, from the line that it begins with."""
    found, left_open, inside = [], 0, False
    if lines[at].endswith("{"):
        return found
    for line in lines[at + 1 :]:
        starts = re.match(r" *(ensures|requires|ghost)\b", line)
        if starts or left_open:
            inside = bool(CLAUSE.match(line)) if starts else inside
            # a clause of several lines may have records, whose fields end like a function without a body
            left_open += line.count("{") - line.count("}")
            found += [line.strip()] if inside else []
        elif re.match(r" *(\{\}?|\) *(->.*)?\{|.*;)$", line):
            break
    return found


def functions_of(path, names, is_public_module):
    """Yields (name, documentation, clauses) of each function of a file that callers can see."""
    lines, said, owner, interface = workspace.text(path).splitlines(), [], None, None
    for at, line in enumerate(lines):
        if line.lstrip().startswith("///"):
            said.append(line.strip().removeprefix("///").strip())
            continue
        if line.startswith("impl"):
            found = IMPL.match(line)
            owner, interface = (found["type"], found["interface"]) if found else (None, None)
        elif line == "}":
            owner = None
        elif head := HEAD.match(line):
            clauses = clauses_of(lines, at)
            own, name = bool(head["indent"]), head["name"]
            public = head["public"] or (interface and clauses)
            visible = is_public_module or (owner in names if own else name in names)
            if public and visible and (clauses or head["public"]) and not (own and owner is None):
                yield (f"{owner}::{name}" if own else name), " ".join(said), clauses
        if not line.lstrip().startswith("#["):
            said = []


def functions(crate):
    """Yields the public functions of a crate, as its files have them."""
    names, modules = shown(crate)
    for path in workspace.files(crate):
        inside = path.removeprefix(f"crates/{crate}/src/")
        if inside != path and path.endswith(".rt") and "/tests" not in path:
            yield from functions_of(path, names, re.split("[/.]", inside)[0] in {*modules, "lib"})


def definitions(crate):
    """Yields (file, text) of each file of a crate's definitions, without its imports."""
    for path in workspace.files(crate):
        if path.startswith(f"crates/{crate}/specs/") and not path.endswith("/Lib.antt"):
            lines = [it for it in workspace.text(path).splitlines() if not re.match(r"(pub |unfoldable )*use ", it)]
            yield path, "\n".join(lines).strip()


def page():
    """Yields the lines of a page with all definitions and all public functions, a crate after another."""
    yield "# Definitions and promises, as the sources have them"
    for crate in (it for it in workspace.lines() if not WITHOUT.fullmatch(it)):
        yield from ["", f"## {crate}", "", head_of(crate)]
        for path, text in definitions(crate):
            yield from ["", f"### {path}", "", "```", text, "```"]
        for name, said, clauses in functions(crate):
            yield from ["", f"### `{name}`", "", said or "(no documentation)"]
            yield from ["", "```", *clauses, "```"] if clauses else []
