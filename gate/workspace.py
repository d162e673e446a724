"""The crates of the workspace: their lines in crates.txt, and their files."""
import os
from functools import cache

ROOT = os.path.dirname(os.path.dirname(os.path.realpath(__file__)))


def read(path):
    """Returns the bytes of a file of the tree, none where there is no such file."""
    try:
        with open(f"{ROOT}/{path}", "rb") as file:
            return file.read()
    except FileNotFoundError:
        return b""


def text(path):
    return read(path).decode()


@cache
def lines():
    """Returns each crate's line in crates.txt, without comments, by its name."""
    texts = (line.split("#")[0].split() for line in text("crates.txt").splitlines())
    return {words[0].removesuffix(":"): " ".join(words) for words in texts if words}


def libraries(crate):
    """Returns what a crate stands on by its line, the kit's libraries too."""
    return lines()[crate].partition(":")[2].split()


def direct(crate):
    """Returns the crates of the tree that a crate lists."""
    return [it for it in libraries(crate) if it in lines()]


@cache
def below(crate):
    """Returns all crates below one, in order of their names."""
    return sorted({*direct(crate), *(lower for it in direct(crate) for lower in below(it))})


@cache
def files(crate):
    """Returns the paths of a crate's files, but for what was built."""
    found = []
    for at, folders, names in os.walk(f"{ROOT}/crates/{crate}"):
        if at == f"{ROOT}/crates/{crate}":
            folders[:] = [it for it in folders if it != "out"]
        found += [os.path.relpath(f"{at}/{it}", ROOT) for it in names]
    return sorted(found)
