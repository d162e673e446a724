"""The server (server/, in Go): what its words are, what it needs, and how it is built."""
import contextlib
import fcntl
import hashlib
import os
import shutil
import subprocess
import tempfile

import programs
from building import say
from workspace import ROOT

WORDS = ("serve", "begin", "join", "call", "add", "rows", "session", "status", "token", "demo", "dump", "roll", "fetch", "forget")
FOLDER = f"{ROOT}/server"
BUILT = f"{ROOT}/out/server/dsmdb-server"
CACHE = f"{ROOT}/out/server/cache"  # of Go's compiler
SHARED = "/usr/share/gocode/src"  # where Debian's packages of Go have their sources
PACKAGES = {  # by what they bring
    "go.etcd.io/etcd": "golang-etcd-server-dev",
    "github.com/prometheus/client_golang": "golang-github-prometheus-client-golang-dev",
    "github.com/spf13/cobra": "golang-github-spf13-cobra-dev",
    "golang.org/x/sys": "golang-golang-x-sys-dev",
}


def missing():
    """Returns the packages that the server can't be built without and that aren't here."""
    found = [] if shutil.which("go") else ["golang-go"]
    return found + [name for path, name in PACKAGES.items() if not os.path.isdir(f"{SHARED}/{path}")]


def install_line():
    return f"apt-get install {' '.join(missing())}"


def sources():
    """Returns a sum over the server's sources, without tests, and over the version of Go."""
    whole = hashlib.sha256()
    for at, folders, names in os.walk(FOLDER):
        folders.sort()
        for name in sorted(names):
            if not name.endswith("_test.go"):
                whole.update(f"{os.path.relpath(at, ROOT)}/{name} {programs.sum_of(f'{at}/{name}')}\n".encode())
    whole.update(os.path.realpath(shutil.which("go") or "").encode())
    return whole.hexdigest()


class Tree:
    """The server's packages as Go looks for them: below a folder of GOPATH, before Debian's."""

    def __init__(self, room, program=""):
        self.folder = f"{room}/src/dsmdb/server"
        os.mkdir(f"{room}/src")
        os.symlink(ROOT, f"{room}/src/dsmdb")
        self.environment = {
            **os.environ, "GOPATH": f"{room}:{os.path.dirname(SHARED)}", "GO111MODULE": "off", "GOFLAGS": "",
            "PWD": self.folder, "GOCACHE": CACHE, "DSMDB": program}

    def ran(self, *words, **how):
        how = {"stdout": subprocess.PIPE, "stderr": subprocess.STDOUT, "text": True, **how}
        return subprocess.run(words, cwd=self.folder, env={**self.environment, **how.pop("env", {})}, **how)

    def build(self, to, package="./cmd/dsmdb-server", *flags):
        """Builds a program of the server. Returns what Go says, which is nothing where all went well."""
        ran = self.ran("go", "build", "-trimpath", *flags, "-o", to, package, env={"CGO_ENABLED": "0"})  # no library of C
        return ran.stdout if ran.returncode else ""


def is_built(of_sources):
    with contextlib.suppress(OSError), open(f"{BUILT}.sources", encoding="ascii") as file:
        return file.read() == of_sources and os.access(BUILT, os.X_OK)
    return False


def built():
    """Returns the server's program, which is built where it isn't of these sources; None where that fails, which is told."""
    of_sources = sources()
    if is_built(of_sources):
        return BUILT
    if missing():
        say(f"the server is built from Go's sources, for which packages are wanting: {install_line()}")
        return None
    os.makedirs(os.path.dirname(BUILT), exist_ok=True)
    with open(f"{BUILT}.lock", "w") as lock:
        fcntl.flock(lock, fcntl.LOCK_EX)
        if is_built(of_sources):
            return BUILT
        say("building the server from its sources, once: some ten seconds, or a minute the first time")
        with tempfile.TemporaryDirectory(prefix="server-") as room:
            said = Tree(room).build(f"{BUILT}.new")
        if said:
            say(f"the server can't be built:\n{said}")
            return None
        os.replace(f"{BUILT}.new", BUILT)
        with open(f"{BUILT}.sources", "w", encoding="ascii") as file:
            file.write(of_sources)
    return BUILT


def run(program, words):
    """Runs the server with its words around a program. Returns the status only where that can't be done."""
    server = built()
    if server is None:
        return 3
    os.execve(server, ["dsmdb", *words], {**os.environ, "DSMDB": program, "DSMDB_EXAMPLES": f"{ROOT}/examples"})
