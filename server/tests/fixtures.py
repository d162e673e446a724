"""What the tests of the server share: a folder, settings, servers that are ended, and lines that are asked."""
import contextlib
import os
import shlex
import signal
import socket
import subprocess
import sys
import tempfile
import time
import unittest

HERE = os.path.dirname(os.path.realpath(__file__))
ROOT = os.path.dirname(os.path.dirname(HERE))
LONG = 60  # seconds after which a test has failed
ENGINE = f"{ROOT}/release/dsmdb"  # the program that is tested; `run --engine` names another
SERVER = f"{ROOT}/out/server/dsmdb-server"  # and the server
PLAIN = shlex.join([sys.executable, f"{HERE}/plain_engine.py"])

ADD = (
    "79160000000000007917080000000000b701000001000000bf62000000000000bfa300000000000007030000f8ffffff8500000001000000"
    "79a8f8ff000000000f780000000000007b8af8ff00000000b701000001000000bf62000000000000bfa300000000000007030000f8ffffff"
    "8500000002000000bf800000000000009500000000000000"
)
CLAIM = (
    "7916000000000000b701000001000000bf62000000000000bfa300000000000007030000f8ffffff85000000010000001500020000000000"
    "b7010000010000008500000006000000b701000001000000bf62000000000000bfa300000000000007030000f8ffffff8500000002000000"
    "b7000000000000009500000000000000"
)
ONE = "b7000000010000009500000000000000"
ONE_ADDED = f"020900000003{b'one'.hex()}10000000{ONE}"
SETTINGS = f"window 4\ntable 1 8\nadditions\nproc add 1 16 {ADD}\nproc claim 2 8 {CLAIM}\n"


def words(*numbers):
    """Returns arguments of 8 bytes each as HEX."""
    return "".join(it.to_bytes(8, "little").hex() for it in numbers)


def until(holds, seconds=LONG):
    """Waits until something holds, and returns it."""
    end = time.monotonic() + seconds
    while not (found := holds()):
        if time.monotonic() > end:
            raise AssertionError("it didn't come to be")
        time.sleep(0.01)
    return found


class Connection:
    """A connection to a server, over its Unix socket or TCP."""

    def __init__(self, place):
        if isinstance(place, tuple):
            self.socket = socket.create_connection(place)
        else:
            self.socket = socket.socket(socket.AF_UNIX, socket.SOCK_STREAM)
            self.socket.connect(place)
        self.socket.settimeout(LONG)
        self._lines = self.socket.makefile("rb")

    def send(self, *lines):
        self.socket.sendall("".join(f"{it}\n" for it in lines).encode())

    def line(self):
        return self._lines.readline().decode().rstrip("\n")

    def ask(self, line):
        self.send(line)
        return self.line()

    def close(self):
        self._lines.close()
        self.socket.close()


class Server:
    """A server that runs, with its data folder and its log."""

    def __init__(self, folder, name, *more, limits=(), engine=None):
        self.name, self.data = os.path.basename(name), f"{folder}/{name}"
        self.path = f"{self.data}/socket"
        wanted = [*limits, SERVER, "serve", f"{folder}/settings", "--data", self.data, "--engine", engine or ENGINE, *more]
        self.said = open(f"{folder}/{self.name}.said", "w+")
        self.process = subprocess.Popen(wanted, stderr=self.said, stdout=self.said, umask=0)

    def text(self):
        self.said.seek(0)
        return self.said.read()

    def begun(self):
        until(lambda: "answers from" in self.text() or self.process.poll() is not None)
        if self.process.poll() is not None:
            raise AssertionError(self.text())
        return self

    def connect(self):
        return Connection(self.path)

    def ask(self, line):
        with contextlib.closing(self.connect()) as connection:
            return connection.ask(line)

    def rows(self):
        with contextlib.closing(self.connect()) as connection:
            lines = [connection.ask("rows")]
            while lines[-1].startswith(" "):
                lines.append(connection.line())
        return lines

    def status(self):
        """Returns what the server says of itself, by name."""
        return dict(it.split("=") for it in self.ask("status").split(" ")[1:] if "=" in it)

    def at(self, position):
        until(lambda: int(self.status()["position"]) >= position)
        return self

    def engine(self):
        """Returns the process that is the engine, once there is one."""
        asked = ["ps", "-o", "pid=", "--ppid", str(self.process.pid)]
        return int(until(lambda: subprocess.run(asked, capture_output=True, text=True).stdout.split())[0])

    def ends(self):
        """Waits until it ends by itself, and returns what it said."""
        self.process.wait(LONG)
        return self.text()

    def kill(self, number=signal.SIGKILL):
        if self.process.poll() is None:
            self.process.send_signal(number)
            if number in (signal.SIGKILL, signal.SIGTERM):
                self.process.wait(LONG)


class ServerTest(unittest.TestCase):
    """A test with a folder of its own."""

    def setUp(self):
        holder = tempfile.TemporaryDirectory(prefix="served-")
        self.addCleanup(holder.cleanup)
        self.folder = holder.name
        self.settings(SETTINGS)

    def settings(self, text):
        with open(f"{self.folder}/settings", "w") as file:
            file.write(text)

    def serve(self, name, *more, **how):
        """Starts a server, which is killed when the test is over."""
        server = Server(self.folder, name, *more, **how)
        self.addCleanup(server.said.close)
        self.addCleanup(server.kill)
        return server

    def client(self, *said):
        """Runs a command of clients, and returns its status and the lines that it prints."""
        ran = subprocess.run([SERVER, *said], capture_output=True, text=True, timeout=2 * LONG)
        return ran.returncode, ran.stdout.splitlines() + ran.stderr.splitlines()


def increment(session, sequence, key, delta, snapshot, reply):
    """Returns the 84 bytes of an increment of a row that isn't there, or holds `reply` less `delta`, as HEX."""
    numbers = [it.to_bytes(4, "little").hex() for it in (session, sequence, 0)]
    looks = f"010001{words(key, key)}"
    writes = f"010001{words(key)}01{words(reply)}"
    head = f"01{''.join(numbers)}01001000{words(key, delta)}{snapshot.to_bytes(4, 'little').hex()}{words(reply)}"
    return head + looks + writes


def engine(settings, folder):
    """Returns an engine's process for a settings text."""
    path = f"{folder}/engine.settings"
    with open(path, "w") as file:
        file.write(settings)
    how = {"stdin": subprocess.PIPE, "stdout": subprocess.PIPE, "stderr": subprocess.PIPE, "text": True}
    return subprocess.Popen([*shlex.split(ENGINE), "site", path], **how)
