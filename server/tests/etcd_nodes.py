"""Nodes of etcd on loopback, and a relay before one that cuts connections."""
import contextlib
import itertools
import os
import shutil
import socket
import subprocess
import threading
import urllib.request

from fixtures import LONG, until

THERE = shutil.which("etcd") is not None and shutil.which("etcdctl") is not None
NOT_THERE = "no etcd is here (apt-get install etcd-server etcd-client)"


def ports():
    """Returns ports of this process, below those that Linux gives to connections."""
    first = os.getpid() * 400 % 20000
    return itertools.cycle([*range(10000 + first, 30000), *range(10000, 10000 + first)])


PORTS = ports()


def free_port():
    for port in PORTS:
        with contextlib.closing(socket.socket()) as it, contextlib.suppress(OSError):
            it.bind(("127.0.0.1", port))
            return port


class Node:
    """One member of a cluster, which keeps its ports and its folder over restarts."""

    def __init__(self, folder, name="node", *more):
        self.folder, self.name, self.more = f"{folder}/{name}", name, list(more)
        self.port, self.peer_port = free_port(), free_port()
        self.url, self.peer = f"http://127.0.0.1:{self.port}", f"http://127.0.0.1:{self.peer_port}"
        self.cluster = f"{name}={self.peer}"
        self.process, self.secured = None, []

    def secure(self, *words):
        """Has etcdctl say these words too."""
        self.secured = list(words)

    def answers(self):
        """Whether the node answers etcdctl."""
        with contextlib.suppress(AssertionError):
            return self.ctl("endpoint", "health") is not None

    def start(self):
        words = ["etcd", "--name", self.name, "--data-dir", self.folder, "--log-level", "error"]
        words += ["--listen-client-urls", self.url, "--advertise-client-urls", self.url]
        words += ["--listen-peer-urls", self.peer, "--initial-advertise-peer-urls", self.peer]
        words += ["--initial-cluster", self.cluster, *self.more]
        self.process = subprocess.Popen(words, stdout=subprocess.DEVNULL, stderr=subprocess.DEVNULL)
        return self

    def healthy(self):
        def asked():
            with contextlib.suppress(OSError), urllib.request.urlopen(f"{self.url}/health", timeout=1) as answer:
                return b"true" in answer.read()

        until(asked)
        return self

    def kill(self):
        if self.process and self.process.poll() is None:
            self.process.kill()
            self.process.wait(LONG)

    def ctl(self, *words, given=None):
        """Runs etcdctl, and returns what it prints."""
        environment = {**os.environ, "ETCDCTL_API": "3"}
        asked = ["etcdctl", "--endpoints", self.url, *self.secured, *words]
        ran = subprocess.run(asked, env=environment, input=given, capture_output=True, timeout=LONG)
        if ran.returncode:
            raise AssertionError(ran.stderr.decode())
        return ran.stdout

    def puts(self, key, value):
        """Whether bytes could be put under a key. While nodes choose a leader they can't, or nobody knows."""
        try:
            return bool(self.ctl("put", key, given=value))
        except AssertionError:
            return False

    def revision(self):
        """Returns the revision that the node has come to."""
        return self.ctl("get", "none", "-w", "fields").split(b'"Revision" : ')[1].split()[0].decode()

    def restore(self, path):
        """Puts a backup back in place of what the node holds."""
        self.kill()
        shutil.rmtree(self.folder)
        words = ["snapshot", "restore", path, "--name", self.name, "--data-dir", self.folder]
        self.ctl(*words, "--initial-cluster", self.cluster, "--initial-advertise-peer-urls", self.peer)
        self.start().healthy()


class Relay:
    """Hands bytes on to a node and back. Each connection is cut after a number of bytes that is drawn, one way or the other,
    while `cuts` is true: so requests are lost, and answers to requests that went through."""

    def __init__(self, node, drawn):
        self.node, self.random, self.cuts = node, drawn, True
        self.listening = socket.create_server(("127.0.0.1", 0))
        self.url = f"http://127.0.0.1:{self.listening.getsockname()[1]}"
        threading.Thread(target=self.serve, daemon=True).start()

    def serve(self):
        with contextlib.suppress(OSError):  # it is closed
            while True:
                accepted, _ = self.listening.accept()
                try:
                    reached = socket.create_connection(("127.0.0.1", self.node.port), 5)
                except OSError:
                    accepted.close()
                    continue
                for one, other in ((accepted, reached), (reached, accepted)):
                    threading.Thread(target=self.hand_on, args=(one, other), daemon=True).start()

    def hand_on(self, one, other):
        left = self.random.randrange(2_000, 400_000)
        with contextlib.suppress(OSError):
            while (some := one.recv(1 << 16)) and (left > 0 or not self.cuts):
                other.sendall(some)
                left -= len(some)
        for it in (one, other):
            with contextlib.suppress(OSError):
                it.shutdown(socket.SHUT_RDWR)
            it.close()

    def close(self):
        self.listening.close()
