"""Transfers under more faults than ./test has time for: full disks, flipped bits, an engine that answers wrongly. They run
where SECONDS are many (server/soak)."""
import glob
import os
import subprocess
import sys
import time
import unittest

import fixtures
import test_transfers
from fixtures import HERE, until
from test_transfers import SECONDS

ENOUGH = 150  # seconds: votes are given within 50, and who is in the wrong ends within 60 more


@unittest.skipUnless(SECONDS >= ENOUGH, "server/soak runs it")
class SoakOnSmallDisks(test_transfers.TransfersOverPartitions):
    """At three servers whose disks are full now and then. A member of etcd that can't write ends its server, which is
    started again."""

    def begin(self):
        for it in self.names:
            path = f"{self.folder}/{it}"
            os.mkdir(path)
            subprocess.run(["mount", "-t", "tmpfs", "-o", "size=1g,mode=0700", "none", path], check=True)
            self.addCleanup(subprocess.run, ["umount", "--lazy", path])
        return super().begin()

    def revive(self, servers):
        for name, it in servers.items():
            if it.process.poll() is not None and "no space left" in it.text():
                servers[name] = self.start(name)
        super().revive(servers)

    def fault(self, servers):
        if self.random.random() < 0.9:
            super().fault(servers)
            return
        filler = f"{self.folder}/{self.random.choice(self.names)}/filler"
        fill(filler)
        time.sleep(1 + 2 * self.random.random())
        os.remove(filler)
        time.sleep(0.5)  # who ends has ended


class SoakWithFlippedBits(SoakOnSmallDisks):
    """At three servers in whose journals bits flip while they are down, which is healed from etcd."""

    def fault(self, servers):
        if self.random.random() < 0.9:
            super().fault(servers)
            return
        name = self.random.choice(self.names)
        servers[name].kill()
        flip(self.random, self.random.choice(glob.glob(f"{self.folder}/{name}/order-*/*.segment")))
        servers[name] = self.start(name)


class SoakWithAWrongEngine(SoakOnSmallDisks):
    """At three servers, the engine of one of which begins to answer wrongly: that server ends, and the others go on."""

    WRONG = "three"

    def start(self, name, *more):
        if name != self.WRONG:
            return super().start(name, *more)
        program = f"{self.folder}/wrong-engine"
        with open(program, "w", opener=lambda *it: os.open(*it, mode=0o700)) as file:
            file.write(f"#!/bin/sh\nexec {sys.executable} {HERE}/wrong_engine.py {fixtures.ENGINE} 100 \"$@\"\n")
        host = ["ip", "netns", "exec", self.hosts[name]]
        return self.serve(name, "--insecure", *more, limits=host, engine=program)

    def revive(self, servers):
        wrong = servers.get(self.WRONG)
        if wrong and wrong.process.poll() is not None and "no space left" not in wrong.text():
            self.assertIn("other servers came to other answers", wrong.text())
            self.names = tuple(it for it in self.names if it != self.WRONG)
            del servers[self.WRONG]
        super().revive(servers)

    def fault(self, servers):
        if self.WRONG not in servers:
            super().fault(servers)
        time.sleep(1)

    def assert_true(self, servers, clients):
        self.assertNotIn(self.WRONG, servers)
        super().assert_true(servers, clients)


def fill(path):
    """Writes a file until its disk is full."""
    with open(path, "wb", buffering=0) as file:
        about = os.statvfs(path)
        left = about.f_bavail * about.f_frsize - (1 << 20)
        try:
            if left > 0:
                os.posix_fallocate(file.fileno(), 0, left)
                file.seek(left)
            while True:
                file.write(b"\1" * 4096)
        except OSError:
            return


def flip(drawn, path):
    """Flips a bit of a segment, among the bytes that were written."""
    with open(path, "r+b") as file:
        data = file.read().rstrip(b"\0")
        at = drawn.randrange(len(data))
        file.seek(at)
        file.write(bytes([data[at] ^ 1 << drawn.randrange(8)]))
