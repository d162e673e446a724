"""Clients who transfer amounts between accounts, and faults that are drawn: what they were answered is what stands in the
order, once."""
import contextlib
import glob
import os
import random
import re
import shutil
import signal
import subprocess
import sys
import threading
import time
import unittest

import fixtures
import orders
from etcd_nodes import NOT_THERE, THERE, Node, Relay, free_port
from fixtures import LONG, ROOT, ServerTest, until, words

sys.path.insert(0, f"{ROOT}/sdk/python")
import dsmdb

SEED = int(os.environ.get("SEED", "1"))
SECONDS = int(os.environ.get("SECONDS", "12"))
ACCOUNTS = 64
CUT_OFF = (4294967295, 1)  # the pair of a call that a server which is cut off is asked for, of a session that nobody has
STEPS = ("end", "dump", "saved", "opened")  # of a roll, at each of which a server may die


def at_row(register, change):
    """Returns slots that get the row whose key is in a register, change it in register 1, and put it."""
    where = f"b701000001000000bf{register}2000000000000bfa300000000000007030000f8ffffff"
    return f"{where}850000000100000079a1f8ff00000000{change}7b1af8ff00000000{where}8500000002000000"


# arguments: from, to, amount, and a row of the client's own, to which 1 is added; replies with that
TRANSFER = (
    "7916000000000000791708000000000079181000000000007919180000000000"
    + at_row(6, "1f81000000000000") + at_row(7, "0f81000000000000") + at_row(9, "0701000001000000")
    + "79a0f8ff000000009500000000000000"
)
TRANSFERS = f"window 64\ntable 1 8\norigin 0 0\nproc transfer 1 32 {TRANSFER}\n"


class Client(threading.Thread):
    """A client that makes transfers, and keeps what it was answered, by pair."""

    def __init__(self, test, name, own, until):
        super().__init__(daemon=True)
        self.test, self.own, self.until = test, own, until
        self.path, self.random = f"{test.folder}/{name}", random.Random(f"{SEED} {name}")
        self.answers, self.faults = {}, []

    def run(self):
        try:
            while time.monotonic() < self.until:
                self.transfer()
            self.settle()
        except Exception as fault:
            self.faults.append(repr(fault))

    def drawn(self):
        one, other, amount = (self.random.randrange(it) for it in (ACCOUNTS, ACCOUNTS, 100))
        return words(one, other, amount, self.own)

    def places(self):
        return [f"{self.test.folder}/{it}" for it in self.random.sample(self.test.names, len(self.test.names))]

    def heard(self, pair, answer):
        if answer[0] not in ("unknown", "full", "late"):
            earlier = self.answers.setdefault(pair, answer)
            if earlier != answer:
                self.faults.append(f"{pair} was answered {earlier}, and then {answer}")


class Command(Client):
    """One that runs the command `call`, which is killed now and then, and goes on with its file."""

    def transfer(self, killed=True):
        places = [word for place in self.places() for word in ("--at", place)]
        asked = [fixtures.SERVER, "call", *places, "--file", self.path, "--within", "1s", "--patience", "5s", "transfer", self.drawn()]
        ran = subprocess.Popen(asked, stdout=subprocess.PIPE, stderr=subprocess.PIPE, text=True)
        if killed and self.random.random() < 0.2:
            time.sleep(self.random.random() / 2)
            ran.kill()
        said, self.last = ran.communicate(timeout=4 * LONG)
        for line in said.splitlines():
            if line.startswith("earlier "):
                call, _, answer = line.removeprefix("earlier ").partition(": ")
                self.heard(tuple(map(int, call.split(" ")[3:5])), answer.split(" "))
            else:
                self.heard(self.last_pair(), line.split(" "))
        return ran.returncode

    def last_pair(self):
        with open(self.path) as file:
            lines = dict(it.split(" ", 1) for it in file.read().splitlines() if not it.startswith(("dsmdb", "call")))
        return int(lines["session"]), int(lines["next"]) - 1

    def settle(self):
        for _ in range(20):
            if self.transfer(killed=False) in (0, 4):
                return
        self.faults.append(self.last)


class Library(Client):
    """One over the library for Python, whose connections the servers' ends cut."""

    def store(self):
        """Opens the client's file, which a process that another thread has just forked may have for a moment."""

        def opened():
            with contextlib.suppress(OSError):
                return dsmdb.File(self.path)

        return until(opened)

    def transfer(self, patience=5):
        store = self.store()
        with dsmdb.Client(self.places(), store, within=1, patience=patience) as client:
            try:
                if client.unsettled:
                    self.hear(client.unsettled, client.settle)
                for _ in range(self.random.randrange(1, 20)):
                    self.hear(None, lambda: client.call("transfer", bytes.fromhex(self.drawn())), store)
            except (dsmdb.Unsettled, dsmdb.NothingSent):
                pass

    def hear(self, line, ask, store=None):
        answer = ask()
        state = store.load() if store else None
        pair = tuple(map(int, line.split(" ")[3:5])) if line else (state.session, state.next - 1)
        self.heard(pair, answer.line.split(" "))

    def settle(self):
        def settled():
            with dsmdb.Client(self.places(), self.store(), patience=LONG) as client:
                if client.unsettled:
                    self.hear(client.unsettled, client.settle)
                return True

        until(settled)


class Transfers(ServerTest):
    """At one server, over the order in its folder."""

    names = ("one",)

    def setUp(self):
        super().setUp()
        self.settings(TRANSFERS)
        self.random, self.rolled, self.saved = random.Random(SEED), set(), {}
        print(f"(seed {SEED}, {SECONDS} s) ", end="", flush=True)

    def words_of(self, name):
        return []

    def start(self, name, *more):
        return self.serve(name, *self.words_of(name), *more)

    def revive(self, servers):
        """Starts the servers again that have died at a step of a roll, as they were told to."""
        for name, it in servers.items():
            if it.process.poll() is None:
                continue
            if "is gone: it was forgotten" in it.text():
                self.fetch(name, servers)
            else:
                self.assertEqual(it.process.returncode, -signal.SIGKILL, it.text())
            servers[name] = self.start(name)

    def begun(self, servers, name):
        """Returns a server that answers, which is started again where it has died at a step of a roll."""
        while True:
            try:
                return servers[name].begun()
            except AssertionError:
                self.revive(servers)

    def fetch(self, name, servers):
        """Gets the settings of the present order for a server whose own orders were forgotten."""
        others = [word for it in servers.values() if it.name != name for word in ("--at", it.data)]
        status, said = self.client("fetch", *others, "--data", f"{self.folder}/{name}")
        self.assertEqual(status, 0, said)

    def test_transfers(self):
        self.servers = servers = {it: self.start(it) for it in self.names}
        for it in servers.values():
            it.begun()
        end = time.monotonic() + SECONDS
        clients = [Command(self, "client0", 1000, end), Command(self, "client1", 1001, end), Library(self, "client2", 1002, end)]
        for it in clients:
            it.start()
        while time.monotonic() < end:
            time.sleep(self.random.random())
            self.revive(servers)
            if self.rolled:
                self.fault(servers)
            else:
                self.roll(servers[self.random.choice(self.names)])
        self.mend()
        self.revive(servers)
        for it in clients:
            it.join()
        self.assertEqual([it.faults for it in clients], [[], [], []])
        for name in self.names:
            self.begun(servers, name)
        self.assert_true(servers, clients)

    def fault(self, servers):
        name = self.random.choice(self.names)
        chosen = self.random.random()
        if chosen < 0.2:
            servers[name].kill()
            servers[name] = self.start(name, "--die-at", self.random.choice(STEPS))
        elif chosen < 0.4:
            self.roll(servers[name])
        elif chosen < 0.45:
            self.forget(servers[name])
        elif chosen < 0.6:
            os.kill(self.begun(servers, name).engine(), signal.SIGKILL)
        else:
            servers[name].kill(signal.SIGSTOP)
            time.sleep(2 * self.random.random())
            servers[name].kill(signal.SIGCONT)

    def roll(self, server):
        """Has the order end at a server, which may die of that."""
        with contextlib.suppress(OSError, IndexError, ValueError):
            order = int(server.ask("hello").split(" ")[2])
            if server.ask(f"roll {order}").startswith("rolled "):
                self.rolled.add(order)

    def forget(self, server):
        """Has orders deleted that have ended, and that are whole on the server's disk."""
        with contextlib.suppress(OSError, IndexError, ValueError):
            below = int(server.ask("hello").split(" ")[2])
            for number in range(1, below):
                if number not in self.saved:
                    self.saved[number] = self.texts(server.name, number)
                if not is_ended(self.saved[number]):
                    del self.saved[number]
                    return
            server.ask(f"forget {below}")

    def mend(self):
        """Ends the faults of what is below the servers."""

    def assert_true(self, servers, clients):
        """Asserts that what clients were answered is what stands in the order, and that all servers have it."""
        first = servers[self.names[0]]
        self.assertGreater(len(self.rolled), 0)
        session = int(first.ask("session").split(" ")[1])
        end = int(first.ask(f"call transfer {words(0, 0, 0, 2000)} {session} 1 fresh").split(" ")[1])
        more = self.newcomer()
        until(lambda: self.are_alike([*servers.values(), *more], end))
        rows = dict(it.split()[1:] for it in first.rows()[:-1])
        number = {int(key): int.from_bytes(bytes.fromhex(row), "little") for key, row in rows.items()}
        self.assertEqual(sum(number.get(it, 0) for it in range(ACCOUNTS)) % (1 << 64), 0)
        told = {(session, 1): end}
        for it in clients:
            committed = {pair: int(answer[1]) for pair, answer in it.answers.items() if answer[0] == "committed"}
            self.assertEqual(number.get(it.own, 0), len(committed))
            self.assertGreater(len(committed), 0)
            told |= committed
        commits, ends = self.commits(end)
        found = {pair: at for at, pair in commits.items() if pair != CUT_OFF}
        self.assertEqual(len({*commits.values()}), len(commits))
        self.assertEqual(found.keys() ^ told.keys(), set())
        # what was done in an earlier order is told at the end of the one before the server's
        self.assertEqual([it for it in told if told[it] != found[it] and not (told[it] in ends and told[it] > found[it])], [])

    def newcomer(self):
        return []

    def are_alike(self, servers, end):
        """Whether all servers have come to one position, at least this, and have one digest and the same rows there."""
        found = []
        for it in servers:
            status = it.at(end).status()
            found.append((status["position"], status["end"], status["digest"], it.rows()))
        return found[0][0] == found[0][1] and all(it == found[0] for it in found)

    def texts(self, name, number):
        """Returns the strings of an order that a server has on its disk."""
        return orders.strings(f"{self.folder}/{name}/order-{number:010}")

    def whole(self, number, before, end):
        """Returns the strings of an order that has ended, or that has come to a position of the database."""

        def found():
            for texts in (self.saved.get(number, []), *(self.texts(it, number) for it in os.listdir(self.folder))):
                if is_ended(texts) or before + len(texts) >= end:
                    return texts

        return until(found)

    def settings_of(self, number):
        """Returns the settings of an order as servers have kept them; None where none has."""
        found = set()
        for path in glob.glob(f"{self.folder}/*/settings-{number:010}"):
            with open(path) as file:
                found.add(file.read())
        self.assertLessEqual(len(found), 1)
        return found.pop() if found else None

    def commits(self, end):
        """Returns the pair of each commit by its position, as an engine says that is given one order behind the other, and the
        positions at which orders end."""
        found, ends, settings, number, before = {}, set(), TRANSFERS, 1, 0
        while True:
            texts = self.whole(number, before, end)
            last = next((at for at, text in enumerate(texts) if at > 0 and text[:2] == b"\0\3"), len(texts))
            process = fixtures.engine(settings, self.folder)
            said, _ = process.communicate("".join(f"entry {it.hex() or '-'}\n" for it in texts[:last]) + "dump\n", timeout=4 * LONG)
            lines = [it.split(" ") for it in said.splitlines() if it.startswith("entry ")]
            found |= {before + int(it[1]): (int(it[6]), int(it[8])) for it in lines if it[2] == "commit"}
            if last == len(texts):
                return found, ends
            dumped = said[said.index("window ") : said.rindex("position ")]
            number, before = number + 1, before + last
            ends.add(before)
            settings = self.settings_of(number)
            self.assertIn(settings and settings.split("\n", 1)[1], (None, dumped))
            settings = dumped


def is_ended(texts):
    """Whether there is a string that ends an order."""
    return any(it[:2] == b"\0\3" for it in texts[1:])


@unittest.skipUnless(THERE, NOT_THERE)
class TransfersOverEtcd(Transfers):
    """At three servers, over three nodes that are killed and stopped, behind relays that cut connections."""

    names = ("one", "two", "three")

    def setUp(self):
        super().setUp()
        slow = ["--heartbeat-interval", "200", "--election-timeout", "2000"]  # the machine may be busy
        self.nodes = [Node(self.folder, it, *slow) for it in ("a", "b", "c")]
        cluster = ",".join(f"{it.name}={it.peer}" for it in self.nodes)
        for node in self.nodes:
            node.cluster = cluster
            self.addCleanup(node.kill)
            node.start()
        self.relays = [Relay(it, random.Random(f"{SEED} {it.name}")) for it in self.nodes]
        for node, relay in zip(self.nodes, self.relays):
            node.healthy()
            self.addCleanup(relay.close)
        with open(f"{self.folder}/secret", "wb", opener=lambda *it: os.open(*it, mode=0o600)) as file:
            file.write(self.random.randbytes(32))

    def words_of(self, name):
        places = self.random.sample(self.relays, 3)
        return ["--etcd", f"{','.join(it.url for it in places)}/p", "--secret", f"{self.folder}/secret"]

    def fault(self, servers):
        node, chosen = self.random.choice(self.nodes), self.random.random()
        if chosen < 0.2:
            node.kill()
            node.start().healthy()
        elif chosen < 0.4:
            node.process.send_signal(signal.SIGSTOP)
            time.sleep(2 * self.random.random())
            node.process.send_signal(signal.SIGCONT)
        elif chosen < 0.5:  # a stranger's, each try under a key of its own
            until(lambda: node.puts(f"p/1/{0:010d}-{self.random.randbytes(16).hex()}", self.random.randbytes(200)))
        else:
            super().fault(servers)

    def mend(self):
        for relay in self.relays:
            relay.cuts = False

    def newcomer(self):
        found = self.start("four")
        if "is gone: it was forgotten" in until(lambda: re.search("answers from|is gone: it was forgotten", found.text())).group():
            self.fetch("four", self.servers)
            found = self.start("four")
        return [found.begun()]

    def texts(self, name, number):
        return orders.strings(f"{self.folder}/{name}/order-{number:010}", journal=True, signed=True)


class TransfersOverACluster(Transfers):
    """At three servers that are a cluster of their own, which are killed and stopped one at a time."""

    names = ("one", "two", "three")

    def setUp(self):
        super().setUp()
        status, said = self.begin()
        self.assertEqual(status, 0, said)

    def begin(self):
        members = ",".join(f"{it}=http://127.0.0.1:{free_port()}" for it in self.names)
        return self.client("begin", *(f"{self.folder}/{it}" for it in self.names), "--cluster", members)

    def texts(self, name, number):
        return orders.strings(f"{self.folder}/{name}/order-{number:010}", journal=True, signed=True)


@unittest.skipUnless(os.geteuid() == 0 and shutil.which("ip"), "partitions ask for root and for ip (apt-get install iproute2)")
class TransfersOverPartitions(TransfersOverACluster):
    """At three servers in network namespaces of their own, of which one or another is cut off from the rest."""

    def setUp(self):
        self.hosts = {it: f"dsmdb-{os.getpid()}-{it}" for it in self.names}
        self.bridge = f"dsmdb-{os.getpid()}-bridge"
        self.addCleanup(self.end_hosts)
        ip("netns", "add", self.bridge)
        ip("-n", self.bridge, "link", "add", "bridge", "type", "bridge")
        ip("-n", self.bridge, "link", "set", "bridge", "up")
        for number, (name, host) in enumerate(self.hosts.items(), 1):
            ip("netns", "add", host)
            ip("-n", host, "link", "set", "lo", "up")
            ip("-n", host, "link", "add", "way", "type", "veth", "peer", "name", name, "netns", self.bridge)
            ip("-n", host, "address", "add", f"10.99.0.{number}/24", "dev", "way")
            ip("-n", host, "link", "set", "way", "up")
            ip("-n", self.bridge, "link", "set", name, "master", "bridge", "up")
        super().setUp()

    def end_hosts(self):
        for it in (*self.hosts.values(), self.bridge):
            subprocess.run(["ip", "netns", "del", it], stderr=subprocess.DEVNULL)

    def begin(self):
        members = ",".join(f"{it}=http://10.99.0.{number}:2380" for number, it in enumerate(self.names, 1))
        return self.client("begin", *(f"{self.folder}/{it}" for it in self.names), "--cluster", members, "--insecure")

    def start(self, name, *more):
        return self.serve(name, "--insecure", *more, limits=["ip", "netns", "exec", self.hosts[name]])

    def fault(self, servers):
        if self.random.random() < 0.3:
            super().fault(servers)
            return
        name = self.random.choice(self.names)
        ip("-n", self.bridge, "link", "set", name, "down")
        if not self.cut:
            self.cut = True
            self.assert_cut_off(self.begun(servers, name))
        time.sleep(1 + 2 * self.random.random())
        ip("-n", self.bridge, "link", "set", name, "up")

    cut = False

    def assert_cut_off(self, server):
        """Asserts that a server that is cut off writes nothing, and reads on."""
        row, (session, sequence) = words(0, 0, 0, 3000), CUT_OFF
        self.assertEqual(server.ask(f"call transfer {row} {session} {sequence} within 2").split(" ")[0], "unknown")
        self.assertEqual(server.ask("position").split(" ")[0], "position")


def ip(*words):
    subprocess.run(["ip", *words], check=True, capture_output=True)
