"""Orders that end: what servers go on with, wherever they die, and what their commands print."""
import contextlib
import os
import re
import signal
import unittest

import fixtures
from etcd_nodes import NOT_THERE, THERE, Node, free_port
from fixtures import ADD, SETTINGS, ServerTest, until, words
from test_transfers import STEPS

ENDING = f"window 4\ntable 1 8\nadditions\norigin 0 0\nproc add 1 16 {ADD}\n"
ROW = f" 1                    5 {words(20)}"
ONCE = words(5, 10)
TOKEN, TOKEN_SUM = "word", "98c1eb4ee93476743763878fcb96a25fbc9a175074d64004779ecb5242f645e6"  # by `sha256sum`


class Rolls(ServerTest):
    def setUp(self):
        super().setUp()
        self.settings(ENDING)

    def begin(self, *more, name="one"):
        return self.serve(name, *more).begun()

    def at(self, server, *said):
        """Runs a command at a server, and returns its status, and its lines."""
        return self.client(said[0], "--at", server.data, "--patience", "20s", *said[1:])

    def call(self, server, *more):
        return self.at(server, "call", "--file", f"{self.folder}/client", "add", ONCE, *more)

    def test_a_server_that_dies_at_a_step_goes_on(self):
        for number, step in enumerate(STEPS, 1):
            with self.subTest(step):
                server = self.begin("--die-at", step)
                self.assertEqual(self.call(server)[0], 0)
                with contextlib.suppress(OSError):
                    server.ask(f"roll {number}")
                self.assertEqual(server.process.wait(fixtures.LONG), -signal.SIGKILL)
                again = self.begin()
                until(lambda: again.status()["order"] == str(number + 1))
                self.assertEqual(again.rows()[0], f" 1                    5 {words(10 * number)}")
                again.kill(signal.SIGTERM)
        server = self.begin()
        status, lines = self.call(server)
        self.assertEqual((status, lines[0].split(" ")[2:]), (0, ["reply", "50"]))

    def test_what_is_printed(self):
        server = self.begin()
        self.assertEqual(self.call(server), (0, ["committed 3 reply 10"]))
        self.assertEqual(self.at(server, "roll", "--idle"), (4, ["refused keep", "dsmdb: the order isn't as old as the server's --keep asks for "
                                                                 "before idle sessions are closed: leave --idle out"]))
        self.assertEqual(self.at(server, "roll", "--window", "9", "--table", "2:16", "--about", "more"), (0, ["rolled 2 own"]))
        self.assertEqual(self.call(server), (0, ["committed 5 reply 20"]))
        database = server.ask("hello").split(" ")[1]
        request = f"request 1 2 20 1 {ONCE}"
        said = [f"# database {database}", "window 9", "table 1 8", "table 2 16", "additions", "origin 5 1", f"proc add 1 16 {ADD}",
                f"row 1 5 {words(20)}", request]
        self.assertEqual(self.at(server, "dump"), (0, [*said, "dsmdb: position 5 lines 8"]))
        self.assertEqual(self.at(server, "roll", "--table", "2:8"), (4, ["refused S3", "dsmdb: the table is there already"]))
        self.assertEqual(self.at(server, "forget", "3")[1], ["refused forget this server is at order 2, and has no settings of order 3"])
        self.assertEqual(self.at(server, "forget", "2"), (0, ["forgot 1"]))
        self.assertEqual(self.at(server, "forget", "2"), (0, ["forgot"]))
        self.assertFalse(os.path.exists(f"{server.data}/order-0000000001"))
        server.kill(signal.SIGTERM)
        self.assertEqual(self.begin().rows(), [ROW, "position 5 rows 1"])

    def test_words_that_are_wrong(self):
        server = self.begin()
        for wrong in (["roll", "--window", "4097"], ["roll", "--table", "2"], ["roll", "--table", "0:8"], ["forget", "0"], ["forget"], ["dump", "x"],
                      ["fetch"]):
            self.assertEqual(self.at(server, *wrong)[0], 2, wrong)
        self.assertEqual(self.client("serve", f"{self.folder}/settings", "--data", f"{self.folder}/x", "--roll-at", "1", "--engine", "x")[0], 2)
        self.settings(SETTINGS)  # which have no origin
        status, lines = self.client("serve", f"{self.folder}/settings", "--data", f"{self.folder}/x", "--roll-at", "5", "--engine", fixtures.ENGINE)
        self.assertEqual((status, lines), (2, ["dsmdb: --roll-at: the settings have no `origin`, so the order can't end: "
                                               "docs/SITES.md says how such a database goes on"]))
        lines = {"roll": "fault L3", "roll 0": "fault L4", "roll 1 window": "fault L3", "roll 1 window 0": "fault L4", "roll 1 idle idle": "fault L4",
                 "roll 1 later": "fault L4", f"roll 1 about {'00' * 34_998}": "fault L4", "forget": "fault L3", "forget 0": "fault L4", "dump 1": "fault L3", "settings 1": "fault L3"}
        for line, answer in lines.items():
            self.assertEqual((line, server.ask(line)), (line, answer))
        missing = f"{self.folder}/missing/x"
        self.assertEqual(self.at(server, "dump", "--to", missing)[0], 1)

    def test_a_database_goes_on_from_its_dump(self):
        server, to = self.begin(), f"{self.folder}/dumped"
        for _ in range(2):
            self.call(server)
        self.assertEqual(self.at(server, "dump", "--to", to), (0, ["dsmdb: position 4 lines 7"]))
        server.kill(signal.SIGTERM)
        os.rename(to, f"{self.folder}/settings")
        other = self.begin(name="other")
        self.assertEqual(other.status()["before"], "4")
        self.assertEqual(other.rows(), [ROW, "position 5 rows 1"])
        self.assertEqual(self.call(other), (0, ["committed 6 reply 30"]))  # with the client's file of before

    def test_a_database_without_sessions_of_its_order(self):
        self.settings(SETTINGS)
        server, to = self.begin(), f"{self.folder}/dumped"
        self.assertEqual(self.call(server), (0, ["committed 3 reply 10"]))
        status, lines = self.at(server, "roll")
        self.assertEqual((status, lines[0]), (4, "refused form"))
        self.assertEqual(self.at(server, "dump", "--to", to)[0], 0)
        server.kill(signal.SIGTERM)
        with open(to) as file:
            text = file.read()
        self.settings(text.replace("additions\n", "additions\norigin 3 3\n"))  # the way over that docs/SITES.md names
        other = self.begin(name="other")
        self.assertEqual(self.call(other), (0, ["committed 5 reply 20"]))
        self.assertEqual(self.at(other, "roll"), (0, ["rolled 2 own"]))

    def test_orders_end_by_themselves(self):
        server = self.begin("--roll-at", "10")
        with contextlib.closing(server.connect()) as connection:
            session = connection.ask("session").split(" ")[1]
            replies = [connection.ask(f"call add {ONCE} {session} {it}").split(" ")[-1] for it in range(1, 101)]
            self.assertEqual(replies, [str(10 * it) for it in range(1, 101)])
            until(lambda: int(server.status()["order"]) >= 2)
            self.assertEqual(connection.ask(f"call add {ONCE} {session} 101").split(" ")[-1], "1010")

    def test_who_may(self):
        with open(f"{self.folder}/roles", "w") as file:
            file.write('{"roles": [{"name": "r", "tokens": ["%s"], "call": [], "rights": ["rows"]}]}' % TOKEN_SUM)
        place = ("127.0.0.1", free_port())
        self.begin("--roles", f"{self.folder}/roles", "--listen", f"tcp://{place[0]}:{place[1]}")
        with contextlib.closing(fixtures.Connection(place)) as connection:
            for line in ("dump", "settings", "roll 1", "forget 1"):
                self.assertEqual(connection.ask(line), "refused role")
            self.assertEqual(connection.ask(f"token {TOKEN}"), "token accepted")
            for line in ("roll 1", "forget 1"):
                self.assertEqual(connection.ask(line), "refused role")
            self.assertEqual(connection.ask("dump"), "window 4")


@unittest.skipUnless(THERE, NOT_THERE)
class RollsOverEtcd(Rolls):
    """The same over an order in etcd."""

    def setUp(self):
        super().setUp()
        self.node = Node(self.folder, "node").start().healthy()
        self.addCleanup(self.node.kill)

    def begin(self, *more, name="one"):
        prefix = "q" if name == "other" else "p"
        return self.serve(name, "--etcd", f"{self.node.url}/{prefix}", *more).begun()

    def test_a_server_that_was_away_while_its_order_was_forgotten(self):
        away, goes_on = self.begin(), self.begin(name="two")
        self.assertEqual(self.call(away), (0, ["committed 3 reply 10"]))
        away.kill(signal.SIGTERM)
        for number in (2, 3):
            self.assertEqual(self.at(goes_on, "roll"), (0, [f"rolled {number} own"]))
        until(lambda: goes_on.status()["order"] == "3" and goes_on.status()["end"] != goes_on.status()["before"])
        self.assertEqual(self.at(goes_on, "forget", "3"), (0, ["forgot 1 2"]))
        self.assertEqual(self.node.ctl("get", "p/", "--prefix", "--keys-only").split()[:2], [b"p/1", b"p/2"])
        said = self.serve("one", "--etcd", f"{self.node.url}/p").ends()
        self.assertRegex(said, r"order 1 is gone: .*`dsmdb fetch")
        fresh = self.serve("three", "--etcd", f"{self.node.url}/p").ends()
        self.assertRegex(fresh, r"order 1 is gone")
        for name in ("one", "three"):
            folder = f"{self.folder}/{name}"
            self.assertEqual(self.at(goes_on, "fetch", "--data", folder), (0, [f"{folder} has the settings of order 3"]))
            back = self.begin(name=name)
            self.assertEqual(back.rows()[0], f" 1                    5 {words(10)}")
        self.assertEqual(self.call(back)[1][0].split(" ")[2:], ["reply", "20"])

    def test_settings_that_were_fetched_begin_no_order_in_a_folder(self):
        server = self.begin()
        self.assertEqual(self.at(server, "fetch", "--data", f"{self.folder}/two")[0], 1)  # order 1 has a file of its own
        self.assertEqual(self.at(server, "roll"), (0, ["rolled 2 own"]))
        self.assertEqual(self.at(server, "fetch", "--data", f"{self.folder}/two")[0], 0)
        alone = self.serve("two")
        self.assertRegex(alone.ends(), "fetched from a server over etcd")
        self.assertEqual(alone.process.returncode, 2)
        elsewhere = self.serve("two", "--etcd", f"{self.node.url}/another")
        self.assertRegex(elsewhere.ends(), "order 2 isn't there, though its settings were fetched")

    def test_settings_of_another_database_are_not_fetched(self):
        one, other = self.begin(), self.begin(name="other")
        for it in (one, other):
            self.assertEqual(self.at(it, "roll"), (0, ["rolled 2 own"]))
        other.kill(signal.SIGTERM)
        path = f"{other.data}/settings-0000000002"
        with open(path) as file:
            before = file.read()
        status, lines = self.at(one, "fetch", "--data", other.data)
        self.assertEqual(status, 1)
        self.assertRegex(lines[0], "it is of database [0-9a-f]{32}, and the other server of database")
        with open(path) as file:
            self.assertEqual(file.read(), before)
        with open(f"{self.folder}/settings", "w") as file:
            file.write(before)
        self.assertRegex(self.serve("one", "--etcd", f"{self.node.url}/p", "--listen", f"{self.folder}/socket2").ends(), "another server has it")
        one.kill(signal.SIGTERM)
        self.assertRegex(self.serve("one", "--etcd", f"{self.node.url}/p").ends(), "is of database .*: take another folder")

    def test_a_server_that_comes_to_other_rows_answers_nobody(self):
        servers = [self.begin(name=it) for it in ("one", "two")]
        self.assertEqual(self.call(servers[0]), (0, ["committed 3 reply 10"]))
        wrong = self.begin(name="three")
        for it in (*servers, wrong):
            it.at(3)
            it.kill(signal.SIGTERM)
        # as if its engine had come to another row at the end of the first order
        began = self.begin(name="one")
        self.assertEqual(self.at(began, "roll"), (0, ["rolled 2 own"]))
        path = f"{self.folder}/%s/settings-0000000002"
        with open(path % "one") as file:
            text = file.read()
        with open(path % "three", "w") as file:
            file.write(text.replace(words(10), words(11)))
        self.begin(name="two")
        silent = self.serve("three", "--etcd", f"{self.node.url}/p")
        until(lambda: re.search("divergence from position 3 on: of other servers' votes [12] disagree and 0 agree", silent.text()))
        self.assertEqual(silent.status()["state"], "silent")
        with contextlib.closing(silent.connect()) as connection:
            connection.socket.settimeout(1)
            with self.assertRaises(TimeoutError):
                connection.ask("rows")
        self.assertRegex(self.at(silent, "forget", "2")[1][0], "refused forget other servers came to other answers")
