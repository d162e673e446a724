"""Commands of clients and the library for Python: what they keep, what they ask again, and how they end."""
import os
import socket
import subprocess
import sys
import threading

import fixtures
from etcd_nodes import free_port
from fixtures import ONE, ROOT, SETTINGS, ServerTest, until, words

sys.path.insert(0, f"{ROOT}/sdk/python")
import dsmdb

HELLO = f"hello {'0' * 32} 1 5 16"
LOST = "the session was lost: the call may have been done before, and a new session begins with the next call: refused P15"


class Stranger(threading.Thread):
    """A server's socket at which each line is answered by the next of a list; after None the connection is closed."""

    def __init__(self, path, *answers):
        super().__init__(daemon=True)
        self.path, self.answers, self.asked = path, list(answers), []
        self.listening = socket.socket(socket.AF_UNIX, socket.SOCK_STREAM)
        self.listening.bind(path)
        self.listening.listen()
        self.start()

    def run(self):
        while self.answers:
            accepted, _ = self.listening.accept()
            with accepted, accepted.makefile("rwb") as lines:
                while self.answers and (line := lines.readline()):
                    self.asked.append(line.decode().rstrip("\n"))
                    answer = self.answers.pop(0)
                    if answer is None:
                        break
                    lines.write(answer.encode() + b"\n")
                    lines.flush()


class Commands(ServerTest):
    def setUp(self):
        super().setUp()
        self.path = f"{self.folder}/client"
        self.one = self.serve("one").begun()

    def asks(self, word, *said, at=None):
        places = [it for place in at or [self.one.data] for it in ("--at", place)]
        kept = ["--file", self.path] if word in ("call", "session") else []
        return self.client(word, *places, *kept, *said)

    def file(self):
        with open(self.path) as file:
            return file.read().splitlines()[2:]

    def test_commands_and_how_they_end(self):
        self.assertEqual(self.asks("session"), (0, ["session 2"]))
        self.assertEqual(self.asks("session"), (0, ["session 2"]))
        self.assertEqual(self.file(), ["session 2", "next 1"])
        self.assertEqual(self.asks("call", "add", words(5, 10)), (0, ["committed 3 reply 10"]))
        self.assertEqual(self.asks("call", "--fresh", "add", words(5, 10)), (0, ["committed 4 reply 20"]))
        self.assertEqual(self.file(), ["session 2", "next 3"])
        self.assertEqual(self.asks("call", "--after", "4", "claim", words(5)), (1, ["cancelled 4 code 1"]))
        self.assertEqual(self.asks("call", "none"), (4, ["refused P2"]))
        self.assertEqual(self.asks("call", "add", "00"), (4, ["refused P3"]))
        self.assertEqual(self.asks("add", "one", "9", "0", ONE), (0, ["added 9"]))
        self.assertEqual(self.asks("add", "one", "10", "0", ONE), (4, ["taken C1"]))
        self.assertEqual(self.asks("call", "one"), (0, ["read 6 reply 1"]))
        self.assertEqual(self.asks("rows"), (0, [" 1                    5 1400000000000000", "position 6 rows 1"]))
        status, (line,) = self.asks("status")
        self.assertEqual((status, line.split(" ")[0], dict(it.split("=") for it in line.split(" ")[1:])["position"]), (0, "status", "6"))

    def test_words_that_are_none(self):
        for said in (
            ["call"], ["call", "add", "0"], ["call", "a b", "00"], ["call", "add", "zz"], ["add", "one", "9", "257", ONE], ["add", "one"],
            ["session", "x"], ["rows", "--table", "x"], ["status", "x"],
        ):
            with self.subTest(said):
                self.assertEqual(self.asks(*said)[0], 2)
        self.assertEqual(self.client("jump")[0], 2)
        self.assertEqual(self.client()[0], 2)
        self.assertEqual(self.client("call", "add", words(5, 1))[0], 2)

    def test_where_nobody_is(self):
        self.assertEqual(self.asks("call", "--patience", "1s", "add", words(5, 1), at=[f"{self.folder}/nobody"])[0], 3)
        self.assertEqual(self.asks("call", "add", words(5, 1), at=[f"{self.folder}/nobody", self.one.data])[0], 0)

    def test_a_file_that_is_none_stays(self):
        with open(self.path, "w") as file:
            file.write("session 1\n")
        status, lines = self.asks("call", "add", words(5, 1))
        self.assertEqual((status, "left as it is" in lines[-1]), (3, True))
        with open(self.path) as file:
            self.assertEqual(file.read(), "session 1\n")

    def test_a_file_of_another_database(self):
        self.assertEqual(self.asks("call", "add", words(5, 1))[0], 0)
        other = self.serve("other").begun()
        status, lines = self.asks("call", "add", words(5, 1), at=[other.data])
        self.assertEqual((status, "take another file" in lines[-1]), (3, True))
        self.assertEqual(other.rows(), ["position 1 rows 0"])

    def test_numbers_that_are_used_up(self):
        self.asks("session")
        with open(self.path) as file:
            text = file.read()
        with open(self.path, "w") as file:
            file.write(text.replace("next 1", "next 4294967295"))
        self.assertEqual(self.asks("call", "add", words(5, 10)), (0, ["committed 3 reply 10"]))
        self.assertEqual(self.asks("call", "add", words(5, 10)), (0, ["committed 5 reply 20"]))
        self.assertEqual(self.file(), ["session 4", "next 2"])

    def test_a_client_that_is_killed_goes_on_with_its_file(self):
        self.asks("session")
        os.kill(self.one.engine(), 19)  # so that nothing is answered
        asked = [fixtures.SERVER, "call", "--at", self.one.data, "--file", self.path, "add", words(5, 10)]
        killed = subprocess.Popen(asked, stdout=subprocess.DEVNULL)
        until(lambda: f"call add {words(5, 10)} 2 1 upto 18" in self.file())
        until(lambda: int(self.one.status()["waiting"]) > 1)
        killed.kill()
        killed.wait()
        os.kill(self.one.engine(), 18)
        status, lines = self.asks("call", "add", words(5, 1))
        self.assertEqual(status, 0)
        self.assertRegex(lines[0], rf"^earlier call add {words(5, 10)} 2 1: committed \d+ reply 10$")
        self.assertRegex(lines[1], r"^committed \d+ reply 11$")
        self.assertEqual(self.file(), ["session 2", "next 3"])

    def test_the_same_command_asks_on(self):
        self.asks("session")
        with open(self.path, "a") as file:
            file.write(f"call add {words(5, 10)} 2 1 upto 18\n")
        with open(self.path) as file:
            text = file.read().replace("next 1", "next 2")
        with open(self.path, "w") as file:
            file.write(text)
        status, (line,) = self.asks("call", "add", words(5, 10))
        self.assertEqual((status, line.split(" ")[2:]), (0, ["reply", "10"]))
        self.assertRegex(self.asks("call", "add", words(5, 10))[1][0], r"^committed \d+ reply 20$")

    def test_an_answer_that_cannot_be_printed_is_kept(self):
        asked = [fixtures.SERVER, "call", "--at", self.one.data, "--file", self.path, "add", words(5, 10)]
        with open("/dev/full", "w") as full:
            ran = subprocess.run(asked, stdout=full, stderr=subprocess.PIPE)
        self.assertEqual(ran.returncode, 5)
        self.assertTrue(self.file()[-1].startswith(f"call add {words(5, 10)} "))
        self.assertEqual(self.asks("call", "add", words(5, 10)), (0, ["committed 3 reply 10"]))


class Asking(ServerTest):
    """What the library for Python and the commands ask a server that answers as a test says."""

    def both(self, *answers):
        """Yields what each of them asks and comes to, one after the other."""
        for at, run in enumerate((self.by_python, self.by_command)):
            stranger = Stranger(f"{self.folder}/stranger{at}", *answers)
            found = run(stranger.path)
            yield stranger.asked, found

    def by_python(self, path):
        with dsmdb.Client([path], patience=5, within=2) as client:
            return client.call("add", b"\1").line

    def by_command(self, path):
        _, lines = self.client("call", "--at", path, "--patience", "5s", "--within", "2s", "add", "01")
        return lines[-1]

    def test_a_lost_answer_is_asked_for_on_rows_behind_every_copy(self):
        answers = [HELLO, "session 7", None, HELLO.replace(" 5 16", " 9 16"), "unknown time", HELLO, "committed 30 reply 1"]
        for asked, found in self.both(*answers):
            calls = [it for it in asked if it.startswith("call ")]
            self.assertEqual(calls, [
                "call add 01 7 1 upto 21 within 2", "call add 01 7 1 fresh after 21 upto 37 within 2",
                "call add 01 7 1 fresh after 37 upto 53 within 2"])
            self.assertEqual(found, "committed 30 reply 1")

    def test_what_is_late_is_asked_again_as_it_was(self):
        for asked, found in self.both(HELLO, "session 7", "late 100", HELLO, "committed 101 reply 1"):
            calls = [it for it in asked if it.startswith("call ")]
            self.assertEqual(calls, ["call add 01 7 1 upto 21 within 2", "call add 01 7 1 upto 116 within 2"])
            self.assertEqual(found, "committed 101 reply 1")

    def test_a_first_ask_in_a_session_that_is_over_is_asked_in_another_one(self):
        for asked, found in self.both(HELLO, "session 7", "refused P15", "session 9", "committed 8 reply 1"):
            self.assertEqual(asked, [
                "hello", "session", "call add 01 7 1 upto 21 within 2", "session", "call add 01 9 1 upto 21 within 2"])
            self.assertEqual(found, "committed 8 reply 1")

    def test_another_session_is_tried_once(self):
        for asked, found in self.both(HELLO, "session 7", "refused P15", "session 9", "refused P15"):
            self.assertEqual(asked[-2:], ["session", "call add 01 9 1 upto 21 within 2"])
            self.assertEqual(found, "refused P15")

    def test_a_session_that_is_over_behind_a_copy_is_lost(self):
        answers = [HELLO, "session 7", None, HELLO, "refused P15"]
        asks = ["session", "call add 01 7 1 upto 21 within 2", "call add 01 7 1 fresh after 21 upto 37 within 2"]
        stranger = Stranger(f"{self.folder}/stranger0", *answers, "session 9", "committed 8 reply 1", "committed 9 reply 2")
        with dsmdb.Client([stranger.path], patience=5, within=2) as client:
            with self.assertRaises(dsmdb.SessionLost):
                client.call("add", b"\1")
            self.assertEqual(client.unsettled, "")
            self.assertEqual([client.call("add", b"\1").value for _ in range(2)], [1, 2])
        more = ["session", "call add 01 9 1 upto 21 within 2", "call add 01 9 2 upto 24 within 2"]
        self.assertEqual([it for it in stranger.asked if it != "hello"], asks + more)
        stranger = Stranger(f"{self.folder}/stranger1", *answers)
        said = self.client("call", "--at", stranger.path, "--patience", "5s", "--within", "2s", "add", "01")
        self.assertEqual(said, (4, ["refused P15", f"dsmdb: {LOST}"]))
        self.assertEqual([it for it in stranger.asked if it != "hello"], asks)

    def test_where_no_other_session_may_begin_the_call_is_given_up(self):
        answers, store = [HELLO, "session 7", "refused P15", "refused role"], dsmdb.Memory()
        with dsmdb.Client([Stranger(f"{self.folder}/stranger0", *answers).path], store) as client:
            with self.assertRaises(dsmdb.MayNot):
                client.call("add", b"\1")
            self.assertEqual(store.load(), dsmdb.State("0" * 32))
        path = f"{self.folder}/client"
        said = self.client("call", "--at", Stranger(f"{self.folder}/stranger1", *answers).path, "--file", path, "add", "01")
        self.assertEqual(said, (3, ["dsmdb: the server refuses it: refused role"]))
        with open(path) as file:
            self.assertEqual(file.read(), f"dsmdb client 1\ndatabase {'0' * 32}\nsession 0\nnext 1\n")


class Library(ServerTest):
    """What holds of the library for Python whatever its caller does."""

    def test_an_answer_that_nobody_waits_for_is_nobodys(self):
        one = self.serve("one").begun()
        with dsmdb.Client([one.data]) as client:
            for key in range(1, 4):
                client.call("add", bytes.fromhex(words(key, key)))
            for _ in client.rows():  # and no further
                self.assertEqual(client.call("add", bytes.fromhex(words(9, 1))).value, 1)
                break
            self.assertEqual(client.call("add", bytes.fromhex(words(9, 1))).value, 2)
            client._connection.ask = None  # as after an exception between asking and hearing
            client._connection.is_open = True
            self.assertEqual(client.call("add", bytes.fromhex(words(9, 1))).value, 3)
            for name in ("a\nposition", "a b", "", "a\t"):
                with self.assertRaises(ValueError):
                    client.call(name, b"")
            with self.assertRaises(TypeError):
                client.call("add", {"key": 9, "value": 1})
            with self.assertRaises(TypeError):
                client.call("add", bytes.fromhex(words(9, 1)), key=9)
            self.assertEqual(client.call("add", bytes.fromhex(words(9, 1))).value, 4)

    def test_its_file_is_its_owners(self):
        path = f"{self.folder}/mine"
        dsmdb.File(path).close()
        self.assertEqual(os.stat(path).st_mode & 0o777, 0o600)

    def test_who_may_not_is_told_at_once(self):
        port = free_port()
        self.serve("one", "--listen", f"tcp://127.0.0.1:{port}").begun()
        with dsmdb.Client([f"tcp://127.0.0.1:{port}"]) as client, self.assertRaises(dsmdb.MayNot):
            client.call("add", bytes.fromhex(words(5, 1)))
        self.assertEqual(self.client("call", "--at", f"tcp://127.0.0.1:{port}", "add", words(5, 1))[0], 3)


class Files(ServerTest):
    """The library for Python and the commands keep one form of file."""

    def test_both_read_it(self):
        one, path = self.serve("one").begun(), f"{self.folder}/client"
        with dsmdb.Client([one.data], dsmdb.File(path)) as client:
            self.assertEqual(client.call("add", bytes.fromhex(words(5, 10))).line, "committed 3 reply 10")
        self.assertEqual(self.client("call", "--at", one.data, "--file", path, "add", words(5, 10)), (0, ["committed 4 reply 20"]))
        with dsmdb.Client([one.data], dsmdb.File(path)) as client:
            answer = client.call("add", bytes.fromhex(words(5, 10)), fresh=True)
            self.assertEqual((answer.line, answer.done, answer.value), ("committed 5 reply 30", True, 30))
            self.assertEqual(list(client.rows()), [(1, 5, bytes.fromhex(words(30)))])
            self.assertEqual(client.status()["committed"], "3")
            with self.assertRaises(OSError):
                dsmdb.File(path)


class Orders(ServerTest):
    """Clients over orders that end: both libraries go on with what they keep."""

    def setUp(self):
        super().setUp()
        self.settings(f"{SETTINGS}origin 0 0\n")
        self.one = self.serve("one", "--keep", "0s").begun()

    def roll(self, number, *how):
        """Ends an order; one of this number goes on."""
        self.assertEqual(self.client("roll", "--at", self.one.data, *how), (0, [f"rolled {number} own"]))

    def close_sessions(self):
        """Closes the sessions that there are: in the second of two orders none of them commits anything."""
        self.roll(2, "--idle")
        self.roll(3, "--idle")

    def both(self):
        """Yields each library's way to call, with the key of a row and the path of a client's file."""
        yield self.by_python, 5, f"{self.folder}/client5"
        yield self.by_command, 6, f"{self.folder}/client6"

    def by_python(self, path, key, delta):
        """Calls in the library for Python, as the command `call` does. Returns the status and the lines of that command."""
        args, said, told = bytes.fromhex(words(key, delta)), [], []
        with dsmdb.Client([self.one.data], dsmdb.File(path)) as client:
            earlier = client.unsettled
            asks_on = earlier.startswith(f"call add {args.hex()} ")
            if earlier and not asks_on:
                answer, lost = self.line_of(client.settle)
                said, told = [f"earlier {earlier}: {answer}"], [f"dsmdb: earlier call: {it}" for it in lost]
            answer, lost = self.line_of(client.settle if asks_on else lambda: client.call("add", args))
            status = 0 if answer.startswith("committed ") else 4
            return status, [*said, answer, *told, *(f"dsmdb: {it}" for it in lost)]

    def line_of(self, asks):
        """Returns the line that a call is answered, and what is said of a session that was lost."""
        try:
            return asks().line, []
        except dsmdb.SessionLost:
            return "refused P15", [LOST]

    def by_command(self, path, key, delta):
        """Calls in the library for Go."""
        return self.client("call", "--at", self.one.data, "--file", path, "add", words(key, delta))

    def keep(self, path, *lines):
        """Writes a client's file: these lines behind that of its database."""
        database = self.one.ask("hello").split(" ")[1]
        with open(path, "w") as file:
            file.write("".join(f"{it}\n" for it in ("dsmdb client 1", f"database {database}", *lines)))

    def kept(self, path):
        with open(path) as file:
            return file.read().splitlines()[2:]

    def session_in(self, path):
        return self.kept(path)[0].split(" ")[1]

    def rows(self):
        return [int.from_bytes(bytes.fromhex(it.split()[2]), "little") for it in self.one.rows()[:-1]]

    def test_one_file_over_the_end_of_an_order(self):
        path = f"{self.folder}/client"
        self.assertEqual(self.by_python(path, 5, 10), (0, ["committed 3 reply 10"]))  # behind the first string and the session
        self.assertEqual(self.by_command(path, 5, 10), (0, ["committed 4 reply 20"]))
        self.roll(2)
        self.assertEqual(self.by_python(path, 5, 10), (0, ["committed 6 reply 30"]))  # behind the next order's first string
        self.assertEqual(self.by_command(path, 5, 10), (0, ["committed 7 reply 40"]))
        self.roll(3)
        self.assertEqual(self.by_command(path, 5, 10), (0, ["committed 9 reply 50"]))
        self.assertEqual(self.by_python(path, 5, 10), (0, ["committed 10 reply 60"]))
        self.assertEqual(self.kept(path), ["session 1", "next 7"])
        self.assertEqual(self.one.ask("hello").split(" ")[2:4], ["3", "10"])

    def test_one_client_over_the_end_of_an_order(self):
        with dsmdb.Client([self.one.data]) as client:
            self.assertEqual(client.call("add", bytes.fromhex(words(5, 10))).line, "committed 3 reply 10")
            self.roll(2)
            self.assertEqual(client.call("add", bytes.fromhex(words(5, 10)), fresh=True).line, "committed 5 reply 20")
            self.assertEqual(client.call("add", bytes.fromhex(words(5, 10)), after=5).line, "committed 6 reply 30")
            self.assertEqual(list(client.rows("1")), [(1, 5, bytes.fromhex(words(30)))])

    def test_a_call_that_was_done_before_the_end_is_settled_behind_it(self):
        for _, key, path in self.both():
            session = self.one.ask("session").split(" ")[1]
            call = f"call add {words(key, 10)} {session} 1"
            self.assertRegex(self.one.ask(call), r"^committed \d+ reply 10$")
            self.keep(path, f"session {session}", "next 2", f"{call} upto 18")
        self.assertEqual(self.one.ask("session"), "session 3")
        self.assertEqual(self.one.ask("position"), "position 6")
        self.roll(2)
        for calls, key, path in self.both():
            self.assertEqual(calls(path, key, 10), (0, ["committed 6 reply 10"]))  # where this order begins
            self.assertEqual(calls(path, key, 1)[1][0].split(" ")[2:], ["reply", "11"])
            self.assertEqual(self.kept(path)[1:], ["next 3"])

    def test_a_call_that_was_not_done_before_the_end_is_done_behind_it(self):
        out = {}
        for _, key, path in self.both():
            session = self.one.ask("session").split(" ")[1]
            out[key] = f"call add {words(key, 10)} {session} 1"
            self.keep(path, f"session {session}", "next 2", f"{out[key]} upto 18")
        self.roll(2)
        for calls, key, path in self.both():
            status, (earlier, line) = calls(path, key, 1)
            self.assertEqual(status, 0)
            self.assertRegex(earlier, rf"^earlier {out[key]}: committed \d+ reply 10$")
            self.assertRegex(line, r"^committed \d+ reply 11$")

    def test_a_call_that_is_out_when_the_order_ends(self):
        with dsmdb.Client([self.one.data]) as client:
            client.call("add", bytes.fromhex(words(5, 10)))
            os.kill(self.one.engine(), 19)  # so that nothing is answered
            found = []
            thread = threading.Thread(target=lambda: found.append(client.call("add", bytes.fromhex(words(5, 10)))))
            thread.start()
            asked = [["call", "--at", self.one.data, "add", words(6, 10)], ["roll", "--at", self.one.data]]
            commands = [subprocess.Popen([fixtures.SERVER, *it], stdout=subprocess.PIPE, text=True) for it in asked]
            until(lambda: int(self.one.status()["waiting"]) > 3)  # both calls or what is asked before, the roll, the status
            os.kill(self.one.engine(), 18)
            said = [it.communicate(timeout=fixtures.LONG)[0] for it in commands]
            thread.join(fixtures.LONG)
        self.assertEqual([it.value for it in found], [20])
        self.assertRegex(said[0], r"^committed \d+ reply 10\n$")
        self.assertEqual(said[1], "rolled 2 own\n")
        self.assertEqual(self.rows(), [20, 10])

    def test_a_session_that_was_closed_is_replaced_unseen(self):
        store = dsmdb.Memory()
        with dsmdb.Client([self.one.data], store) as running:
            running.call("add", bytes.fromhex(words(9, 10)))
            for calls, key, path in self.both():
                self.assertEqual(calls(path, key, 10)[0], 0)
            self.roll(2, "--idle")
            running.call("add", bytes.fromhex(words(9, 10)))
            self.roll(3, "--idle")  # which closes the others alone
            self.assertEqual(running.call("add", bytes.fromhex(words(9, 10))).value, 30)
            self.assertEqual(store.load().session, 1)
            for at, (calls, key, path) in enumerate(self.both()):
                self.assertEqual(self.kept(path), [f"session {2 + at}", "next 2"])
                status, (line,) = calls(path, key, 10)
                self.assertEqual(status, 0)
                self.assertRegex(line, r"^committed \d+ reply 20$")
                self.assertEqual(self.kept(path), [f"session {4 + at}", "next 2"])
            self.roll(4)
            self.roll(5, "--idle")
            self.assertEqual(running.call("add", bytes.fromhex(words(9, 10))).value, 40)
            self.assertEqual(store.load().session, 6)

    def test_a_session_that_was_closed_is_lost_where_a_copy_was_sent(self):
        for calls, key, path in self.both():
            calls(path, key, 10)
            self.keep(path, f"session {self.session_in(path)}", "next 2", f"call add {words(key, 10)} {self.session_in(path)} 1 upto 18")
        self.close_sessions()
        for calls, key, path in self.both():
            self.assertEqual(calls(path, key, 10), (4, ["refused P15", f"dsmdb: {LOST}"]))
            self.assertEqual(self.kept(path), ["session 0", "next 1"])
            self.assertEqual(calls(path, key, 10)[1][0].split(" ")[2:], ["reply", "20"])
        self.assertEqual(self.rows(), [20, 20])

    def test_another_call_tells_of_a_lost_session_and_goes_on(self):
        out = {}
        for calls, key, path in self.both():
            calls(path, key, 10)
            out[key] = f"call add {words(key, 10)} {self.session_in(path)} 2"
            self.keep(path, f"session {self.session_in(path)}", "next 3", f"{out[key]} upto 18")
        self.close_sessions()
        for calls, key, path in self.both():
            status, (earlier, line, told) = calls(path, key, 1)
            self.assertEqual((status, earlier), (0, f"earlier {out[key]}: refused P15"))
            self.assertEqual(line.split(" ")[2:], ["reply", "11"])
            self.assertEqual(told, f"dsmdb: earlier call: {LOST}")
            self.assertEqual(self.kept(path)[1:], ["next 2"])

    def test_a_lost_session_is_told_until_it_is_handed_on(self):
        path = f"{self.folder}/client"
        self.keep(path, "session 7", "next 2", f"call add {words(5, 10)} 7 1 upto 18")  # which nobody opened
        client = dsmdb.Client([self.one.data], dsmdb.File(path))
        with self.assertRaises(dsmdb.SessionLost):
            client.settle()
        self.assertEqual(client.unsettled, "")
        client._store.close()  # as where the process dies
        with open("/dev/full", "w") as full:
            asked = [fixtures.SERVER, "call", "--at", self.one.data, "--file", path, "add", words(5, 10)]
            self.assertEqual(subprocess.run(asked, stdout=full, stderr=subprocess.PIPE).returncode, 5)
        self.assertTrue(self.kept(path)[-1].startswith(f"call add {words(5, 10)} 7 1 upto "))
        self.assertEqual(self.by_command(path, 5, 10), (4, ["refused P15", f"dsmdb: {LOST}"]))
        self.assertEqual(self.kept(path), ["session 0", "next 1"])

    def test_a_session_that_has_done_more_than_its_file_says_is_replaced(self):
        for calls, key, path in self.both():
            for _ in range(3):
                calls(path, key, 10)
            session = self.session_in(path)
            self.keep(path, f"session {session}", "next 2")
            status, (line,) = calls(path, key, 10)
            self.assertEqual((status, line.split(" ")[2:]), (0, ["reply", "40"]))
            self.assertNotEqual(self.session_in(path), session)
