"""What a server answers over its connections, whom it refuses, and what it doesn't start with."""
import contextlib
import hashlib
import json
import os
import resource
import shutil
import signal
import socket
import ssl
import stat
import subprocess
import sys
import threading
import time
import unittest
import urllib.error
import urllib.request

import fixtures
import orders
from etcd_nodes import free_port
from fixtures import ADD, LONG, ONE, ROOT, Connection, ServerTest, until, words

LONGEST_LINE = 1_048_576
LONG_PROGRAM = "b700000001000000" * 4095 + "9500000000000000"
LAYOUT = {
    "form": 1,
    "tables": [{"number": 1, "name": "counter", "width": 8, "fields": [{"name": "value", "type": "i64", "at": 0}]}],
    "procedures": [
        {
            "number": 1, "name": "add", "length": 16, "program_sha256": hashlib.sha256(bytes.fromhex(ADD)).hexdigest(),
            "fields": [{"name": "key", "type": "u64", "at": 0}, {"name": "amount", "type": "i64", "at": 8}]}],
    "codes": {"1": "IS_TAKEN"},
}


class Lines(ServerTest):
    def setUp(self):
        super().setUp()
        self.one = self.serve("one").begun()
        self.session = self.one.ask("session").split(" ")[1]

    def call(self, key, delta, sequence, when=""):
        return f"call add {words(key, delta)} {self.session} {sequence} {when}".rstrip()

    def test_faults(self):
        rows = {
            "jump 1": "fault L2", " call": "fault L2", "entry 00": "fault L2", "window 4": "fault L2",
            "call add": "fault L3", "session 1": "fault L3", "status ": "fault L3", "add one 9 0": "fault L3",
            "call add 0 1 1": "fault L4", "call add 00 01 1": "fault L4", "call add 00 4294967296 1": "fault L4",
            "call add  1 1": "fault L4", "call add zz 1 1": "fault L4", "call add 00 1 1 later": "fault L4",
            "call add 00 1 1 after": "fault L3", "call add 00 1 1 fresh 1": "fault L3",
            "call add 00 1 1 after 01": "fault L4", "call add 00 1 1 after 1 1": "fault L3",
            "add one 9 257 00": "fault L4", "add one 65536 0 00": "fault L4", "scan 1 0 9": "fault L3", "scan 1 0 9 0": "fault L4",
            "position\t": "fault L1", "#\t": "fault L1", "\u00e9": "fault L1", "#5 jump": "#5 fault L2",
        }
        with contextlib.closing(self.one.connect()) as connection:
            for line, answer in rows.items():
                self.assertEqual((line, connection.ask(line)), (line, answer))
            connection.send("", "# a comment", "position")
            self.assertEqual(connection.line(), "position 2")

    def test_long_lines(self):
        with contextlib.closing(self.one.connect()) as connection:
            head = "call none  1 1"
            self.assertEqual(connection.ask(head.replace("  ", f" {'0' * (LONGEST_LINE - len(head))} ")), "refused P2")
            connection.send("0" * (LONGEST_LINE + 1), "1" * (3 * LONGEST_LINE), "position")
            self.assertEqual([connection.line() for _ in range(3)], ["fault L1", "fault L1", "position 2"])

    def test_lines_that_come_together_are_answered_in_order(self):
        with contextlib.closing(self.one.connect()) as connection:
            connection.send(*(self.call(5, 1, it) for it in range(1, 101)), "position")
            answers = [connection.line() for _ in range(101)]
        self.assertEqual(answers, [*(f"committed {it + 2} reply {it}" for it in range(1, 101)), "position 102"])

    def test_lines_with_a_number_are_under_way_at_once(self):
        sessions = {it: self.one.ask("session").split(" ")[1] for it in range(2, 40)}
        with contextlib.closing(self.one.connect()) as connection:
            others = (f"#{it} call add {words(it, it)} {sessions[it]} 1" for it in range(2, 40))
            connection.send("#1 " + self.call(5, 1, 1, "after 1000000 within 2"), *others)
            answers = [connection.line() for _ in range(38)]
            self.assertEqual(connection.line(), "#1 unknown time")
        expected = {f"#{it}": f"reply {it}" for it in range(2, 40)}
        self.assertEqual({it.split(" ")[0]: it.split(" ", 3)[3] for it in answers}, expected)

    def test_calls_of_a_session_wait_for_each_other(self):
        with contextlib.closing(self.one.connect()) as connection:
            connection.send("#1 " + self.call(5, 1, 1, "after 3 within 30"), "#2 " + self.call(5, 1, 2), "#3 position")
            self.assertEqual(connection.line(), "#3 position 2")
            self.assertEqual(self.one.ask("session"), "session 3")
            self.assertEqual([connection.line() for _ in range(2)], ["#1 committed 4 reply 1", "#2 committed 5 reply 2"])

    def test_a_client_who_reads_late_holds_nobody_up(self):
        for it in range(1, 301):
            self.one.ask(self.call(it, 1, it))
        connection = self.one.connect()
        connection.send(*["rows"] * 200, "position")  # some 8 MB of answers
        self.assertEqual(self.one.ask("position"), "position 302")
        self.assertEqual(self.one.ask(self.call(5, 1, 301)), "committed 303 reply 2")
        for _ in range(200):
            lines = [connection.line() for _ in range(301)]
            self.assertTrue(lines[300].startswith("position 30"), lines[300])
        self.assertEqual(connection.line().split(" ")[0], "position")
        connection.close()

    def test_a_client_who_leaves_is_not_called_for(self):
        connection = self.one.connect()
        connection.send(self.call(5, 1, 1, "after 50"))
        until(lambda: self.one.status()["waiting"] == "2")
        connection.close()
        for it in range(2, 60):
            self.one.ask(self.call(6, 1, it))
        self.assertEqual(self.one.rows()[0].split(), ["1", "6", words(58)])

    def test_more_connections_than_files(self):
        few = self.serve("few", limits=["prlimit", "--nofile=64:64"]).begun()
        session = few.ask("session").split(" ")[1]
        with contextlib.ExitStack() as all_of_them:
            connected = all_of_them.enter_context(contextlib.closing(few.connect()))
            for _ in range(80):
                it = socket.socket(socket.AF_UNIX, socket.SOCK_STREAM)
                all_of_them.enter_context(it)
                it.setblocking(False)
                with contextlib.suppress(BlockingIOError):
                    it.connect(few.path)
            begun = time.monotonic()
            for it in range(1, 51):
                self.assertTrue(connected.ask(f"call add {words(5, 1)} {session} {it}").startswith("committed"))
            self.assertLess(time.monotonic() - begun, 20)
        until(lambda: few.ask("position"))

    def test_ten_thousand_connections(self):
        soft, hard = resource.getrlimit(resource.RLIMIT_NOFILE)
        most = 10_000 if hard == resource.RLIM_INFINITY or hard > 10_500 else hard - 500
        resource.setrlimit(resource.RLIMIT_NOFILE, (most + 400, hard))
        self.addCleanup(resource.setrlimit, resource.RLIMIT_NOFILE, (soft, hard))
        many = self.serve("many", "--connections", str(most)).begun()
        session = many.ask("session").split(" ")[1]
        some = [many.connect() for _ in range(most)]
        for it in some:
            it.send("position")
        self.assertEqual({it.line() for it in some}, {"position 2"})
        over = many.connect()
        self.assertEqual(over.line(), "")  # it is closed at once
        self.assertEqual(some[0].ask(f"call add {words(5, 1)} {session} 1"), "committed 3 reply 1")
        for it in [*some, over]:
            it.close()


class Starts(ServerTest):
    """What a server doesn't start with, or ends by; nothing of anybody else's is changed."""

    def refused(self, name, *more, status=1, **how):
        server = self.serve(name, *more, **how)
        said = server.ends()
        self.assertEqual(server.process.returncode, status, said)
        return said

    def test_its_socket(self):
        one = self.serve("one").begun()
        self.assertEqual(stat.S_IMODE(os.stat(one.path).st_mode), 0o600)
        self.assertEqual(stat.S_IMODE(os.stat(one.data).st_mode), 0o700)
        self.assertIn("another server has it", self.refused("one"))
        self.assertEqual(one.ask("position"), "position 1")
        one.kill()
        self.assertTrue(os.path.exists(one.path))
        self.assertEqual(self.serve("one").begun().ask("position"), "position 1")

    def test_files_of_others_stay(self):
        os.mkdir(f"{self.folder}/foreign", mode=0o700)
        for path in (f"{self.folder}/foreign/notes", f"{self.folder}/plain"):
            with open(path, "w") as file:
                file.write("mine\n")
        self.assertIn("it holds notes", self.refused("foreign"))
        self.assertIn("no folder", self.refused("plain"))
        self.assertIn("no socket", self.refused("one", "--listen", f"{self.folder}/plain"))
        for path in (f"{self.folder}/foreign/notes", f"{self.folder}/plain"):
            with open(path) as file:
                self.assertEqual(file.read(), "mine\n")

    def test_an_order_of_the_old_form(self):
        self.serve("one").begun().kill()
        with open(f"{self.folder}/one/order-0000000001/order", "w") as file:
            file.write("0001\n")
        self.assertIn("order: it is no segment of a log", self.refused("one"))

    def test_other_settings(self):
        self.serve("one").begun().kill()
        self.settings(fixtures.SETTINGS.replace("window 4", "window 5"))
        self.assertIn("other settings", self.refused("one"))

    def test_settings_at_fault(self):
        self.settings("window 4\ntable 1\n")
        said = self.refused("one")
        self.assertIn(f"{self.folder}/settings: line 2: L3: `dsmdb explain L3`", said)

    def test_words_that_are_none(self):
        for more in (
            ["--listen", "tcp://0.0.0.0:1"], ["--listen", "tls://127.0.0.1:1"], ["--http", "1.2.3.4:80"], ["--cert", "x"],
            ["--etcd", "p"], ["--etcd-ca", "x"], ["--patience", "0s"], ["--nonsense"], ["more"], ["--name", "a"],
        ):
            with self.subTest(more):
                self.refused("one", *more, status=2)

    def test_a_flipped_bit_in_the_log(self):
        one = self.serve("one").begun()
        session = one.ask("session").split(" ")[1]
        for it in range(1, 21):
            one.ask(f"call add {words(5, 1)} {session} {it}")
        one.kill()
        path = f"{self.folder}/one/order-0000000001/0000000001.segment"
        with open(path, "r+b") as file:
            data = bytearray(file.read())
            data[1500] ^= 4
            file.seek(0)
            file.write(data)
        self.assertRegex(self.refused("one"), r"0000000001\.segment: record \d+: it can't be read, and record \d+ behind it can")

    def test_the_order_on_the_disk(self):
        one = self.serve("one").begun()
        session = one.ask("session").split(" ")[1]
        one.ask(f"call add {words(5, 10)} {session} 1")
        one.kill()
        found = orders.strings(f"{self.folder}/one/order-0000000001")
        self.assertEqual([it[:2] for it in found[:2]], [b"\0\1", b"\0\2"])
        self.assertEqual(found[2].hex(), fixtures.increment(int(session), 1, 5, 10, 2, 10))
        (first, *_) = orders.records(f"{self.folder}/one/order-0000000001")
        with open(f"{self.folder}/one/order-0000000001/0000000001.segment", "rb") as file:
            segment = file.read(32 + 16 + len(first) + 4)
        self.assertEqual(int.from_bytes(segment[-4:], "little"), orders.crc32c(segment[32:-4]))
        self.assertEqual(int.from_bytes(segment[28:32], "little"), orders.crc32c(segment[:28]))

    def test_it_ends_when_it_is_told_to(self):
        one = self.serve("one").begun()
        with contextlib.closing(one.connect()) as connection:
            connection.send(f"call add {words(5, 10)} 2 1 after 100000000 within 2")
            until(lambda: one.status()["waiting"] == "2")
            begun = time.monotonic()
            one.kill(signal.SIGTERM)
            self.assertEqual(connection.line(), "unknown time")
        self.assertLess(time.monotonic() - begun, 11)
        self.assertEqual((one.process.returncode, os.path.exists(one.path)), (0, False))

    def test_a_log_that_cannot_be_written(self):
        with open("/dev/full", "w") as full:
            words_ = [fixtures.SERVER, "serve", f"{self.folder}/settings", "--data", f"{self.folder}/quiet", "--engine", fixtures.ENGINE]
            process = subprocess.Popen(words_, stderr=full, stdout=full)
        self.addCleanup(process.wait)
        self.addCleanup(process.kill)
        path = f"{self.folder}/quiet/socket"
        until(lambda: os.path.exists(path))
        with contextlib.closing(Connection(path)) as connection:
            self.assertEqual(connection.ask("session"), "session 2")
            self.assertEqual(connection.ask(f"call add {words(5, 10)} 2 1"), "committed 3 reply 10")

    @unittest.skipUnless(os.geteuid() == 0, "a disk of a few megabytes takes a mount namespace, which only root can make")
    def test_a_full_disk_that_has_room_again(self):
        own = f"{self.folder}/own"
        os.mkdir(own)
        begin = f"mount -t tmpfs -o size=24m,mode=0700 none {own} && head -c 12m /dev/zero > {own}/filler && exec \"$@\""
        one = self.serve("own/one", "--listen", f"{self.folder}/door", limits=["unshare", "--mount", "sh", "-c", begin, "sh"])
        until(lambda: os.path.exists(f"{self.folder}/door"))
        inside = f"/proc/{one.process.pid}/root{own}"
        with contextlib.closing(Connection(f"{self.folder}/door")) as connection:
            until(lambda: "access=away" in connection.ask("status"))
            connection.send(f"call add {words(5, 1)} 2 1 within 1")
            self.assertEqual(connection.line(), "unknown order")
            os.remove(f"{inside}/filler")
            self.assertEqual(connection.ask("session"), "session 2")
            answers = [""]
            for number in range(10, 1000):  # some 16 MB, up to the segment's end
                answers.append(connection.ask(f"add n{number} {number} 0 {LONG_PROGRAM}"))
                if answers[-1] == "full":
                    break
            self.assertEqual(answers[-2:], [f"added {number - 1}", "full"])
            self.assertEqual(connection.ask(f"call claim {words(5)} 0 0"), "refused P13")
            subprocess.run(["nsenter", "--mount", "--target", str(one.process.pid), "mount", "-o", "remount,size=64m", own], check=True)
            self.assertEqual(until(lambda: (found := connection.ask(f"add late 9 0 {ONE}")) != "full" and found), "added 9")

    def test_clients_who_leave_or_do_not_read_hold_no_end_up(self):
        one = self.serve("one").begun()
        for it in range(5):
            left = one.connect()
            left.send(*["rows"] * 3000)
            if it % 2:
                left.close()
            else:
                self.addCleanup(left.close)
        until(lambda: one.ask("position"))
        begun = time.monotonic()
        one.kill(signal.SIGTERM)
        self.assertLess(time.monotonic() - begun, 11)
        self.assertEqual(one.process.returncode, 0)

    def test_a_log_whose_reader_has_left(self):
        reading, writing = os.pipe()
        wanted = [fixtures.SERVER, "serve", f"{self.folder}/settings", "--data", f"{self.folder}/one", "--engine", fixtures.ENGINE]
        process = subprocess.Popen(wanted, stderr=writing)
        self.addCleanup(process.wait)
        self.addCleanup(process.kill)
        os.close(writing)
        path = f"{self.folder}/one/socket"
        until(lambda: os.path.exists(path))
        os.close(reading)
        with contextlib.closing(Connection(path)) as connection:
            self.assertEqual(connection.ask("session"), "session 2")
            engine = subprocess.run(["ps", "-o", "pid=", "--ppid", str(process.pid)], capture_output=True, text=True).stdout
            os.kill(int(engine), signal.SIGKILL)  # which is logged
            self.assertEqual(connection.ask(f"call add {words(5, 10)} 2 1"), "committed 3 reply 10")
        self.assertIsNone(process.poll())

    def test_an_engine_that_cannot_be_started_for_a_while(self):
        engine = f"{self.folder}/engine"
        shutil.copy(fixtures.ENGINE, engine)
        os.chmod(engine, 0o755)
        one = self.serve("one", engine=engine).begun()
        session = one.ask("session").split(" ")[1]
        os.rename(engine, f"{engine}.away")
        os.kill(one.engine(), signal.SIGKILL)
        until(lambda: one.text().count("started again") > 1)
        os.rename(f"{engine}.away", engine)
        self.assertEqual(one.ask(f"call add {words(5, 10)} {session} 1"), "committed 3 reply 10")

    def test_its_engine_is_started_again(self):
        one = self.serve("one").begun()
        session = one.ask("session").split(" ")[1]
        for it in range(1, 4):
            self.assertEqual(one.ask(f"call add {words(5, 1)} {session} {it}"), f"committed {it + 2} reply {it}")
            os.kill(one.engine(), signal.SIGKILL)
        self.assertEqual(one.ask(f"call add {words(5, 1)} {session} 4"), "committed 6 reply 4")
        self.assertIn("started again", one.text())

    def test_an_engine_that_hangs_is_started_again(self):
        one = self.serve("one").begun()
        session = one.ask("session").split(" ")[1]
        os.kill(one.engine(), signal.SIGSTOP)
        self.assertEqual(one.ask(f"call add {words(5, 1)} {session} 1 within 50"), "committed 3 reply 1")
        self.assertIn("neither answered nor worked", one.text())


class Doors(ServerTest):
    """TCP, TLS and HTTP, and who may do what there."""

    def ports(self, *more):
        self.tcp, self.http = free_port(), free_port()
        with open(f"{self.folder}/layout", "w") as file:
            json.dump(LAYOUT, file)
        more = ["--listen", f"tcp://127.0.0.1:{self.tcp}", "--http", f"127.0.0.1:{self.http}", "--layout", f"{self.folder}/layout", *more]
        return self.serve("one", *more).begun()

    def over_tcp(self, *lines):
        with contextlib.closing(Connection(("127.0.0.1", self.tcp))) as connection:
            return [connection.ask(it) for it in lines]

    def web(self, path, body=None, **headers):
        """Returns the status and the document."""
        if body is not None:
            headers = {"Content-Type": "application/json", **headers}
        raw = body if isinstance(body, (bytes, type(None))) else json.dumps(body).encode()
        asked = urllib.request.Request(f"http://127.0.0.1:{self.http}{path}", raw, {k.replace("_", "-"): v for k, v in headers.items()})
        try:
            with urllib.request.urlopen(asked, timeout=LONG) as answer:
                text, status = answer.read().decode(), answer.status
        except urllib.error.HTTPError as error:
            text, status = error.read().decode(), error.code
        with contextlib.suppress(ValueError):
            return status, json.loads(text)
        return status, text

    def test_without_roles_nobody_calls_over_tcp(self):
        self.ports()
        self.assertEqual(self.over_tcp("session", f"call add {words(5, 1)} 2 1", "rows", "position"), ["refused role"] * 3 + ["position 1"])
        self.assertEqual(self.web("/v1/sessions", {})[0], 403)

    def test_an_open_server(self):
        one = self.ports("--open")
        self.assertEqual(self.over_tcp("session", f"call add {words(5, 1)} 2 1", "rows", f"add one 9 0 {ONE}"),
                         ["session 2", "committed 3 reply 1", "refused role", "refused role"])
        self.assertEqual(one.ask(f"add one 9 0 {ONE}"), "added 9")

    def test_roles(self):
        status, lines = self.client("token")
        self.assertEqual(status, 0)
        token, hashed = (it.split()[1] for it in lines)
        roles = [
            {"name": "till", "tokens": [hashed], "call": ["add"], "calls_per_second": 4, "rights": ["rows"]},
            {"name": "clerk", "tokens": ["0" * 64], "call": ["*"]}]
        with open(f"{self.folder}/roles", "w") as file:
            json.dump({"roles": roles}, file)
        self.ports("--roles", f"{self.folder}/roles")
        self.assertEqual(self.over_tcp("token 1234", "session"), ["refused token", "refused role"])
        asked = [f"token {token}", "session", *(f"call add {words(5, 1)} 2 {it}" for it in range(1, 6)), f"call claim {words(5)} 2 9", f"add one 9 0 {ONE}"]
        found = self.over_tcp(*asked)
        self.assertEqual(found[:5], ["token accepted", "session 2", *(f"committed {it + 2} reply {it}" for it in range(1, 4))])
        self.assertIn("refused rate", found[5:7])
        self.assertEqual(found[7:], ["refused role", "refused role"])
        self.assertEqual(self.web("/v1/sessions", {}, Authorization="Bearer 12")[0], 401)
        until(lambda: self.web("/v1/sessions", {}, Authorization=f"Bearer {token}")[0] == 201)  # once its rate allows
        self.assertEqual(self.web("/v1/procedures", {"name": "one", "number": 9, "length": 0, "program": ONE}, Authorization=f"Bearer {token}")[0], 403)

    def certificates(self):
        """Makes a signer, a server's certificate and a client's."""
        def openssl(*said):
            subprocess.run(["openssl", *said], check=True, capture_output=True, cwd=self.folder)

        openssl("req", "-x509", "-newkey", "ec", "-pkeyopt", "ec_paramgen_curve:prime256v1", "-nodes", "-keyout", "ca.key", "-out", "ca.pem", "-subj", "/CN=ca", "-days", "2")
        for name, alternative in (("server", "IP:127.0.0.1"), ("till", "DNS:till.example")):
            openssl("req", "-newkey", "ec", "-pkeyopt", "ec_paramgen_curve:prime256v1", "-nodes", "-keyout", f"{name}.key", "-out", f"{name}.csr", "-subj", f"/CN={name}")
            with open(f"{self.folder}/{name}.ext", "w") as file:
                file.write(f"subjectAltName={alternative}\n")
            openssl("x509", "-req", "-in", f"{name}.csr", "-CA", "ca.pem", "-CAkey", "ca.key", "-CAcreateserial", "-out", f"{name}.pem", "-days", "2", "-extfile", f"{name}.ext")

    @unittest.skipUnless(shutil.which("openssl"), "no openssl is here (apt-get install openssl)")
    def test_tls(self):
        self.certificates()
        port = free_port()
        with open(f"{self.folder}/roles", "w") as file:
            json.dump({"roles": [{"name": "till", "certificates": ["till.example"], "call": ["add"]}]}, file)
        more = ["--cert", f"{self.folder}/server.pem", "--key", f"{self.folder}/server.key", "--clients", f"{self.folder}/ca.pem"]
        self.serve("one", "--listen", f"tls://127.0.0.1:{port}", *more, "--roles", f"{self.folder}/roles").begun()
        shown = ["--ca", f"{self.folder}/ca.pem", "--cert", f"{self.folder}/till.pem", "--key", f"{self.folder}/till.key"]
        at = ["--at", f"tls://127.0.0.1:{port}"]
        self.assertEqual(self.client("call", *at, *shown, "add", words(5, 10)), (0, ["committed 3 reply 10"]))
        self.assertEqual(self.client("call", *at, *shown[:2], "--patience", "2s", "add", words(5, 10))[0], 3)
        self.assertEqual(self.client("call", *at, *shown[2:], "--patience", "2s", "add", words(5, 10))[0], 3)
        self.assertEqual(self.client("call", *at, *shown, "claim", words(5))[0], 3)
        context = ssl.create_default_context(cafile=f"{self.folder}/ca.pem")
        context.load_cert_chain(f"{self.folder}/till.pem", f"{self.folder}/till.key")
        sys.path.insert(0, f"{ROOT}/sdk/python")
        import dsmdb

        with dsmdb.Client([f"tls://127.0.0.1:{port}"], tls=context) as client:
            self.assertEqual(client.call("add", bytes.fromhex(words(5, 10))).line, "committed 6 reply 20")

    def test_connections_of_http_are_counted(self):
        self.ports("--open", "--connections", "2")
        with contextlib.ExitStack() as all_of_them:
            for _ in range(2):
                it = all_of_them.enter_context(contextlib.closing(Connection(("127.0.0.1", self.http))))
                self.assertEqual(it.ask("GET /healthz HTTP/1.1\r\nHost: localhost\r\n\r"), "HTTP/1.1 200 OK\r")
            over = all_of_them.enter_context(contextlib.closing(Connection(("127.0.0.1", self.http))))
            self.assertEqual(over.line(), "")

        def is_answered():
            with contextlib.suppress(ConnectionError):
                return self.over_tcp("position") == ["position 1"]

        until(is_answered)

    def test_http(self):
        one = self.ports("--open")
        status, begun = self.web("/v1/sessions", {})
        self.assertEqual((status, begun["session"], begun["ahead"], begun["order"]), (201, "2", "16", "1"))
        call = {"args": {"key": "5", "amount": -7}, "session": "2", "sequence": 1}
        committed = {"answer": "committed", "position": "3", "reply": str(2**64 - 7)}
        self.assertEqual(self.web("/v1/call/add", call), (200, committed))
        self.assertEqual(self.web("/v1/call/add", call), (200, committed))
        del call["session"], call["sequence"]
        self.assertEqual(self.web("/v1/call/add", call, Idempotency_Key="2-1"), (200, committed))
        hexed = {"args": words(5, 1), "session": 2, "sequence": 1}
        self.assertEqual(self.web("/v1/call/add", hexed)[1]["answer"], "other 3")
        claimed = self.web("/v1/call/claim", {"args": words(5), "fresh": True})
        self.assertEqual(claimed, (200, {"answer": "cancelled", "position": "3", "code": "1", "name": "IS_TAKEN"}))
        for body, expected in (
            ({"args": words(5, 1)}, 422), ({"args": words(5)}, 422), ({"args": "0"}, 400), ({"args": {"key": 5}}, 400), ({"arg": 1}, 400),
            ({"session": "x"}, 400), ({"args": {"key": 2**64, "amount": 1}}, 400), (b"{", 400), ({"upto": 1, "args": words(5, 1), "session": 2, "sequence": 9}, 409),
        ):
            self.assertEqual((body, self.web("/v1/call/add", body)[0]), (body, expected))
        self.assertEqual(self.web("/v1/call/a%20b", {})[0], 400)
        self.assertEqual(self.web("/v1/call/none", {})[0], 422)
        self.assertEqual(self.web("/v1/call/add", call, Content_Type="text/plain")[0], 415)
        self.assertEqual(self.web("/v1/call/add")[0], 405)
        self.assertEqual(self.web("/v1/status", Host="stranger.example")[0], 421)
        self.assertEqual(self.web("/v1/status", Origin="http://stranger.example")[0], 403)
        self.assertEqual(self.web("/v1/tables/1/rows")[0], 403)
        status, found = self.web("/v1/status")
        self.assertEqual((status, found["position"], found["committed"], found["order_reached"]), (200, "3", "1", True))
        self.assertEqual(self.web("/healthz"), (200, "ok\n"))
        self.assertEqual(self.web("/readyz"), (200, "ok\n"))
        status, text = self.web("/nowhere")
        self.assertEqual((status, text["title"]), (404, "there is nothing at this path"))
        self.assertIn("dsmdb_position 3", self.web("/metrics")[1])
        self.assertIn("<title>dsmdb</title>", self.web("/")[1])
        listed = self.web("/v1/procedures")[1]["procedures"]
        self.assertEqual([(it["name"], it["number"], it["length"]) for it in listed], [("add", 1, 16), ("claim", 2, 8)])
        self.assertEqual(self.web("/v1/layout")[1], LAYOUT)
        self.assertEqual(one.rows(), [f" 1                    5 {words(2**64 - 7)}", "position 3 rows 1"])


class Typed(ServerTest):
    def test_values_by_name(self):
        with open(f"{self.folder}/layout", "w") as file:
            json.dump(LAYOUT, file)
        one = self.serve("one", "--layout", f"{self.folder}/layout").begun()
        at = ["--at", one.data]
        self.assertEqual(self.client("call", *at, "add", "key=5", "amount=-3"), (0, [f"committed 3 reply {2**64 - 3}"]))
        self.assertEqual(self.client("call", *at, "claim", words(5)), (1, ["cancelled 4 code IS_TAKEN"]))
        self.assertEqual(self.client("rows", *at), (0, ["counter 5 value=-3", "position 4 rows 1"]))
        self.assertEqual(self.client("rows", *at, "--hex"), (0, [f" 1                    5 {words(2**64 - 3)}", "position 4 rows 1"]))
        for said in (["add", "key=5"], ["add", "key=5", "amount=x"], ["add", "key=-1", "amount=1"], ["add", "key=5", "amount=1", "more=2"], ["claim", "key=5"]):
            self.assertEqual((said, self.client("call", *at, *said)[0]), (said, 2))

    def test_a_layout_that_is_not_the_settings(self):
        other = {**LAYOUT, "procedures": [{**LAYOUT["procedures"][0], "program_sha256": "0" * 64}]}
        for text in (json.dumps(other), json.dumps({**LAYOUT, "form": 2}), "{}", "x", json.dumps({**LAYOUT, "tables": [{**LAYOUT["tables"][0], "width": 9}]})):
            with open(f"{self.folder}/layout", "w") as file:
                file.write(text)
            one = self.serve("one", "--layout", f"{self.folder}/layout")
            self.assertIn("layout", one.ends())
            self.assertEqual(one.process.returncode, 1)


class System(ServerTest):
    def test_it_tells_systemd(self):
        with socket.socket(socket.AF_UNIX, socket.SOCK_DGRAM) as told:
            told.bind(f"{self.folder}/notify")
            told.settimeout(LONG)
            heard = []

            def listen():
                while "STOPPING=1" not in heard:
                    heard.append(told.recv(100).decode())

            listening = threading.Thread(target=listen)
            listening.start()
            one = self.serve("one", limits=["env", f"NOTIFY_SOCKET={self.folder}/notify", "WATCHDOG_USEC=300000"]).begun()
            until(lambda: heard.count("WATCHDOG=1") > 3)
            one.kill(signal.SIGTERM)
            listening.join(LONG)
        self.assertEqual((heard[0], heard[-1], set(heard)), ("READY=1", "STOPPING=1", {"READY=1", "WATCHDOG=1", "STOPPING=1"}))
