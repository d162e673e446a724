"""A client of dsmdb servers, with Python's own library alone: each call is done once, whatever ends meanwhile.

    import dsmdb

    with dsmdb.Client(["db/socket"], store=dsmdb.File("me")) as client:
        answer = client.call("pay", account=7, amount=100)
        print(answer.word, answer.value)

A server's place is the path of its Unix socket or of its data folder, `tcp://HOST:PORT` or `tls://HOST:PORT`. A store keeps
the session and the call that isn't settled: `File` over the ends of the process, `Memory` as long as it runs.
"""
import contextlib
import fcntl
import json
import os
import random
import re
import socket
import ssl
import time
from typing import NamedTuple

SILENCE = 10  # seconds beyond the time that a server was given, before another one is asked
LAST_SEQUENCE = 2**32 - 1
MOST_AHEAD = 65_536  # strings that a server makes an order longer by
PAGE = 1000  # rows that are asked for at a time
SETTLED = {"committed", "read", "cancelled", "conflict", "stale", "other"}
OUT_OF_SESSION = "P15"
SETTLED_REFUSALS = {"P2", "P3", "P13", OUT_OF_SESSION}
NOT_BEGUN = {"role", "rate", "token"}  # refusals that say that a call wasn't begun
NAME = re.compile(r"[!-~]+")


class Unsettled(Exception):
    """It isn't known whether a call was done. `settle` asks what became of it."""


class SessionLost(Exception):
    """A call that was asked before is refused now, since its session is over. Whether the call was done isn't told any more.
    It won't be done later. The next call begins a new session."""


class NothingSent(Exception):
    """No server was reached: nothing was asked of any."""


class MayNot(Exception):
    """A server refuses this client: its role, or its token."""


class OtherDatabase(Exception):
    """A server has another database than the one that the store is of."""


class Answer(NamedTuple):
    """What a call was answered: the line, its word, the position, the reply or code, and why where it was refused."""

    line: str
    word: str
    at: int = 0
    value: int = 0
    why: str = ""
    code: str = ""  # the code's name, of a call that was cancelled, where the server has a layout

    @property
    def done(self):
        return self.word in ("committed", "read")

    @property
    def settled(self):
        return self.word in SETTLED or self.word == "refused" and self.why in SETTLED_REFUSALS

    @property
    def is_out_of_session(self):
        """Whether the call's session is over, or has committed a call of a greater number."""
        return self.word == "refused" and self.why == OUT_OF_SESSION


def parse(line):
    words = line.split(" ")
    if words[0] in ("committed", "read", "cancelled"):
        return Answer(line, words[0], int(words[1]), int(words[3]))
    if words[0] == "conflict":
        return Answer(line, words[0], int(words[1]), int(words[2]))
    if words[0] in ("stale", "other", "late", "session", "added"):
        return Answer(line, words[0], int(words[1]))
    return Answer(line, words[0], why=" ".join(words[1:]))


# ---- what is kept


class State(NamedTuple):
    database: str = ""
    session: int = 0
    next: int = 1
    call: str = ""  # the line of the call that isn't settled, up to its pair
    upto: int = 0  # the greatest position up to which that call may run


class Memory:
    """A store that lasts as long as the process."""

    def __init__(self):
        self._state = State()

    def load(self):
        return self._state

    def save(self, state):
        self._state = state

    def close(self):
        pass


class File:
    """A store in a file, which one process has. The Go library reads and writes the same form."""

    FORM = re.compile(r"dsmdb client 1\ndatabase ([0-9a-f]{32})?\nsession (\d+)\nnext (\d+)\n(?:(call [!-~]* [!-~]+ \d+ \d+) upto (\d+)\n)?")

    def __init__(self, path):
        self.path = path
        while True:
            self._file = open(os.open(path, os.O_RDWR | os.O_CREAT | os.O_NOFOLLOW, 0o600), "r+")
            try:
                fcntl.flock(self._file, fcntl.LOCK_EX | fcntl.LOCK_NB)
            except BlockingIOError:
                self._file.close()
                raise OSError(f"{path}: another client is at work with it") from None
            with contextlib.suppress(FileNotFoundError):
                if os.path.samestat(os.fstat(self._file.fileno()), os.stat(path)):
                    return
            self._file.close()  # it was written anew by the client that had it

    def load(self):
        with open(self.path) as file:
            text = file.read()
        if not text:
            return State()
        found = self.FORM.fullmatch(text)
        if not found:
            raise ValueError(f"{self.path} is no client's file of this version, and was left as it is")
        database, session, number, call, upto = found.groups()
        return State(database or "", int(session), int(number), call or "", int(upto or 0))

    def save(self, state):
        made = open(os.open(f"{self.path}.new", os.O_RDWR | os.O_CREAT | os.O_TRUNC | os.O_NOFOLLOW, 0o600), "w")
        fcntl.flock(made, fcntl.LOCK_EX | fcntl.LOCK_NB)
        made.write(f"dsmdb client 1\ndatabase {state.database}\nsession {state.session}\nnext {state.next}\n")
        if state.call:
            made.write(f"{state.call} upto {state.upto}\n")
        made.flush()
        os.fsync(made.fileno())
        os.replace(f"{self.path}.new", self.path)
        folder = os.open(os.path.dirname(os.path.abspath(self.path)), os.O_RDONLY)
        try:
            os.fsync(folder)
        finally:
            os.close(folder)
        self._file.close()
        self._file = made

    def close(self):
        self._file.close()


# ---- typed values


def pack(procedure, values):
    """Returns the bytes of a procedure's arguments, by the layout of the server: all fields, and no others."""
    names = [it["name"] for it in procedure["fields"]]
    if sorted(values) != sorted(names):
        raise ValueError(f"{procedure['name']} takes {', '.join(names) or 'no arguments'}")
    block = bytearray(procedure["length"])
    for it in procedure["fields"]:
        raw = _raw(it, values[it["name"]])
        block[it["at"] : it["at"] + len(raw)] = raw
    return bytes(block)


def _raw(field, value):
    kind, _, size = field["type"].partition(":")
    if kind in ("text", "bytes"):
        raw = value.encode() if isinstance(value, str) else bytes(value)
        if len(raw) > int(size):
            raise ValueError(f"{field['name']} has {size} bytes, and its value has {len(raw)}")
        return raw
    try:
        return int(value).to_bytes(int(kind[1:]) // 8, "little", signed=kind[0] == "i")
    except OverflowError:
        raise ValueError(f"{field['name']}={value} doesn't fit {kind}") from None


def unpack(table, row):
    """Returns the values of a row by name, by the layout of the server."""
    found = {}
    for it in table["fields"]:
        kind, _, size = it["type"].partition(":")
        width = int(size) if size else int(kind[1:]) // 8
        raw = row[it["at"] : it["at"] + width]
        if kind == "text":
            found[it["name"]] = raw.rstrip(b"\0").decode(errors="replace")
        elif kind == "bytes":
            found[it["name"]] = raw
        else:
            found[it["name"]] = int.from_bytes(raw, "little", signed=kind[0] == "i")
    return found


# ---- asking


class _Connection:
    """A connection to one server."""

    def __init__(self, place, seconds, token, tls):
        self.place = place
        if os.path.isdir(place):
            place = os.path.join(place, "socket")
        scheme, _, address = place.partition("://")
        if scheme in ("tcp", "tls") and address:
            host, _, port = address.rpartition(":")
            self._socket = socket.create_connection((host.strip("[]"), int(port)), seconds)
            self._socket.setsockopt(socket.IPPROTO_TCP, socket.TCP_NODELAY, 1)
            if scheme == "tls":
                self._socket = (tls or ssl.create_default_context()).wrap_socket(self._socket, server_hostname=host.strip("[]"))
        else:
            self._socket = socket.socket(socket.AF_UNIX, socket.SOCK_STREAM)
            self._socket.settimeout(seconds)
            self._socket.connect(place.removeprefix("unix:"))
        self._lines = self._socket.makefile("rb")
        self.is_open = False  # whether an answer is still to come
        if token and self.ask(f"token {token}", seconds) != "token accepted":
            self.close()
            raise MayNot(f"{self.place}: the token is refused")

    def ask(self, line, seconds):
        self.is_open = True
        self._socket.settimeout(seconds)
        self._socket.sendall(f"{line}\n".encode("ascii"))
        found = self.line()
        self.is_open = found.startswith(" ")
        return found

    def line(self):
        found = self._lines.readline()
        if not found.endswith(b"\n"):
            raise ConnectionError("the server closed the connection")
        return found[:-1].decode("ascii")

    def close(self):
        self._lines.close()
        self._socket.close()


class Client:
    """One session with a database, which has one call out at a time. One thread has it."""

    def __init__(self, servers, store=None, within=10, patience=60, token="", tls=None):
        """`within` is for how many seconds one server may try a call, `patience` for how many servers are asked."""
        self._servers, self._store = list(servers), store or Memory()
        self._within, self._patience, self._token, self._tls = within, patience, token, tls
        self._state, self._connection, self._layout = self._store.load(), None, None
        self._known = self._ahead = 0
        self._answered = False  # whether the state's call is settled, and its answer was handed on
        self._over = False  # whether the state's session takes no calls any more

    def __enter__(self):
        return self

    def __exit__(self, *_):
        self.close()

    def close(self):
        """Ends the client, whose last answer was handed on."""
        try:
            self._leave()
            if self._answered:
                self._forget()
        finally:
            self._store.close()

    @property
    def unsettled(self):
        """The line of a call that isn't settled; empty where there is none. The store has a call until the next one, or
        `close`: who dies with an answer in hand is told it again by `settle`."""
        return "" if self._answered else self._state.call

    def call(self, name, args=None, *, after=0, fresh=False, **fields):
        """Calls a procedure, and returns what became of the call. Arguments are bytes, or values by name."""
        if self.unsettled:
            raise Unsettled(f"an earlier call isn't settled: {self.unsettled}")
        if not NAME.fullmatch(name):
            raise ValueError(f"{name!r} is no procedure's name")
        if args is not None and (fields or not isinstance(args, (bytes, bytearray))):
            raise TypeError("arguments are bytes, or values by name as in call('pay', account=7, amount=100)")
        until = time.monotonic() + self._patience
        if args is None:
            args = self._pack(name, fields, until)
        answer = self._call(until, name, args, after, fresh)
        if answer.is_out_of_session:  # its session was over before: the call wasn't done, and is asked in another one
            self._forget()
            answer = self._call(until, name, args, after, fresh)
        return answer

    def settle(self):
        """Asks what became of the call that isn't settled, and has it done where it wasn't."""
        if not self.unsettled:
            raise ValueError("no call is to be settled")
        return self._settle(time.monotonic() + self._patience, True, 0, "")

    def layout(self):
        """Returns the names and types of fields as the server has them; None where it has none."""
        if self._layout is None:
            line = self.ask("layout").removeprefix("layout ")
            self._layout = None if line == "none" else json.loads(json.loads(line))
        return self._layout

    def rows(self, table=None, first=0, last=2**64 - 1):
        """Yields (table, key, row) for each row, or for those of a table whose keys are in a range; a row is a dictionary
        where the server has a layout of the table, else bytes. All rows are those of one position; rows of a table are read
        in pages, each of a position of its own, on a connection of its own."""
        known = {it["number"]: it for it in (self.layout() or {"tables": []})["tables"]}
        if table is None:
            yield from self._page("rows", known)
            return
        number = {it["name"]: number for number, it in known.items()}.get(table, table)
        while first <= last:
            page = list(self._page(f"scan {number} {first} {last} {PAGE}", known))
            yield from page
            if len(page) < PAGE:
                return
            first = page[-1][1] + 1

    def _page(self, line, known):
        with contextlib.closing(self._reach()) as connection:
            answer = connection.ask(line, SILENCE + self._within)
            while answer.startswith(" "):
                number, key, raw = answer.split()
                raw = bytes.fromhex(raw)
                yield int(number), int(key), unpack(known[int(number)], raw) if int(number) in known else raw
                answer = connection.line()
        if not answer.startswith("position "):
            raise ValueError(f"{line}: {answer}")

    def status(self):
        """Returns what a server says of itself, by name."""
        return dict(it.split("=", 1) for it in self.ask("status").split(" ")[1:] if "=" in it)

    def ask(self, line):
        """Asks a line that may be asked any number of times, until a server answers with one line."""
        until = time.monotonic() + self._patience
        for tries in range(1 << 30):
            try:
                self._connect(until)
                answer = self._connection.ask(line, SILENCE + self._within)
                if not answer.startswith("unknown"):
                    return answer
                why = answer
            except OSError as fault:
                why = str(fault)
            self._next()
            self._wait(until, tries, NothingSent(why))
        raise NothingSent("no answer")

    # ---- settling

    def _call(self, until, name, args, after, fresh):
        """Calls a procedure in the client's session, or in a new one where that is over."""
        self._begin(until)
        state = self._state
        line = f"call {name} {args.hex() or '-'} {state.session} {state.next}"
        self._save(call=line, upto=max(self._known, after) + self._ahead, next=state.next + 1)
        self._answered = False
        return self._settle(until, False, after, f" after {after}" * bool(after) + " fresh" * fresh)

    def _settle(self, until, sent, after, when):
        """Asks the call until it is settled. Where an earlier ask may have left a copy behind, the call is asked on rows
        behind those on which the copy may run, so that the answer holds of that too."""
        why, tries = "", 0
        while True:
            answer = None
            try:
                answer = self._ask_call(until, sent, after, when)
            except MayNot as fault:
                why = str(fault)
                if not sent:
                    self._forget()
                    raise
            except OSError as fault:
                sent, why = sent or self._asked, str(fault)
            if answer:
                why = answer.line
                if answer.settled or answer.word == "fault" and not sent:
                    self._answered, self._over = True, answer.is_out_of_session
                    if self._over and sent:
                        raise SessionLost(f"the call may have been done before, and a new session begins with the next call: {why}")
                    return self._named(answer)
                if answer.word == "late":
                    if time.monotonic() < until:
                        continue  # at once, with a higher bound
                elif answer.word == "refused" and answer.why in NOT_BEGUN and not sent:
                    self._forget()
                    return answer
                elif answer.word == "refused" and answer.why != "rate":
                    raise Unsettled(why)
                else:
                    sent = sent or answer.word != "refused"
            if not answer or answer.word == "unknown":
                self._next()
            if not self._wait(until, tries):
                break
            tries += 1
        if not sent:
            self._forget()
            raise NothingSent(why)
        raise Unsettled(why)

    def _forget(self):
        """Has the store keep the call no longer, nor a session that is over."""
        self._save(call="", upto=0, **({"session": 0, "next": 1} if self._over else {}))
        self._answered = self._over = False

    def _ask_call(self, until, again, after, when):
        self._asked = False
        self._connect(until)
        line = self._state.call + (f" fresh after {self._state.upto}" if again else when)
        upto = max(self._known, self._state.upto if again else after) + self._ahead
        if again:  # as far as a server makes an order longer
            upto = min(upto, self._known + MOST_AHEAD)
        if upto > self._state.upto:
            self._save(upto=upto)
        self._asked = True
        answer = parse(self._connection.ask(f"{line} upto {self._state.upto} within {self._within}", self._within + SILENCE))
        if answer.word in ("committed", "read", "cancelled", "conflict", "stale", "late"):
            self._known = max(self._known, answer.at)
        if answer.word == "late":
            self._hear(self._connection)  # the order grows faster than was told
        return answer

    def _named(self, answer):
        """Gives a code its name, where the layout was asked for."""
        if answer.word == "cancelled" and self._layout:
            return answer._replace(code=self._layout["codes"].get(str(answer.value), ""))
        return answer

    def _pack(self, name, fields, until):
        layout = self.layout()
        for it in (layout or {"procedures": []})["procedures"]:
            if it["name"] == name:
                return pack(it, fields)
        if fields:
            raise ValueError(f"the server has no layout of {name}: give its arguments as bytes")
        return b""

    def _begin(self, until):
        """Has a session for the next call."""
        for tries in range(1 << 30):
            try:
                self._connect(until)
                if self._state.session and self._state.next <= LAST_SEQUENCE and not self._over:
                    return
                answer = parse(self._connection.ask("session", SILENCE + self._within))
                if answer.word == "session":
                    self._save(session=answer.at, next=1)
                    self._over = False
                    return
                if answer.word == "refused" and answer.why != "rate":
                    raise MayNot(answer.line)
                why = answer.line
            except OSError as fault:
                why = str(fault)
            self._next()
            self._wait(until, tries, NothingSent(why))

    # ---- connections

    def _connect(self, until):
        if self._connection and self._connection.is_open:
            self._leave()  # an answer would come that nobody waits for
        if not self._connection:
            self._connection = self._reach()

    def _reach(self):
        connection = _Connection(self._servers[0], SILENCE, self._token, self._tls)
        try:
            self._hear(connection)
        except BaseException:
            connection.close()
            raise
        return connection

    def _hear(self, connection):
        """Asks which database this is, and where its order is."""
        try:
            word, database, _, position, ahead = connection.ask("hello", SILENCE).split(" ")
        except ValueError:
            raise ConnectionError(f"{connection.place} is no server of dsmdb, or of another version") from None
        if self._state.database not in ("", database):
            raise OtherDatabase(f"{connection.place} has database {database}, and the store is of {self._state.database}")
        self._ahead = int(ahead)
        self._state = self._state._replace(database=database)
        self._known = max(self._known, int(position))

    def _leave(self):
        if self._connection:
            self._connection.close()
        self._connection = None

    def _next(self):
        """Leaves the server, so that the next one is asked."""
        self._leave()
        self._servers.append(self._servers.pop(0))

    def _save(self, **changes):
        state = self._state._replace(**changes)
        self._store.save(state)
        self._state = state

    def _wait(self, until, tries, fault=None):
        """Waits before it is asked again, longer each time; false, or the fault, where the patience has ended."""
        pause = min(0.01 * 2 ** min(tries, 10), 1) * (0.5 + random.random())
        if time.monotonic() + pause > until:
            if fault:
                raise fault
            return False
        time.sleep(pause)
        return True
