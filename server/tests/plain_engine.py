#!/usr/bin/env python3
"""plain_engine.py site SETTINGS: what `dsmdb site` answers, by a program as plain as can be, to compare it with.

It says what each line is by the definitions, over plain dictionaries, and keeps the rows after every position. Of
programs it looks no further than that they decode, so it is given only those that are accepted, or don't decode.
"""
import os
import re
import sys
from struct import unpack_from

sys.dont_write_bytecode = True
sys.path.insert(0, f"{os.path.dirname(os.path.realpath(__file__))}/../../sdk/c/tests")
from decoding import decode_fault
from machine import Machine

SETTINGS = {"window": 2, "table": 3, "proc": 5, "additions": 1, "row": 4, "request": 6, "origin": 3}  # words of each line
LONGEST_LINE, LAST, LAST_KEY = 1_048_576, 4_294_967_295, 18_446_744_073_709_551_615
NOTHING_DONE = (0, 0, 0, b"")
NUMBER, HEX, NAME = (re.compile(it) for it in ("0|[1-9][0-9]*", "-|([0-9A-Fa-f]{2})+", "[0-9A-Za-z_]{1,32}"))


class Fault(Exception):
    pass


def number(word, most):
    if not NUMBER.fullmatch(word) or len(word) > 20 or int(word) > most:
        raise Fault("L4")
    return int(word)


def hex_bytes(word):
    if not HEX.fullmatch(word):
        raise Fault("L4")
    return b"" if word == "-" else bytes.fromhex(word)


def words_of(raw, lengths):
    """Returns a line's words, or none for an empty one or a comment."""
    if len(raw) > LONGEST_LINE or not re.fullmatch(rb"[ -~]*", raw):
        raise Fault("L1")
    if not raw or raw.startswith(b"#"):
        return []
    words = raw.decode().split(" ")
    if words[0] not in lengths:
        raise Fault("L2")
    if len(words) != lengths[words[0]]:
        raise Fault("L3")
    return words


class Site:
    """The items of an order so far: rows, procedures and verdicts at each position."""

    def __init__(self, settings):
        self.window, self.additions, self.widths, self.procedures = None, False, {}, {}
        self.rows, self.known = [{}], []  # by position: the rows; and the procedures
        self.writes, self.done = [], {}  # by position: what was written; by pair: who committed, and the reply
        self.before, self.origin = 0, None  # the byte strings before, and N, of an order that opens sessions
        self.sessions = {}  # by session: its greatest number done, the reply, and the call's procedure and arguments
        for at, raw in enumerate(settings.split(b"\n"), 1):
            try:
                self.set(words_of(raw, SETTINGS))
            except Fault as fault:
                sys.exit(f"line {at}: {fault}")
        if self.window is None:
            sys.exit("line 0: L5")
        self.known = [dict(self.procedures)]

    def set(self, words):
        if words[:1] == ["window"]:
            if self.window is not None:
                raise Fault("L5")
            self.window = number(words[1], 4096)
        elif words[:1] == ["table"]:
            if self.origin is not None or self.rows[0] or self.done or self.procedures:
                raise Fault("L5")
            self.widths[number(words[1], 64)] = number(words[2], 128)
        elif words[:1] == ["proc"]:
            self.procedures[words[1]] = (number(words[2], 65535), number(words[3], 256), hex_bytes(words[4]))
        elif words[:1] == ["row"]:
            self.rows[0][number(words[1], 64), number(words[2], LAST_KEY)] = hex_bytes(words[3])
        elif words[:1] == ["request"]:
            session, sequence = number(words[1], LAST), number(words[2], LAST)
            if session <= max(self.sessions, default=0):
                raise Fault("L11 Q1")
            if self.origin is not None and session > self.origin:
                raise Fault("L11 Q2")
            self.done[session, sequence] = (0, number(words[3], LAST_KEY))
            last = (sequence, number(words[3], LAST_KEY), number(words[4], 65535), hex_bytes(words[5]))
            self.sessions[session] = last if sequence or self.origin is None else NOTHING_DONE
        elif words[:1] == ["origin"]:
            if self.origin is not None or self.done:
                raise Fault("L5")
            self.before, self.origin = number(words[1], LAST_KEY), number(words[2], LAST)
            self.opened = self.origin
        elif words:
            self.additions = True

    # ---- what stands at a position

    def run(self, position, procedure, args):
        """Returns reply, code, looks and writes of a call on the rows after a position."""
        machine = Machine(procedure[2], args, self.rows[position], self.widths)
        reply, code, _, looks, writes = machine.run()
        return reply, code, looks, writes

    def bytes_of(self, call, pair, procedure, args, snapshot, reply, looks, writes):
        parts = [b"\1", *(it.to_bytes(4, "little") for it in (*pair, call)), procedure[0].to_bytes(2, "little")]
        parts += [len(args).to_bytes(2, "little"), args, snapshot.to_bytes(4, "little"), reply.to_bytes(8, "little")]
        parts.append((len(looks) & 0xFFFF).to_bytes(2, "little"))
        parts += [b"".join((bytes([it[0]]), *(end.to_bytes(8, "little") for end in it[1:]))) for it in looks]
        parts.append((len(writes) & 0xFFFF).to_bytes(2, "little"))
        for (table, key), row in sorted(writes.items()):
            parts.append(bytes([table]) + key.to_bytes(8, "little") + (b"\0" if row is None else b"\1" + row))
        return b"".join(parts)

    def item(self, raw):
        """Returns what a byte string is at the next position, as it is printed, with its writes, pair and reply."""
        if raw[:1] == b"\2":
            return self.addition(raw), {}, (0, 0), 0
        if self.origin is not None and raw[:2] == b"\0\2" and len(raw) == 18 and self.opened < LAST:
            self.opened += 1
            self.sessions[self.opened] = NOTHING_DONE
            return f"session {self.opened}", {}, (0, 0), 0
        head = self.head(raw)
        if head is None:
            return "nothing E1", {}, (0, 0), 0
        call, pair, of, args, snapshot = head
        said, writes, reply = self.call_item(raw, call, pair, of, args, snapshot)
        return said + (f" session {pair[0]} seq {pair[1]}" if pair != (0, 0) else ""), writes, pair, reply

    def head(self, raw):
        """Returns call, pair, procedure, arguments and snapshot of a call, or None."""
        length = unpack_from("<H", raw, 15)[0] if len(raw) >= 17 else 0
        if raw[:1] != b"\1" or len(raw) < 29 + length:
            return None
        session, sequence, call, procedure = unpack_from("<IIIH", raw, 1)
        if (session == 0) != (sequence == 0):
            return None
        return call, (session, sequence), procedure, raw[17 : 17 + length], unpack_from("<I", raw, 17 + length)[0]

    def session_cause(self, pair):
        """Returns why an order that opens sessions takes no call with this pair now, or None."""
        if self.origin is None or pair == (0, 0):
            return None
        if pair[0] not in self.sessions:
            return "E7"
        return "E6" if self.sessions[pair[0]][0] > pair[1] else None

    def call_item(self, raw, call, pair, of, args, snapshot):
        d = len(self.writes) + 1
        if snapshot >= d:
            return "nothing E3", {}, 0
        if cause := self.session_cause(pair):
            return f"nothing {cause}", {}, 0
        if earlier := self.done.get(pair):
            return f"repeat {earlier[0]} reply {earlier[1]}", {}, 0
        if d - 1 - snapshot > self.window:
            return "stale", {}, 0
        procedure = next((it for it in self.known[snapshot].values() if it[0] == of), None)
        if procedure is None or procedure[1] != len(args):
            return "nothing E4", {}, 0
        reply, code, looks, writes = self.run(snapshot, procedure, args)
        if code is not None or not writes or raw != self.bytes_of(
            call, pair, procedure, args, snapshot, reply, looks, writes
        ):
            return "nothing E5", {}, 0
        for e in range(snapshot + 1, d):
            if any(t == table and lo <= key <= hi for t, lo, hi in looks for table, key in self.writes[e - 1]):
                return f"conflict {e}", {}, 0
        return f"commit reply {reply}", writes, reply

    def addition(self, raw):
        if len(raw) < 6 or len(raw) < 10 + raw[5]:
            return "nothing E1"
        of, args_len, length = unpack_from("<HHB", raw, 1)
        if len(raw) != 10 + length + unpack_from("<I", raw, 6 + length)[0]:
            return "nothing E1"
        try:
            name = raw[6 : 6 + length].decode("ascii")
        except UnicodeDecodeError:
            return "nothing E2"
        program = raw[10 + length :]
        if not self.additions or not NAME.fullmatch(name) or args_len > 256 or decode_fault(program):
            return "nothing E2"
        if name in self.procedures:
            return "taken C1"
        if any(it[0] == of for it in self.procedures.values()):
            return "taken C2"
        self.procedures[name] = (of, args_len, program)
        return f"added {of}"

    # ---- lines

    def entry(self, raw):
        if len(self.writes) == LAST or self.before + len(self.writes) == LAST_KEY:
            return "fault O1"
        said, writes, pair, reply = self.item(raw)
        rows = dict(self.rows[-1])
        for key, row in writes.items():
            rows.pop(key, None)
            if row is not None:
                rows[key] = row
        self.writes.append(writes)
        if said.startswith("commit") and pair != (0, 0):
            self.done[pair] = (len(self.writes), reply)
            _, _, of, args, _ = self.head(raw)
            last = self.sessions.get(pair[0], NOTHING_DONE)
            self.sessions[pair[0]] = max(last, (pair[1], reply, of, args), key=lambda it: it[0])
        self.rows.append(rows)
        self.known.append(dict(self.procedures))
        return f"entry {len(self.writes)} {said}"

    def call(self, name, args, pair):
        at = len(self.writes)
        if name not in self.procedures:
            return "refused P2"
        procedure = self.procedures[name]
        if procedure[1] != len(args):
            return "refused P3"
        if (pair[0] == 0) != (pair[1] == 0):
            return "refused P13"
        if self.session_cause(pair):
            return "refused P15"
        if earlier := self.done.get(pair):
            return f"repeat {earlier[0]} reply {earlier[1]}"
        reply, code, looks, writes = self.run(at, procedure, args)
        if code is not None:
            return f"cancelled {at} code {code}"
        if not writes:
            return f"read {at} reply {reply}"
        return "submit " + self.bytes_of(0, pair, procedure, args, at, reply, looks, writes).hex()

    def add(self, name, of, args_len, program):
        if fault := decode_fault(program):
            return f"refused P11 {fault}"
        if not NAME.fullmatch(name):
            return "refused P12"
        if not self.additions:
            return "refused P14"
        head = b"\2" + of.to_bytes(2, "little") + args_len.to_bytes(2, "little") + bytes([len(name)]) + name.encode()
        return "submit " + (head + len(program).to_bytes(4, "little") + program).hex()

    def answer(self, words):
        if words[0] == "call":
            name, args = words[1], hex_bytes(words[2])
            return self.call(name, args, (number(words[3], LAST), number(words[4], LAST)))
        if words[0] == "add":
            return self.add(words[1], number(words[2], 65535), number(words[3], 256), hex_bytes(words[4]))
        if words[0] == "entry":
            return self.entry(hex_bytes(words[1]))
        if words[0] == "position":
            return f"position {len(self.writes)}"
        if words[0] == "dump":
            return self.dump()
        if words[0] == "scan":
            return self.scan(number(words[1], 255), number(words[2], LAST_KEY), number(words[3], LAST_KEY), number(words[4], LAST))
        return self.printed(sorted(self.rows[-1].items()))

    def scan(self, table, least, greatest, most):
        if most == 0:
            raise Fault("L4")
        if table not in self.widths:
            return "refused P16"
        found = [it for it in sorted(self.rows[-1].items()) if it[0][0] == table and least <= it[0][1] <= greatest]
        return self.printed(found[:most])

    def dump(self):
        """Returns the settings of a database that goes on from here, and how many lines they are."""
        lines = [f"window {self.window}", *(f"table {it} {width}" for it, width in self.widths.items())]
        lines += ["additions"] * self.additions
        if self.origin is not None:
            lines.append(f"origin {self.before + len(self.writes)} {self.opened}")
        lines += [f"proc {name} {of} {args} {code.hex()}" for name, (of, args, code) in self.procedures.items()]
        lines += [f"row {table} {key} {row.hex()}" for (table, key), row in sorted(self.rows[-1].items())]
        for session, (sequence, reply, of, args) in sorted(self.sessions.items()):
            lines.append(f"request {session} {sequence} {reply} {of} {args.hex() or '-'}")
        return "\n".join([*lines, f"position {len(self.writes)} lines {len(lines)}"])

    def printed(self, rows):
        said = [f"{table:2} {key:20} {row.hex()}\n" for (table, key), row in rows]
        return "".join(said) + f"position {len(self.writes)} rows {len(said)}"


LENGTHS = {"call": 5, "add": 5, "entry": 2, "rows": 1, "position": 1, "scan": 5, "dump": 1}


def answer_of(site, raw):
    """Returns what a site answers to a line, or None."""
    try:
        words = words_of(raw, LENGTHS)
        return site.answer(words) if words else None
    except Fault as fault:
        return f"fault {fault}"


def main():
    with open(sys.argv[2], "rb") as file:
        site = Site(file.read())
    for raw in sys.stdin.buffer:
        if not raw.endswith(b"\n"):
            break
        said = answer_of(site, raw[:-1])
        if said is not None:
            print(said, flush=True)


if __name__ == "__main__":
    main()
