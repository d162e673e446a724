"""A plain machine for programs of BPF (RFC 9669, groups base and divmul) with dsmdb's helpers, to compare programs with.
It takes jumps backwards too, and tests nothing that a verifier would."""
from struct import unpack_from

STACK, ARGS, STACK_BYTES = 1 << 40, 1 << 41, 512
MOST_STEPS = 100_000
SIZES = {0x10: 1, 0x08: 2, 0x00: 4, 0x18: 8}
LOAD_WIDE, LOAD, STORE_NUMBER, STORE, ALU32, JUMP64, JUMP32, ALU64 = range(8)


def signed(value, bits):
    value &= (1 << bits) - 1
    return value - (1 << bits) if value >> (bits - 1) else value


def toward_zero(a, b):
    return abs(a) // abs(b) * (1 if (a < 0) == (b < 0) else -1)


def arithmetic(code, offset, a, b, bits):
    """Returns the result of an operation but for NEG, MOV and byte orders, of words of so many bits."""
    if code in (0x3, 0x9) and offset == 1:
        x, y = signed(a, bits), signed(b, bits)
        quotient = toward_zero(x, y) if y else 0
        return quotient if code == 0x3 else x - y * quotient
    shift = b & (bits - 1)
    return {
        0x0: lambda: a + b,
        0x1: lambda: a - b,
        0x2: lambda: a * b,
        0x3: lambda: a // b if b else 0,
        0x4: lambda: a | b,
        0x5: lambda: a & b,
        0x6: lambda: a << shift,
        0x7: lambda: a >> shift,
        0x9: lambda: a % b if b else a,
        0xA: lambda: a ^ b,
        0xC: lambda: signed(a, bits) >> shift,
    }[code]()


def holds(code, a, b, bits):
    """Whether a condition holds of two words of so many bits."""
    x, y = signed(a, bits), signed(b, bits)
    return {
        0x1: a == b, 0x2: a > b, 0x3: a >= b, 0x4: a & b != 0, 0x5: a != b, 0x6: x > y, 0x7: x >= y,
        0xA: a < b, 0xB: a <= b, 0xC: x < y, 0xD: x <= y,
    }[code]


class Machine:
    """One call: `rows` by (table, key), `widths` by table. After `run`: reply, code, rows, looks and writes."""

    def __init__(self, code, args, rows, widths):
        self.code, self.args, self.rows, self.widths = code, bytes(args), dict(rows), widths
        self.before, self.stack = dict(rows), bytearray(STACK_BYTES)
        self.registers = [0] * 11
        self.registers[1], self.registers[10] = ARGS, STACK
        self.cancelled, self.looks, self.writes = None, [], {}

    # ---- memory

    def load(self, address, size):
        if address >= ARGS:
            return int.from_bytes(self.args[address - ARGS : address - ARGS + size], "little")
        at = address - STACK + STACK_BYTES
        return int.from_bytes(self.stack[at : at + size], "little")

    def put_bytes(self, address, raw):
        at = address - STACK + STACK_BYTES
        if at < 0 or at + len(raw) > STACK_BYTES:
            raise IndexError("a store outside the stack")
        self.stack[at : at + len(raw)] = raw

    # ---- helpers

    def look(self, table, lo, hi):
        if lo <= hi:
            self.looks.append((table, lo, hi))

    def call(self, number):
        table, key, third, fourth, fifth = self.registers[1:6]
        answer = 0
        if number == 1:
            if (table, key) not in self.writes:
                self.look(table, key, key)
            answer = int((table, key) in self.rows)
            self.put_bytes(third, self.rows.get((table, key), bytes(self.widths[table])))
        elif number in (2, 3):
            at = third - STACK + STACK_BYTES
            row = bytes(self.stack[at : at + self.widths[table]]) if number == 2 else None
            self.writes[table, key] = row
            self.rows.pop((table, key), None)
            if row is not None:
                self.rows[table, key] = row
        elif number == 4:
            self.look(table, key, third)
            answer = len(self.keys(table, key, third))
        elif number == 5:
            answer = self.next_row(table, key, third, fourth, fifth)
        elif number == 6:
            self.cancelled = table
        else:
            raise ValueError(f"there is no helper {number}")
        self.registers[0:6] = [answer, *[0x5A5A] * 5]

    def keys(self, table, lo, hi):
        return sorted(key for of, key in self.rows if of == table and lo <= key <= hi)

    def next_row(self, table, lo, hi, key_at, row_at):
        found = self.keys(table, lo, hi)
        self.look(table, lo, found[0] if found else hi)
        self.put_bytes(key_at, (found[0] if found else 0).to_bytes(8, "little"))
        self.put_bytes(row_at, self.rows[table, found[0]] if found else bytes(self.widths[table]))
        return int(bool(found))

    # ---- instructions

    def alu(self, opcode, dst, other, offset, number, bits):
        mask, code = (1 << bits) - 1, opcode >> 4
        a, b = self.registers[dst] & mask, other & mask
        if code == 0x8:
            result = -a
        elif code == 0xB:
            result = signed(b, offset) if offset else b
        elif code == 0xD:
            swapped = opcode & 0x08 or bits == 64
            raw = (self.registers[dst] & ((1 << number) - 1)).to_bytes(number // 8, "little")
            result = int.from_bytes(raw, "big" if swapped else "little")
            mask = (1 << 64) - 1
        else:
            result = arithmetic(code, offset, a, b, bits)
        self.registers[dst] = result & mask

    def step(self, slot):
        """Runs the instruction in a slot, and returns the next slot; none at EXIT."""
        opcode, pair, offset, number = unpack_from("<BBhi", self.code, 8 * slot)
        dst, src, kind = pair & 15, pair >> 4, opcode & 7
        other = self.registers[src] if opcode & 0x08 else number
        if kind == LOAD_WIDE:
            self.registers[dst] = number & 0xFFFFFFFF | unpack_from("<I", self.code, 8 * slot + 12)[0] << 32
            return slot + 2
        if kind == LOAD:
            size = SIZES[opcode & 0x18]
            value = self.load(self.registers[src] + offset, size)
            self.registers[dst] = (signed(value, 8 * size) if opcode & 0xE0 == 0x80 else value) & ((1 << 64) - 1)
        elif kind in (STORE, STORE_NUMBER):
            size = SIZES[opcode & 0x18]
            value = self.registers[src] if kind == STORE else number
            self.put_bytes(self.registers[dst] + offset, (value & ((1 << 8 * size) - 1)).to_bytes(size, "little"))
        elif kind in (ALU32, ALU64):
            self.alu(opcode, dst, other, offset, number, 64 if kind == ALU64 else 32)
        elif opcode == 0x95:
            return None
        elif opcode == 0x85:
            self.call(number)
        elif opcode in (0x05, 0x06):
            return slot + 1 + (offset if opcode == 0x05 else number)
        else:
            bits = 64 if kind == JUMP64 else 32
            mask = (1 << bits) - 1
            if holds(opcode >> 4, self.registers[dst] & mask, other & mask, bits):
                return slot + 1 + offset
        return slot + 1

    def run(self):
        slot = 0
        for _ in range(MOST_STEPS):
            slot = self.step(slot)
            if slot is None:
                rows = self.before if self.cancelled is not None else self.rows
                writes = {} if self.cancelled is not None else self.writes
                return self.registers[0], self.cancelled, rows, self.looks, writes
        raise RuntimeError("the program doesn't end")
