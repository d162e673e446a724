"""Lays a program's blocks out so that every jump goes forward, which the verifier asks for. clang leaves them in an
order of its own, with some jumps backwards that are no loops. A true loop is told."""
from struct import pack

SLOT = 8
WIDE, JUMP, JUMP_FAR, CALL, EXIT = 0x18, 0x05, 0x06, 0x85, 0x95
JUMP_CLASSES = (5, 6)


class NoLayout(Exception):
    """There is no such order: `cause` says why, `slot` where."""

    def __init__(self, cause, slot):
        super().__init__(cause, slot)
        self.cause, self.slot = cause, slot


LOOP, NO_END = "a loop", "no end"


class Program:
    """A program's slots, by what stands in them."""

    def __init__(self, code):
        self.code, self.count = code, len(code) // SLOT
        self.second_halves = set()
        for slot in range(self.count):
            if slot not in self.second_halves and self.opcode(slot) == WIDE:
                self.second_halves.add(slot + 1)

    def opcode(self, slot):
        return self.code[SLOT * slot]

    def is_instruction(self, slot):
        return slot not in self.second_halves

    def is_exit(self, slot):
        return self.is_instruction(slot) and self.opcode(slot) == EXIT

    def is_jump(self, slot):
        opcode = self.opcode(slot)
        return self.is_instruction(slot) and opcode & 7 in JUMP_CLASSES and opcode not in (CALL, EXIT)

    def is_always(self, slot):
        """Whether it is a jump without a condition."""
        return self.is_jump(slot) and self.opcode(slot) in (JUMP, JUMP_FAR)

    def target(self, slot):
        at = SLOT * slot
        distance = self.code[at + 4 : at + 8] if self.opcode(slot) == JUMP_FAR else self.code[at + 2 : at + 4]
        return slot + 1 + int.from_bytes(distance, "little", signed=True)

    def bytes_of(self, slot):
        return self.code[SLOT * slot : SLOT * slot + SLOT]


class Block:
    """A run of slots that is entered at its first alone. `next` has where it goes: where it jumps to, then what
    follows it; a jump without a condition isn't among its slots, since the layout makes it anew where one is due."""

    def __init__(self, slots, end, nexts):
        self.slots, self.end, self.nexts = slots, end, nexts


def blocks_of(program):
    """Returns the blocks by their first slots: cut at the targets of jumps, and behind jumps and EXIT."""
    starts = {0}
    for slot in range(program.count):
        if program.is_jump(slot):
            starts |= {program.target(slot), slot + 1}
        elif program.is_exit(slot):
            starts.add(slot + 1)
    found = {}
    for start in sorted(it for it in starts if it < program.count):
        end = start
        while end + 1 < program.count and end + 1 not in starts:
            end += 1
        if program.is_always(end):
            found[start] = Block(range(start, end), end, [program.target(end)])
        elif program.is_jump(end):
            found[start] = Block(range(start, end + 1), end, [program.target(end), end + 1])
        else:
            found[start] = Block(range(start, end + 1), end, [] if program.is_exit(end) else [end + 1])
    return found


def forward_order(blocks):
    """Returns the first slots of the blocks that are reached, each before those that it goes to: depth first from
    slot 0, a block when all behind it are done, the last one first."""
    order, entered, done, stack = [], {0}, set(), [(0, iter(blocks[0].nexts))]
    while stack:
        start, left = stack[-1]
        to = next(left, None)
        if to is None:
            done.add(start)
            order.append(start)
            stack.pop()
        elif to not in blocks:
            raise NoLayout(NO_END, blocks[start].end)
        elif to not in entered:
            entered.add(to)
            stack.append((to, iter(blocks[to].nexts)))
        elif to not in done:
            raise NoLayout(LOOP, blocks[start].end)
    return order[::-1]


def forward(code):
    """Returns a program of the same meaning whose jumps all go forward, and for each of its slots the one of `code`
    that it came from; or raises `NoLayout`."""
    program = Program(code)
    blocks = blocks_of(program)
    order = forward_order(blocks)
    slots, origins, places, jumps = [], [], {}, []
    for start, after in zip(order, [*order[1:], None]):
        block = blocks[start]
        places[start] = len(slots)
        slots += [program.bytes_of(it) for it in block.slots]
        origins += block.slots
        if program.is_jump(block.end) and not program.is_always(block.end):
            jumps.append((len(slots) - 1, block.nexts[0]))
        if block.nexts and block.nexts[-1] != after:
            jumps.append((len(slots), block.nexts[-1]))
            slots.append(pack("<BBhi", JUMP, 0, 0, 0))
            origins.append(block.end)
    for at, to in jumps:
        slots[at] = slots[at][:2] + pack("<h", places[to] - at - 1) + slots[at][4:]
    return b"".join(slots), origins
