"""Whether bytes decode as a program (RFC 9669, groups base and divmul, jumps forward), and else which rule they
break."""
from struct import unpack_from

MOST_SLOTS = 4096
DST, SRC, OFFSET, IMM = range(4)
DIV, MOD, MOV, NEG, END = 0x3, 0x9, 0xB, 0x8, 0xD
SIZES = (0x00, 0x08, 0x10, 0x18)
ALU_CODES = [it for it in range(0xE) if it not in (NEG, END)]
JUMP_CODES = [it for it in range(0x1, 0xE) if it not in (0x8, 0x9)]


def forms():
    """Returns which fields each opcode uses; others have to be 0."""
    found = {0x18: {DST, SRC, IMM}, 0x05: {OFFSET}, 0x06: {IMM}, 0x85: {SRC, IMM}, 0x95: set()}
    for size in SIZES:
        found[0x61 | size] = {DST, SRC, OFFSET}
        if size != 0x18:
            found[0x81 | size] = {DST, SRC, OFFSET}
        found[0x62 | size] = {DST, OFFSET, IMM}
        found[0x63 | size] = {DST, SRC, OFFSET}
    for kind in (0x4, 0x7):
        for code in ALU_CODES:
            divides = {OFFSET} if code in (DIV, MOD) else set()
            found[code << 4 | kind] = {DST, IMM} | divides
            found[code << 4 | 0x8 | kind] = {DST, SRC} | divides | ({OFFSET} if code == MOV else set())
        found[NEG << 4 | kind] = {DST}
        found[END << 4 | kind] = {DST, IMM}
    found[END << 4 | 0xC] = {DST, IMM}
    for kind in (0x5, 0x6):
        for code in JUMP_CODES:
            found[code << 4 | kind] = {DST, OFFSET, IMM}
            found[code << 4 | 0x8 | kind] = {DST, SRC, OFFSET}
    return found


FORMS = forms()


def undefined(opcode, fields):
    """Whether a field that is used has a value without a meaning."""
    _, src, offset, imm = fields
    code, kind = opcode >> 4, opcode & 7
    if opcode in (0x18, 0x85):
        return src != 0
    if kind not in (0x4, 0x7):
        return False
    if code in (DIV, MOD):
        return offset not in (0, 1)
    if code == MOV and opcode & 0x8:
        return offset not in ((0, 8, 16) if kind == 0x4 else (0, 8, 16, 32))
    return code == END and imm not in (16, 32, 64)


def slot_fault(opcode, fields):
    if opcode not in FORMS:
        return "B3"
    if fields[DST] > 10 or fields[SRC] > 10:
        return "B4"
    if any(value != 0 for field, value in enumerate(fields) if field not in FORMS[opcode]):
        return "B5"
    return "B6" if undefined(opcode, fields) else ""


def decode_fault(program):
    """Returns the rule that is broken and the slot, as `B3 slot 0`, or nothing."""
    slots = len(program) // 8
    if len(program) == 0 or len(program) % 8:
        return "B1 slot 0"
    if slots > MOST_SLOTS:
        return "B2 slot 0"
    starts, slot = [], 0
    while slot < slots:
        opcode, pair, offset, imm = unpack_from("<BBhi", program, 8 * slot)
        if fault := slot_fault(opcode, (pair & 15, pair >> 4, offset, imm)):
            return f"{fault} slot {slot}"
        starts.append((slot, opcode, imm if opcode == 0x06 else offset))
        slot += 1
        if opcode == 0x18:
            if slot == slots:
                return f"B7 slot {slot - 1}"
            if program[8 * slot : 8 * slot + 4] != bytes(4):
                return f"B5 slot {slot}"
            slot += 1
    return jump_fault(starts, slots)


def jump_fault(starts, slots):
    for slot, opcode, distance in starts:
        if opcode & 7 not in (0x5, 0x6) or opcode in (0x85, 0x95):
            continue
        if distance < 0:
            return f"B8 slot {slot}"
        if slot + 1 + distance >= slots:
            return f"B9 slot {slot}"
        if slot + 1 + distance not in [it[0] for it in starts]:
            return f"B10 slot {slot}"
    return "" if starts[-1][1] == 0x95 else f"B11 slot {starts[-1][0]}"
