"""What an object file of clang says (ELF of 64 bits, least byte first): its sections, its types (BTF), and the line of
C of a slot (BTF.ext)."""
from collections import namedtuple
from struct import error, iter_unpack, unpack_from

NOTHING_HELD, RELOCATIONS = 8, 9  # types of ELF sections
INTEGER, ARRAY, STRUCT, UNION, TYPEDEF, VOLATILE, CONST, VARIABLE = 1, 3, 4, 5, 8, 9, 10, 14  # kinds of BTF types
SECTION, ENUM64 = 15, 19
# what stands behind a BTF type: so many bytes, and so many for each of its parts
TAILS = {INTEGER: 4, ARRAY: 12, VARIABLE: 4, 17: 4}
PARTS = {STRUCT: 12, UNION: 12, 6: 8, 13: 8, SECTION: 12, ENUM64: 12}

Section = namedtuple("Section", "name kind at size link info")
Type = namedtuple("Type", "kind name size tail")  # size: in bytes, or the number of the type that it is made of
Field = namedtuple("Field", "name at size form")  # form: unsigned, signed, text or bytes


class Object:
    def __init__(self, path):
        try:
            with open(path, "rb") as file:
                self.data = file.read()
        except FileNotFoundError:
            raise ValueError(f"{path} isn't there: sdk/c/build makes it") from None
        if self.data[:5] != b"\x7fELF\x02":
            raise ValueError(f"{path} is no object of clang")
        try:
            heads = self.read_heads()
            self.sections = {it.name: self.data[it.at : it.at + it.size] for it in heads if it.kind != NOTHING_HELD}
            self.outside = self.read_outside(heads)
            self.read_types()
        except (error, IndexError, ValueError):
            raise ValueError(f"{path} is no whole object of clang: sdk/c/build makes it anew") from None

    # ---- sections

    def text(self, at):
        return self.data[at : self.data.index(b"\0", at)].decode()

    def read_heads(self):
        (at,) = unpack_from("<Q", self.data, 0x28)
        size, count, names = unpack_from("<HHH", self.data, 0x3A)
        raw = [unpack_from("<IIQQQQIIQQ", self.data, at + i * size) for i in range(count)]
        return [Section(self.text(raw[names][4] + it[0]), it[1], it[4], it[5], it[6], it[7]) for it in raw]

    def read_outside(self, heads):
        """Returns what a section's code needs from outside: (slot, name), the first of each section."""
        found = {}
        for relocations in (it for it in heads if it.kind == RELOCATIONS):
            symbols = heads[relocations.link]
            for at in range(relocations.at, relocations.at + relocations.size, 16):
                place, info = unpack_from("<QQ", self.data, at)
                name, _, _, section = unpack_from("<IBBH", self.data, symbols.at + 24 * (info >> 32))
                said = self.text(heads[symbols.link].at + name) or heads[section].name
                found.setdefault(heads[relocations.info].name, (place // 8, said))
        return found

    # ---- types

    def read_types(self):
        btf = self.sections.get(".BTF")
        if btf is None:
            self.types, self.strings = [None], b"\0"
            return
        head, at, length, strings = unpack_from("<IIII", btf, 4)
        self.strings, self.types, at = btf[head + strings :], [None], head + at
        end = at + length
        while at < end:
            name, info, size = unpack_from("<III", btf, at)
            kind, at = info >> 24 & 31, at + 12
            tail = TAILS.get(kind, 0) + PARTS.get(kind, 0) * (info & 0xFFFF)
            self.types.append(Type(kind, self.string(name), size, btf[at : at + tail]))
            at += tail

    def string(self, at):
        return self.strings[at : self.strings.index(b"\0", at)].decode()

    def types_in(self, prefix):
        """Returns the type of the variable in each section of this prefix, by the rest of the section's name."""
        found = {}
        for it in self.types[1:]:
            if it.kind == SECTION and it.name.startswith(prefix):
                (variable,) = unpack_from("<I", it.tail)
                found[it.name.removeprefix(prefix)] = self.plain(self.types[variable].size)
        return found

    def plain(self, number):
        """Returns the number of a type without its other names, `const` and `volatile`."""
        while self.types[number].kind in (TYPEDEF, VOLATILE, CONST):
            number = self.types[number].size
        return number

    def fields(self, number, name="", at=0):
        """Returns the fields of a type that hold values, those of its structs and arrays in their places."""
        it = self.types[self.plain(number)]
        if it.kind == STRUCT:
            found = []
            for part, of, bits in iter_unpack("<III", it.tail):
                inner = self.string(part)
                if bits >> 24:
                    raise ValueError(f"{inner} is a part of a number: take a whole u8, u16, u32 or u64")
                found += self.fields(of, f"{name}.{inner}" if name else inner, at + bits // 8)
            return found
        if it.kind == ARRAY:
            return self.array_fields(it, name, at)
        if it.kind == UNION:
            raise ValueError(f"{name} is a union: take a field for each of its parts")
        if it.name == "char":
            return [Field(name, at, it.size, "text")]
        signed = it.kind == INTEGER and it.tail[3] & 1
        return [Field(name, at, it.size, "signed" if signed else "unsigned")]

    def array_fields(self, it, name, at):
        of, _, count = unpack_from("<III", it.tail)
        part = self.fields(of)
        if len(part) == 1 and part[0].size == 1:
            return [Field(name, at, count, "text" if part[0].form == "text" else "bytes")]
        width = max((field.at + field.size for field in part), default=0)
        return [field for i in range(count) for field in self.fields(of, f"{name}.{i}", at + i * width)]

    def codes(self):
        """Returns the names of the codes, as 64 bits, of the enums that CODES names."""
        found = {}
        for number in self.types_in("dsmdb/codes/").values():
            it = self.types[number]
            if it.kind == ENUM64:
                found |= {low | high << 32: self.string(name) for name, low, high in iter_unpack("<III", it.tail)}
            else:
                found |= {value % 2**64: self.string(name) for name, value in iter_unpack("<Ii", it.tail)}
        return found

    # ---- lines

    def line(self, section, slot):
        """Returns the line of C that a slot was made from, as `12: text`."""
        lines = self.sections[".BTF.ext"]
        head, _, _, at, length = unpack_from("<IIIII", lines, 4)
        (size,) = unpack_from("<I", lines, head + at)
        best, at, end = (-1, ""), head + at + 4, head + at + length
        while at < end:
            name, count = unpack_from("<II", lines, at)
            at += 8
            for record in range(at, at + count * size, size):
                place, _, text, line = unpack_from("<IIII", lines, record)
                if self.string(name) == section and best[0] <= place // 8 <= slot:
                    best = place // 8, f"{line >> 10}: {self.string(text).strip()}"
            at += count * size
        return best[1]
