"""Makes procedures in C from a seed, to compare what their programs do. Nothing in them is undefined in C."""
from random import Random

HEAD = """#include "dsmdb.h"
struct pair { u64 a; i64 b; };
TABLE(1, pair)
struct word { u32 a; i16 b; u8 c[2]; };
TABLE(2, word)
"""
VARIABLES = ["x", "y", "z", "(u64)s", "(u64)t", "p.a", "(u64)p.b", "(u64)w.a", "(u64)w.b", "args->n", "args->k", "(u64)args->d"]
BINARY = ["+", "-", "*", "&", "|", "^"]
COMPARED = ["<", "<=", ">", ">=", "==", "!="]


class Maker:
    """Makes one body: `x`, `y`, `z` are u64, `s` and `t` i64, `p` and `w` rows of the tables."""

    def __init__(self, seed):
        self.random, self.lines, self.depth, self.unrolled = Random(seed), [], 0, 0

    def line(self, text):
        self.lines.append("    " * (self.depth + 1) + text)

    def constant(self):
        numbers = [0, 1, 2, 3, 7, 8, 255, 256, 1000, self.random.getrandbits(32), self.random.getrandbits(63)]
        return f"{self.random.choice(numbers)}ull"

    def value(self, depth=0):
        kind = self.random.randrange(9)
        if depth > 2 or kind < 3:
            return self.random.choice(VARIABLES) if self.random.random() < 0.7 else self.constant()
        a, b = self.value(depth + 1), self.value(depth + 1)
        if kind < 5:
            return f"({a} {self.random.choice(BINARY)} {b})"
        if kind == 5:
            return f"({a} {self.random.choice(['<<', '>>'])} ({b} & {self.random.choice([7, 31, 63])}))"
        if kind == 6:
            divided = self.random.choice(["/", "%"])
            of_signed = f"(u64)((i64){a} {divided} (i64)(({b} & 63) + 1))"
            return self.random.choice([f"({a} {divided} ({b} | 1))", of_signed])
        if kind == 7:
            return f"(u64)(({self.random.choice(['u32', 'i32', 'u8', 'i16', 'i8'])}){a} + {b})"
        return f"({self.condition(depth + 1)} ? {a} : {b})"

    def condition(self, depth=0):
        kind = self.random.choice(["u64", "i64", "u32", "i32"])
        compared = f"({kind}){self.value(depth + 1)} {self.random.choice(COMPARED)} ({kind}){self.value(depth + 1)}"
        if depth == 0 and self.random.random() < 0.2:
            return f"({compared}) {self.random.choice(['&&', '||'])} ({self.value(2)} & 1)"
        return compared

    def key(self):
        return f"({self.value(2)} & 7)"

    def helper(self):
        table, row = self.random.choice([("pair", "p"), ("word", "w")])
        name = self.random.choice(["x", "y", "z"])
        self.line(
            self.random.choice(
                [
                    f"{name} = {table}_get({self.key()}, &{row});",
                    f"{table}_put({self.key()}, &{row});",
                    f"{table}_put({self.key()}, &{row});",
                    f"{table}_delete({self.key()});",
                    f"{name} = {table}_count({self.key()}, {self.key()});",
                    f"{name} += {table}_next({self.key()}, {self.key()}, &z, &{row});",
                ]
            )
        )

    def assignment(self):
        target = self.random.choice(["x", "y", "z", "s", "t", "p.a", "p.b", "w.a", "w.b", "w.c[0]", "w.c[1]"])
        self.line(f"{target} {self.random.choice(['=', '+=', '^=', '='])} {self.value()};")

    def block(self, count):
        self.depth += 1
        for _ in range(count):
            self.statement()
        self.depth -= 1

    def branch(self):
        self.line(f"if ({self.condition()}) {{")
        self.block(self.random.randint(1, 3))
        if self.random.random() < 0.5:
            self.line("} else {")
            self.block(self.random.randint(1, 3))
        self.line("}")

    def loop(self):
        self.unrolled += 1
        name, turns = f"i{self.unrolled}", self.random.choice([2, 3, 4])
        self.line(f"UNROLL for (u64 {name} = 0; {name} < {turns}; {name}++) {{")
        self.depth += 1
        if self.random.random() < 0.6:
            where = self.random.choice([f"{name} >= (args->n & 3)", self.condition()])
            self.line(f"if ({where}) {self.random.choice(['break', 'continue'])};")
        self.depth -= 1
        self.block(self.random.randint(1, 2))
        self.line("}")

    def choice(self):
        self.line(f"switch ({self.value(2)} & 3) {{")
        for case in range(self.random.randint(1, 3)):
            self.line(f"case {case}:")
            self.block(1)
            if self.random.random() < 0.7:
                self.line("    break;")
            else:
                self.line("    __attribute__((fallthrough));")
        self.line("default:")
        self.block(1)
        self.line("}")

    def end(self):
        if self.random.random() < 0.5:
            self.line(f"if ({self.condition()}) return cancel({self.random.randint(1, 9)});")
        else:
            self.line(f"if ({self.condition()}) return {self.value()};")

    def statement(self):
        kinds = [self.assignment, self.assignment, self.helper, self.helper, self.end]
        if self.depth < 3:
            kinds += [self.branch, self.branch, self.choice]
            if self.unrolled < 2:
                kinds.append(self.loop)
        self.random.choice(kinds)()

    def body(self):
        for _ in range(self.random.randint(4, 9)):
            self.statement()
        return "\n".join(self.lines)


def source(seed, count):
    """Returns a source of so many procedures, f0, f1 and so on."""
    parts = [HEAD]
    for number in range(count):
        parts.append(
            f"struct f{number} {{ u64 n; u64 k; i64 d; }};\n"
            f"PROCEDURE({number}, f{number})\n{{\n"
            "    u64 x = args->n, y = args->k, z = 3;\n"
            "    i64 s = args->d, t = -1;\n"
            "    struct pair p = { args->k, args->d };\n"
            "    struct word w = { 5, -2, { 1, 2 } };\n"
            f"{Maker(f'{seed} {number}').body()}\n"
            "    return x ^ y ^ z ^ (u64)s ^ (u64)t;\n}\n"
        )
    return "\n".join(parts)
