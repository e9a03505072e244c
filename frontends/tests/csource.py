"""Random C programs without undefined behaviour, most of the time; those that have some are found by running them."""
from __future__ import annotations

import random

TYPES = ["int", "int", "int", "int", "unsigned", "unsigned char", "signed char", "short", "unsigned short", "_Bool", "long", "unsigned long"]
NONDET = {"int": "int", "unsigned": "uint", "unsigned char": "uchar", "short": "short", "_Bool": "bool", "unsigned short": "ushort", "long": "long"}


class Generator:
    def __init__(self, seed: int):
        self.random = random.Random(seed)
        self.globals = [(self.random.choice(TYPES), f"g{at}") for at in range(self.random.randint(2, 4))]
        self.flag = "state"
        self.locals: list[tuple[str, str]] = []
        self.depth = 0
        self.loops = 0
        self.counters = 0
        self.labels = 0
        self.in_main = False
        self.in_switch = False

    def pick(self, *choices):
        return self.random.choice(choices)

    def number(self, small: bool = False) -> str:
        if small:
            return str(self.random.randint(1, 6))
        return str(self.pick(0, 1, 2, 3, 5, 7, 10, 100, 127, 128, 255, 256, 1000, -1, -2, -7, -128)) if self.random.random() < 0.9 else \
            self.pick("0x7fffffff", "0x80000000u", "65535", "4294967295u", "'a'", "3u", "2L", "(1u << 4)", "A", "B", "C")

    def name(self) -> str:
        return self.random.choice([name for _, name in self.globals + self.locals] + ["dev.level", "dev.mode"])

    def expression(self, deep: int) -> str:
        kind = self.random.random()
        if deep == 0 or kind < 0.2:
            return self.name() if self.random.random() < 0.7 else self.number()
        if kind < 0.5:
            return f"({self.expression(deep - 1)} {self.pick('+', '-', '+', '-')} {self.expression(deep - 1)})"
        if kind < 0.56:
            return f"({self.expression(deep - 1)} * {self.number(True)})"
        if kind < 0.64:
            return f"({self.expression(deep - 1)} {self.pick('/', '%')} {self.pick('', '-')}{self.number(True)})"
        if kind < 0.70:
            return f"({self.expression(deep - 1)} & {self.pick('1', '3', '7', '0xff', '0x0f', '~3', '0x10', '0xf0u', '6')})"
        if kind < 0.74:
            return f"({self.expression(deep - 1)} >> {self.random.randint(0, 3)})"
        if kind < 0.77:
            return f"({self.name()} {self.pick('|', '^')} {self.pick('1', '4', '6u', '0x10')})"
        if kind < 0.81:
            return f"{self.pick('-', '~', '!', '+')}({self.expression(deep - 1)})"
        if kind < 0.87:
            return f"({self.random.choice(TYPES)}){self.expression(deep - 1)}"
        if kind < 0.92:
            return f"({self.condition(deep - 1)} ? {self.expression(deep - 1)} : {self.expression(deep - 1)})"
        if kind < 0.94:
            return f"({self.name()} << {self.random.randint(0, 2)})"
        return f"({self.condition(deep - 1)})"

    def condition(self, deep: int) -> str:
        kind = self.random.random()
        if deep > 0 and kind < 0.25:
            return f"({self.condition(deep - 1)} {self.pick('&&', '||')} {self.condition(deep - 1)})"
        if deep > 0 and kind < 0.32:
            return f"!({self.condition(deep - 1)})"
        if kind < 0.4:
            return self.expression(max(deep - 1, 0))
        if kind < 0.5:
            return f"{self.flag} {self.pick('==', '!=')} {self.pick('A', 'B', 'C')}"
        return f"{self.expression(max(deep - 1, 0))} {self.pick('<', '<=', '>', '>=', '==', '!=')} {self.expression(max(deep - 1, 0))}"

    def block(self, size: int, indent: str) -> str:
        return "\n".join(self.statement(indent) for _ in range(self.random.randint(1, size)))

    def statement(self, indent: str) -> str:
        kind = self.random.random()
        if kind < 0.26 or self.depth > 2:
            return indent + self.assignment()
        if kind < 0.40:
            kinds = list(NONDET) + ["int", "int"]
            return f"{indent}{self.name()} = __VERIFIER_nondet_{NONDET[self.random.choice(kinds)]}();"
        if kind < 0.46:
            return f"{indent}{self.flag} = {self.pick('A', 'B', 'C')};"
        if kind < 0.49:
            return f"{indent}{self.pick('step(&dev)', 'dev.level = helper(' + self.name() + ', ' + self.number() + ')', 'bump()', self.name() + ' = helper(1, ' + self.name() + ')')};"
        if kind < 0.51 and self.in_main:
            return f"{indent}if ({self.condition(1)}) goto out;"
        if kind < 0.53:
            return f"{indent}__VERIFIER_assert({self.condition(1)});"
        self.depth += 1
        text = self.compound(kind, indent)
        self.depth -= 1
        return text

    def assignment(self) -> str:
        kind = self.random.random()
        name = self.name()
        if kind < 0.5:
            return f"{name} = {self.expression(2)};"
        if kind < 0.7:
            return f"{name} {self.pick('+=', '-=')} {self.expression(1)};"
        if kind < 0.8:
            return f"{name} {self.pick('*=', '/=', '%=')} {self.number(True)};"
        if kind < 0.85:
            return f"{name} {self.pick('&=', '|=', '^=')} {self.pick('1', '7', '0xf0', '2')};"
        return self.pick(f"{name}++;", f"--{name};", f"++{name};", f"{name}--;")

    def compound(self, kind: float, indent: str) -> str:
        inner = indent + "  "
        if kind < 0.72:
            other = f" else {{\n{self.block(2, inner)}\n{indent}}}" if self.random.random() < 0.5 else ""
            return f"{indent}if ({self.condition(2)}) {{\n{self.block(3, inner)}\n{indent}}}{other}"
        if kind < 0.80:
            return self.switch(indent)
        kept = self.in_switch
        self.in_switch = False
        text = self.loop(indent, inner)
        self.in_switch = kept
        return text

    def loop(self, indent: str, inner: str) -> str:
        self.counters += 1
        counter = f"i{self.counters}"
        leave = f"\n{inner}if ({self.condition(1)}) {self.pick('break', 'continue')};" if self.random.random() < 0.5 else ""
        body = self.block(3, inner) + leave + ("\n" + self.block(1, inner) if leave else "")
        kind = self.random.random()
        if kind < 0.4:
            return f"{indent}for ({self.pick('int', 'unsigned', 'unsigned char')} {counter} = 0; {counter} < {self.number(True)}; {counter}++) {{\n{body}\n{indent}}}"
        if kind < 0.7:
            return f"{indent}while (__VERIFIER_nondet_bool()) {{\n{body}\n{indent}}}"
        return f"{indent}do {{\n{body}\n{indent}}} while (__VERIFIER_nondet_int() > {self.number()});"

    def switch(self, indent: str) -> str:
        inner = indent + "  "
        kept, self.in_switch = self.in_switch, True
        rows = []
        values = self.random.sample([0, 1, 2, 3, 5, 100], self.random.randint(1, 3))
        for value in values:
            ending = f"\n{inner}break;" if self.random.random() < 0.7 else ""
            rows.append(f"{indent}case {value}:\n{self.block(2, inner)}{ending}")
        if self.random.random() < 0.6:
            rows.insert(self.random.randint(0, len(rows)), f"{indent}default:\n{self.block(1, inner)}\n{inner}break;")
        self.in_switch = kept
        return f"{indent}switch ({self.pick(self.name(), self.name() + ' & 3', self.flag)}) {{\n" + "\n".join(rows) + f"\n{indent}}}"

    def program(self) -> str:
        head = ["#include <stdbool.h>"] + [f"extern {kind} __VERIFIER_nondet_{name}(void);" for kind, name in NONDET.items()]
        head += ["extern void __VERIFIER_assert(int);", "enum abc { A, B, C };", "struct dev { int level; unsigned char mode; };", "enum abc state = B;",
                 "struct dev dev = { 4, 250 };"]
        head += [f"{kind} {name} = {self.random.choice([0, 1, 5, 100, 3])};" for kind, name in self.globals]
        helper = ["static int helper(int a, short b) {", f"  if (a > {self.number()}) return b;", "  return a / 2 + b;", "}",
                  "static void step(struct dev *d) {", "  if (d->mode > 3) d->level = d->mode - 3;", "  d->mode += 5;", "}",
                  "static void bump(void) {", "  static unsigned char calls;", "  calls++;", f"  if (calls > {self.number(True)}) {self.globals[0][1]} = calls;", "}"]
        self.locals = [(self.random.choice(TYPES), f"x{at}") for at in range(self.random.randint(1, 3))]
        self.in_main = True
        body = [f"  {kind} {name} = {self.random.choice([0, 1, 2, 50])};" for kind, name in self.locals]
        body += [self.block(6, "  "), "out:", *[f"  g0 += (unsigned char){name};" for _, name in self.locals], "  return 0;"]
        return "\n".join(head + helper + ["int main(void) {"] + body + ["}"]) + "\n"

    def observed(self) -> list[tuple[str, str]]:
        """The objects that are compared at the end."""
        return [(name, name) for _, name in self.globals] + [("state", "state"), ("dev.level", "dev.level"), ("dev.mode", "dev.mode")]
