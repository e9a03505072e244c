"""Statements of C: each begins at a place of its own."""
from __future__ import annotations

from dataclasses import dataclass, field

from pycparser import c_ast

from .builder import Value
from .declare import line_of
from .expressions import Expressions
from .graph import Place
from .kinds import Void, Whole
from .linear import at_most, equal
from .refusal import Refused
from .scope import Slot, slots_of


@dataclass(eq=False)
class Frame:
    """A function whose body is being translated."""
    name: str
    result: object
    back: Place
    answer: str
    labels: dict[str, tuple[Place, dict]] = field(default_factory=dict)
    gotos: list[tuple[Place, str, dict, int]] = field(default_factory=list)
    breaks: list[Place] = field(default_factory=list)
    continues: list[Place] = field(default_factory=list)
    switches: list[Switch] = field(default_factory=list)


@dataclass(eq=False)
class Switch:
    cases: list[tuple[int, Place, dict]] = field(default_factory=list)
    default: tuple[Place, dict] | None = None
    kind: Whole | None = None


class Statements(Expressions):
    """Needs `frames` and `declaration`."""

    def function_name(self) -> str | None:
        return self.frames[-1].name if self.frames else None

    def frame(self) -> Frame:
        return self.frames[-1]

    def begin(self, line: int | None, label: str | None = None) -> Place:
        """A place at which a statement begins, come to from here."""
        place = self.add(Place("statement", line, self.function_name(), label))
        self.emit(target=place)
        return place

    def statement(self, node) -> None:
        if node is None:
            return
        self.line = line_of(node) or self.line
        method = getattr(self, f"statement_{type(node).__name__}", None)
        if method is not None:
            method(node)
        else:
            self.begin(self.line)
            self.dropped(node)

    def dropped(self, node) -> None:
        """An expression whose value is not used."""
        if isinstance(node, c_ast.Cast) and isinstance(self.type_of(node.to_type)[0], Void):
            node = node.expr
        if isinstance(node, c_ast.ID) and isinstance(self.scope.find(node.name), Slot):
            return
        if isinstance(node, c_ast.FuncCall):
            self.call(node, used=False)
        else:
            self.value(node)

    def statement_Compound(self, node) -> None:
        self.scope.open()
        for part in node.block_items or []:
            self.statement(part)
        self.scope.close()

    def statement_EmptyStatement(self, node) -> None:
        self.begin(self.line)

    def statement_Pragma(self, node) -> None:
        pass

    def statement_StaticAssert(self, node) -> None:
        if self.constant(node.cond) == 0:
            raise Refused("a static assertion that fails", line_of(node))

    def statement_Typedef(self, node) -> None:
        self.typedef(node)

    def statement_Decl(self, node) -> None:
        self.declaration(node)

    def statement_DeclList(self, node) -> None:
        for part in node.decls:
            self.declaration(part)

    def statement_If(self, node) -> None:
        self.begin(self.line)
        yes, no, after = self.inner(), self.inner(), self.inner()
        self.branch(node.cond, yes, no)
        for place, part in ((yes, node.iftrue), (no, node.iffalse)):
            self.here = place
            self.statement(part)
            self.emit(target=after)
        self.here = after

    def statement_While(self, node) -> None:
        head = self.begin(self.line)
        head.head = True
        body, after = self.inner(), self.inner()
        self.branch(node.cond, body, after)
        self.here = body
        self.body(node.stmt, after, head)
        self.emit(target=head)
        self.here = after

    def body(self, node, after: Place, again: Place) -> None:
        self.frame().breaks.append(after)
        self.frame().continues.append(again)
        self.statement(node)
        self.frame().breaks.pop()
        self.frame().continues.pop()

    def statement_DoWhile(self, node) -> None:
        line = self.line
        head = self.inner()
        self.emit(target=head)
        test, after = self.add(Place("statement", line_of(node.cond) or line, self.function_name())), self.inner()
        self.body(node.stmt, after, test)
        self.emit(target=test)
        self.line = line_of(node.cond) or line
        self.branch(node.cond, head, after)
        self.here = after

    def statement_For(self, node) -> None:
        line = self.line
        self.scope.open()
        if node.init is not None:
            self.begin(line)
            self.statement(node.init) if isinstance(node.init, (c_ast.DeclList, c_ast.Decl)) else self.dropped(node.init)
        self.line = line
        head = self.begin(line)
        head.head = True
        body, after = self.inner(), self.inner()
        if node.cond is None:
            self.emit(target=body)
        else:
            self.branch(node.cond, body, after)
        step = self.add(Place("statement", line_of(node.next) or line, self.function_name()))
        self.here = body
        self.body(node.stmt, after, step)
        self.emit(target=step)
        if node.next is not None:
            self.line = line_of(node.next) or line
            self.dropped(node.next)
        self.emit(target=head)
        self.scope.close()
        self.here = after

    def statement_Break(self, node) -> None:
        self.jump(self.frame().breaks, "break")

    def statement_Continue(self, node) -> None:
        self.jump(self.frame().continues, "continue")

    def jump(self, targets: list[Place], what: str) -> None:
        if not targets:
            raise Refused(f"{what} outside of what it leaves", self.line)
        self.begin(self.line)
        self.emit(target=targets[-1])
        self.nowhere()

    # Switch.

    def statement_Switch(self, node) -> None:
        self.begin(self.line)
        value = self.whole(node.cond)
        value = self.converted(value, self.types.promoted(value.type))
        value = Value(self.held(value.term), value.type, value.least, value.most)
        source, scope, after = self.here, self.local_slots(), self.inner()
        switch = Switch(kind=value.type)
        frame = self.frame()
        frame.switches.append(switch)
        frame.breaks.append(after)
        self.nowhere()
        self.statement(node.stmt)
        self.emit(target=after)
        frame.breaks.pop()
        frame.switches.pop()
        self.here = source
        self.dispatch(switch, value, scope, after)
        self.here = after

    def dispatch(self, switch: Switch, value: Value, scope: dict, after: Place) -> None:
        """An edge to each case, and to the default for each gap between the constants."""
        source = self.here
        for constant, place, there in switch.cases:
            self.here = source
            if value.least <= constant <= value.most:
                self.emit([equal(value.term, self.constant_term(constant, value.type))])
                self.enter(there, scope)
                self.emit(target=place)
        place, there = switch.default or (after, {})
        constants = sorted(constant for constant, _, _ in switch.cases)
        for low, high in zip([None] + constants, constants + [None]):
            if (high is not None and (high <= value.least or (low is not None and high <= low + 1))) or (low is not None and low >= value.most):
                continue
            self.here = source
            guards = [] if low is None else [at_most(self.constant_term(low, value.type) + 1, value.term)]
            guards += [] if high is None else [at_most(value.term, self.constant_term(high, value.type) - 1)]
            self.emit(guards)
            self.enter(there, scope)
            self.emit(target=place)

    def local_slots(self) -> dict:
        """The scalars of the open blocks of the function, by name."""
        return {slot.name: slot for thing in self.scope.objects() for slot in slots_of(thing)}

    def enter(self, there: dict, scope: dict) -> None:
        """Draws the locals that come into scope by a jump."""
        for name, slot in there.items():
            if name not in scope and not slot.volatile and not slot.shared:
                self.undefined_local(slot)

    def undefined_local(self, slot) -> None:
        drawn = self.draw(slot.type, f"local:{slot.name}", True)
        self.emit((), {slot.name: drawn.term})

    def statement_Case(self, node) -> None:
        switches = self.frame().switches
        if not switches:
            raise Refused("case outside of a switch", self.line)
        kind = switches[-1].kind
        constant = (self.constant(node.expr) - kind.least) % (1 << kind.width) + kind.least
        place = self.begin(self.line)
        if any(constant == other for other, _, _ in switches[-1].cases):
            raise Refused(f"two cases with the value {constant}", self.line)
        switches[-1].cases.append((constant, place, self.local_slots()))
        self.many(node.stmts)

    def statement_Default(self, node) -> None:
        if not self.frame().switches:
            raise Refused("default outside of a switch", self.line)
        place = self.begin(self.line)
        self.frame().switches[-1].default = place, self.local_slots()
        self.many(node.stmts)

    def many(self, nodes) -> None:
        for part in nodes or []:
            self.statement(part)

    # Labels.

    def statement_Label(self, node) -> None:
        frame = self.frame()
        if node.name in frame.labels:
            raise Refused(f"two labels {node.name}", self.line)
        place = self.begin(self.line, node.name)
        frame.labels[node.name] = place, self.local_slots()
        self.statement(node.stmt)

    def statement_Goto(self, node) -> None:
        self.begin(self.line)
        self.frame().gotos.append((self.here, node.name, self.local_slots(), self.line))
        self.nowhere()

    def resolve_gotos(self, frame: Frame) -> None:
        for source, name, scope, line in frame.gotos:
            if name not in frame.labels:
                raise Refused(f"goto {name}, a label that is not there", line)
            place, there = frame.labels[name]
            self.here, self.line = source, line
            self.enter(there, scope)
            self.emit(target=place)

    def statement_Return(self, node) -> None:
        self.begin(self.line)
        frame = self.frame()
        if node.expr is not None:
            value = self.value(node.expr)
            self.answered(frame, value)
        self.emit(target=frame.back)
        self.nowhere()

    def answered(self, frame: Frame, value) -> None:
        """Keeps the value that a function answers."""
        if isinstance(frame.result, Whole):
            stored = self.converted(self.as_whole(value, frame.result), frame.result)
            self.emit((), {frame.answer: stored.term})
        elif not isinstance(frame.result, Void) and not isinstance(value, Value):
            self.escaped(value)

    def asserted(self, condition) -> None:
        """Goes on where a condition holds, and to `error` else."""
        line = self.line
        good, bad = self.inner(), self.inner()
        self.branch(condition, good, bad)
        self.here = bad
        self.line = line
        wanted = self.asked_line is None or self.asked_line == line
        self.stop("error" if wanted else "abort")
        self.here = good

    def assumed(self, condition) -> None:
        good, bad = self.inner(), self.inner()
        self.branch(condition, good, bad)
        self.here = bad
        self.stop("assumed")
        self.here = good

