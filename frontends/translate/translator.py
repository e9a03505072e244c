"""A file of C as a graph: its declarations, its globals at the start, and the entry's body."""
from __future__ import annotations

from pycparser import c_ast

from .calls import Calls, changes
from .declare import line_of
from .kinds import Array, Function, Pointer, Record, Types, Whole
from .refusal import Log, Refused
from .scope import Alias, FunctionNamed, Lost, Members, Names, Scope, Slot, TypeNamed, fits, lost_kind, slots_of
from .statements import Frame
from .values import Address

MANY = 512


class Translator(Calls):
    """Translates a syntax tree once. `exposed` holds the names of variables that pointers may point to, as an earlier pass found them."""

    def __init__(self, tree, source: str, entry: str, types: Types, log: Log, checked: bool, symbols: bool, asked_line: int | None, exposed: set[str]):
        super().__init__(types, log, checked, symbols)
        self.tree, self.source, self.entry, self.asked_line = tree, source, entry, asked_line
        self.scope, self.names = Scope(), Names()
        self.frames: list[Frame] = []
        self.functions = {one.decl.name: one for one in tree.ext if isinstance(one, c_ast.FuncDef)}
        self.slots: dict[str, Slot] = {}
        self.known: dict[tuple, object] = {}
        self.statics: dict[int, Slot] = {}
        self.fixed: dict[tuple, bool] = {}
        self.known_effects: dict[str, object] = {}
        self.enum_types: dict[int, tuple[Whole, dict[int, str]]] = {}
        self.exposed_before = exposed
        self.exposed: dict[str, Slot] = {}
        self.waiting: list[tuple] = []
        self.all_places: list = []

    def run(self) -> None:
        if self.entry not in self.functions:
            raise Refused(f"there is no function {self.entry}")
        externals = {one.name for one in self.tree.ext if isinstance(one, c_ast.Decl) and "extern" not in (one.storage or [])}
        for one in self.tree.ext:
            self.line = line_of(one) or self.line
            self.outer(one, externals)
        self.enter_entry()

    def outer(self, node, defined: set[str]) -> None:
        """A declaration of the file."""
        if isinstance(node, c_ast.Typedef):
            self.typedef(node)
        elif isinstance(node, c_ast.FuncDef):
            self.declare_function(node.decl)
        elif isinstance(node, c_ast.Decl):
            if isinstance(node.type, c_ast.FuncDecl):
                self.declare_function(node)
            elif node.name is None:
                self.type_of(node)
            else:
                self.global_object(node, defined)
        elif isinstance(node, c_ast.StaticAssert):
            self.statement_StaticAssert(node)
        elif not isinstance(node, c_ast.Pragma):
            raise Refused(f"a declaration of the form {type(node).__name__}", self.line)

    def typedef(self, node) -> None:
        self.scope.declare(node.name, TypeNamed(*self.type_of(node.type)))

    def declare_function(self, decl) -> None:
        kind = self.type_of(decl.type)[0]
        if not isinstance(kind, Function):
            raise Refused(f"the declaration of {decl.name}", self.line)
        self.scope.blocks[0][decl.name] = FunctionNamed(decl.name, kind.result, self.functions.get(decl.name))

    # Objects.

    def new_object(self, decl, kind, qualifiers, shared: bool = False):
        """The object that a declaration makes; the same one each time the function is inlined."""
        function = self.function_name() if not shared or self.frames else None
        key = (id(decl), function)
        if key not in self.known:
            self.known[key] = self.made(decl.name, kind, qualifiers, function, line_of(decl), shared)
        return self.known[key]

    def made(self, name: str, kind, qualifiers, function, line, shared: bool):
        volatile = "volatile" in qualifiers
        if isinstance(kind, Whole):
            return self.slot(name, kind, volatile, function, line, shared)
        if isinstance(kind, Record) and not kind.union:
            if kind.members is None:
                raise Refused(f"an object of the incomplete type struct {kind.name}", line)
            return Members(kind, {member: self.made(f"{name}.{member}", one, qualifiers | kind.qualifiers.get(member, frozenset()), function, line, shared)
                                  for member, one in kind.members.items()})
        what = f"an element of the array {name}" if isinstance(kind, Array) else f"the {lost_kind(kind)} {name}"
        return Lost(lost_kind(kind), kind, what, False, volatile)

    def slot(self, name: str, kind: Whole, volatile: bool, function, line, shared: bool) -> Slot:
        written, copy = self.names.variable(name, function, self.entry)
        slot = Slot(written, kind, volatile, name, function, line, copy, shared=shared)
        self.slots[written] = slot
        if written in self.exposed_before:
            self.exposed[written] = slot
        return slot

    def global_object(self, node, defined: set[str]) -> None:
        """Declares an object of the file; its value at the start is set once all declarations are read."""
        kind, qualifiers = self.type_of(node)
        if isinstance(kind, Array) and kind.length is None:
            kind = Array(kind.element, None)
        known = self.scope.blocks[0].get(node.name)
        if known is None:
            if isinstance(kind, Pointer) and node.init is not None and not changes(self.tree, node.name) and self.fixed_pointer(node, kind):
                return
            known = self.made(node.name, kind, qualifiers, None, self.line, True)
            self.scope.declare(node.name, known)
            open_value = "extern" in (node.storage or []) and node.name not in defined and node.init is None
            self.waiting.append((known, None, self.line, open_value))
        if node.init is not None:
            self.waiting.append((known, node.init, self.line, False))
        fixed = "static" in (node.storage or []) and not changes(self.tree, node.name)
        self.constant_slot(known, node, qualifiers | {"const"} if fixed else qualifiers)

    def constant_slot(self, known, node, qualifiers) -> None:
        """A `const` number is that number wherever its name stands."""
        if isinstance(known, Slot) and "const" in qualifiers and "volatile" not in qualifiers and node.init is not None:
            found = self.folded(node.init)
            if found is not None:
                known.constant = self.fold_to(found[0], known.type)

    def fold_to(self, value: int, kind: Whole) -> int:
        if kind.name == "_Bool":
            return int(value != 0)
        return (value - kind.least) % (1 << kind.width) + kind.least

    def fixed_pointer(self, node, kind: Pointer) -> bool:
        """A pointer that is set to the address of a known object and never again is another name for it."""
        init = node.init
        while isinstance(init, c_ast.Cast):
            init = init.expr
        if not (isinstance(init, c_ast.UnaryOp) and init.op == "&" and isinstance(init.expr, (c_ast.ID, c_ast.StructRef))):
            return False
        thing = self.place_of(init.expr)
        if init is not node.init or not fits(kind.target, thing):
            return False
        self.scope.declare(node.name, Alias(kind, thing))
        return True

    def initialise(self, thing, init, line: int) -> None:
        """Sets an object of static duration to its initialiser, or to 0."""
        self.line = line
        if isinstance(thing, Slot):
            if thing.volatile or thing.constant is not None:
                return
            found = (0, self.types.int) if init is None else self.folded(init.exprs[0] if isinstance(init, c_ast.InitList) else init)
            if found is None:
                raise Refused(f"the initialiser of {thing.name}, which is no constant", line)
            self.emit((), {thing.name: self.constant_term(self.fold_to(found[0], thing.type), thing.type)})
        elif isinstance(thing, Members):
            self.initialise_members(thing, init, line)
        elif init is not None:
            self.addresses(init)

    def initialise_members(self, thing: Members, init, line: int) -> None:
        for member, part in self.parts(thing, init).items():
            self.initialise(thing.members[member], part, line)

    def parts(self, thing: Members, init) -> dict[str, object]:
        """The initialiser of each member, None for 0."""
        parts = {member: None for member in thing.members}
        if init is None:
            return parts
        if not isinstance(init, c_ast.InitList):
            raise Refused("the initialiser of a struct", self.line)
        names, at = list(thing.members), 0
        for one in init.exprs:
            if isinstance(one, c_ast.NamedInitializer):
                if len(one.name) != 1 or not isinstance(one.name[0], c_ast.ID) or one.name[0].name not in names:
                    raise Refused("an initialiser of a member of a member", self.line)
                at, one = names.index(one.name[0].name), one.expr
            if at >= len(names):
                raise Refused("an initialiser with too many values", self.line)
            parts[names[at]] = one
            at += 1
        return parts

    def addresses(self, node) -> None:
        """What an initialiser of pointers or arrays points to may be pointed to."""
        if isinstance(node, c_ast.UnaryOp) and node.op == "&":
            thing = self.place_of(node.expr)
            if isinstance(thing, (Slot, Members)):
                self.expose(thing)
        for _, child in node.children():
            if not isinstance(child, c_ast.ID):
                self.addresses(child)

    def opened(self, thing) -> None:
        for slot in slots_of(thing):
            if not slot.volatile:
                drawn = self.draw(slot.type, f"extern:{slot.name}", True)
                self.emit((), {slot.name: drawn.term})

    # Locals.

    def declaration(self, node) -> None:
        """A declaration in a block."""
        if isinstance(node.type, c_ast.FuncDecl):
            self.declare_function(node)
            return
        if node.name is None:
            self.type_of(node)
            return
        if "extern" in (node.storage or []):
            if self.scope.blocks[0].get(node.name) is None:
                raise Refused(f"an extern declaration of {node.name} in a block", self.line)
            self.scope.declare(node.name, self.scope.blocks[0][node.name])
            return
        kind, qualifiers = self.type_of(node)
        if "static" in (node.storage or []):
            self.static_local(node, kind, qualifiers)
            return
        self.begin(self.line)
        if isinstance(kind, Pointer) and node.init is not None and self.fixed_local(node, kind):
            return
        thing = self.new_object(node, kind, qualifiers)
        self.scope.declare(node.name, thing)
        self.initialised_local(node, thing, qualifiers)

    def initialised_local(self, node, thing, qualifiers) -> None:
        if isinstance(thing, Slot):
            if node.init is None:
                if not thing.volatile:
                    self.undefined_local(thing)
                return
            self.constant_slot(thing, node, qualifiers)
            self.store(thing, self.value(node.init.exprs[0] if isinstance(node.init, c_ast.InitList) else node.init))
        elif isinstance(thing, Members) and isinstance(node.init, c_ast.InitList):
            for member, part in self.parts(thing, node.init).items():
                self.member_initialised(thing.members[member], part)
        elif isinstance(thing, Members) and node.init is None:
            for slot in slots_of(thing):
                if not slot.volatile:
                    self.undefined_local(slot)
        elif isinstance(thing, Members):
            self.store(thing, self.value(node.init))
        elif node.init is not None:
            self.effects_of_initialiser(node.init)

    def effects_of_initialiser(self, init) -> None:
        if isinstance(init, c_ast.InitList):
            for one in init.exprs:
                self.effects_of_initialiser(one.expr if isinstance(one, c_ast.NamedInitializer) else one)
            return
        value = self.value(init)
        if isinstance(value, Address):
            self.expose(value.object)

    def member_initialised(self, thing, part) -> None:
        if isinstance(thing, Slot):
            self.store(thing, self.value(part) if part is not None else self.constant_value(0, thing.type))
        elif isinstance(thing, Members):
            for member, inner in self.parts(thing, part).items():
                self.member_initialised(thing.members[member], inner)
        elif part is not None:
            self.effects_of_initialiser(part)

    def fixed_local(self, node, kind: Pointer) -> bool:
        """A pointer that is set where it is declared, to a known object, and never again."""
        definition = self.functions[self.frame().name]
        if not self.stays(definition, node.name):
            return False
        value = self.value(node.init)
        if not isinstance(value, Address) or not fits(kind.target, value.object):
            if isinstance(value, Address):
                return False
            self.scope.declare(node.name, Lost("pointer", kind, f"the pointer {node.name}"))
            return True
        self.scope.declare(node.name, Alias(kind, value.object))
        return True

    def static_local(self, node, kind, qualifiers) -> None:
        """One object for all calls, set before the entry begins."""
        key = id(node)
        known = self.known.get((key, "static"))
        if known is None:
            known = self.known[key, "static"] = self.made(node.name, kind, qualifiers, self.function_name(), self.line, True)
            for slot in slots_of(known):
                self.statics[id(slot)] = slot
            self.constant_slot(known, node, qualifiers)
            self.waiting.append((known, node.init, self.line, False))
        self.scope.declare(node.name, known)

    # The start.

    def enter_entry(self) -> None:
        """The body of the entry is made first, since static locals come up in it; the start's edge then leads to it."""
        definition = self.functions[self.entry]
        start = self.here
        first = self.here = self.inner()
        parameters = [one for one in (definition.decl.type.args.params if definition.decl.type.args else []) if isinstance(one, c_ast.Decl) and one.name]
        result = self.type_of(definition.decl.type)[0].result
        frame = Frame(self.entry, result, self.inner(), self.temporary())
        self.frames.append(frame)
        self.scope.open()
        given = [self.parameter(one) for one in parameters]
        self.body_of(definition)
        self.emit(target=frame.back)
        self.resolve_gotos(frame)
        self.here = frame.back
        self.emit(target=self.stops["exit"])
        self.here, self.line = start, line_of(definition)
        self.set_globals()
        if self.entry != "main" and any(isinstance(thing, Lost) for thing in given):
            self.expose_globals()
        for at, thing in enumerate(given):
            self.draw_parameter(thing, at)
        self.emit(target=first)
        self.frames.pop()
        self.first = first

    def set_globals(self) -> None:
        last = {id(thing): at for at, (thing, init, _, _) in enumerate(self.waiting) if init is not None}
        for at, (thing, init, line, open_value) in enumerate(self.waiting):
            if open_value:
                self.opened(thing)
            elif last.get(id(thing), at) == at:
                self.initialise(thing, init, line)

    def parameter(self, decl):
        kind, qualifiers = self.type_of(decl)
        if isinstance(kind, Array):
            kind = Pointer(kind.element)
        thing = self.new_object(decl, kind, qualifiers)
        self.scope.declare(decl.name, thing)
        return thing

    def draw_parameter(self, thing, at: int) -> None:
        for slot in slots_of(thing):
            least = 1 if self.entry == "main" and at == 0 and slot.c == "argc" else None
            drawn = self.draw(slot.type, f"parameter:{slot.name}", True, None, least)
            self.emit((), {slot.name: drawn.term})


def translated(tree, source: str, entry: str, model: str, log_strict: bool, checked: bool, symbols: bool, asked_line: int | None = None) -> Translator:
    """Translates until no further variable is found that an unknown pointer may point to."""
    exposed: set[str] = set()
    for _ in range(MANY):
        log = Log(log_strict)
        one = Translator(tree, source, entry, Types(model), log, checked, symbols, asked_line, exposed)
        one.run()
        one.all_places = list(one.graph.places)
        if set(one.exposed) <= exposed:
            return one
        exposed = exposed | set(one.exposed)
    raise Refused("pointers to too many variables")

