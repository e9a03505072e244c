"""Calls: functions with a body are inlined, and those of libraries have a meaning of their own."""
from __future__ import annotations

from pycparser import c_ast

from .builder import Value
from .declare import line_of
from .kinds import Array, Floating, Pointer, Void, Whole
from .linear import at_most, number, variable
from .refusal import Refused
from .scope import Alias, FunctionNamed, Lost, Members, Slot, fits, lost_kind, slots_of
from .statements import Frame, Statements
from .values import Address, Opaque

ASSERTIONS = {"__c2t2_assert", "assert", "__VERIFIER_assert"}
ASSUMPTIONS = {"__VERIFIER_assume", "assume", "__builtin_assume"}
ERRORS = {"reach_error", "__VERIFIER_error", "__assert_fail", "__assert"}
ABORTS = {"abort", "__builtin_trap", "__builtin_abort"}
EXITS = {"exit", "_exit", "_Exit", "quick_exit"}
HARMLESS = {"printf", "puts", "putchar", "fprintf", "fputs", "fflush", "free", "srand", "perror", "fclose", "vprintf", "usleep", "sleep", "printk", "fputc",
            "strlen", "strcmp", "strncmp", "memcmp", "atoi", "getchar", "rand", "random", "malloc", "calloc", "realloc", "alloca", "__builtin_alloca", "time"}
WRITES_TO = {"scanf", "fscanf", "sscanf", "memset", "memcpy", "memmove", "strcpy", "strncpy", "strcat", "sprintf", "snprintf", "fgets", "fread", "read"}
REFUSED = {"setjmp": "setjmp", "longjmp": "longjmp", "_setjmp": "setjmp", "fork": "processes", "signal": "signals", "sigaction": "signals"}
NONDET = {"bool": "_Bool", "_Bool": "_Bool", "char": "char", "schar": "signed char", "uchar": "unsigned char", "short": "short", "ushort": "unsigned short", "int": "int",
          "uint": "unsigned int", "unsigned": "unsigned int", "unsigned_int": "unsigned int", "long": "long", "ulong": "unsigned long", "longlong": "long long",
          "ulonglong": "unsigned long long", "size_t": "size_t", "loff_t": "long long", "u8": "unsigned char", "u16": "unsigned short",
          "u32": "unsigned int", "u64": "unsigned long long", "s8": "signed char", "s16": "short", "s32": "int", "s64": "long long",
          "uint8_t": "unsigned char", "uint16_t": "unsigned short", "uint32_t": "unsigned int", "int8_t": "signed char", "int16_t": "short",
          "int32_t": "int", "sector_t": "unsigned long", "pthread_t": "unsigned long", "unsigned_char": "unsigned char", "S8": "signed char", "U8": "unsigned char"}


class Calls(Statements):
    """Needs `functions`, the definitions by name."""

    def call(self, node, used: bool = True):
        if not isinstance(node.name, c_ast.ID):
            raise Refused("a call through a pointer", line_of(node))
        name, arguments = node.name.name, (node.args.exprs if node.args else [])
        meaning = self.scope.find(name)
        if meaning is not None and not isinstance(meaning, FunctionNamed):
            raise Refused(f"a call through the pointer {name}", line_of(node))
        special = self.special(name, arguments)
        if special is not None:
            return special[0]
        if name in self.functions:
            return self.inlined(name, arguments)
        return self.without_body(name, arguments, meaning, used)

    def special(self, name: str, arguments: list):
        """What a function of a known name does, as a list with the value, or None where it is not known."""
        if name in ASSERTIONS and name not in self.functions:
            self.one_argument(name, arguments)
            self.asserted(arguments[0])
        elif name in ASSUMPTIONS and name not in self.functions:
            self.one_argument(name, arguments)
            self.assumed(arguments[0])
        elif name in ERRORS:
            wanted = self.asked_line is None or self.asked_line == self.line
            self.stop("error" if wanted else "abort")
        elif name in ABORTS:
            self.stop("abort")
        elif name in EXITS:
            for argument in arguments:
                self.value(argument)
            self.stop("exit")
        elif name in REFUSED or name.startswith(("pthread_", "__VERIFIER_atomic")):
            raise Refused(REFUSED.get(name, "threads") + f" ({name})", self.line)
        elif name.startswith("__VERIFIER_nondet_") and name not in self.functions:
            return [self.nondet(name[len("__VERIFIER_nondet_"):])]
        elif name in ("abs", "labs", "llabs") and name not in self.functions and len(arguments) == 1:
            return [self.absolute(arguments[0], {"abs": "int", "labs": "long", "llabs": "long long"}[name])]
        else:
            return None
        return [None]

    def one_argument(self, name: str, arguments: list) -> None:
        if len(arguments) != 1:
            raise Refused(f"{name} with {len(arguments)} arguments", self.line)

    def nondet(self, name: str):
        spelling = NONDET.get(name)
        if spelling == "size_t":
            return self.draw(self.types.size, "nondet:size_t", True, name)
        if spelling is not None:
            return self.draw(self.types.wholes[spelling], f"nondet:{name}", True, name)
        if name in ("float", "double"):
            return Opaque("float", Floating(name))
        if name in ("pointer", "charp", "const_char_pointer", "pchar"):
            self.expose_globals()
            return Opaque("pointer", Pointer(Void()))
        raise Refused(f"__VERIFIER_nondet_{name}, a type that is not known", self.line)

    def absolute(self, argument, spelling: str) -> Value:
        kind = self.types.wholes[spelling]
        value = self.converted(self.whole(argument), kind)
        name, joined, source = self.temporary(), self.inner(), self.here
        self.emit([at_most(number(0), value.term)])
        self.emit((), {name: value.term}, target=joined)
        self.here = source
        self.emit([at_most(value.term, number(-1))])
        opposite = self.negated(Value(value.term, kind, value.least, -1), kind)
        self.emit((), {name: opposite.term}, target=joined)
        return Value(variable(name), kind, 0, kind.most)

    # Functions without a body.

    def without_body(self, name: str, arguments: list, meaning, used: bool):
        self.refuse_unsequenced(arguments, f"the call of {name}")
        values = [self.value(argument) for argument in arguments]
        reached = [slot for value in values for slot in slots_of(self.object_of(value))]
        if name not in HARMLESS:
            if name not in WRITES_TO:
                reached += self.exposed_slots() + self.global_slots()
                for value in values:
                    self.escaped(value)
                self.expose_globals()
            self.havoc(list(dict.fromkeys(reached)), f"the call of {name}, which has no body")
        result = meaning.result if meaning is not None else self.types.int
        if isinstance(result, Void) or not used:
            return None
        if isinstance(result, Whole):
            bounds = (0, result.most) if name in ("rand", "random", "strlen") else (None, None)
            return self.lost(result, f"call:{name}", f"what {name} answers, which has no body", *bounds)
        return Opaque(lost_kind(result), result)

    def object_of(self, value):
        return value.object if isinstance(value, (Address, Opaque)) else None

    def escaped(self, value) -> None:
        if isinstance(value, Address):
            self.expose(value.object)

    def expose_globals(self) -> None:
        """A pointer from outside may point to each global."""
        for thing in self.scope.blocks[0].values():
            self.expose(thing)

    def global_slots(self) -> list[Slot]:
        return [slot for thing in self.scope.blocks[0].values() for slot in slots_of(thing) if slot.constant is None] + list(self.statics.values())

    # Inlining.

    def inlined(self, name: str, arguments: list):
        definition = self.functions[name]
        if any(frame.name == name for frame in self.frames):
            raise Refused(f"recursion, of {name}", self.line)
        self.refuse_unsequenced(arguments, f"the call of {name}")
        parameters = [one for one in (definition.decl.type.args.params if definition.decl.type.args else []) if isinstance(one, c_ast.Decl)]
        if definition.decl.type.args and any(isinstance(one, c_ast.EllipsisParam) for one in definition.decl.type.args.params):
            raise Refused(f"{name}, a function with a variable number of arguments", self.line)
        if definition.param_decls:
            raise Refused(f"the old form of the definition of {name}, with its parameters declared behind the brackets", self.line)
        if len(arguments) != len(parameters):
            raise Refused(f"the call of {name} with {len(arguments)} arguments in place of {len(parameters)}", self.line)
        values = [self.value(argument) for argument in arguments]
        result = self.type_of(definition.decl.type)[0].result
        frame = Frame(name, result, self.inner(), self.temporary())
        return self.run_body(definition, frame, parameters, values)

    def run_body(self, definition, frame: Frame, parameters: list, values: list):
        line = self.line
        self.frames.append(frame)
        saved = self.scope.function_level()
        self.scope.open()
        for parameter, value in zip(parameters, values):
            self.bind(definition, parameter, value)
        self.body_of(definition)
        if isinstance(frame.result, Whole):
            drawn = self.draw(frame.result, f"local:{frame.name}", True)
            self.emit((), {frame.answer: drawn.term})
        self.emit(target=frame.back)
        self.resolve_gotos(frame)
        self.scope.restore(saved)
        self.frames.pop()
        self.here, self.line = frame.back, line
        if isinstance(frame.result, Whole):
            return Value(variable(frame.answer), frame.result, frame.result.least, frame.result.most)
        return None if isinstance(frame.result, Void) else Opaque(lost_kind(frame.result), frame.result)

    def body_of(self, definition) -> None:
        for part in definition.body.block_items or []:
            self.statement(part)

    def bind(self, definition, parameter, value) -> None:
        """Gives a parameter its value: a copy, or another name for the object whose address is passed."""
        kind, qualifiers = self.type_of(parameter)
        if isinstance(kind, Array):
            kind = Pointer(kind.element)
        if parameter.name is None:
            return
        if isinstance(kind, Pointer):
            if isinstance(value, Address) and fits(kind.target, value.object) and self.stays(definition, parameter.name):
                self.scope.declare(parameter.name, Alias(kind, value.object))
                return
            self.escaped(value)
            self.scope.declare(parameter.name, Lost("pointer", kind, f"the pointer {parameter.name}"))
            return
        thing = self.new_object(parameter, kind, qualifiers)
        self.scope.declare(parameter.name, thing)
        if value is None:
            raise Refused(f"an argument without a value for {parameter.name}", self.line)
        if isinstance(thing, (Slot, Members)):
            self.store(thing, value)

    def stays(self, definition, name: str) -> bool:
        """Whether a pointer is assigned nowhere, and its own address is not taken."""
        key = (id(definition), name)
        if key not in self.fixed:
            self.fixed[key] = not changes(definition.body if isinstance(definition, c_ast.FuncDef) else definition, name)
        return self.fixed[key]


def changes(node, name: str) -> bool:
    """Whether an expression in it assigns the name, steps it or takes its address."""
    if isinstance(node, c_ast.Assignment) and is_name(node.lvalue, name):
        return True
    if isinstance(node, c_ast.UnaryOp) and node.op in ("++", "--", "p++", "p--", "&") and is_name(node.expr, name):
        return True
    return any(changes(child, name) for _, child in node.children())


def is_name(node, name: str) -> bool:
    return isinstance(node, c_ast.ID) and node.name == name

