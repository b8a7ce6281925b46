"""A thread of a script, step by step until it asks for something. All is immutable, so stacks and values can be compared and kept.

A number is an `int`; any other value is a tuple that begins with its kind. An event is a tree: ("never",), ("base", WORD, VALUES..),
("choose", TREES), ("wrap", TREE, CALL), ("guard", CALL), ("withnack", CALL), and ("scope", NACK, TREE) for the branch of a nack.
A CALL is the name of a function and what it is given.
"""
from collections.abc import Callable, Mapping
from typing import TypeAlias

from kit.script import Form, Script, Text

Value: TypeAlias = int | tuple
Tree: TypeAlias = tuple
Call: TypeAlias = tuple[str, tuple[Value, ...]]
Stack: TypeAlias = tuple[tuple, ...]  # the top entry last
Ask: TypeAlias = tuple

UNIT: Value = ("unit",)
NEVER: Tree = ("never",)
EFFECTS = {"call", "spawn", "sync", "chan", "swapchan", "ivar", "mvar", "mailbox", "mchan", "port", "copy", "iput", "mput", "mail",
           "multicast", "print", "exit", "yield", "self", "now"}
OBJECTS = {"send": "chan", "recv": "chan", "swap": "swapchan", "iget": "ivar", "mtake": "mvar", "mget": "mvar", "mswap": "mvar",
           "mailrecv": "mailbox", "portrecv": "port", "join": "thread", "at": "number", "after": "number",
           "iput": "ivar", "mput": "mvar", "mail": "mailbox", "multicast": "mchan", "port": "mchan", "copy": "port"}
BASES = {"always", "send", "recv", "swap", "iget", "mtake", "mget", "mswap", "mailrecv", "portrecv", "join", "at", "after"}
LONGEST = 20_000  # steps that a thread may take without an ask


class Fault(Exception):
    """The thread ends at a fault of this name."""


class Refused(Exception):
    """The text is no script, or does what is not looked at here."""


# Values


def kind_of(value: Value) -> str:
    return "number" if isinstance(value, int) else value[0]


def wanted(value: Value, kind: str) -> Value:
    if kind_of(value) != kind:
        raise Fault("kind")
    return value


def truth(holds: bool) -> Value:
    return ("truth", holds)


def in_range(number: int) -> Value:
    if not -2**63 <= number < 2**63:
        raise Fault("overflow")
    return number


def tree_of(value: Value) -> Tree:
    return wanted(value, "event")[1]


def shown(value: Value, inside: bool = False) -> str:
    """A value as `print` writes it; a text inside a pair has its quotes."""
    match value:
        case int():
            return str(value)
        case ("unit",):
            return "()"
        case ("truth", holds):
            return "true" if holds else "false"
        case ("text", content):
            return '"' + content.replace("\\", "\\\\").replace('"', '\\"').replace("\n", "\\n") + '"' if inside else content
        case ("pair", first, second):
            return f"(pair {shown(first, True)} {shown(second, True)})"
        case ("thread", number):
            return f"(thread {number})"
        case ("event", _):
            return "event"
    raise Refused(f"it prints the number of an object: {value[0]}")


# Expressions


def arithmetic(operate: Callable[[int, int], int]) -> Callable[[Value, Value], Value]:
    return lambda a, b: in_range(operate(wanted(a, "number"), wanted(b, "number")))


OPERATIONS: Mapping[str, Callable[..., Value]] = {
    "+": arithmetic(lambda a, b: a + b),
    "-": arithmetic(lambda a, b: a - b),
    "*": arithmetic(lambda a, b: a * b),
    "<": lambda a, b: truth(wanted(a, "number") < wanted(b, "number")),
    "=": lambda a, b: truth(kind_of(a) == kind_of(b) and a == b),
    "not": lambda a: truth(not wanted(a, "truth")[1]),
    "pair": lambda a, b: ("pair", a, b),
    "fst": lambda a: wanted(a, "pair")[1],
    "snd": lambda a: wanted(a, "pair")[2],
}
CONSTANTS: Mapping[str, Value] = {"unit": UNIT, "true": truth(True), "false": truth(False), "never": ("event", NEVER)}


def evaluate(form: Form, variables: Mapping[str, Value]) -> Value:
    match form:
        case int():
            return form
        case Text(content):
            return ("text", content)
        case str():
            return CONSTANTS[form] if form in CONSTANTS else variables.get(form, UNIT)
        case ("choose", *events):
            return ("event", ("choose", tuple([tree_of(it) for it in [evaluate(event, variables) for event in events]])))
        case ("wrap", event, str(name), *given):
            inner = evaluate(event, variables)
            captured = tuple([evaluate(it, variables) for it in given])
            return ("event", ("wrap", tree_of(inner), (name, captured)))
        case ("guard" | "withnack" as word, str(name), *given):
            return ("event", (word, (name, tuple([evaluate(it, variables) for it in given]))))
        case (str(word), *parts) if word in BASES:
            return ("event", base(word, [evaluate(part, variables) for part in parts]))
        case (str(word), *parts) if word in OPERATIONS:
            return OPERATIONS[word](*[evaluate(part, variables) for part in parts])
    raise Refused(f"this is no expression: {form}")


def base(word: str, values: list[Value]) -> Tree:
    if word in OBJECTS:
        wanted(values[0], OBJECTS[word])
    if word in ("at", "after") and values[0] < 0:
        raise Fault("range")
    return ("base", word, *values)


# Events


def unforced(tree: Tree) -> Tree | None:
    """The guard or withNack that is called next: the leftmost of the outermost ones."""
    match tree:
        case ("guard" | "withnack", _):
            return tree
        case ("choose", trees):
            return next((found for found in map(unforced, trees) if found), None)
        case ("wrap", inner, _) | ("scope", _, inner):
            return unforced(inner)
    return None


def replaced(tree: Tree, new: Tree) -> Tree:
    """The event with another one in the place of that guard or withNack."""
    match tree:
        case ("choose", trees):
            place = next(number for number, member in enumerate(trees) if unforced(member))
            return ("choose", trees[:place] + (replaced(trees[place], new),) + trees[place + 1:])
        case ("wrap", inner, call):
            return ("wrap", replaced(inner, new), call)
        case ("scope", nack, inner):
            return ("scope", nack, replaced(inner, new))
    return new


def with_nack(tree: Tree, nack: tuple) -> Tree:
    """The withNack that is next is a guard within the scope of its nack, which is its last argument."""
    name, values = unforced(tree)[1]
    return replaced(tree, ("scope", nack, ("guard", (name, values + (("event", ("base", "nack", nack)),)))))


# Threads. The entries of a stack: ("call", FUNCTION, PLACE, VARIABLES); ("awaits", FUNCTION, PLACE, VARIABLES, NAME), which waits for the
# value of an effect; ("forces", TREE), an event whose guards are called; ("wraps", CALLS, VALUE).


def changed(variables: frozenset, name: str | None, value: Value) -> frozenset:
    return variables if name is None else frozenset({**dict(variables), name: value}.items())


def laid(statements: tuple[Form, ...], code: list[tuple]) -> list[tuple]:
    """The statements as instructions, one after another."""
    for statement in statements:
        match statement:
            case ("let" | "set", str(name), (str(word), *_) as effect) if word in EFFECTS:
                code.append(("do", name, effect))
            case ("let" | "set", str(name), value):
                code.append(("set", name, value))
            case ("if", condition, ("do", *then), ("do", *otherwise)):
                test = len(code)
                code.append(())
                leap = len(laid(tuple(then), code))
                code.append(())
                code[test] = ("unless", condition, len(code))
                code[leap] = ("jump", len(laid(tuple(otherwise), code)))
            case ("while", condition, *body):
                test = len(code)
                code.append(())
                laid(tuple(body), code).append(("jump", test))
                code[test] = ("unless", condition, len(code))
            case ("return", value):
                code.append(("return", value))
            case (str(word), *_) if word in EFFECTS:
                code.append(("do", None, statement))
            case _:
                raise Refused(f"this is no statement: {statement}")
    return code


class Machine:
    """The functions of a script, by which threads do their steps."""

    def __init__(self, script: Script):
        self.functions = {it.name: (it.parameters, laid(it.body, []) + [("return", "unit")]) for it in script}
        self.known: dict[tuple[int, Stack], tuple[Ask, Stack]] = {}

    def begun(self, call: Call) -> tuple:
        name, values = call
        parameters = self.functions[name][0] if name in self.functions else None
        if parameters is None or len(parameters) != len(values):
            raise Refused(f"there is no function {name} of {len(values)} values")
        return ("call", name, 0, frozenset(zip(parameters, values)))

    def delivered(self, value: Value, stack: Stack) -> Stack:
        """The stack once a value has come to what waits on top of it."""
        if not stack:
            return ()
        below = stack[:-1]
        match stack[-1]:
            case ("awaits", function, place, variables, name):
                return below + (("call", function, place, changed(variables, name, value)),)
            case ("forces", tree):
                return below + (("forces", replaced(tree, tree_of(value))),)
            case ("wraps", calls, _):
                return below + (("wraps", calls, value),)
        raise AssertionError(stack[-1])

    def asks(self, number: int, stack: Stack) -> tuple[Ask, Stack]:
        """What the thread of this number asks for next, and the stack that waits for the answer."""
        if (number, stack) not in self.known:
            self.known[number, stack] = self.computed(number, stack)
        return self.known[number, stack]

    def computed(self, number: int, stack: Stack) -> tuple[Ask, Stack]:
        try:
            for _ in range(LONGEST):
                ask, stack = self.step(number, stack)
                if ask:
                    return ask, stack
        except Fault as fault:
            return ("fault", str(fault)), ()
        raise Refused("a thread computes too long")

    def step(self, number: int, stack: Stack) -> tuple[Ask | None, Stack]:
        if not stack:
            return ("end",), ()
        below = stack[:-1]
        match stack[-1]:
            case ("forces", tree):
                return self.forced(tree, stack)
            case ("wraps", (), value):
                return None, self.delivered(value, below)
            case ("wraps", ((name, captured), *others), value):
                return None, below + (("wraps", tuple(others), value), self.begun((name, captured + (value,))))
            case ("call", name, place, variables):
                return self.instructed(number, below, name, place, variables)
        raise AssertionError(stack[-1])

    def forced(self, tree: Tree, stack: Stack) -> tuple[Ask | None, Stack]:
        match unforced(tree):
            case None:
                return ("sync", tree), stack[:-1]
            case ("guard", call):
                return None, stack + (self.begun(call),)
        return ("nack",), stack

    def instructed(self, number: int, below: Stack, name: str, place: int, variables: frozenset) -> tuple[Ask | None, Stack]:
        values = dict(variables)
        match self.functions[name][1][place]:
            case ("set", variable, form):
                return None, below + (("call", name, place + 1, changed(variables, variable, evaluate(form, values))),)
            case ("jump", other):
                return None, below + (("call", name, other, variables),)
            case ("unless", condition, other):
                holds = wanted(evaluate(condition, values), "truth")[1]
                return None, below + (("call", name, place + 1 if holds else other, variables),)
            case ("return", form):
                return None, self.delivered(evaluate(form, values), below)
            case ("do", variable, effect):
                return self.effect(number, effect, values, below + (("awaits", name, place + 1, variables, variable),))
        raise AssertionError(name)

    def effect(self, number: int, effect: tuple, variables: Mapping[str, Value], stack: Stack) -> tuple[Ask | None, Stack]:
        match effect:
            case ("call", str(name), *given):
                return None, stack + (self.begun((name, tuple([evaluate(it, variables) for it in given]))),)
            case ("spawn", str(name), *given):
                return ("spawn", (name, tuple([evaluate(it, variables) for it in given]))), stack
            case ("self",):
                return None, self.delivered(("thread", number), stack)
            case ("sync", event):
                return None, stack + (("forces", tree_of(evaluate(event, variables))),)
            case ("exit",):
                return ("end",), ()
        word, *parts = effect
        values = [evaluate(part, variables) for part in parts]
        if word in OBJECTS:
            wanted(values[0], OBJECTS[word])
        return (word, *values), stack
