"""Small random scripts: three to five threads over two or three objects, with events of all kinds but ticks.

A function is made for each place that wants one, and has as parameters just what its body uses.
"""
import random
from collections.abc import Callable, Iterator
from dataclasses import dataclass, field

from kit.script import Form, Function, Script, parts_of

OBJECTS = {"chan": 5, "swapchan": 1.5, "ivar": 1, "mvar": 2, "mailbox": 1, "mchan": 1}
OFFERED = {"chan": 5, "swapchan": 3, "ivar": 1.5, "mvar": 2.5, "mailbox": 1.5, "port": 2, "thread": 0.5, "nack": 1}
EVENTS = {"chan": ("send", "recv"), "swapchan": ("swap",), "ivar": ("iget",), "mvar": ("mtake", "mtake", "mget", "mswap"),
          "mailbox": ("mailrecv",), "port": ("portrecv",), "thread": ("join",)}
EFFECTS = {"ivar": ("iput",), "mvar": ("mput",), "mailbox": ("mail",), "mchan": ("multicast", "multicast", "port"), "port": ("copy",)}
WITH_A_VALUE = ("send", "swap", "mswap", "iput", "mput", "mail", "multicast")
DEEPEST = 2  # choices, wraps, guards and withnacks inside one another
THREADS = 5

Scope = dict[str, str]  # of each name the kind of what it holds: of an object, `nack`, or `value`


@dataclass
class Generator:
    """Makes one script, without the keywords `cannot`."""
    chance: random.Random
    cannot: frozenset[str] = frozenset()
    functions: list[Function] = field(default_factory=list)
    numbers: int = 0
    names: int = 0
    threads: int = 1

    def script(self) -> Script:
        scope: Scope = {}
        body = [statement for _ in range(self.chance.choice((1, 2, 2))) for statement in self.made_object(scope)]
        for _ in range(self.chance.choice((2, 3, 3, 4))):
            thread = self.name("t")
            body.append(("let", thread, self.spawned(scope)))
            scope[thread] = "thread"
        body += self.statements(scope, self.chance.choice((1, 1, 2)))
        return tuple(self.functions) + (Function("main", (), tuple(body)),)

    def name(self, stem: str) -> str:
        self.names += 1
        return f"{stem}{self.names}"

    def likely(self, share: float) -> bool:
        return self.chance.random() < share

    def drawn(self, weights: dict[str, float]) -> str:
        """One of these words, more likely the more it weighs; none that can't be said."""
        weights = {word: weight for word, weight in weights.items() if word not in self.cannot}
        return self.chance.choices(list(weights), list(weights.values()))[0]

    def sayable(self, words: tuple[str, ...]) -> list[str]:
        return [word for word in words if word not in self.cannot]

    # Objects and values

    def made_object(self, scope: Scope) -> Iterator[Form]:
        kind = self.drawn(OBJECTS)
        name = self.name(kind[0])
        scope[name] = kind
        yield ("let", name, ("mvar", self.number()) if kind == "mvar" and self.likely(0.6) else (kind,))
        if kind == "mailbox" and self.likely(0.5):
            yield ("mail", name, self.number())
        if kind == "mchan":
            port = self.name("p")
            scope[port] = "port"
            yield ("let", port, ("port", name))

    def number(self) -> int:
        self.numbers += 1
        return self.numbers

    def value(self, scope: Scope) -> Form:
        known = [name for name, kind in scope.items() if kind == "value"]
        if known and self.likely(0.3):
            return self.chance.choice(known)
        return ("pair", self.number(), self.number()) if self.likely(0.05) else self.number()

    def on(self, word: str, name: str, scope: Scope) -> Form:
        return (word, name, self.value(scope)) if word in WITH_A_VALUE else (word, name)

    # Functions

    def function(self, stem: str, scope: Scope, body: list[Form], later: tuple[str, ...] = ()) -> tuple[str, ...]:
        """Makes a function; its name, and what it must be given. What `later` names it gets later."""
        bound = {form[1] for statement in body for form in parts_of(statement) if isinstance(form, tuple) and form[:1] == ("let",)}
        used = [part for statement in body for part in parts_of(statement) if isinstance(part, str)]
        given = tuple(name for name in dict.fromkeys(used) if name in scope and name not in bound and name not in later)
        name = self.name(stem)
        self.functions.append(Function(name, given + later, tuple(body)))
        return (name, *given)

    def spawned(self, scope: Scope) -> Form:
        self.threads += 1
        inner = dict(scope)
        return ("spawn", *self.function("f", scope, self.statements(inner, self.chance.choice((1, 1, 2, 2)))))

    # Statements

    def statements(self, scope: Scope, many: int) -> list[Form]:
        return [statement for _ in range(many) for statement in self.statement(scope)]

    def statement(self, scope: Scope) -> list[Form]:
        effects = any(self.sayable(EFFECTS.get(kind, ())) for kind in scope.values())
        known = any(kind == "value" for kind in scope.values())
        room = self.threads < THREADS
        likely: dict[str, float] = {"sync": 6, "effect": 3 * effects, "print": 0.4, "yield": 0.2, "exit": 0.1, "spawn": 0.3 * room, "if": 0.5 * known,
                                    "call": 0.2, "set": 0.2 * known}
        ways: dict[str, Callable[[Scope], list[Form]]] = {
            "sync": self.of_sync, "effect": self.of_effect, "print": self.of_print, "yield": self.of_yield, "exit": self.of_exit,
            "spawn": self.of_spawn, "if": self.of_if, "call": self.of_call, "set": self.of_set}
        return ways[self.drawn(likely)](scope)

    def of_sync(self, scope: Scope) -> list[Form]:
        event = self.event(scope, 0)
        if self.likely(0.3):
            return [("sync", event)]
        name = self.name("x")
        scope[name] = "value"
        return [("let", name, ("sync", event))] + ([("print", name)] if self.likely(0.8) else [])

    def of_effect(self, scope: Scope) -> list[Form]:
        name = self.chance.choice([name for name, kind in scope.items() if self.sayable(EFFECTS.get(kind, ()))])
        word = self.chance.choice(self.sayable(EFFECTS[scope[name]]))
        if word not in ("port", "copy"):
            return [self.on(word, name, scope)]
        port = self.name("p")
        scope[port] = "port"
        return [("let", port, (word, name)), *self.of_receive(port, scope)]

    def of_receive(self, port: str, scope: Scope) -> list[Form]:
        name = self.name("x")
        scope[name] = "value"
        return [("let", name, ("sync", ("portrecv", port))), ("print", name)]

    def of_print(self, scope: Scope) -> list[Form]:
        return [("print", self.value(scope))]

    def of_yield(self, _: Scope) -> list[Form]:
        return [("yield",)]

    def of_exit(self, _: Scope) -> list[Form]:
        return [("exit",)]

    def of_spawn(self, scope: Scope) -> list[Form]:
        return [self.spawned(scope)]

    def of_if(self, scope: Scope) -> list[Form]:
        known = self.chance.choice([name for name, kind in scope.items() if kind == "value"])
        branches = [("do", *self.statement(dict(scope))) for _ in range(2)]
        return [("if", ("=", known, self.chance.randint(1, self.numbers + 1)), *branches)]

    def of_call(self, scope: Scope) -> list[Form]:
        return [("call", *self.function("k", scope, self.statement(dict(scope))))]

    def of_set(self, scope: Scope) -> list[Form]:
        known = self.chance.choice([name for name, kind in scope.items() if kind == "value"])
        return [("set", known, self.value(scope)), ("print", known)]

    # Events

    def event(self, scope: Scope, depth: int) -> Form:
        if depth > DEEPEST or self.likely((0.35, 0.5, 0.6)[depth]):
            return self.base(scope)
        ways: dict[str, Callable[[Scope, int], Form]] = {"choose": self.choice, "wrap": self.wrapped, "guard": self.guarded, "withnack": self.with_nack}
        likely = {"choose": 1, "wrap": 2, "guard": 1.5, "withnack": 2.5} if depth else {"choose": 7, "wrap": 2, "guard": 1, "withnack": 0.7}
        return ways[self.drawn(likely)](scope, depth + 1)

    def base(self, scope: Scope) -> Form:
        if self.likely(0.12):
            return "never" if self.likely(0.25) else ("always", self.value(scope))
        names = {name: OFFERED[kind] for name, kind in scope.items() if kind == "nack" or self.sayable(EVENTS.get(kind, ()))}
        if not names:
            return ("always", self.number())
        name = self.drawn(names)
        return name if scope[name] == "nack" else self.on(self.chance.choice(self.sayable(EVENTS[scope[name]])), name, scope)

    def choice(self, scope: Scope, depth: int) -> Form:
        return ("choose", *(self.event(scope, depth) for _ in range(self.chance.choice((0, 1, 2, 2, 2, 2, 2, 3, 3)))))

    def wrapped(self, scope: Scope, depth: int) -> Form:
        inner = self.wrapped(scope, depth) if depth <= DEEPEST and self.likely(0.15) else self.event(scope, depth)
        body = self.statement(dict(scope)) if self.likely(0.3) else []
        body.append(("return", self.chance.choice(("y", ("pair", self.number(), "y"), self.number()))))
        name, *given = self.function("w", scope, body, ("y",))
        return ("wrap", inner, name, *given)

    def guarded(self, scope: Scope, depth: int) -> Form:
        return ("guard", *self.function("g", scope, self.making_event(scope, depth)))

    def with_nack(self, scope: Scope, depth: int) -> Form:
        inner = {**scope, "n": "nack"}
        body: list[Form] = []
        if self.likely(0.7) and self.threads < THREADS:
            self.threads += 1
            watched = "n" if self.likely(0.6) else ("choose", "n", self.base(scope))
            body.append(("spawn", *self.function("v", inner, [("let", "z", ("sync", watched)), ("print", ("pair", self.number(), "z"))])))
        if self.likely(0.15):
            body += self.statement(dict(scope))
        body.append(("return", self.event(inner if self.likely(0.15) else scope, depth)))
        return ("withnack", *self.function("b", scope, body, ("n",)))

    def making_event(self, scope: Scope, depth: int) -> list[Form]:
        inner = dict(scope)
        body = self.statement(inner) if self.likely(0.4) else []
        return [*body, ("return", self.event(inner, depth))]


def scripts(seed: int, cannot: frozenset[str] = frozenset()) -> Iterator[Script]:
    """Scripts without end, and without the keywords `cannot`. The K-th depends on the seed, on K and on these alone."""
    number = 0
    while True:
        yield Generator(random.Random(f"{seed} {number}"), cannot).script()
        number += 1
