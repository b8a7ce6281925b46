"""A script as a program of Racket, over prelude.rkt.

The end of a run: `(sync (system-idle-evt))` in the thread that began it.
"""
from pathlib import Path

from kit.peer import Peer, built, output_of, quoted, returns_early, scratch
from kit.script import Form, Function, Script, Text, variables_of

PRELUDE = Path(__file__).with_name("prelude.rkt")
TICKS, SWAPS, MVARS, PORTS = "its time is not made of ticks", "it has no swap channels", "it has no M-variables", "it has no multicast channels"
WORDS = {"+": "add", "-": "subtract", "*": "multiply", "<": "less", "=": "same", "not": "negated", "fst": "first-of", "snd": "second-of",
         "pair": "couple", "print": "print-line", "sync": "wait", "exit": "leave", "chan": "new-chan", "ivar": "new-ivar", "mailbox": "new-mailbox"}
ATOMS = {"true": "#t", "false": "#f", "unit": "(void)", "never": "never"}


class Racket(Peer):
    name = "racket"
    cannot = {**dict.fromkeys(("at", "after", "now"), TICKS), **dict.fromkeys(("swapchan", "swap"), SWAPS),
              **dict.fromkeys(("mvar", "mput", "mtake", "mget", "mswap"), MVARS),
              **dict.fromkeys(("mchan", "multicast", "port", "copy", "portrecv"), PORTS)}

    def version(self) -> str:
        return output_of(["racket", "--version"], "", 60).strip()

    def block(self, script: Script, times: int, seed: int) -> str:
        functions = "\n".join(map(function, script))
        return f"(let ()\n{functions}\n(run-often {times} {seed % 2**31} f-main))\n"

    def program(self, blocks: list[str]) -> str:
        return "\n".join([f'#lang racket/base\n(require (file "{prelude()}"))\n', *blocks])

    def run(self, program: str, seconds: float) -> str:
        with scratch() as folder:
            path = Path(folder, "script.rkt")
            path.write_text(program, encoding="utf-8")
            return output_of(["racket", str(path)], "", seconds)


def prelude() -> Path:
    """The prelude where it is compiled."""
    copy = built("racket") / PRELUDE.name
    if not copy.exists() or copy.read_bytes() != PRELUDE.read_bytes():
        copy.write_bytes(PRELUDE.read_bytes())
        output_of(["raco", "make", str(copy)], "", 600)
    return copy


def function(of: Function) -> str:
    head = " ".join([f"f-{of.name}", *(f"v-{name}" for name in of.parameters)])
    lines = [f"(define v-{name} (void))" for name in variables_of(of)]
    *body, last = of.body or (("return", "unit"),)
    lines += [f"(strew) {statement(form)}" for form in body]
    lines += [f"(strew) {expression(last[1])}"] if last[0] == "return" else [f"(strew) {statement(last)}", "(void)"]
    if not returns_early(of.body):
        return "\n  ".join([f"(define ({head})", *lines]) + ")\n"
    return "\n    ".join([f"(define ({head})\n  (let/ec return", *lines]) + "))\n"


def block(statements: tuple[Form, ...]) -> str:
    return " ".join(f"(strew) {statement(form)}" for form in statements) or "(void)"


def statement(form: Form) -> str:
    match form:
        case ("let" | "set", name, value):
            return f"(set! v-{name} {expression(value)})"
        case ("if", condition, ("do", *then), ("do", *otherwise)):
            return f"(if (is-true {expression(condition)}) (begin {block(then)}) (begin {block(otherwise)}))"
        case ("while", condition, *statements):
            return f"(let again () (when (is-true {expression(condition)}) {block(statements)} (again)))"
        case ("return", value):
            return f"(return {expression(value)})"
    return expression(form)


def expression(form: Form) -> str:
    """An expression or an effect: a value."""
    match form:
        case int(number):
            return str(number)
        case Text(content):
            return quoted(content)
        case str(name):
            return ATOMS.get(name, f"v-{name}")
        case ("call", name, *values):
            return listed(f"f-{name}", values)
        case ("spawn" | "guard" | "withnack" as word, name, *values):
            return listed(f"{word} f-{name}", values)
        case ("wrap", event, name, *values):
            return listed(f"wrap {expression(event)} f-{name}", values)
        case ("yield",):
            return "(sleep 0)"
        case (str(word), *values):
            return listed(WORDS.get(word, word), values)
    raise ValueError(form)


def listed(head: str, forms: tuple[Form, ...]) -> str:
    return "(" + " ".join([head, *map(expression, forms)]) + ")"
