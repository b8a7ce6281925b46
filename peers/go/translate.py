"""A script as a program of Go: its channels, and its own select; over prelude.go.

The end of a run: each goroutine but the one that looks stands at a channel or a select, as `runtime.Stack` tells.
"""
from pathlib import Path

from kit.peer import Failed, Peer, built, output_of, quoted, scratch
from kit.script import Form, Function, Script, Text, variables_of

PRELUDE = Path(__file__).with_name("prelude.go")
TICKS, NACKS, SWAPS = "its time is not made of ticks", "a select does not tell the cases that lost", "it has no swap channels"
VALUES, PORTS = "what a channel holds can't be read without being received", "it has no multicast channels"
WORDS = {"+": "add", "-": "subtract", "*": "multiply", "<": "less", "=": "same", "not": "negated", "fst": "first", "snd": "second", "print": "printLine",
         "sync": "wait", "exit": "leave", "chan": "newChan", "ivar": "newIvar", "mvar": "newMvar", "mailbox": "newMailbox"}
ATOMS = {"true": "true", "false": "false", "unit": "Unit{}", "never": "never()"}


class Go(Peer):
    name = "go"
    cannot = {**dict.fromkeys(("at", "after", "now"), TICKS), "withnack": NACKS, **dict.fromkeys(("swapchan", "swap"), SWAPS),
              **dict.fromkeys(("mget", "mswap"), VALUES), **dict.fromkeys(("mchan", "multicast", "port", "copy", "portrecv"), PORTS),
              "self": "a goroutine does not know itself"}

    def version(self) -> str:
        return output_of(["go", "version"], "", 60).strip()

    def block(self, script: Script, times: int, seed: int) -> str:
        names = ", ".join(f"f_{of.name}" for of in script)
        return "{\nvar " + names + " Function\n" + "\n".join(map(function, script)) + f"\nrunOften({times}, {seed % 2**31}, f_main)\n}}\n"

    def program(self, blocks: list[str]) -> str:
        return "package main\n\nfunc main() {\n" + "\n".join(blocks) + "}\n"

    def run(self, program: str, seconds: float) -> str:
        with scratch() as folder:
            Path(folder, "prelude.go").write_bytes(PRELUDE.read_bytes())
            Path(folder, "script.go").write_text(program, encoding="utf-8")
            built_at = Path(folder, "script")
            settings = ["env", "GO111MODULE=off", f"GOCACHE={built(self.name)}", "GOFLAGS=-p=1"]
            told = output_of([*settings, "go", "build", "-o", str(built_at), "prelude.go", "script.go"], "", 600, Path(folder))
            if not built_at.exists():
                raise Failed(told)
            return output_of([str(built_at)], "", seconds)


def function(of: Function) -> str:
    parameters = [f"v_{name} := given[{place}]; _ = v_{name}" for place, name in enumerate(of.parameters)]
    variables = [f"var v_{name} Value = Unit{{}}; _ = v_{name}" for name in variables_of(of)]
    lines = [*parameters, *variables, *map(strewn, of.body), "return Unit{}"]
    return f"f_{of.name} = func(given []Value) Value {{\n\t" + "\n\t".join(lines) + "\n}"


def strewn(form: Form) -> str:
    return f"strew(); {statement(form)}"


def block(statements: tuple[Form, ...]) -> str:
    return "{ " + "; ".join(map(strewn, statements)) + " }"


def statement(form: Form) -> str:
    match form:
        case ("let" | "set", name, value):
            return f"v_{name} = {expression(value)}"
        case ("if", condition, ("do", *then), ("do", *otherwise)):
            return f"if isTrue({expression(condition)}) {block(then)} else {block(otherwise)}"
        case ("while", condition, *statements):
            return f"for isTrue({expression(condition)}) {block(statements)}"
        case ("return", value):
            return f"return {expression(value)}"
    return f"_ = {expression(form)}"


def expression(form: Form) -> str:
    """An expression or an effect: a value."""
    match form:
        case int(number):
            return f"int64({number})"
        case Text(content):
            return f"Text({quoted(content)})"
        case str(name):
            return ATOMS.get(name, f"v_{name}")
        case ("call", name, *values):
            return f"f_{name}([]Value{{{listed(values)}}})"
        case ("spawn" | "guard" as word, name, *values):
            return f"{word}({after(f'f_{name}', values)})"
        case ("wrap", event, name, *values):
            return f"wrap({after(f'{expression(event)}, f_{name}', values)})"
        case (str(word), *values):
            return f"{WORDS.get(word, word)}({listed(values)})"
    raise ValueError(form)


def listed(forms: list[Form]) -> str:
    return ", ".join(map(expression, forms))


def after(head: str, forms: list[Form]) -> str:
    return ", ".join([head, *map(expression, forms)])
