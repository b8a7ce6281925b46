"""A script as a program of OCaml's library `Event`, over prelude.ml.

The end of a run: all threads sleep in the system, at three looks one after another.
"""
from pathlib import Path

from kit.peer import Failed, Peer, output_of, quoted, returns_early, scratch
from kit.script import Form, Function, Script, Text, variables_of

PRELUDE = Path(__file__).with_name("prelude.ml")
TICKS, VARIABLES = "its time is not made of ticks", "its Event has channels alone"
OBJECTS = ("swapchan", "swap", "ivar", "iput", "iget", "mvar", "mput", "mtake", "mget", "mswap", "mailbox", "mail", "mailrecv",
           "mchan", "multicast", "port", "copy", "portrecv")
WORDS = {"+": "add", "-": "subtract", "*": "multiply", "<": "less", "not": "negated", "fst": "first", "snd": "second", "print": "print_line",
         "chan": "new_chan", "exit": "leave"}
ATOMS = {"true": "Truth true", "false": "Truth false", "unit": "Unit", "never": "never ()"}


class Ocaml(Peer):
    name = "ocaml"
    cannot = {**dict.fromkeys(("at", "after", "now"), TICKS), **dict.fromkeys(OBJECTS, VARIABLES), "join": "the end of a thread is no event"}

    def version(self) -> str:
        return "OCaml " + output_of(["ocamlopt", "-version"], "", 60).strip()

    def block(self, script: Script, times: int, seed: int) -> str:
        functions = "\nand ".join(map(function, script))
        return f"let () =\n  let rec {functions}  in run_often ({times}, {seed % 2**29}, f_main)\n"

    def run(self, program: str, seconds: float) -> str:
        with scratch() as folder:
            Path(folder, "prelude.ml").write_bytes(PRELUDE.read_bytes())
            Path(folder, "script.ml").write_text("open Prelude\n" + program, encoding="utf-8")
            told = output_of(["ocamlopt", "-w", "-a", "-I", "+threads", "unix.cmxa", "threads.cmxa", "prelude.ml", "script.ml", "-o", "script"],
                             "", 600, Path(folder))
            if not Path(folder, "script").exists():
                raise Failed(told)
            return output_of([str(Path(folder, "script"))], "", seconds)


def function(of: Function) -> str:
    variables = [f"let v_{name} = ref Unit in" for name in variables_of(of)]
    parameters = [f"let v_{name} = ref (List.nth given {place}) in" for place, name in enumerate(of.parameters)]
    *body, last = of.body or (("return", "unit"),)
    closing = expression(last[1]) if last[0] == "return" else f"{statement(last)}; Unit"
    lines = [*parameters, *variables, *(f"strew (); {statement(form)};" for form in body), f"strew (); {closing}"]
    text = "\n    ".join(lines)
    return f"f_{of.name} given =\n    " + (f"(try {text} with Return v -> v)" if returns_early(of.body) else text) + "\n"


def block(statements: tuple[Form, ...]) -> str:
    return "begin " + "; ".join([*(f"strew (); {statement(form)}" for form in statements), "()"]) + " end"


def statement(form: Form) -> str:
    match form:
        case ("let" | "set", name, value):
            return f"v_{name} := {expression(value)}"
        case ("if", condition, ("do", *then), ("do", *otherwise)):
            return f"if is_true ({expression(condition)}) then {block(then)} else {block(otherwise)}"
        case ("while", condition, *statements):
            return f"while is_true ({expression(condition)}) do {block(statements)} done"
        case ("return", value):
            return f"raise (Return ({expression(value)}))"
    return f"ignore ({expression(form)})"


def expression(form: Form) -> str:
    """An expression or an effect: a value."""
    match form:
        case int(number):
            return f"Number ({number}L)"
        case Text(content):
            return f"Text {quoted(content)}"
        case str(name):
            return ATOMS.get(name, f"!v_{name}")
        case ("call", name, *values):
            return f"f_{name} {listed(values)}"
        case ("spawn" | "guard" | "withnack" as word, name, *values):
            return f"{word} (f_{name}, {listed(values)})"
        case ("wrap", event, name, *values):
            return f"wrap ({expression(event)}, f_{name}, {listed(values)})"
        case ("choose", *events):
            return f"choose {listed(events)}"
        case ("=", left, right):
            return in_order([left, right], "Truth (same (a0, a1))")
        case ("pair", left, right):
            return in_order([left, right], "Pair (a0, a1)")
        case (str(word), first, second):
            return in_order([first, second], f"{WORDS.get(word, word)} (a0, a1)")
        case (str(word), *values):
            return f"{WORDS.get(word, word)} ({', '.join(map(expression, values))})"
    raise ValueError(form)


def in_order(values: list[Form], of_them: str) -> str:
    """OCaml evaluates what stands in a tuple or a list from the right; so the values are named first."""
    return "(" + "".join(f"let a{place} = {expression(value)} in " for place, value in enumerate(values)) + of_them + ")"


def listed(forms: list[Form]) -> str:
    return in_order(forms, "[" + "; ".join(f"a{place}" for place in range(len(forms))) + "]")
