"""A script as a program of SML/NJ's Concurrent ML, over prelude.sml.

The end of a run: `RunCML.doit` returns once no thread can go on.
"""
from pathlib import Path

from kit.peer import Failed, Peer, built, output_of, quoted, returns_early
from kit.script import Form, Function, Script, Text, variables_of

PRELUDE = Path(__file__).with_name("prelude.sml")
TICKS = "its time is not made of ticks"
WORDS = {"+": "add", "-": "subtract", "*": "multiply", "<": "less", "not": "negated", "fst": "first", "snd": "second", "print": "print_line",
         "chan": "new_chan", "swapchan": "new_swapchan", "ivar": "new_ivar", "mailbox": "new_mailbox", "mchan": "new_mchan", "port": "new_port"}
ATOMS = {"true": "Truth true", "false": "Truth false", "unit": "Unit", "never": "never"}


class Sml(Peer):
    name = "sml"
    cannot = {"at": TICKS, "after": TICKS, "now": TICKS}

    def version(self) -> str:
        return output_of(["sml", "@SMLversion"], "", 60).strip()

    def block(self, script: Script, times: int, seed: int) -> str:
        functions = "\nand ".join(map(function, script))
        return f"local fun {functions}in val () = run_often ({times}, {seed % 2**29}, f_main) end;\n"

    def run(self, program: str, seconds: float) -> str:
        return output_of(["sml", f"@SMLload={self.image()}"], program, seconds)

    def image(self) -> Path:
        """The heap of a system that has read the prelude; made once."""
        stem = built(self.name) / "prelude"
        images = list(stem.parent.glob("prelude.*"))
        if not images or images[0].stat().st_mtime < PRELUDE.stat().st_mtime:
            libraries = 'CM.make "$/smlnj-lib.cm"; CM.make "$cml/cml.cm";'
            told = output_of(["sml"], f'{libraries} use "{PRELUDE}"; SMLofNJ.exportML "{stem}";\n', 600)
            images = list(stem.parent.glob("prelude.*"))
            if "Error" in told or not images:
                raise Failed(told)
        return images[0]


def function(of: Function) -> str:
    variables = [f"val [{', '.join(f'v_{name}' for name in of.parameters)}] = map ref given"] if of.parameters else []
    variables += [f"val v_{name} = ref Unit" for name in variables_of(of)]
    *body, last = of.body or (("return", "unit"),)
    closing = expression(last[1]) if last[0] == "return" else f"{statement(last)}; Unit"
    lines = [f"strew (); {statement(form)};" for form in body] + [f"strew (); {closing}"]
    text = "(let\n      " + "\n      ".join(variables) + "\n      in " + "\n         ".join(lines) + "\n      end)"
    return f"f_{of.name} given = " + (f"({text} handle Return v => v)" if returns_early(of.body) else text) + "\n"


def block(statements: tuple[Form, ...]) -> str:
    return "(" + "; ".join([*(f"strew (); {statement(form)}" for form in statements), "()"]) + ")"


def statement(form: Form) -> str:
    match form:
        case ("let" | "set", name, value):
            return f"v_{name} := {expression(value)}"
        case ("if", condition, ("do", *then), ("do", *otherwise)):
            return f"if is_true ({expression(condition)}) then {block(then)} else {block(otherwise)}"
        case ("while", condition, *statements):
            return f"while is_true ({expression(condition)}) do {block(statements)}"
        case ("return", value):
            return f"raise Return ({expression(value)})"
    return f"ignore ({expression(form)})"


def expression(form: Form) -> str:
    """An expression or an effect: a value."""
    match form:
        case int(number):
            return f"Number {number}".replace("-", "~")
        case Text(content):
            return f"Text {quoted(content)}"
        case str(name):
            return ATOMS.get(name, f"!v_{name}")
        case ("call", name, *values):
            return f"f_{name} {listed(values)}"
        case ("spawn" | "guard" | "withnack" as word, name, *values):
            return f"{word} (f_{name}, {listed(values)})"
        case ("wrap", event, name, *values):
            return f"wrap ({expression(event)}, f_{name}, {listed(values)})"
        case ("choose", *events):
            return f"choose {listed(events)}"
        case ("mvar", *values):
            return f"new_mvar {listed(values)}"
        case ("=", left, right):
            return f"Truth (same ({expression(left)}, {expression(right)}))"
        case ("pair", left, right):
            return f"Pair ({expression(left)}, {expression(right)})"
        case ("exit",):
            return "(raise Exit)"
        case ("yield",):
            return "(CML.yield (); Unit)"
        case (str(word), *values):
            return f"{WORDS.get(word, word)} ({', '.join(map(expression, values))})"
    raise ValueError(form)


def listed(forms: list[Form]) -> str:
    return f"[{', '.join(map(expression, forms))}]"
