"""Scripts as Python data: read from their text, written again, and looked through.

A form is a number, a name (a `str`), a text literal, or a list of forms (a tuple). docs/NOTATION.md says what each means.
"""
import re
from collections.abc import Iterator
from dataclasses import dataclass
from typing import Union

TOKEN = re.compile(r'(?P<skip>\s+|;[^\n]*)|(?P<mark>[()])|"(?P<text>(?:[^"\\]|\\.)*)"|(?P<word>[^\s()";]+)', re.DOTALL)
ESCAPES = {'\\"': '"', "\\\\": "\\", "\\n": "\n"}


@dataclass(frozen=True)
class Text:
    """A text literal, by the characters that it stands for."""
    content: str


Form = Union[int, str, Text, tuple["Form", ...]]


@dataclass(frozen=True)
class Function:
    """`(fn NAME (PARAMETER*) STATEMENT*)`"""
    name: str
    parameters: tuple[str, ...]
    body: tuple[Form, ...]


Script = tuple[Function, ...]


class Unreadable(Exception):
    """The text is no script."""


def read(text: str) -> Script:
    """The script of this text. What `cml check` would refuse beyond its shape is not looked at."""
    return tuple(function_of(form) for form in forms_of(text))


def forms_of(text: str) -> tuple[Form, ...]:
    open_lists: list[list[Form]] = [[]]
    for token in tokens_of(text):
        if token == "(":
            open_lists.append([])
        elif token == ")":
            if len(open_lists) == 1:
                raise Unreadable("a `)` closes no list")
            closed = tuple(open_lists.pop())
            open_lists[-1].append(closed)
        else:
            open_lists[-1].append(token)
    if len(open_lists) > 1:
        raise Unreadable("a list is not closed")
    return tuple(open_lists[0])


def tokens_of(text: str) -> Iterator[Form]:
    place = 0
    while place < len(text):
        token = TOKEN.match(text, place)
        if not token:
            raise Unreadable(f"character {place} fits nowhere")
        place = token.end()
        if token["mark"]:
            yield token["mark"]
        elif token["text"] is not None:
            yield Text(re.sub(r"\\.", lambda escape: ESCAPES[escape[0]], token["text"]))
        elif token["word"]:
            yield int(token["word"]) if re.fullmatch(r"-?\d+", token["word"]) else token["word"]


def function_of(form: Form) -> Function:
    match form:
        case ("fn", str(name), tuple(parameters), *body):
            return Function(name, parameters, tuple(body))
    raise Unreadable(f"this is no function: {written(form)[:40]}")


def write(script: Script) -> str:
    """The script's text: a statement a line."""
    return "".join(written_function(function) for function in script)


def written_function(function: Function) -> str:
    head = f"(fn {function.name} ({' '.join(function.parameters)})"
    return "\n  ".join([head, *map(written, function.body)]) + ")\n"


def written(form: Form) -> str:
    match form:
        case tuple(parts):
            return "(" + " ".join(map(written, parts)) + ")"
        case Text(content):
            return '"' + content.replace("\\", "\\\\").replace('"', '\\"').replace("\n", "\\n") + '"'
    return str(form)


def parts_of(form: Form) -> Iterator[Form]:
    """The form, and all that stands in it."""
    yield form
    if isinstance(form, tuple):
        for part in form:
            yield from parts_of(part)


def words_of(script: Script) -> set[str]:
    """The keywords that the script has: the heads of its lists, and `never`."""
    forms = [part for function in script for statement in function.body for part in parts_of(statement)]
    heads = {form[0] for form in forms if isinstance(form, tuple) and form and isinstance(form[0], str)}
    return heads | ({"never"} if "never" in forms else set())


def variables_of(function: Function) -> list[str]:
    """What the function declares by `let` and does not have as a parameter, each once, in the order of the text."""
    declared = [form[1] for statement in function.body for form in parts_of(statement)
                if isinstance(form, tuple) and len(form) == 3 and form[0] == "let"]
    return [name for name in dict.fromkeys(declared) if name not in function.parameters]
