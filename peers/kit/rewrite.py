"""Scripts made from scripts: forms replaced, functions added."""
from collections.abc import Callable

from kit.script import Form, Function, Script, parts_of

Change = Callable[[Form], Form]


def rewritten(form: Form, change: Change) -> Form:
    """The form with each part, the innermost first, changed."""
    if isinstance(form, tuple):
        form = tuple(rewritten(part, change) for part in form)
    return change(form)


def outermost(form: Form, change: Change) -> Form:
    """The form with what is changed in it changed; what stands inside a changed part is left as it is."""
    changed = change(form)
    if changed != form or not isinstance(form, tuple):
        return changed
    return tuple(outermost(part, change) for part in form)


def everywhere(script: Script, change: Change) -> Script:
    """The script with each form of its bodies changed. Names of functions, and of what a `let` or a `set` sets, are forms too."""
    return tuple(Function(of.name, of.parameters, tuple(rewritten(form, change) for form in of.body)) for of in script)


def called_by(script: Script, word: str) -> list[str]:
    """Which functions stand behind this word (`guard`, `withnack`, `wrap`, `spawn` or `call`), each once."""
    place = 2 if word == "wrap" else 1
    forms = [part for of in script for form in of.body for part in parts_of(form)]
    return list(dict.fromkeys(form[place] for form in forms if isinstance(form, tuple) and form[:1] == (word,)))


def named(script: Script) -> dict[str, Function]:
    return {of.name: of for of in script}
