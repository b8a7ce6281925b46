"""Smaller scripts: those that a script becomes if a part is left out."""
from collections.abc import Callable, Iterator

from kit.rewrite import everywhere
from kit.script import Form, Function, Script, parts_of

EVENTS = frozenset("always send recv swap iget mtake mget mswap mailrecv portrecv join choose wrap guard withnack".split())


def smaller(script: Script) -> Iterator[Script]:
    """Each script with one part less; large parts first. Some of them are no scripts: a name may be left that is declared nowhere."""
    for place, of in enumerate(script):
        for body in shorter(of.body):
            yield used(script[:place] + (Function(of.name, of.parameters, body),) + script[place + 1:])
    for of in script:
        yield from (without_parameter(script, of, name) for name in of.parameters if not mentions(of, name))


def shorter(body: tuple[Form, ...]) -> Iterator[tuple[Form, ...]]:
    """The statements with one left out, or with one made smaller."""
    for place, form in enumerate(body):
        yield body[:place] + body[place + 1:]
        for instead in simpler(form):
            yield body[:place] + instead + body[place + 1:]


def simpler(form: Form) -> Iterator[tuple[Form, ...]]:
    """What may stand in a statement's place."""
    match form:
        case ("if", condition, ("do", *then), ("do", *otherwise)):
            yield tuple(then)
            yield tuple(otherwise)
            yield from ((("if", condition, ("do", *less), ("do", *otherwise)),) for less in shorter(tuple(then)))
            yield from ((("if", condition, ("do", *then), ("do", *less)),) for less in shorter(tuple(otherwise)))
        case ("let", _, ("sync", _) as effect):
            yield (effect,)
    yield from ((less,) for less in less_of(form))


def less_of(form: Form) -> Iterator[Form]:
    """The form with one of the events in it made smaller."""
    if not isinstance(form, tuple) or not form:
        return
    if form[0] in EVENTS:
        yield "never"
    if form[0] == "choose":
        yield from form[1:]
        yield from (form[:place] + form[place + 1:] for place in range(1, len(form)))
    if form[0] == "wrap":
        yield form[1]
    for place, part in enumerate(form):
        yield from (form[:place] + (less,) + form[place + 1:] for less in less_of(part))


def mentions(of: Function, name: str) -> bool:
    return any(part == name for form in of.body for part in parts_of(form))


def without_parameter(script: Script, of: Function, name: str) -> Script:
    """The function without this parameter, and each list that names the function without the value for it."""
    place = of.parameters.index(name)

    def given(form: Form) -> Form:
        if not isinstance(form, tuple) or form[:1] not in (("call",), ("spawn",), ("guard",), ("withnack",), ("wrap",)):
            return form
        head = 2 if form[0] == "wrap" else 1
        at = head + 1 + place
        return form[:at] + form[at + 1:] if form[head] == of.name and at < len(form) else form

    fewer = Function(of.name, of.parameters[:place] + of.parameters[place + 1:], of.body)
    return everywhere(tuple(fewer if each is of else each for each in script), given)


def used(script: Script) -> Script:
    """The functions that `main` comes to name, by itself or by another."""
    by_name = {of.name: of for of in script}
    reached, ahead = set(), ["main"]
    while ahead:
        name = ahead.pop()
        if name in by_name and name not in reached:
            reached.add(name)
            ahead += [part for form in by_name[name].body for part in parts_of(form) if isinstance(part, str)]
    return tuple(of for of in script if of.name in reached)


def size(script: Script) -> int:
    return sum(1 for of in script for form in of.body for _ in parts_of(form)) + sum(len(of.parameters) for of in script)


def smallest(script: Script, is_at_odds: Callable[[list[Script]], list[bool]], tries: int, at_once: int = 12) -> Script:
    """A smaller script that is at odds too; none that it becomes by one part less is, unless so many tries did not suffice.
    The tries are asked for several at a time."""
    while tries > 0:
        candidates = [less for less in dict.fromkeys(smaller(script)) if size(less) < size(script)]
        found = None
        for place in range(0, min(len(candidates), tries), at_once):
            some = candidates[place:place + at_once]
            tries -= len(some)
            found = next((less for less, odd in zip(some, is_at_odds(some)) if odd), None)
            if found:
                break
        if not found:
            break
        script = found
    return script
