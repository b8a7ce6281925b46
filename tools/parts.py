"""Cuts a module of LLVM, written as text, in parts that are compiled side by side.

What `main` does not reach is left out. The rest is shared out in the order in which it stands, a function with the one that alone calls it. What is
used in another part is no longer internal, but hidden: the linker finds it. A part also has the body of each small function of other parts that
it calls, marked `available_externally`: to be put in place of a call, and not to be compiled again. So hardly any speed is lost.
"""
import collections
import re

NAME = re.compile(r'@("[^"]*"|[\w.$]+)')
SMALL = 4000  # letters of a function up to which its body goes along
# The compiler of `rt try` fills each place of a function with a pattern before anything is written to it.
FILL = re.compile(r"( = alloca [^\n]*\n)  call void @llvm\.memset\.p0\.i64\(ptr %[\w.]+, i8 -86, i64 \d+, i1 false\)\n")
COPIED = " private unnamed_addr constant "  # a constant whose address nobody asks for: each part has its own


class Module:
    """A module: its first lines, its statics, functions and declarations by name, and its last lines."""

    def __init__(self, text):
        first, *pieces = text.split("\ndefine ")
        self.functions, rest = {}, []
        for piece in pieces:
            end = piece.index("\n}\n") + 3
            self.functions[NAME.search(piece)[1]] = piece[:end]
            rest += [it for it in piece[end:].split("\n") if it and not it.startswith(";")]
        lines = first.split("\n")
        self.statics = {NAME.match(it)[1]: it for it in lines if it.startswith("@")}
        self.first = [it for it in lines if not it.startswith(("@", ";"))]
        self.declared = {NAME.search(it)[1]: it for it in rest if it.startswith("declare ")}
        self.last = [it for it in rest if not it.startswith("declare ")]
        known = {*self.functions, *self.statics, *self.declared}
        told = {**self.functions, **self.statics}
        self.uses = {name: [it for it in dict.fromkeys(NAME.findall(text)) if it != name and it in known] for name, text in told.items()}

    def reached(self, names, goes_on):
        """These names, and what they use, over those of which `goes_on` holds."""
        found = dict.fromkeys(names)
        left = list(found)
        while left:
            for it in self.uses.get(left.pop(), ()):
                if it not in found and goes_on(it):
                    found[it] = None
                    left.append(it)
        return found

    def is_copied(self, name):
        return name in self.statics and COPIED in self.statics[name]


def shares(module, names, count):
    """Which part each of these functions belongs to."""
    size = {it: len(module.functions[it]) for it in names}
    callers, whole = collections.defaultdict(list), sum(size.values())
    for name in names:
        for it in module.uses[name]:
            callers[it].append(name)
    heads, sums = {}, dict(size)

    def head(name):
        while name in heads:
            name = heads[name]
        return name

    for name in names:
        above = head(callers[name][0]) if len(callers[name]) == 1 else name
        if above != head(name) and sums[above] + sums[name] <= whole / (8 * count):
            heads[name] = above
            sums[above] += sums[name]
    groups = collections.defaultdict(list)
    for name in names:
        groups[head(name)].append(name)
    part, at, passed = {}, 0, 0
    for group in groups.values():
        part.update(dict.fromkeys(group, at))
        passed += sum(size[it] for it in group)
        at += at + 1 < count and passed > whole * (at + 1) / count
    return part


def parts(text, count):
    """The texts of so many parts, without the fills. A ValueError, AttributeError or TypeError where the text is not of this form."""
    module = Module(FILL.sub(r"\1", text))
    if not all(it.startswith("internal ") or NAME.search(it)[1] == "main" for it in module.functions.values()) or "main" not in module.functions:
        raise ValueError("a function is not internal")
    alive = module.reached(["main"], lambda it: True)
    part = shares(module, [it for it in module.functions if it in alive], count)
    fixed = [it for it in module.statics if it in alive and not module.is_copied(it)]
    whole, shown = [], {"main"}
    for number in range(count):
        own = {it for it in part if part[it] == number} | {*(fixed if not number else ())}

        def comes_along(name):
            return module.is_copied(name) or name in part and part[name] != number and len(module.functions[name]) <= SMALL

        has = module.reached(own, comes_along)
        used = {it for name in has for it in module.uses[name]}
        whole.append((own, has, used))
        shown |= {it for it in [*has, *used] if it not in own}
    return ["\n".join(lines(module, *it, shown)) + "\n" for it in whole]


def lines(module, own, has, used, shown):
    """The lines of a part with its own functions and statics, all whose bodies it has, and all that it uses."""
    yield from module.first
    for name, line in module.statics.items():
        if name in own:
            yield line.replace(" private ", " hidden ", 1)
        elif name in has:
            yield line
        elif name in used:
            yield f"@{name} = external hidden global i8"
    for name, text in module.functions.items():
        if name in own:
            yield "define " + (text.replace("internal ", "hidden ", 1) if name in shown and name != "main" else text)
        elif name in has:
            yield "define " + text.replace("internal ", "available_externally hidden ", 1)
        elif name in used:
            yield "declare " + text[: text.index(" {\n")].replace("internal ", "hidden ", 1)
    for name, line in module.declared.items():
        if name in used:
            yield line
    yield from module.last
