#!/usr/bin/env python3
"""The sources of the toolchain's libraries without what our programs do not reach, so that the compiler has less to read.

    tools/reached.py    writes what was found to be reached here (out/reached) into tools/reached.txt too

The compiler of `rt try` reads all of each library that a program stands on, the bodies of all its functions too: three lines of the toolchain's for one of
ours, of which our programs reach one in six. tools/reached.txt has the functions that they reach, by library and name, for one toolchain (a method may
stand in any file of its library, so one of a name that is reached stays in each). The body of any other function is made `loop {}` before the compiler
reads it, in a copy; what else stands there, contracts and signatures, stays as it is. A function may
be reached that the list lacks, as after a change. Such a function is seen in the module that is made, since it does nothing but go round: then the module
is made once more, from the whole sources, and what the list lacked is written into out/reached, which counts from then on (`unproved.py`). So no program
is made with such a function in it.
"""
import pathlib
import re
import subprocess
import sys

sys.dont_write_bytecode = True
sys.path.insert(0, str(pathlib.Path(__file__).resolve().parent))
import toolchain  # noqa: E402

TOP = pathlib.Path(__file__).resolve().parent.parent
LIST, FOUND = TOP / "tools" / "reached.txt", TOP / "out" / "reached"
# A token of the compiler's lexer, with its place: `fn` before a name, `macro_rules`, or a bracket.
TOKEN = re.compile(rb'^\d+ (\d+) (\d+) Code "(?:fn"\n\d+ \d+ \d+ Code "(\w+)"|(macro_rules|[{}()\[\];])")', re.M)
CONST = re.compile(rb'\bconst\s+(?:unsafe\s+)?(?:extern\s+"C"\s+)?$')
SYMBOL = re.compile(r'^define [^\n]*? @(?:"([^"\n]*)"|([\w.$]+))\(', re.M)
# A function that goes to a place from which it goes to the same place.
ROUND = re.compile(r"^(?:([\w.]+):[^\n]*\n)  br label %(\1)\n", re.M)


def read(file):
    """The functions that a list has, by library, and the toolchain that it is of."""
    try:
        first, *lines = file.read_text(encoding="utf-8").splitlines()
    except (OSError, ValueError):
        return "", {}
    return first, {library: set(names.split()) for library, names in (it.split(": ") for it in lines)}


def known():
    """The functions that are known to be reached, by library; nothing where they are of another toolchain."""
    found = {}
    for file in (LIST, FOUND):
        of, names = read(file)
        if of == toolchain.line():
            for library in names:
                found.setdefault(library, set()).update(names[library])
    return found


def write(file, found):
    lines = [f"{library}: {' '.join(sorted(found[library]))}\n" for library in sorted(found)]
    file.parent.mkdir(exist_ok=True)
    file.write_text(f"{toolchain.line()}\n{''.join(lines)}", encoding="utf-8")


def bodies(text, tokens):
    """The name of each function of a file with the place of its body, between the braces: of none that is `const`, and of none that a macro writes.

    The functions in a body come after the one that it is of.
    """
    found, pairs, open_at, macro_ends = [], {}, [], 0
    events = [(int(it[1]), int(it[2]), (it[4] or b"fn").decode(), it[3]) for it in TOKEN.finditer(tokens)]
    for number, (_, _, word, _) in enumerate(events):
        if word in "([{":
            open_at.append(number)
        elif word in ")]}":
            pairs[open_at.pop()] = number
    for number, (start, _, word, name) in enumerate(events):
        if word == "macro_rules":
            macro_ends = events[pairs[number + 1]][1]
        if not name or start < macro_ends or CONST.search(text[max(0, start - 60) : start]):
            continue
        at = number + 1
        while at < len(events) and events[at][2] not in ";}":
            end = pairs.get(at)
            if events[at][2] == "{" and not re.match(rb"\s*[>,]", text[events[end][1] : events[end][1] + 20]):
                found.append((name.decode(), events[at][1], events[end][0]))
                break
            at = end + 1 if end else at + 1
    return found


def shortened(text, tokens, names):
    """The text of a file, in which only functions of these names have their bodies."""
    parts, at = [], 0
    for name, start, end in bodies(text, tokens):
        if name not in names and start >= at:
            parts += [text[at:start], b" loop {} "]
            at = end
    return b"".join([*parts, text[at:]])


def copy_shortened(kit, sources, place, found):
    """Writes the sources of these libraries, given by the folder of each, into the folder, without what is not reached."""
    files = [(name, folder, it) for name, folder in sources.items() for it in sorted(folder.rglob("*.rt"))]
    words = [kit / "bin" / "rattle", "fmt", "--tokens", *(it for _, _, it in files)]
    ran = subprocess.run(words, stdin=subprocess.DEVNULL, capture_output=True, check=False)
    tokens = re.split(rb"^file \d+\n", ran.stdout, flags=re.M)[1:]
    if ran.returncode or len(tokens) != len(files):
        raise toolchain.Changed("`rattle fmt --tokens` does not print the tokens of each file")
    for (name, folder, file), its in zip(files, tokens):
        path = f"{name}/src/{file.relative_to(folder)}"
        (place / path).parent.mkdir(parents=True, exist_ok=True)
        (place / path).write_bytes(shortened(file.read_bytes(), its, found.get(name, ())))


def shorten(words, place):
    """The words of the compiler's call with shortened sources, which are written into the folder; nothing where no list is of this toolchain."""
    kit, found = toolchain.folder(), known()
    given = [re.fullmatch(r"(\w+):[^=]*=(.*/src)/lib\.rt", it) for it in words]
    given = [it for it in given if it and (kit / "rlibs" / f"{it[1]}.rlib").is_dir()]
    if not found:
        return []
    copy_shortened(kit, {it[1]: pathlib.Path(it[2]) for it in given}, place, found)
    new = {it[0]: it[0].replace(f"={it[2]}/", f"={place / it[1] / 'src'}/") for it in given}
    return [new.get(it, it) for it in words]


def goes_round(text):
    """Whether a function of the module, a text, does nothing but go round."""
    return bool(ROUND.search(text))


def of_module(text):
    """The functions of the toolchain's libraries in the module, by library."""
    found, rattle = {}, toolchain.folder() / "rattle"
    for whole, plain in set(SYMBOL.findall(text)):
        library, *path = re.sub(r"::<.*", "", whole or plain).split("::")
        if path and (rattle / library / "src").is_dir():
            found.setdefault(library, set()).add(path[-1])
    return found


def learn(text):
    """Writes down what the module, a text, shows to be reached, if there is a text."""
    if not text:
        return
    found = read(FOUND)[1] if read(FOUND)[0] == toolchain.line() else {}
    for path, names in of_module(text).items():
        found.setdefault(path, set()).update(names)
    write(FOUND, found)


def lacking():
    """What was found to be reached here and the list lacks, each as library and name: because of it the sources are read twice."""
    listed, found = read(LIST)[1], read(FOUND)[1]
    return [f"{library} {name}" for library in sorted(found) for name in sorted(found[library] - listed.get(library, set()))]


def main():
    if sys.argv[1:]:
        sys.exit(__doc__)
    write(LIST, known())
    FOUND.unlink(missing_ok=True)


if __name__ == "__main__":
    main()
