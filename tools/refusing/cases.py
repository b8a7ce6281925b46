"""The cases of the whole program, read from the files in `crates/cml_cases/data`. That crate says how these are written."""
import collections
import pathlib
import re

FOLDER = pathlib.Path(__file__).resolve().parent.parent.parent / "crates" / "cml_cases"
ESCAPE = re.compile(rb"\\(n|\\|x[0-9a-f]{2})")

Case = collections.namedtuple("Case", "name words files input output errors status saved")


def unescaped(text):
    """The bytes of a text in which a backslash begins an escape."""
    return ESCAPE.sub(lambda it: {b"n": b"\n", b"\\": b"\\"}.get(it[1]) or bytes.fromhex(it[1][1:].decode()), text.encode())


class Block:
    """A head, and the text below it; of a session what is typed stands apart."""

    def __init__(self, head):
        self.head, self.text, self.typed, self.blank = head, b"", b"", 0

    def line(self, line):
        if not line:
            self.blank += 1
        elif self.head == "-- session" and line.startswith(">"):
            self.add(b"")
            self.typed += line[1:].encode() + b"\n"
        else:
            self.add(line.encode() + b"\n")

    def add(self, text):
        self.text += b"\n" * self.blank + text
        self.blank = 0


def blocks_of(text, before):
    """The blocks of a file. It may put in texts of the blocks before it."""
    blocks = [*before, Block("")]
    for line in text.split("\n")[:-1]:
        mark, _, words = line.removeprefix("-- ").partition(" ") if line.startswith("-- ") else ("", "", "")
        if mark == "put":
            blocks[-1].add(next(it.text for it in reversed(blocks[:-1]) if it.head == f"-- text {words}"))
        elif mark == "times":
            times, _, it = words.partition(" ")
            blocks[-1].add(unescaped(it) * int(times))
        elif mark == "count":
            first, last, it = words.split(" ", 2)
            blocks[-1].add(b"".join(unescaped(it).replace(b"#", b"%d" % number) for number in range(int(first), int(last) + 1)))
        elif line == "-- unended":
            blocks[-1].text = blocks[-1].text[:-1]
        elif mark or line.startswith("== "):
            blocks.append(Block(line))
        else:
            blocks[-1].line(line)
    return blocks[len(before) :]


def texts_of(blocks):
    """The texts that have a name."""
    return {it.head.removeprefix("-- text "): it.text.decode() for it in blocks if it.head.startswith("-- text ")}


def cases_of(blocks):
    """The cases that the blocks say, one for each run of them."""
    found = []
    for block in blocks:
        if block.head.startswith("== "):
            found.append((block.head.removeprefix("== "), block.text.decode().splitlines(), {}, []))
        elif block.head and not block.head.startswith("-- text "):
            kind, _, name = block.head.removeprefix("-- ").partition(" ")
            _, _, texts, files = found[-1]
            if kind == "session":
                texts.update(input=block.typed, output=block.text)
            elif kind == "file":
                files.append((name, block.text))
            else:
                texts[kind] = block.text
    for name, lines, texts, files in found:
        own = dict(line.split(": ", 1) for line in lines if ": " in line and not line.startswith(";"))
        say = {kind: texts.get(kind, b"").decode("utf-8", "surrogateescape") for kind in ("output", "errors", "saved")}
        given = texts.get("input", b"spawn\n").decode("utf-8", "surrogateescape")
        told = tuple((it, text.decode("utf-8", "surrogateescape")) for it, text in files)
        for line in lines:
            if line.startswith(("args: ", "terminal: ")):
                yield Case(name=name, words=line.split(": ", 1)[1], files=told, input=given, status=int(own.get("status", 0)), **say)


def all_blocks():
    """The blocks of each file, by its name, in the order in which the program is given them."""
    found, before = {}, []
    for name in (FOLDER / "args").read_text(encoding="utf-8").split():
        found[name] = blocks_of((FOLDER / "data" / name).read_text(encoding="utf-8"), before)
        before += found[name]
    return found


def of_files(*names):
    found = all_blocks()
    return [it for name in names for it in cases_of(found[f"{name}.cases"])]


def traces():
    return of_files("traces", "example-traces", "limits")


def scripts():
    return of_files("runs", "replays")


def shared():
    """The texts that the cases of several files have in common."""
    return texts_of(all_blocks()["shared.cases"])
