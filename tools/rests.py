"""What the verdict on an edit rests on. tools/gate makes its sums of this.

Of the function that the edit changes: its whole text, and its answers and invariants. (Of functions that call one another in a ring: those of
each of them.) Of the rest of its crate: specs, lemmas, types, traits and constants, and the contracts of the functions that it can name.
Of a crate below: what a crate above can read of it, as far as a text names it that counts itself: a file of specs or lemmas, a function, a
type. What is named nowhere cannot be called, and no goal can cite it. The body of another function is in none of these, and no line that is a
comment, since of comments the prover makes nothing; how imports are laid out does not count.

    python3 tools/rests.py      changes parts of a small crate, and says whether those count, and no others, that should
"""
import functools
import pathlib
import re
import tempfile

PARTS = ("src", "specs", "proofs")
COMMENTS = {".rt": b"//", ".antt": b"--"}  # what a line that is a comment begins with
OF_PROOFS = ("Answers.antt", "Invariants.antt")
HEAD = re.compile(r"( *)(pub(?:\([^)]*\))? )?(?:const )?(?:unsafe )?fn (\w+)")
OWNER = re.compile(r"(?:pub(?:\([^)]*\))? )?(?:unsafe )?(impl|trait)\b(.*)")
USE = re.compile(r"(?:ghost )?use ")  # of a module, and of no other
IMPORT = re.compile(r"^((?:ghost )?use )([^;]*);$", re.M)
STATED = re.compile(rb"use ([^{}]+)\.\{([^{}]*)\}")  # an import of a file of specs or lemmas
PASSED_ON = re.compile(r"^pub use ([^;]*);$", re.M)  # what a crate passes on under its own name
FRAME = re.compile(r"(?:pub(?:\([^)]*\))? )?mod \w+;|(?:unsafe )?impl\b.*\{|\}")  # of a file, around its functions and types
LISTED = re.compile(r"^pub mod (\w+)$", re.M)
STANDS_IN = re.compile(r"\b(?:specs|proofs)(?:\.\w+)+")  # the file of specs or lemmas that an import names, and what in it
DECLARED = re.compile(r"\b(?:struct|enum|union|trait|type|const|static) (\w+)")
CYCLE = re.compile(r"#\[cycle\((\w+)")
WORD = re.compile(r"\w+")
FOR_ITSELF = ("#[tactic", "#[inline")  # attributes that say nothing to another function


def told(file):
    """What a verdict rests on of a file: its text without the lines that are comments, of which the prover makes nothing. A line within a
    text in quotes is none."""
    text = file.read_bytes()
    lines = told_lines(text, COMMENTS.get(file.suffix))
    return text if lines is None else b"\n".join(laid_out([line for _, line, _ in lines]))


def laid_out(lines):
    """These lines with one for each name that they import from specs or lemmas, in order, before all others."""
    uses = [(line, STATED.fullmatch(line)) for line in lines]
    names = {b"use %s.{%s}" % (found[1], name.strip()) for _, found in uses if found for name in found[2].split(b",")}
    return [*sorted(names), *[line for line, found in uses if not found]]


def told_lines(text, mark):
    """The lines of a text that are no comments, each with its number, and whether it begins within a text in quotes. None where there is no
    telling."""
    left, is_quoted = [], False
    for number, line in enumerate(text.split(b"\n"), 1) if mark else ():
        if is_quoted or not line.lstrip().startswith(mark):
            left.append((number, line, is_quoted))
            is_quoted ^= re.sub(rb"\\.|'\"'", b"", line).count(b'"') % 2 == 1
    return None if is_quoted or not mark else left


class Source:
    """A source file, cut into its functions, known by their layout, its private imports, and the rest. What is laid out otherwise stays in the
    rest, as does all of a file that has macros."""

    def __init__(self, file):
        text = file.read_bytes()
        lines = None if b"macro_rules!" in text else told_lines(text, COMMENTS[".rt"])
        self.numbers, self.lines, self.quoted = [list(it) for it in zip(*lines or [])] or [[], [], []]
        self.lines = [it.decode("utf-8", "surrogateescape") for it in self.lines]
        self.functions, uses, rest = [], [], []
        self.cut(uses, rest)
        self.uses, self.rest = "\n".join(uses), "\n".join(rest) if lines else text.decode("utf-8", "surrogateescape")
        # (each name that is imported, with the word that stands for it)
        self.imports = [(kind + path, word_for(path)) for kind, tree in IMPORT.findall(self.uses) for path in paths_of(tree)]

    def cut(self, uses, rest):
        owner, attributes, at = "", 0, 0
        while at < len(self.lines):
            line = "" if self.quoted[at] else self.lines[at]
            if line.lstrip().startswith("#["):
                end = attribute_end(self.lines, at)
                attributes, at = attributes + end - at, end
                continue
            if line and not line.startswith((" ", "}")):
                owner = line if OWNER.match(line) else ""
            found = HEAD.match(line)
            body, end = self.body_of(at, found[1]) if found else (at, None)
            if end is not None:
                self.functions.append(Function(self, owner if found[1] else "", found, at - attributes, at, body, end))
            elif USE.match(line) and not attributes:
                end = next((n for n in range(at, len(self.lines)) if self.lines[n].endswith(";")), at)
                uses += self.lines[at : end + 1]
            elif line or self.quoted[at]:
                rest += self.lines[at - attributes : at + 1]
            at, attributes = (at if end is None else end) + 1, 0

    def body_of(self, at, margin):
        """Where the body of a function begins and ends that has its head here, as the layout has it: what opens the body, and what closes it,
        stands below the first word. What a trait asks for has no body, and ends with its contract."""
        depth = 0
        for n in range(at, len(self.lines)):
            line = self.lines[n]
            depth += sum(map(line.count, "({[")) - sum(map(line.count, ")}]"))
            is_below = n == at or line.startswith(margin) and line[len(margin) :][:1] not in ("", " ")
            if is_below and line.endswith("{"):
                ends = (it for it in range(n + 1, len(self.lines)) if self.lines[it] == margin + "}" and not self.quoted[it])
                return n, next(ends, None)
            if is_below and line.endswith("{}") or not depth and line.endswith(";"):
                return n, n
            if self.quoted[n] or line and not line.startswith(margin) or depth < 0:
                break
        return at, None

    def with_imports(self, text):
        """A text that stands in the file, with the private imports of the names in it."""
        words = {*WORD.findall(text)}
        return "\n".join([text, *sorted({use for use, word in self.imports if word in words or not word.isidentifier() and word in text})])

    def parts(self, path):
        """What a crate above can read of it, in parts: its functions' contracts, what it passes on, and its types with all else."""
        found = []
        for it in self.functions:
            if it.is_of_trait or it.is_public:
                found.append((it.owned_by() if it.is_of_trait else {it.name}, [path, self.with_imports(it.head)]))
        for tree in PASSED_ON.findall(self.rest):
            found += [({word} if word.isidentifier() else set(), [path, f"pub use {it}"]) for it in paths_of(tree) for word in [word_for(it)]]
        lines = [it for it in PASSED_ON.sub("", self.rest).split("\n") if it and not FRAME.fullmatch(it)]
        rest = [({*DECLARED.findall("\n".join(lines))}, [path, self.with_imports("\n".join(lines))])] if lines else []
        return [*found, *rest]

    def function_at(self, number):
        """The function that has the line of this number."""
        return next((it for it in self.functions if number in it.numbers), None)


class Function:
    """A function of a source file. `numbers` are those of its lines, from its first attribute on, and `body` is that of the line that opens its
    body. `head` is what another function can rest on: its contract, below the first line of the impl or trait that it belongs to."""

    def __init__(self, source, owner, found, first, at, body, end):
        attributes, lines = source.lines[first:at], source.lines
        self.owner, self.name, self.is_public = owner, found[3], found[2] == "pub "
        self.is_of_trait = bool(owner) and (OWNER.match(owner)[1] == "trait" or " for " in owner)
        self.cycle = next((it[1] for it in map(CYCLE.search, attributes) if it), None)
        self.numbers, self.body = range(source.numbers[first], source.numbers[end] + 1), source.numbers[body]
        self.text = "\n".join([owner, *lines[first : end + 1]])
        # (an empty body stands behind the contract)
        opened = [*lines[at:body], re.sub(r"\{\}$", "{", lines[body])]
        self.head = "\n".join([owner, *[it for it in attributes if not it.lstrip().startswith(FOR_ITSELF)], *opened])

    def owned_by(self):
        """The names of the type, or of the trait, to which a trait's function belongs; none where it may belong to each type."""
        found = re.match(r"(?:pub(?:\([^)]*\))? )?(?:unsafe )?(?:impl\b.*? for|trait) &?(?:mut )?(?:\w+::)*(\w\w+)", self.owner)
        return {found[1]} if found else set()


class Part:
    """A part of what a crate shows: its texts, the names by which another text cites it, and the words that stand in it."""

    def __init__(self, names, texts):
        self.names, self.texts = names, [as_text(it) for it in texts]
        self.words = words_of(" ".join(self.texts[1:]))


def words_of(text):
    """The words of a text, and the files of specs and lemmas that its imports name, as `specs.Numbers`."""
    rooms = [it.split(".") for it in STANDS_IN.findall(text)]
    return {*WORD.findall(text), *(".".join(it[:n]) for it in rooms for n in range(2, len(it) + 1))}


def cited(own, lows):
    """What the verdicts on a crate's edits rest on of the crates below it, which are given with their names: of each the parts that the crate
    cites, or another part that is cited."""
    words, counted = own.words(), []
    left = [((name, at), part) for name, low in lows.items() for at, part in enumerate(low.shown())]
    while left:
        taken = [(place, part) for place, part in left if not part.names or not words.isdisjoint(part.names)]
        if not taken:
            break
        counted += taken
        words.update(*[part.words for _, part in taken])
        places = {place for place, _ in taken}
        left = [it for it in left if it[0] not in places]
    return [text for (name, _), part in sorted(counted, key=place_of) for text in (name, *part.texts)]


def place_of(pair):
    return pair[0]


def as_text(text):
    return text if isinstance(text, str) else text.decode("utf-8", "surrogateescape")


class Crate:
    """What the verdicts on a crate's edits rest on, of its own files, and what those on edits of a crate above do. Each is a list of texts."""

    def __init__(self, folder):
        self.folder = folder
        files = [(it.relative_to(folder).as_posix(), it) for part in PARTS for it in files_of(folder / part)]
        self.sources = {path: source_at(file) for path, file in files if file.suffix == ".rt"}
        self.told = {path: told(file) for path, file in files}
        self.proofs = {path: it for path, file in files for it in [function_of(folder, file)] if it}
        self.functions = [(path, it) for path, source in self.sources.items() for it in source.functions]
        self.names = {it.name for _, it in self.functions}
        # (a function may stand under another name where it is called)
        self.renamed = " ".join(use for it in self.sources.values() for use in f"{it.uses}\n{it.rest}".split("\n") if " as " in use)

    def words(self):
        """All words that stand in it, and the files that it imports."""
        uses = [use for it in self.sources.values() for use, _ in it.imports]
        return words_of("\n".join([*map(as_text, self.told.values()), *uses]))

    def whole(self):
        return [it for path, text in self.told.items() for it in (path, text)]

    def stated(self):
        """The specs, the lemmas, and what else is no source and no function's proof."""
        return [it for path, text in self.told.items() if path not in self.sources and path not in self.proofs for it in (path, text)]

    @functools.lru_cache(maxsize=None)
    def shown(self):
        """What a crate above can read of it, in parts: that is not how a function does what its contract says, and no function that the crate
        keeps to itself. Each part has the names of which one must stand in a text for the text to cite it; none where it counts for each."""
        found = []
        for path, text in self.told.items():
            if path in self.sources or path in self.proofs:
                continue
            room = path.removesuffix(".antt").replace("/", ".")
            if room.endswith(".Lib"):  # (a list of files)
                found += [({f"{room.removesuffix('Lib')}{it[1]}"}, [path, it[0]]) for it in LISTED.finditer(as_text(text))]
            else:
                found.append(({room} if path.endswith(".antt") else set(), [path, text]))
        for path, source in self.sources.items():
            found += source.parts(path)
        return [Part(names, texts) for names, texts in found]

    def frame(self):
        """What each function of the crate can rest on."""
        found = self.stated()
        for path, source in self.sources.items():
            heads = [it.head for it in source.functions if it.is_of_trait]
            found += [path, source.with_imports("\n".join([source.rest, *heads]))]
        return found

    def of_functions(self, changed, edit):
        """What a verdict on an edit of these functions rests on, beside the frame: the functions, with those of their rings and with their proofs,
        and the contracts of all that these, or the edit, can name."""
        cycles = {it.cycle for it in changed if it.cycle}
        ring = [it for it in self.functions if it[1] in changed or it[1].cycle in cycles]
        names = {*(f"+{it}" for it in cycles), *(it.name for _, it in ring)}
        # (what belongs to no function that is known counts for each)
        proofs = [at for at, name in self.proofs.items() if name in names or name not in self.names and not name.startswith("+")]
        found = [text for at in {it: None for it, _ in ring} for text in (at, *sorted({use for use, _ in self.sources[at].imports}))]
        found += [text for at, it in ring for text in (at, it.text)]
        found += [text for at in proofs for text in (at, self.told[at].decode("utf-8", "surrogateescape"))]
        words = {*WORD.findall(" ".join([edit, self.renamed, *found]))}
        for at, it in self.functions:
            if it.name in words and not it.is_of_trait:
                found += [at, self.sources[at].with_imports(it.head)]
        return found


@functools.lru_cache(maxsize=None)
def source_at(file):
    return Source(file)


def files_of(folder):
    return sorted(it for it in folder.rglob("*") if it.is_file()) if folder.is_dir() else []


def function_of(folder, file):
    """The function, or ring of functions, whose answers or invariants this file has. Nothing else cites it. A lemma file may have the same name;
    that is declared beside its folder."""
    folders = file.relative_to(folder).parts[:-1]
    if file.name not in OF_PROOFS or folders[0] != "proofs" or len(folders) < 2 or file.parent.with_suffix(".antt").exists():
        return None
    # (those of a closure lie in a folder of its function)
    return folders[folders.index("fn") + 1] if "fn" in folders[:-1] else folders[-1]


def attribute_end(lines, at):
    """Where the line after an attribute stands."""
    depth = 0
    for n in range(at, len(lines)):
        depth += lines[n].count("[") - lines[n].count("]")
        if depth <= 0:
            return n + 1
    return len(lines)


def paths_of(tree):
    """Each path of a use declaration, as `a::b` and `a::c` of `a::{b, c}`."""
    found, above, word = [], [""], ""
    for it in [*re.findall(r"[{},]|[^{},]+", tree), ","]:
        if it == "{":
            above.append(above[-1] + word.strip())
        elif it in ("}", ",") and word.strip():
            found.append(above[-1] + word.strip())
        if it == "}":
            above.pop()
        word = "" if it in ("{", "}", ",") else it
    return found


def word_for(path):
    """The word by which a text cites what has this path; nothing, which stands in each text, where there is no telling."""
    name = re.split(r"::|\.", path.split(" as ")[-1])[-1].strip()
    return "" if name in ("self", "*", "_") else max(name.split("◌"), key=len)


TRIED = {
    "src/lib.rt": """//! Numbers.
#![tactic(auto)]
ghost use Rattle.std.specs.Prelude.{◌≡◌};
ghost use Rattle.tried.specs.Numbers.{twice, thrice};

mod more;

/// What a number is.
pub struct Number(u8);

/// Twice a number.
#[tactic(auto)]
pub fn double(x: u8) -> u8
    ensures { result ≡ twice x }
{
    shift(x)
}

pub fn triple(x: u8) -> u8
    ensures { result ≡ thrice x }
{
    double(x) + x
}
""",
    "src/more.rt": """ghost use Rattle.tried.specs.Numbers.{twice};
impl Number {
    pub(crate) fn shift(x: u8) -> u8
        ensures { result ≡ twice x }
    {
        x << 1
    }

    fn unused() {}
}
""",
    "specs/Numbers.antt": "use A.{b, c}\ntwice x = x + x\nthrice x = x + sum x\n",
    "specs/Sums.antt": "sum x = x + x\n",
    "proofs/Lemmas.antt": "one : 1 ≡ 1\n",
    "proofs/double/Answers.antt": "returns = one\n",
    "proofs/triple/Answers.antt": "returns = two\n",
}
# what is changed, with what, in which file; and whether it counts for an edit of `double`, and for a crate above
CHANGES = [
    ("src/lib.rt", "    shift(x)", "    shift(x) + 0", True, False),
    ("src/lib.rt", "{ result ≡ twice x }", "{ result ≡ twice x + 0 }", True, True),
    ("src/lib.rt", "#[tactic(auto)]\npub fn double", "#[tactic(none)]\npub fn double", True, False),
    ("src/lib.rt", "#![tactic(auto)]", "#![tactic(none)]", True, True),
    ("src/lib.rt", "double(x) + x", "x + double(x)", False, False),
    ("src/lib.rt", "{ result ≡ thrice x }", "{ result ≡ x + twice x }", False, True),
    ("src/lib.rt", "Number(u8)", "Number(u16)", True, True),
    ("src/lib.rt", "//! Numbers.", "//! Of numbers.", False, False),
    ("src/more.rt", "x << 1", "x + x", False, False),
    ("src/more.rt", "{ result ≡ twice x }", "{ result ≡ x + x }", True, False),
    ("src/more.rt", "fn unused() {}", "fn unused() {\n        shift(1);\n    }", False, False),
    ("src/more.rt", "fn unused() {}", "fn not_used() {}", False, False),
    ("src/more.rt", "    fn unused() {}", "    pub fn unused() {}", False, False),
    ("src/more.rt", "    fn unused() {}", "    pub fn sum() {}", False, True),
    ("src/lib.rt", "mod more;", "mod more;\npub use more::most;", True, False),
    ("specs/Numbers.antt", "x + x", "2 * x", True, True),
    ("specs/Numbers.antt", "use A.{b, c}", "use A.{c}\nuse A.{b}", False, False),
    ("specs/Numbers.antt", "use A.{b, c}", "use A.{b}\nuse B.{c}", True, True),
    ("specs/Sums.antt", "x + x", "2 * x", True, False),
    ("proofs/Lemmas.antt", "1 ≡ 1", "2 ≡ 2", True, False),
    ("proofs/double/Answers.antt", "one", "two", True, False),
    ("proofs/triple/Answers.antt", "two", "one", False, False),
]


ABOVE = {
    "src/lib.rt": """use tried::{double, triple, Number};
ghost use Rattle.tried.specs.Numbers.{twice};

pub fn fourfold(x: u8) -> u8
    ensures { result ≡ twice (twice x) }
{
    double(double(x))
}
""",
}


def crate_of(texts, room):
    for path, text in texts.items():
        file = pathlib.Path(room, path)
        file.parent.mkdir(parents=True, exist_ok=True)
        file.write_text(text, encoding="utf-8")
    return Crate(pathlib.Path(room))


def resting(texts):
    """What a verdict on an edit of `double` rests on in a crate of these files, and what one of a crate above does."""
    with tempfile.TemporaryDirectory() as room, tempfile.TemporaryDirectory() as upper:
        crate, above = crate_of(texts, room), crate_of(ABOVE, upper)
        changed = [it for _, it in crate.functions if it.name == "double"]
        return crate.frame() + crate.of_functions(changed, ""), cited(above, {"tried": crate})


def try_itself():
    """The changes of which it says another thing than it should."""
    before, wrong = resting(TRIED), []
    for path, old, new, *wanted in CHANGES:
        after = resting({**TRIED, path: TRIED[path].replace(old, new, 1)})
        if [one != other for one, other in zip(before, after)] != wanted or TRIED[path].count(old) < 1:
            wrong.append(f"{path}: {old} -> {new}: {[one != other for one, other in zip(before, after)]}")
    return wrong


if __name__ == "__main__":
    found = try_itself()
    print("\n".join([*found, f"{len(CHANGES) - len(found)} passed, {len(found)} failed"]))
    raise SystemExit(bool(found))
