"""What a peer is: a runtime into whose language scripts are translated, and which runs them."""
import json
import subprocess
import tempfile
from abc import ABC, abstractmethod
from collections.abc import Mapping
from pathlib import Path

from kit.outcome import Outcome
from kit.script import Form, Script, parts_of, words_of

PEERS = Path(__file__).resolve().parent.parent


class Failed(Exception):
    """The peer did not run the program to its end; its own words say why. `known` is the known way by which that may be."""
    known: str | None = None


class Peer(ABC):
    """A runtime. `cannot` has the keywords that it can't say, each with the reason."""
    name: str
    cannot: Mapping[str, str]

    def refusal(self, script: Script) -> str | None:
        """Which keyword of the script the peer can't say, and why; None if it can say all."""
        for word in sorted(words_of(script) & set(self.cannot)):
            return f"{word}: {self.cannot[word]}"
        return None

    @abstractmethod
    def version(self) -> str:
        """The peer's name and version, as its own command tells it."""

    @abstractmethod
    def block(self, script: Script, times: int, seed: int) -> str:
        """A part of a program, in the peer's language, that runs the script so often and tells each outcome by a line of JSON."""

    def program(self, blocks: list[str]) -> str:
        """The program of these parts, one after another."""
        return "\n".join(blocks)

    @abstractmethod
    def run(self, program: str, seconds: float) -> str:
        """What the program writes; it may take so many seconds."""

    def outcomes(self, scripts: list[Script], times: int, seed: int, seconds: float) -> list[list[Outcome]]:
        """Of each script the outcome of each run. All scripts are run by one program."""
        if not scripts:
            return []
        told = self.run(self.program([self.block(script, times, seed) for script in scripts]), seconds + 10 * len(scripts))
        seen = [Outcome.of(json.loads(line)) for line in told.splitlines() if line.startswith("{")]
        if len(seen) != times * len(scripts):
            raise Failed(f"{len(seen)} of {times * len(scripts)} runs were told: {told[-300:]}")
        return [seen[place:place + times] for place in range(0, len(seen), times)]


def output_of(command: list[str], given: str, seconds: float, folder: Path | None = None) -> str:
    """What a command writes, to both of its streams."""
    try:
        done = subprocess.run(command, input=given, capture_output=True, text=True, timeout=seconds, cwd=folder, check=False)
    except subprocess.TimeoutExpired as late:
        raise Failed(f"it still ran after {seconds:.0f} seconds") from late
    return done.stdout + done.stderr


def built(name: str) -> Path:
    """The folder where what is made once for a peer is kept."""
    folder = PEERS / "out" / name
    folder.mkdir(parents=True, exist_ok=True)
    return folder


def scratch() -> tempfile.TemporaryDirectory:
    return tempfile.TemporaryDirectory(prefix="judge-")


def quoted(text: str) -> str:
    """A text literal, as SML, OCaml, Racket and Go write it alike."""
    return '"' + text.replace("\\", "\\\\").replace('"', '\\"').replace("\n", "\\n") + '"'


def returns_early(body: tuple[Form, ...]) -> bool:
    """Whether a `return` stands anywhere but at the end."""
    return any(isinstance(form, tuple) and form and form[0] == "return"
               for place, statement in enumerate(body)
               for form in parts_of(statement)
               if form is not body[-1])
