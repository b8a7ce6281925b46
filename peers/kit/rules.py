"""The outcomes that the rules allow, as a command tells them: `cml verify FILE --outcomes`, or another."""
import json
import re
import subprocess
from dataclasses import dataclass
from functools import cached_property
from pathlib import Path

from kit.outcome import Outcome
from kit.peer import scratch
from kit.script import Script, write

FAULT = re.compile(r"thread (\d+) fault (.+)")
TOO_LARGE = "it has more states than are asked for"


class Unknown(Exception):
    """The outcomes are not known: the script is refused, or has more states or outcomes than are asked for."""


@dataclass
class Rules:
    """Which command tells outcomes (a script's file and `--states N` are put behind it), how many states and outcomes there may be, and how
    many seconds the command may take."""
    command: list[str]
    states: int
    most: int
    seconds: float

    def outcomes(self, script: Script) -> frozenset[Outcome]:
        with scratch() as folder:
            path = Path(folder, "script.cml")
            path.write_text(write(script), encoding="utf-8")
            return self.of_file(path)

    @cached_property
    def starts(self) -> bool:
        """Whether the command can be started. `./cml` is compiled at its first start, which takes minutes and is no part of `seconds`."""
        try:
            subprocess.run([self.command[0], "--help"], capture_output=True, check=False)
        except OSError:
            return False
        return True

    def of_file(self, path: Path) -> frozenset[Outcome]:
        if not self.starts:
            raise Unknown(f"{self.command[0]} can't be started")
        try:
            done = subprocess.run([*self.command, str(path), "--states", str(self.states)], capture_output=True, text=True, timeout=self.seconds, check=False)
        except subprocess.TimeoutExpired as late:
            raise Unknown(f"it takes more than {self.seconds:.0f} seconds") from late
        told = [json.loads(line) for line in done.stdout.splitlines() if line.startswith("{")]
        if done.returncode == 4 or not all(fields.get("whole", True) for fields in told):
            raise Unknown(TOO_LARGE)
        if done.returncode not in (0, 6) or not told:
            raise Unknown(next(iter((done.stderr + done.stdout).strip().splitlines()[-1:]), f"status {done.returncode}"))
        allowed = frozenset(without_faults(fields) for fields in told if "threads" in fields)
        if len(allowed) > self.most:
            raise Unknown("it has more outcomes than are asked for")
        return allowed


def without_faults(fields: dict) -> Outcome:
    """The outcome of a line. There a fault is a line of the run, `thread T fault NAME`; here it is the end of its thread."""
    threads, lines = list(fields["threads"]), list(fields["lines"])
    for line in fields["lines"]:
        fault = FAULT.fullmatch(line)
        if fault and int(fault[1]) < len(threads) and threads[int(fault[1])] == "fault":
            threads[int(fault[1])] = f"fault {fault[2]}"
            lines.remove(line)
    return Outcome(tuple(threads), tuple(lines))
