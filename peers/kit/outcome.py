"""What one can see of a run: the lines that it printed, in order, and how each thread ended."""
from dataclasses import dataclass


@dataclass(frozen=True, order=True)
class Outcome:
    """Of each thread, by its number: `ended`, `waits`, or `fault NAME`. Threads have numbers in the order in which they were made."""
    threads: tuple[str, ...]
    lines: tuple[str, ...]

    @staticmethod
    def of(fields: dict) -> "Outcome":
        """The outcome of an object of JSON."""
        return Outcome(tuple(fields["threads"]), tuple(fields["lines"]))

    def __str__(self) -> str:
        printed = " ".join(self.lines) if self.lines else "nothing"
        return f"prints {printed}; " + ", ".join(f"thread {number} {end}" for number, end in enumerate(self.threads))
