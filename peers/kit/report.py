"""What is said of judged scripts."""
from collections import Counter
from dataclasses import dataclass, field

from kit.judge import Judgement
from kit.known import UNDECIDED, Way
from kit.outcome import Outcome
from kit.peer import Failed, Peer
from kit.script import words_of, write

MOST = 12  # outcomes of a kind that are told
PLAIN = {"let", "do", "return", "main"}  # words that are no kinds


def of_script(name: str, judged: Judgement) -> str:
    """What was seen of a script, what was not, and what is not allowed."""
    allowed = sorted(judged.allowed)
    seen = [outcome for outcome in allowed if outcome in judged.seen]
    missed = [outcome for outcome in allowed if outcome not in judged.seen]
    lines = [f"{name}: {sum(judged.seen.values())} runs; {len(allowed)} outcomes are allowed, {len(seen)} of them were seen"]
    lines += listed("seen", [f"{judged.seen[outcome]:4} times  {outcome}" for outcome in seen])
    lines += listed("not seen", [str(outcome) for outcome in missed])
    lines += listed("not allowed", [f"{judged.seen[outcome]:4} times  {outcome}{known(way)}" for outcome, way in judged.odd.items()])
    return "\n".join(lines)


def known(way: str | None) -> str:
    return f" ({way})" if way == UNDECIDED else f" (known: {way})" if way else ""


def listed(heading: str, lines: list[str]) -> list[str]:
    more = [f"    and {len(lines) - MOST} more"] if len(lines) > MOST else []
    return [f"  {heading}:", *(f"    {line}" for line in lines[:MOST]), *more] if lines else []


def of_smaller(judged: Judgement) -> str:
    return "\n".join([of_script("made smaller", judged), *(f"  | {line}" for line in write(judged.script).splitlines())])


def of_failure(failed: Failed) -> str:
    return f"a random script: {failed}{known(failed.known)}"


@dataclass
class Totals:
    """What many scripts come to."""
    scripts: int = 0
    failed: int = 0
    unexplained: int = 0
    allowed: int = 0
    seen: int = 0
    unknown: Counter[str] = field(default_factory=Counter)
    kinds: Counter[str] = field(default_factory=Counter)
    ways: Counter[str] = field(default_factory=Counter)

    def add(self, judged: Judgement | Failed) -> None:
        if isinstance(judged, Failed):
            self.ways.update([judged.known] if judged.known else [])
            self.failed += judged.known is None
            return
        self.scripts += 1
        self.allowed += len(judged.allowed)
        self.seen += len(judged.allowed & set(judged.seen))
        self.unexplained += judged.at_odds()
        self.ways.update({way for way in judged.odd.values() if way})
        self.kinds.update(words_of(judged.script) - PLAIN | ends_of(judged.allowed))

    def progress(self, wanted: int) -> str:
        return f"{self.scripts} of {wanted} scripts"

    def told(self, peer: Peer, ways: list[Way]) -> str:
        lines = [f"{self.scripts} scripts; {self.allowed} outcomes are allowed, {self.seen} of them were seen"]
        lines += counted("kinds, each by the scripts that have it", self.kinds)
        lines += [f"not in these scripts, since {peer.name} can't say it: {', '.join(sorted(peer.cannot))}"]
        lines += counted("passed over, since the outcomes are not known", self.unknown)
        scripts = {way.name: way.script for way in ways}
        lines += [f"not allowed, by a known way: {way}, in {many} scripts ({scripts.get(way, 'named above')})"
                  for way, many in self.ways.most_common() if way != UNDECIDED]
        lines += [f"not allowed, and not decided whether by a known way: {self.ways[UNDECIDED]} scripts"] if self.ways[UNDECIDED] else []
        lines += [f"not run to the end: {self.failed} scripts"] if self.failed else []
        lines += [f"not allowed, by no known way: {self.unexplained} scripts"]
        return "\n".join(lines) + "\n"


def ends_of(allowed: frozenset[Outcome]) -> set[str]:
    """How threads end in these outcomes, as kinds."""
    return {f"a thread {'at ' if end.startswith('fault') else 'that '}{end}" for outcome in allowed for end in outcome.threads}


def counted(heading: str, counts: Counter[str]) -> list[str]:
    return [f"{heading}: " + ", ".join(f"{word} {many}" for word, many in counts.most_common())] if counts else []
