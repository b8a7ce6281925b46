"""A script's outcomes by a peer, held against those that the rules allow."""
from collections import Counter
from dataclasses import dataclass, field

from kit.known import Explained, Way
from kit.outcome import Outcome
from kit.peer import Failed, Peer
from kit.rules import Rules, Unknown
from kit.script import Script
from kit.shrink import smallest


@dataclass
class Judgement:
    """What was seen of a script, what is allowed, and by which known way each outcome that is not allowed came about (None: by none)."""
    script: Script
    allowed: frozenset[Outcome]
    seen: Counter[Outcome]
    odd: dict[Outcome, str | None] = field(default_factory=dict)

    def at_odds(self) -> bool:
        """Whether an outcome was seen that is neither allowed nor explained."""
        return None in self.odd.values()


@dataclass
class Judge:
    """Judges scripts by the runs of a peer."""
    peer: Peer
    rules: Rules
    ways: list[Way]
    runs: int
    seed: int
    seconds: float

    def seen(self, scripts: list[Script]) -> list[Counter[Outcome] | Failed]:
        """How often each outcome of each script was seen. If one of them makes the program fail, each has a program of its own."""
        try:
            return [Counter(outcomes) for outcomes in self.peer.outcomes(scripts, self.runs, self.seed, self.seconds)]
        except Failed as failed:
            return [failed] if len(scripts) < 2 else [one for script in scripts for one in self.seen([script])]

    def judged(self, scripts: list[Script], allowed: list[frozenset[Outcome]]) -> list[Judgement | Failed]:
        """Those that may never end by a known way are run each by itself."""
        may_hang = [bool(Explained(self.ways, script).hangs()) for script in scripts]
        together = iter(self.seen([script for script, hangs in zip(scripts, may_hang) if not hangs]))
        return [self.judgement(script, rules, self.seen([script])[0] if hangs else next(together))
                for script, rules, hangs in zip(scripts, allowed, may_hang)]

    def judgement(self, script: Script, allowed: frozenset[Outcome], seen: Counter[Outcome] | Failed) -> Judgement | Failed:
        explained = Explained(self.ways, script)
        if isinstance(seen, Failed):
            seen.known = explained.hangs()
            return seen
        return Judgement(script, allowed, seen, {outcome: explained.by(outcome) for outcome in sorted(set(seen) - allowed)})

    def smaller(self, judged: Judgement, tries: int) -> Judgement:
        """The judgement of a smaller script that is at odds too, or this one if there is none."""
        last = {judged.script: judged}

        def are_at_odds(scripts: list[Script]) -> list[bool]:
            last.update((one.script, one) for one in self.known(scripts))
            return [less in last and last[less].at_odds() for less in scripts]

        return last[smallest(judged.script, are_at_odds, tries)]

    def known(self, scripts: list[Script]) -> list[Judgement]:
        """The judgements of those scripts whose outcomes are known and that the peer can run."""
        pairs = []
        for script in scripts:
            try:
                pairs.append((script, self.rules.outcomes(script)))
            except Unknown:
                continue
        judged = self.judged([script for script, _ in pairs], [allowed for _, allowed in pairs]) if pairs else []
        return [one for one in judged if isinstance(one, Judgement)]
