"""What a walk found: a breach with its seed, its step and the actions before it."""

import re
import sys
import time
from dataclasses import dataclass, field

LAST = 10


@dataclass(frozen=True)
class Breach:
    """Something that does not hold."""

    rule: str
    text: str
    seed: int
    step: int
    role: str
    actions: tuple[str, ...]

    @property
    def kind(self) -> str:
        """What makes two breaches the same: the rule and the words without their numbers."""
        return self.rule + ": " + re.sub(r"\d+", "N", self.text)[:90]


@dataclass
class Report:
    """Counts what held, and prints each breach as it is found."""

    seed: int
    loud: bool = False
    began: float = field(default_factory=time.monotonic)
    held: int = 0
    steps: int = 0
    breaches: list[Breach] = field(default_factory=list)
    kinds: dict[str, int] = field(default_factory=dict)
    actions: list[str] = field(default_factory=list)
    by_rule: dict[str, int] = field(default_factory=dict)

    def did(self, step: int, words: str) -> None:
        """Keeps an action."""
        self.steps = step
        self.actions.append(f"{step}: {words}")
        if self.loud:
            print(f"{time.monotonic() - self.began:.0f} s, {self.actions[-1]}", flush=True)

    def holds(self, rule: str, count: int = 1) -> None:
        """Something holds."""
        self.held += count
        self.by_rule[rule] = self.by_rule.get(rule, 0) + count

    def summary(self) -> list[str]:
        """How often each rule held, and how often each breach came."""
        held = ", ".join(f"{rule}: {count}" for rule, count in sorted(self.by_rule.items()))
        return [
            f"walk: held: {held}",
            *(f"walk: {count} times: {kind}" for kind, count in self.kinds.items()),
        ]

    def is_known(self, rule: str, text: str) -> bool:
        """Whether such a breach was printed already."""
        return Breach(rule, " ".join(text.split())[:700], 0, 0, "", ()).kind in self.kinds

    def breaks(self, rule: str, text: str, role: str) -> None:
        """Something does not hold. What was found before is counted and not printed again."""
        breach = Breach(
            rule,
            " ".join(text.split())[:700],
            self.seed,
            self.steps,
            role,
            tuple(self.actions[-LAST:]),
        )
        self.kinds[breach.kind] = self.kinds.get(breach.kind, 0) + 1
        if self.kinds[breach.kind] > 1:
            return
        self.breaches.append(breach)
        print(
            f"walk: FAILED: {breach.rule}: {breach.text}\n    --seed {breach.seed} --steps {breach.step}, as {role}; before it:",
            flush=True,
        )
        for action in breach.actions:
            print(f"        {action}", flush=True)
        sys.stdout.flush()
