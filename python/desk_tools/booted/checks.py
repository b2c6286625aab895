"""Checks that are counted, and the last line of a script."""

from __future__ import annotations

import sys
import time
from dataclasses import dataclass, field


@dataclass
class Checks:
    """What was held and what was not. Each that was not is told at once."""

    script: str
    passed: int = 0
    failed: int = 0
    begun: float = field(default_factory=time.monotonic)

    def holds(self, label: str, is_so: bool, said: object = "") -> bool:
        """Counts one check."""
        if is_so:
            self.passed += 1
        else:
            self.failed += 1
            print(f"{self.script}: FAILED: {label}: {str(said).strip()[-600:]}", flush=True)
        return is_so

    def equal(self, label: str, wanted: object, got: object) -> bool:
        """Counts whether two values are equal."""
        return self.holds(label, wanted == got, f"wanted {wanted!r}, got {got!r}")

    def has(self, label: str, wanted: str, text: str) -> bool:
        """Counts whether a text has another one in it."""
        return self.holds(label, wanted in text, f"wanted {wanted!r} in {text!r}")

    def step(self, what: str) -> None:
        """Says what begins, and how many seconds have gone."""
        print(f"{self.script}: {time.monotonic() - self.begun:5.0f} s {what}", flush=True)

    def end(self) -> int:
        """Prints the tally; the exit status."""
        sys.stdout.flush()
        print(f"{self.passed} passed, {self.failed} failed")
        return 1 if self.failed else 0
