"""What the parts of a trial hand on: the machine, the package, the keys."""

from __future__ import annotations

from dataclasses import dataclass
from pathlib import Path

from desk_tools.booted.checks import Checks
from desk_tools.booted.machines import Machine


@dataclass
class Town:
    """One agency on one machine. `is_whole` is whether the slow checks are made too."""

    machine: Machine
    package: Path
    checks: Checks
    admin: str = ""
    number: int = 0
    is_whole: bool = False

    def next_number(self) -> int:
        """The number of the admin's next write."""
        self.number += 1
        return self.number
