"""What is counted of the site's requests and seen by the watch, as Prometheus reads it."""

from __future__ import annotations

import json
import time
from collections import Counter
from dataclasses import dataclass, field
from pathlib import Path
from typing import Any

from desk_tools.health.access_log import Follower

BOUNDS = (0.01, 0.1, 1.0, 10.0)
REFUSED = 401


@dataclass
class Figures:
    """The counts since the service began, and what the watch saw last."""

    log: Follower
    seen_at: Path
    requests: Counter[tuple[str, str, int]] = field(default_factory=Counter)
    buckets: Counter[tuple[str, float]] = field(default_factory=Counter)
    seconds: Counter[str] = field(default_factory=Counter)
    last_write: dict[str, float] = field(default_factory=dict)

    def look(self) -> None:
        """Counts the requests that came since the last look."""
        for it in self.log.requests():
            self.requests[it.site, it.path_class, it.status] += 1
            for bound in (bound for bound in BOUNDS if it.seconds <= bound):
                self.buckets[it.path_class, bound] += 1
            # Counter has whole numbers by its types, and adds fractions as well.
            self.seconds[it.path_class] += it.seconds  # type: ignore[assignment]
            if it.is_write and it.status == 200:
                self.last_write[it.site] = max(it.moment, self.last_write.get(it.site, 0))

    def seen(self) -> dict[str, Any]:
        """What the watch published: moments and sizes by unit. Nothing before its first look."""
        try:
            told = json.loads(self.seen_at.read_text(encoding="utf-8"))
        except (OSError, ValueError):
            return {}
        return told if isinstance(told, dict) else {}

    def seconds_since_write(self, unit: str, is_only_desk: bool) -> float | None:
        """The seconds since a write was answered, by the site's log, or None where the log has none.

        The moment of the desk's file is not asked: a start, a setup and a restore move it too.
        """
        name = (self.seen().get("sites") or {}).get(unit)
        known = [at for site, at in self.last_write.items() if is_only_desk or site == name]
        return max(0.0, time.time() - max(known)) if known else None


def line(name: str, value: float, **labels: object) -> str:
    """A line of the text form."""
    told = ",".join(f'{key}="{escaped(str(it))}"' for key, it in labels.items())
    return f"{name}{{{told}}} {value:.10g}" if told else f"{name} {value:.10g}"


def escaped(text: str) -> str:
    """A label's value."""
    return text.replace("\\", "\\\\").replace('"', '\\"').replace("\n", "\\n")


def head(name: str, kind: str, words: str) -> list[str]:
    """The two lines before a figure."""
    return [f"# HELP {name} {words}", f"# TYPE {name} {kind}"]


def text_of(figures: Figures, answers: dict[str, bool]) -> str:
    """All figures. `answers` says of each unit whether its desk answers."""
    lines = head("desk_up", "gauge", "Whether the desk answers.")
    lines += [line("desk_up", int(is_up), desk=unit) for unit, is_up in answers.items()]
    lines += lines_of_requests(figures)
    seen = figures.seen()
    lines += lines_of_desks(figures, seen, list(answers))
    lines += head("desk_troubles", "gauge", "Troubles that the watch sees.")
    lines += [line("desk_troubles", len(seen.get("troubles", [])))]
    lines += [
        line("desk_trouble", 1, desk=unit, kind=str(what).split()[0])
        for unit, what in seen.get("troubles", [])
    ]
    if seen.get("moment"):
        lines += head("desk_watch_age_seconds", "gauge", "Seconds since the watch looked.")
        lines += [line("desk_watch_age_seconds", time.time() - seen["moment"])]
    return "\n".join([*lines, ""])


def lines_of_requests(figures: Figures) -> list[str]:
    """Requests by class and status, what they took, and keys that were refused."""
    lines = head("desk_requests_total", "counter", "Requests by path class and status.")
    for (site, path_class, status), count in sorted(figures.requests.items()):
        lines.append(line("desk_requests_total", count, site=site, path=path_class, status=status))
    name = "desk_request_seconds"
    lines += head(name, "histogram", "Seconds that a request took, in all.")
    totals: Counter[str] = Counter()
    for (_, path_class, _), count in figures.requests.items():
        totals[path_class] += count
    for path_class, count in sorted(totals.items()):
        for bound in BOUNDS:
            below = figures.buckets[path_class, bound]
            lines.append(line(f"{name}_bucket", below, path=path_class, le=f"{bound:g}"))
        lines.append(line(f"{name}_bucket", count, path=path_class, le="+Inf"))
        lines.append(line(f"{name}_sum", figures.seconds[path_class], path=path_class))
        lines.append(line(f"{name}_count", count, path=path_class))
    refused = sum(n for (_, _, status), n in figures.requests.items() if status == REFUSED)
    lines += head("desk_refused_keys_total", "counter", "Requests whose key is nobody's.")
    return [*lines, line("desk_refused_keys_total", refused)]


def lines_of_desks(figures: Figures, seen: dict[str, Any], units: list[str]) -> list[str]:
    """Ages and sizes, by desk."""
    now, lines = time.time(), []
    kinds: list[tuple[str, str, dict[str, float]]] = [
        ("desk_backup_age_seconds", "Age of the last backup.", ages(seen, "backups", now)),
        ("desk_file_bytes", "Bytes of the desk's file and its log.", numbers(seen, "sizes")),
        ("desk_upgrade_copies", "Copies of before an upgrade.", first(seen, "copies")),
        ("desk_starts_total", "Starts by systemd after an end.", starts(seen)),
    ]
    written = {it: figures.seconds_since_write(it, len(units) == 1) for it in units}
    told = {unit: age for unit, age in written.items() if age is not None}
    kinds.append(
        (
            "desk_last_write_seconds",
            "Seconds since the site last answered a write, by its log of today.",
            told,
        )
    )
    for name, words, values in kinds:
        kind = "counter" if name.endswith("_total") else "gauge"
        lines += head(name, kind, words)
        lines += [line(name, value, desk=unit) for unit, value in sorted(values.items())]
    return lines


def ages(seen: dict[str, Any], name: str, now: float) -> dict[str, float]:
    """Seconds since these moments, by unit."""
    return {unit: now - it for unit, it in seen.get(name, {}).items() if it}


def numbers(seen: dict[str, Any], name: str) -> dict[str, float]:
    """These numbers, by unit."""
    return {unit: float(it) for unit, it in seen.get(name, {}).items() if it is not None}


def first(seen: dict[str, Any], name: str) -> dict[str, float]:
    """The first of these lists, by unit."""
    return {unit: float(it[0]) for unit, it in seen.get(name, {}).items() if it}


def starts(seen: dict[str, Any]) -> dict[str, float]:
    """How often systemd started each unit anew."""
    units = seen.get("units", {}).items()
    return {unit: float(it["NRestarts"]) for unit, it in units if it.get("NRestarts", "").isdigit()}
