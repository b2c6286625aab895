"""Reads a log of a refusal, whose form docs/AUDIT.md has. What no right log has is refused here, by its line."""

import re
from dataclasses import dataclass, field

FIRST, LAST, NO_WAY = "AUDIT 1", "DONE", "NODIRECT"
CASE = re.compile(r"CASE ([1-9]\d{0,9}) (0|[1-9]\d{0,9}) (0|[1-9]\d{0,9})")
RAISE = re.compile(r"([FAPT]) (0|[1-9]\d{0,9}) (0|[1-9]\d{0,9})")
END = re.compile(r"([WLM]) (0|[1-9]\d{0,9})|(S)")
HIGHEST, MOST_STOPS = 4_294_967_295, 100
# A route has 103 drives at most, each of 99 rows of driving times, and a stop takes half an hour: so long is no day.
LAST_MINUTE = 1_440 + 103 * (30 + 99 * 1_439)


class NoLog(Exception):
    """Why the text is no log of a refusal: one sentence."""

    @classmethod
    def at(cls, row: int, said: str) -> "NoLog":
        """A line that no log of a refusal has."""
        return cls(f"the text is no log of a refusal: line {row}: {said}")


@dataclass
class Case:
    """One place in a vehicle's route: pickup after `pickup` old stops, drop after `drop` of them.

    `bounds` has the latest minute of each visit that a line of the case raised, and `raised` the first line that did so.
    `row` is the line that opens the case, and `last` the one that ends it: W, L, M or S, which `visit` it names, or 0.
    """

    vehicle: int
    pickup: int
    drop: int
    row: int
    bounds: dict[int, int] = field(default_factory=dict)
    raised: dict[int, int] = field(default_factory=dict)
    last: int = 0
    end: str = ""
    visit: int = 0
    # When the vehicle leaves at the earliest, so that its day is not too long, and which visits were raised after that.
    leaves: int = 0
    since: set[int] = field(default_factory=set)

    @property
    def is_too_long(self) -> bool:
        """Whether the visit that comes too late was raised after the line that puts off the beginning of the day."""
        return self.end == "W" and self.leaves > 0 and self.visit in self.since

    def take(self, line: str, row: int) -> None:
        """Takes a line of the case, or says what is wrong with it."""
        if raised := RAISE.fullmatch(line):
            self._raise_bound(raised[1], int(raised[2]), int(raised[3]), row)
        elif ended := END.fullmatch(line):
            self.end, self.visit, self.last = ended[1] or ended[3], int(ended[2] or 0), row
            if self.end == "W" and self.visit not in self.bounds:
                raise NoLog.at(row, f"no line of the case raises visit {self.visit}")
        else:
            raise NoLog.at(row, f"{line[:40]!r} is no line of a case")

    def _raise_bound(self, word: str, visit: int, minute: int, row: int) -> None:
        if minute >= LAST_MINUTE:
            raise NoLog.at(row, f"{minute} is no minute that a vehicle's day reaches")
        if (word == "T") != (visit == 0) and word != "F":
            raise NoLog.at(row, f"a line {word} does not raise visit {visit}")
        self.bounds[visit] = max(minute, self.bounds.get(visit, 0))
        self.raised.setdefault(visit, row)
        if word == "T":
            self.leaves, self.since = max(self.leaves, minute), {0}
        self.since.add(visit)


@dataclass(frozen=True)
class Log:
    """The cases of a log in their order, and whether there is no way at all from origin to goal."""

    cases: list[Case]
    has_no_way: bool
    lines: list[str]

    def vehicles(self) -> dict[int, list[Case]]:
        """The cases of each vehicle, by rising number."""
        found: dict[int, list[Case]] = {}
        for case in self.cases:
            found.setdefault(case.vehicle, []).append(case)
        return found


def read(text: str) -> Log:
    """The log of a text, or NoLog with the first line that is out of form, or that no right log has."""
    if text.strip() == "possible":
        raise NoLog(
            "the desk says 'possible': the trip can be booked, so there is no refusal to explain"
        )
    lines = text.split("\n")
    if lines[-1] != "" or len(lines) < 3:
        raise NoLog("the text is no log of a refusal: its last line is not whole")
    del lines[-1]
    if lines[0] != FIRST or lines[-1] != LAST:
        raise NoLog(
            f"the text is no log of a refusal: such a log begins with {FIRST!r} and ends with {LAST!r}"
        )
    if lines[1:-1] == [NO_WAY]:
        return Log([], True, lines)
    log = Log(_cases(lines), False, lines)
    last = 0
    for vehicle, cases in log.vehicles().items():
        _hold_to_order(vehicle, last, cases)
        last = vehicle
    return log


def _cases(lines: list[str]) -> list[Case]:
    """The cases by their lines, each whole."""
    cases: list[Case] = []
    for row, line in enumerate(lines[1:-1], 2):
        if cases and not cases[-1].end:
            cases[-1].take(line, row)
        elif opens := CASE.fullmatch(line):
            cases.append(_opened(row, *map(int, opens.groups())))
        else:
            raise NoLog.at(row, f"{line[:40]!r} opens no case")
    if cases and not cases[-1].end:
        raise NoLog.at(len(lines), "the case before has no end")
    return cases


def _opened(row: int, vehicle: int, pickup: int, drop: int) -> Case:
    if vehicle > HIGHEST:
        raise NoLog.at(row, f"{vehicle} is no number of a vehicle")
    if drop < pickup:
        raise NoLog.at(row, "the drop-off comes before the pickup")
    if drop > MOST_STOPS:
        raise NoLog.at(row, f"a route has at most {MOST_STOPS} stops")
    return Case(vehicle, pickup, drop, row)


def _hold_to_order(vehicle: int, last: int, cases: list[Case]) -> None:
    """Refuses a vehicle whose cases are not all there, in their order, and visits that its route does not have."""
    if vehicle < last:
        raise NoLog.at(cases[0].row, f"van {vehicle} comes after van {last}")
    stops = stops_of(cases)
    wanted = [(i, j) for i in range(stops + 1) for j in range(i, stops + 1)]
    for at, (pickup, drop) in enumerate(wanted):
        case = cases[at] if at < len(cases) else None
        if case is None or (case.pickup, case.drop) != (pickup, drop):
            row = case.row if case else cases[-1].last + 1
            raise NoLog.at(row, f"the case {pickup} {drop} of van {vehicle} is missing here")
    if len(cases) > len(wanted):
        raise NoLog.at(cases[len(wanted)].row, f"van {vehicle} has this case already")
    for case in cases:
        _hold_to_route(case, stops)


def _hold_to_route(case: Case, stops: int) -> None:
    """Refuses a visit that a route of so many old stops does not have, and the end S of a route that is not too long."""
    # (visits are the depot, the old stops with the two new ones, and the depot; L and M end before the last)
    named = [(case.last, case.visit, stops + (2 if case.end in "LM" else 3))]
    named += [(row, visit, stops + 3) for visit, row in case.raised.items()]
    for row, visit, most in sorted(named):
        if visit > most:
            raise NoLog.at(row, f"the route of van {case.vehicle} has no visit {visit} here")
    if case.end == "S" and stops + 2 <= MOST_STOPS:
        raise NoLog.at(case.last, f"a route of {stops + 2} stops is not longer than {MOST_STOPS}")


def stops_of(cases: list[Case]) -> int:
    """How many stops a vehicle's route has, by its cases: m stops make (m + 1)(m + 2) / 2 of them."""
    return max(case.drop for case in cases)
