"""Groups addresses into the places of the desk: what `move-in gather` does.

docs/MOVING-IN.md, "Addresses", has the rules. A row that is wrong, or outside every corridor, is
refused by its number; the files are written whole, once all of it is known.
"""

import csv
import io
from collections import Counter
from collections.abc import Sequence
from dataclasses import dataclass, field, replace

import numpy as np
from numpy.typing import NDArray

from desk_tools.counting import counted
from desk_tools.town import addresses as tables
from desk_tools.town import conditional, grouping, homes
from desk_tools.town.addresses import Address, Plane
from desk_tools.town.corridor import Line, Point, feet_missing, is_served_alike
from desk_tools.town.grouping import Grouped, Wanted
from desk_tools.town.homes import Own
from desk_tools.town.many_points import counted_of, masks_of, nearest_lines
from desk_tools.town.medoids import Points, Show, TooFewPlaces
from desk_tools.town.places import Place, feet_between, riders_of
from desk_tools.town.sheets import Refusal, Unreadable
from desk_tools.town.site_addresses import name_near, name_of_homes

# So many times it is grouped, where homes turn out to need places of their own.
MOST_ROUNDS = 3
# Of so many conditions of grants the places are chosen with a view to all addresses.
MOST_KINDS = 8
MOST_PLACES, FEET_A_MINUTE = 100, 88  # (feet a minute at one mile an hour)
WORST, MOST_NAMED = 20, 200
NO_POINT = "it has no position: latitude and longitude, or x and y"
NO_PLANE = "there is no plane.json for a latitude: run move-in routes first"


@dataclass(frozen=True)
class Town:
    """What is known before: the places that stand, the lines, and how fast a van drives."""

    places: Sequence[Place]
    lines: Sequence[Line]
    plane: Plane | None
    speed: float = 25.0
    detour: float = 1.4
    is_outside_served: bool = False
    most: int = MOST_PLACES
    grants: conditional.Grants = field(default_factory=dict)

    @property
    def minutes_a_foot(self) -> float:
        """The minutes that a van takes for a foot of a straight line."""
        return self.detour / (self.speed * FEET_A_MINUTE)

    @property
    def kinds(self) -> list[str]:
        """The conditions of grants that count from the place, those of most riders."""
        return conditional.kinds_of(self.grants)[:MOST_KINDS]


@dataclass
class Gathered:
    """Each address with its place, all places, what was refused, and the feet to each place.

    `outside` counts addresses outside every corridor, and `own` has the places that are made for homes alone.
    """

    addresses: list[Address]
    places: dict[int, Place]
    feet: list[float]
    refused: list[Refusal]
    outside: int = 0
    own: list[Own] = field(default_factory=list)

    def measure(self) -> None:
        """Sets the feet from each address to its place."""
        spots = {it.number: it.point for it in self.places.values()}
        self.feet = [feet_between(it.point, spots[it.place or 0]) for it in self.addresses]


def gathered(town: Town, addresses: Sequence[Address], show: Show) -> Gathered:
    """The addresses, each at a place. Homes whose riders' grants hold at no other place get places of their own.

    Half of the free places at most are such; further homes of that kind are refused by their rows.
    """
    if not town.lines:
        raise Unreadable("agency.json has no fixed routes: run move-in routes first")
    rows, own, alone = {it.row: it for it in addresses}, list[Own](), set[int]()
    room = max(0, town.most - len(town.places)) // 2
    start = sorted_out(town, addresses, show)
    for turn in range(1, MOST_ROUNDS + 1):
        found = gathered_once(town, start, own, show)
        places = list(found.places.values())
        denied = homes.at_right_places(found.addresses, places, town.lines, town.grants)
        found.measure()
        alone |= denied
        far = float(np.quantile(found.feet, 0.95)) if found.feet else 0.0
        more = homes.own_places(
            [rows[it] for it in sorted(alone)], town.lines, town.grants, far, room
        )
        if not denied or turn == MOST_ROUNDS or not is_better(more, own):
            break
        own = more
    refuse_homes(town, found, denied)
    return found


def is_better(more: Sequence[Own], own: Sequence[Own]) -> bool:
    """Whether places are for more homes than others."""
    return sum(len(it.homes) for it in more) > sum(len(it.homes) for it in own)


def refuse_homes(town: Town, found: Gathered, denied: set[int]) -> None:
    """Refuses the homes of these rows, since a grant would hold there less than at the home."""
    for it in found.addresses:
        if it.row in denied:
            conditions = "; ".join(conditional.conditions_of(it.riders, town.grants))
            reason = (
                f"at no place that is right for {it.street} does the grant ({conditions}) hold as at the home, "
                "and there is no room for one more: put a place there, or let the examiner widen the grant"
            )
            found.refused.append(Refusal(it.row, reason, []))
    found.addresses = [it for it in found.addresses if it.row not in denied]
    found.measure()


@dataclass(frozen=True)
class Start:
    """Addresses that are to be grouped, with their points, and what was settled before."""

    open: Sequence[Address]
    points: Points
    settled: Sequence[Address]
    refused: Sequence[Refusal]
    outside: int


def gathered_once(town: Town, start: Start, own: Sequence[Own], show: Show) -> Gathered:
    """The addresses, each at a place; the homes of `own` at places of their own."""
    alone = {it.row for one in own for it in one.homes}
    settled = [it for it in start.settled if it.row not in alone]
    places = {it.number: it for it in town.places}
    found = Gathered(settled, places, [], list(start.refused), start.outside, list(own))
    together = [at for at, it in enumerate(start.open) if it.row not in alone]
    if together:
        some = start.points.some(np.array(together, dtype=np.int64))
        grouped_open(town, [start.open[at] for at in together], some, found, show)
    for one in own:
        number = max(found.places, default=0) + 1
        place = Place(number, name_of_homes(number), one.point, one.homes[0].core, one.riders, True)
        found.places[number] = place
        found.addresses += [replace(it, place=number) for it in one.homes]
    found.addresses.sort(key=lambda it: it.row)
    found.measure()
    return found


def sorted_out(town: Town, addresses: Sequence[Address], show: Show) -> Start:
    """The addresses that are to be grouped; others have a place already or are refused."""
    show(0, 1, "corridors tried")
    at = points_at([it.point or (0, 0) for it in addresses])
    is_core = np.array([it.core for it in addresses], dtype=bool)
    points = grouping.points_of(at, is_core, town.lines, conditions=town.kinds)
    masks = (points.masks & grouping.LINES).tolist()
    own = own_points(town.places, town.lines)
    homes_at = {rider: it.number for it in town.places for rider in riders_of(it)}
    open_, settled, refused, outside = list[int](), list[Address](), list[Refusal](), list[int]()
    for index, (it, mask) in enumerate(zip(addresses, masks)):
        wanted = it.place or next((homes_at[r] for r in it.riders if r in homes_at), None)
        fault = fault_of(it, mask, wanted, own) if it.place or wanted is None else None
        if fault:
            refused.append(Refusal(it.row, fault, []))
        elif wanted is not None and wanted in own and is_served_alike(mask, own[wanted]):
            settled.append(replace(it, place=wanted))
        elif mask or town.is_outside_served or wanted:
            open_.append(index)
        else:
            outside.append(index)
    refused += refused_outside(town, [addresses[it] for it in outside])
    without = sum(not masks[it] for it in open_)
    return Start(
        [addresses[it] for it in open_],
        points.some(np.array(open_, dtype=np.int64)),
        settled,
        refused,
        without,
    )


def refused_outside(town: Town, outside: Sequence[Address]) -> list[Refusal]:
    """The addresses that no corridor serves, with how many feet are missing."""
    points = points_at([it.point or (0, 0) for it in outside])
    return [
        Refusal(
            it.row,
            f"{it.street} lies outside every corridor: {feet_missing(it.point or (0, 0), line):,} feet are missing "
            f"to that of {line.name or 'the nearest line'}",
            [],
        )
        for it, line in zip(outside, nearest_lines(points, town.lines))
    ]


def own_points(places: Sequence[Place], lines: Sequence[Line]) -> dict[int, int]:
    """The lines of each place that stands."""
    is_core = np.array([it.core for it in places], dtype=bool)
    masks = masks_of(points_at([it.point for it in places]), is_core, lines).tolist()
    return {it.number: mask for it, mask in zip(places, masks)}


def fault_of(address: Address, mask: int, wanted: int | None, own: dict[int, int]) -> str | None:
    """Why an address can't be at a place, or None."""
    if address.place and address.place not in own:
        return f"there is no place {address.place}"
    if address.point is None:
        return None if wanted else NO_POINT if not address.position else NO_PLANE
    if wanted and not is_served_alike(mask, own[wanted]):
        return f"place {wanted} lies outside a corridor in which {address.street} lies"
    return None


def grouped_open(
    town: Town, open_: list[Address], points: Points, found: Gathered, show: Show
) -> None:
    """Groups what has no place yet. The places of `found.own` are kept free."""
    public = [it for it in town.places if it.private == () or it.private is False]
    own_at = np.array([it.point for it in public], dtype=np.int64).reshape(-1, 2)
    own_core = np.array([it.core for it in public], dtype=bool)
    wanted = Wanted(
        points,
        np.array([bool(it.riders) for it in open_], dtype=bool),
        grouping.points_of(own_at, own_core, town.lines, True, town.kinds),
        max(0, town.most - len(town.places) - len(found.own)),
        town.minutes_a_foot,
        town.kinds,
    )
    try:
        grouped = grouping.grouped_at(wanted, town.lines, show)
    except TooFewPlaces as error:
        raise Unreadable(
            f"the addresses lie in so many groups of lines that {error.needed} new places are needed, "
            f"and {wanted.free} are free. Fewer fixed routes need fewer: "
            "move-in routes with a lower --most"
            + (
                f". {len(found.own)} places are for homes alone, since a grant holds at no other place"
                * bool(found.own)
            )
        ) from None
    numbered = [it.number for it in public] + new_places(open_, grouped, len(public), found)
    found.addresses += [
        replace(it, place=numbered[at]) for it, at in zip(open_, grouped.of.tolist())
    ]


def new_places(open_: list[Address], grouped: Grouped, own: int, found: Gathered) -> list[int]:
    """Adds the new places, and returns their numbers; one at which no address is has none."""
    numbers: list[int] = []
    number = max(found.places, default=0)
    of: dict[int, list[Address]] = {}
    for it, place in zip(open_, grouped.of.tolist()):
        of.setdefault(place, []).append(it)
    for index in range(own, len(grouped.places)):
        if index not in of:
            numbers.append(0)
            continue
        number += 1
        numbers.append(number)
        x, y = (int(it) for it in grouped.places.at[index])
        is_core = bool(grouped.places.masks[index] & grouping.CORE)
        name, private = named((x, y), of[index], number)
        found.places[number] = Place(number, name, (x, y), is_core, private, True)
    return numbers


def named(point: Point, group: list[Address], number: int) -> tuple[str, tuple[int, ...]]:
    """The name of a new place, by the nearest address that is no home, and whose it is.

    A place of homes alone is private to the riders who live there, and named by its number.
    """
    public = [it for it in group if not it.riders]
    if not public:
        riders = tuple(sorted({rider for it in group for rider in it.riders}))
        return name_of_homes(number), riders
    nearest_one = min(public, key=lambda it: feet_between(it.point, point))
    return name_near(nearest_one.street), ()


def places_text(found: Gathered) -> str:
    """The new places as the table that `move-in places` takes."""
    text = io.StringIO()
    writer = csv.writer(text, lineterminator="\n")
    writer.writerow(["number", "name", "x", "y", "core", "private"])
    for it in sorted(found.places.values(), key=lambda it: it.number):
        if it.is_new:
            private = ";".join(map(str, riders_of(it))) or "no"
            writer.writerow([it.number, it.name, *it.point, "yes" if it.core else "no", private])
    return text.getvalue()


def told(town: Town, found: Gathered) -> list[str]:
    """What the grouping does, a line each."""
    new = [it for it in found.places.values() if it.is_new]
    used = Counter(it.place for it in found.addresses)
    feet = np.array(found.feet or [0.0])
    minutes = feet * town.minutes_a_foot
    lines = [
        f"{counted(len(found.addresses), 'address', 'addresses')} at {counted(len(used), 'place')}: "
        f"{len(town.places)} stand, {len(new)} are new, {town.most} is the most",
        f"from an address to its place: {minutes.mean():.1f} minutes on average, "
        f"{np.quantile(minutes, 0.95):.1f} for 19 of 20, {minutes.max():.1f} for the farthest "
        f"({feet.max():,.0f} feet), by straight lines at {town.speed:g} miles an hour and ways "
        f"{town.detour:g} times as long",
        "these minutes are in no driving time: `service` of the policy may be longer by them",
    ]
    if not town.places:
        lines.append(
            "NO PLACE STANDS YET, so the new ones begin at 1: put depots and clinics first (move-in places)"
        )
    if found.outside:
        lines.append(
            f"{counted(found.outside, 'address', 'addresses')} OUTSIDE EVERY CORRIDOR would be served"
        )
    lines += told_of_twice(found.addresses)
    return lines + told_of_grants(town, found) + worst(town, found)


def told_of_grants(town: Town, found: Gathered) -> list[str]:
    """Whom a grouping may still deny: riders whose grant holds of some trips alone (37.123(b))."""
    kinds = town.kinds or [conditional.NO_LIFT]
    places = sorted(found.places.values(), key=lambda it: it.number)
    spots, column = points_at([it.point for it in places]), {
        it.number: at for at, it in enumerate(places)
    }
    there = counted_of(spots, town.lines, kinds)[[column[it.place or 0] for it in found.addresses]]
    here = counted_of(points_at([it.point or (0, 0) for it in found.addresses]), town.lines, kinds)
    more = int(((there & ~here) != 0).any(axis=1).sum())
    needed = len(np.unique(here, axis=0))
    of_homes = len(homes.conditional_homes(found.addresses, town.grants))
    trips = homes.trips_of(found.addresses, here, there, kinds, town.grants)
    kept = [
        *told_of_homes(town, found, of_homes),
        *[
            f"of the trips between these homes and an address for which the grant holds, "
            f"{100 * trips.denied / max(1, trips.owed):.1f} of a hundred would be denied at the places"
        ]
        * bool(of_homes),
        *told_of_riders(trips.riders),
    ]
    return (kept if town.grants else []) + [
        f"{counted(more, 'address is', 'addresses are')} at a place where {' or '.join(kinds)} may hold less than at "
        "the address: a grant counts from the place, so a trip there may be denied"
        + enough_places(needed, town.most) * bool(more)
    ]


def enough_places(needed: int, most: int) -> str:
    """With how many places no grant would hold less: one for each group of addresses of the same lines."""
    said = (
        f". None would be with a place for each of {needed:,} groups of addresses of the same lines"
    )
    return f"{said}, and {most:,} places are the most" if needed > most else said


def told_of_homes(town: Town, found: Gathered, of_homes: int) -> list[str]:
    """Of how many riders with such a grant the homes are at right places, and how many have none here."""
    alone = sum(len(it.homes) for it in found.own)
    there = {rider for it in found.addresses for rider in it.riders}
    without = sum(
        rider not in there and bool(conditional.conditions_of((rider,), town.grants))
        for rider in town.grants
    )
    kept = (
        f"{counted(of_homes, 'home is', 'homes are')} of riders with nolift or farther, at places where the grant "
        f"holds as at the home: {alone:,} of them at {counted(len(found.own), 'place that is', 'places that are')} for homes alone"
    )
    has_none = "rider with nolift or farther has", "riders with nolift or farther have"
    lacking = f"{counted(without, *has_none)} no home among these addresses"
    return [kept] * bool(of_homes) + [lacking] * bool(without)


def told_of_twice(addresses: Sequence[Address]) -> list[str]:
    """The addresses that stand more than once, by their rows: one street, and one point."""
    of: dict[tuple[str, Point | None], list[Address]] = {}
    for it in addresses:
        of.setdefault(tables.same(it), []).append(it)
    twice = [those for those in of.values() if len(those) > 1]
    lines = [
        f"STANDS MORE THAN ONCE: {those[0].street}, in rows {', '.join(str(it.row) for it in those)}"
        for those in twice[:WORST]
    ]
    return lines + [f"and {len(twice) - WORST:,} addresses more"] * (len(twice) > WORST)


def told_of_riders(riders: Sequence[int]) -> list[str]:
    """Whose grants an examiner would have to widen, so that the grouping denies nobody."""
    if not riders:
        return []
    more = f" and {len(riders) - MOST_NAMED:,} more" if len(riders) > MOST_NAMED else ""
    numbers = ", ".join(map(str, riders[:MOST_NAMED]))
    return [
        f"NOBODY IS DENIED BY THE GROUPING where the examiner grants `always` to rider{'s' * (len(riders) > 1)} {numbers}{more}"
    ]


def points_at(points: Sequence[Point]) -> NDArray[np.int64]:
    """Points as a table of two columns."""
    return np.array(points, dtype=np.int64).reshape(-1, 2)


def worst(town: Town, found: Gathered) -> list[str]:
    """The addresses that are farthest from their places."""
    order = sorted(range(len(found.feet)), key=lambda it: -found.feet[it])[:WORST]
    lines = [f"the {len(order)} addresses farthest from their places:"] if order else []
    for at in order:
        it, feet = found.addresses[at], found.feet[at]
        place = found.places[it.place or 0]
        lines.append(
            f"  row {it.row}: {it.street}: {feet:,.0f} feet, {feet * town.minutes_a_foot:.1f} "
            f"minutes, to place {place.number} {place.name}"
        )
    return lines
