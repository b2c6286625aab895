"""What somebody confirmed, and what the desk did: nothing else may be done, and nothing twice. No browser and no desk here."""

import re
from dataclasses import dataclass, field
from typing import Any

Leg = tuple[str, int, int]
TRIP = re.compile(r"/trips/(\d+)/(change|cancel|outcome)")


@dataclass
class Permit:
    """A yes of somebody: to book some legs, to do one thing with a trip, to enter something in a case, or to send a form. same says that a trip which is there already
    was asked about, both that the form has a minute to be there by beside that of the pickup. modes says
    what matters of each leg."""

    what: str
    key: str
    step: int
    rider: int | None = None
    trip: int | None = None
    legs: dict[Leg, int | None] = field(default_factory=dict)
    path: str = ""
    left: int = 1
    armed: bool = False
    entry: str = ""
    same: bool = False
    both: bool = False
    modes: dict[Leg, str] = field(default_factory=dict)

    def __str__(self) -> str:
        return f"{self.what} of step {self.step}"


@dataclass(frozen=True)
class Write:
    """An accepted write, as the desk got it."""

    path: str
    key: str
    number: int
    fields: dict[str, Any]
    reply: dict[str, Any]


@dataclass
class Ledger:
    """The permits that stand, and the writes that were seen."""

    permits: list[Permit] = field(default_factory=list)
    seen: set[tuple[str, int]] = field(default_factory=set)

    def give(self, permit: Permit) -> None:
        """Somebody said yes."""
        self.permits.append(permit)

    def revoke_armed(self, key: str) -> None:
        """A question was answered no: what was to follow it may not be done."""
        self.permits = [it for it in self.permits if not (it.armed and it.key == key)]

    def take(self, write: Write) -> str | None:
        """What is wrong of a write that the desk did, or None."""
        if (write.key, write.number) in self.seen:
            return None
        self.seen.add((write.key, write.number))
        for permit in self.permits:
            if permit.key == write.key and uses(permit, write):
                return None
        return f"{write.path} {write.fields} was done, and nobody confirmed it ({', '.join(map(str, self.permits[-3:]))})"


def uses(permit: Permit, write: Write) -> bool:
    """Whether a permit allows a write; it is used up by it."""
    if permit.what == "form":
        return bool(re.fullmatch(permit.path, write.path))
    if permit.what == "entry":
        return uses_entry(permit, write)
    if permit.what == "book":
        return uses_leg(permit, write)
    found = TRIP.fullmatch(write.path)
    if not found or int(found[1]) != permit.trip or found[2] not in permit.what.split("|"):
        return False
    if found[2] == "cancel":
        if permit.left <= 0:
            return False
        permit.left -= 1
    return True


def uses_entry(permit: Permit, write: Write) -> bool:
    """An entry in a case is what was asked about, and is made once."""
    if (
        permit.left <= 0
        or write.path != f"/riders/{permit.rider}/entries"
        or write.fields.get("entry") != permit.entry
    ):
        return False
    permit.left -= 1
    return True


def uses_leg(permit: Permit, write: Write) -> bool:
    """A booking uses up a leg; a plan may ask for its own trip once more."""
    fields = write.fields
    if write.path == "/trips" and fields.get("rider") == permit.rider:
        leg = (fields["day"], fields["from"], fields["to"])
        if leg in permit.legs and permit.legs[leg] is None:
            permit.legs[leg] = write.reply.get("trip", 0)
            return True
        return False
    found = TRIP.fullmatch(write.path)
    return (
        bool(found)
        and found is not None
        and found[2] == "change"
        and int(found[1]) in permit.legs.values()
    )
