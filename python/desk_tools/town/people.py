"""One table of riders, cut into what goes where: riders.csv, the roster, and the addresses of homes.

Columns: number, name, telephone, language, home_address, latitude, longitude, home, kind, attendant,
wheelchair, until, conditions, usual, aid, note, reminder, mail. `home` is the number of the home's place. Without it the
home's address is looked up in the table of addresses, or joins a place by its position.

`move-in riders` makes the place in its column `home` private. So riders.csv has there what the table itself says, or a
place that is private to riders already. A home that was grouped to another place leaves that open to all, since it may be
a clinic: the address of a home is private by itself.
"""

import csv
import datetime
import io
from collections import Counter
from collections.abc import Callable, Collection, Sequence
from dataclasses import dataclass, field, replace
from pathlib import Path

from desk_tools.counting import counted
from desk_tools.reminders.riders import ADDRESS
from desk_tools.reminders.settings import CHANNELS, NONE
from desk_tools.setup import roster_file
from desk_tools.town import cells, conditional, sheets
from desk_tools.town.addresses import (
    Address,
    Plane,
    named,
    plain,
    refuse_wrong,
    with_point,
)
from desk_tools.town.cells import WrongCell
from desk_tools.town.joining import NoPlace
from desk_tools.town.sheets import Row, Sheet

COLUMNS = {
    "number": tuple(
        """
        rider id rider_id rider_number rider_no id_number client client_id client_number
        """.split()
    ),
    "name": ("rider_name", "full_name", "client_name"),
    "telephone": ("phone", "telephone_number", "phone_number", "tel"),
    "language": ("lang",),
    "home_address": ("address", "street", "street_address"),
    "latitude": ("lat",),
    "longitude": ("lon", "lng", "long"),
    "x": (),
    "y": (),
    "home": ("place", "home_place"),
    "kind": ("type",),
    "attendant": ("pca", "personal_care_attendant"),
    "wheelchair": ("wc", "wheelchair_user", "uses_wheelchair"),
    "until": tuple(
        """
        certified_until certified_through certification_expires cert_expires expires expiration
        expiration_date
        """.split()
    ),
    "conditions": ("condition",),
    "usual": ("usual_places",),
    "aid": ("mobility_aid", "aids"),
    "note": ("notes", "comment", "comments"),
    "reminder": ("reminders", "remind"),
    "mail": ("email", "e_mail", "mail_address", "email_address"),
}
RIDERS = ("number", "kind", "attendant", "wheelchair", "until", "conditions", "home")
ROSTER = tuple(it for it in roster_file.COLUMNS if it != "attendant")
# What the roster takes as it stands, once it was looked at.
KEPT = ("usual", "aid", "note", "reminder", "mail")
LANGUAGES = {"english": "en", "inglés": "en", "spanish": "es", "español": "es"}
KINDS = ("resident", "visitor")
# What people write where there is no telephone.
NOTHING = ("none", "no", "n/a", "na", "-", "--", "no phone")


WITHOUT_HOME = "An empty home_address takes the rider without a home"


@dataclass(frozen=True)
class Person:
    """A rider as the two tables have one."""

    rider: dict[str, str]
    roster: dict[str, str]


@dataclass
class Cut:
    """What a table was cut into."""

    people: list[Person]
    addresses: list[Address]
    sheet: Sheet
    forms: Counter[tuple[str, str]] = field(default_factory=Counter)
    without_home: int = 0
    highest: int = 0


# An address and a grant's conditions: the address at its place, or NoPlace.
Join = Callable[[Address, tuple[str, ...]], Address]
# Why a grant does not hold at the place of an address as at the address itself, or nothing.
Deny = Callable[[Address, tuple[str, ...]], str]


def cut(
    path: Path,
    plane: Plane | None,
    known: Sequence[Address],
    join: Join,
    deny: Deny = lambda address, conditions: "",
    today: datetime.date | None = None,
    show: Callable[[int, int, str], None] = lambda done, total, what: None,
    private: Collection[str] = (),
) -> Cut:
    """The table's riders, and the addresses with their homes among them.

    `join` gives an address its place, or raises NoPlace; `deny` says why a place is not right for a grant. A
    certification that ended before `today` is refused, as `move-in riders` refuses it. `private` are the numbers of the
    places that are private to riders.
    """
    sheet = sheets.read(path, COLUMNS, cells.HIGHEST_NUMBER)
    sheets.require(sheet, ("number", "name"), COLUMNS)
    made = Cut([], list(known), sheet, highest=max((it.number for it in known), default=0))
    seen: dict[int, int] = {}
    streets = {plain(it.street): at for at, it in enumerate(made.addresses)}

    def take(row: Row) -> None:
        # (of each row, since a home that joins a place takes long)
        show(row.number - 1, len(sheet.rows), "riders read")
        number = named("number", row.fields, cells.number)
        if number is None or not row.fields.get("name"):
            raise WrongCell(f"{'name' if number else 'number'} is missing")
        if number in seen:
            raise WrongCell(f"row {seen[number]} has the number {number} already")
        rider = rider_of(number, row.fields, made.forms, today)
        home = home_of(number, row.fields, plane, made, streets, join, deny)
        seen[number] = row.number
        made.without_home += home == ""
        made.people.append(
            Person(
                {**rider, "home": home if row.fields.get("home") or home in private else ""},
                {**roster_of(number, row.fields), "home": home},
            )
        )

    refuse_wrong(sheet, take)
    return made


def rider_of(
    number: int,
    fields: dict[str, str],
    forms: Counter[tuple[str, str]],
    today: datetime.date | None = None,
) -> dict[str, str]:
    """What the desk needs of a rider."""
    kind = fields.get("kind", "").lower() or "resident"
    if kind not in KINDS:
        raise WrongCell(f"kind {fields['kind']!r} is none of {', '.join(KINDS)}")
    until = named("until", fields, cells.day)
    if until and kind == "visitor":
        raise WrongCell("a visitor has no certification here, so until has to be empty")
    if until and today and until[0] < today.isoformat():
        raise WrongCell(f"the certification ended on {until[0]}, and nothing could be granted")
    flags = {
        name: "yes" if named(name, fields, cells.yes_or_no) else "no"
        for name in ("attendant", "wheelchair")
    }
    conditions = fields.get("conditions", "")
    try:
        conditions = "; ".join(conditional.grant_in(conditions)) if conditions else ""
    except ValueError as error:
        raise WrongCell(f"conditions {fields['conditions']!r} {error}") from None
    if until:
        forms["until", until[1]] += 1
    return {
        "number": str(number),
        "kind": kind,
        **flags,
        "until": until[0] if until else "",
        "conditions": conditions,
    }


def roster_of(number: int, fields: dict[str, str]) -> dict[str, str]:
    """What the roster has of a rider."""
    language = fields.get("language", "").lower()
    telephone = fields.get("telephone", "")
    telephone = "" if telephone.lower() in NOTHING else telephone
    if telephone and not any(it.isdigit() for it in telephone):
        raise WrongCell(f"telephone {telephone!r} has no digits")
    named("usual", fields, cells.numbers)
    reminder, mail = fields.get("reminder", "").lower(), fields.get("mail", "")
    if reminder and reminder not in (*CHANNELS, NONE):
        raise WrongCell(f"reminder {reminder!r} is none of {', '.join(CHANNELS)}, {NONE}")
    if mail and not ADDRESS.fullmatch(mail):
        raise WrongCell(f"mail {mail!r} is no mail address")
    return {
        "rider": str(number),
        "name": fields["name"],
        "telephone": telephone,
        "language": LANGUAGES.get(language, language),
        **{name: fields.get(name, "") for name in KEPT},
        "reminder": reminder,
    }


def home_of(
    number: int,
    fields: dict[str, str],
    plane: Plane | None,
    made: Cut,
    streets: dict[str, int],
    join: Join,
    deny: Deny,
) -> str:
    """The number of the home's place, and the home's address among the addresses."""
    home = named("home", fields, cells.number)
    conditions = conditional.conditions_in(fields.get("conditions", ""))
    conditions = conditions if conditional.matters(conditions) else ()
    street = fields.get("home_address", "")
    if not street:
        return str(home or "")
    at = streets.get(plain(street))
    if at is not None:
        there = made.addresses[at]
        if said := deny(there, conditions):
            raise WrongCell(said)
        riders = tuple(sorted({*there.riders, number}))
        made.addresses[at] = replace(there, riders=riders)
        return str(home or there.place or "")
    address = with_point(
        Address(made.highest + 1, street, place=home, riders=(number,)), fields, plane
    )
    if home is None:
        address = joined(address, join, conditions)
    made.highest += 1
    streets[plain(street)] = len(made.addresses)
    made.addresses.append(address)
    return str(address.place)


def joined(address: Address, join: Join, conditions: tuple[str, ...]) -> Address:
    """The address at a place."""
    if address.point is None:
        raise WrongCell(
            f"home_address {address.street!r} is in no table of addresses, and has no position"
        )
    try:
        return join(address, conditions)
    except NoPlace as error:
        raise WrongCell(f"{error}. {WITHOUT_HOME}") from None


def table(columns: Sequence[str], rows: Sequence[dict[str, str]]) -> str:
    """Rows as a CSV."""
    text = io.StringIO()
    writer = csv.DictWriter(text, columns, lineterminator="\n", extrasaction="ignore")
    writer.writeheader()
    writer.writerows(rows)
    return text.getvalue()


def texts_of(made: Cut) -> dict[str, str]:
    """The texts of riders.csv and of the roster."""
    return {
        "cut-riders.csv": table(RIDERS, [it.rider for it in made.people]),
        "cut-roster.csv": table(ROSTER, [it.roster for it in made.people]),
    }


def told(made: Cut) -> list[str]:
    """What was cut, and how cells were read."""
    forms = [
        f"{name}: {count} days were read as {form}"
        for (name, form), count in sorted(made.forms.items())
        if form != cells.ISO
    ]
    unread = [f"the column {it} is not read" for it in made.sheet.header if it not in COLUMNS]
    homes = sum(bool(it.riders) for it in made.addresses)
    return [
        *(f"note: {it}" for it in [*unread, *made.sheet.notes, *forms]),
        f"{counted(len(made.people), 'rider')}; {counted(len(made.addresses), 'address', 'addresses')}, "
        f"{homes} of them {'a home' if homes == 1 else 'homes'}",
        *(
            [f"{counted(made.without_home, 'rider has', 'riders have')} no home"]
            if made.without_home
            else []
        ),
    ]
