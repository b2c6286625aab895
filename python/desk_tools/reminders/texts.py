"""The text of a reminder in the rider's language."""

import datetime
import email.message
import email.policy
import email.utils
import hashlib
import re
from collections.abc import Mapping
from dataclasses import dataclass, field

from desk_tools.driver_files import Town
from desk_tools.reminders.riders import Rider
from desk_tools.reminders.settings import SUBJECT, Settings
from desk_tools.town.site_addresses import End, Known

MINUTES_OF_A_DAY = 1_440
WEEKDAYS = {
    "en": ("Monday", "Tuesday", "Wednesday", "Thursday", "Friday", "Saturday", "Sunday"),
    "es": ("lunes", "martes", "miércoles", "jueves", "viernes", "sábado", "domingo"),
}
MONTHS = {
    "en": "January February March April May June July August September October November December",
    "es": "enero febrero marzo abril mayo junio julio agosto septiembre octubre noviembre diciembre",
}


@dataclass(frozen=True)
class Agency:
    """What the texts say of the agency."""

    name: str = ""
    telephone: str = ""
    clock: int = 12
    places: Mapping[int, str] = field(default_factory=dict)
    town: Town = field(default_factory=lambda: Town(Known([]), {}))


@dataclass(frozen=True)
class Trip:
    """A booked trip. The window's minutes are from the midnight of its day, so they may lie in the next one."""

    number: int
    rider: int
    day: datetime.date
    begins: int
    ends: int
    origin: int
    goal: int

    @property
    def pickup_day(self) -> datetime.date:
        """The day of the calendar on which the window begins."""
        return self.day + datetime.timedelta(days=self.begins // MINUTES_OF_A_DAY)


def day_in(language: str, day: datetime.date) -> str:
    """A day as people say it."""
    weekday, month = WEEKDAYS[language][day.weekday()], MONTHS[language].split()[day.month - 1]
    if language == "es":
        return f"{weekday} {day.day} de {month}"
    return f"{weekday}, {month} {day.day}"


def clock_in(minute: int, clock: int) -> str:
    """A minute by a clock of 12 or 24 hours."""
    hour, rest = minute // 60 % 24, minute % 60
    if clock == 24:
        return f"{hour}:{rest:02}"
    return f"{(hour + 11) % 12 + 1}:{rest:02} {'AM' if hour < 12 else 'PM'}"


def spoken(language: str, text: str) -> str:
    """A text as people say it: in Spanish one o'clock is "la 1:00", and every other hour "las 2:00"."""
    return re.sub(r"\blas (?=0?1:)", "la ", text) if language == "es" else text


def text_of(which: str, trip: Trip, rider: Rider, agency: Agency, settings: Settings) -> str:
    """The text of one reminder, or its subject."""
    text = settings.texts[rider.language][which].format(
        agency=agency.name,
        telephone=agency.telephone,
        name=rider.name,
        day=day_in(rider.language, trip.pickup_day),
        begins=clock_in(trip.begins, agency.clock),
        ends=clock_in(trip.ends, agency.clock),
        place=where(trip, "from", trip.origin, agency),
        goal=where(trip, "to", trip.goal, agency),
    )
    return spoken(rider.language, text)


def where(trip: Trip, end: str, place: int, agency: Agency) -> str:
    """Where an end of a trip, "from" or "to", is as its rider reads it; a place without a name of its own goes by its number."""
    named = agency.town.named(trip.number, end)
    name = agency.places.get(place, "")
    return agency.town.known.read_by_rider(End(trip.rider, place), name, named) or str(place)


def mail_of(key: str, subject: str, text: str, to: str, sender: str) -> bytes:
    """A mail with its head, as sendmail takes it. Two of one reminder would have one Message-ID."""
    mail = email.message.EmailMessage(policy=email.policy.default)
    mail["To"] = to
    if sender:
        mail["From"] = sender
    mail["Subject"] = " ".join(subject.split())
    mail["Date"] = email.utils.localtime()
    mail["Message-ID"] = f"<{hashlib.sha256(f'{key} {to}'.encode()).hexdigest()[:32]}@desk>"
    mail["Auto-Submitted"] = "auto-generated"
    mail.set_content(f"{text}\n")
    return mail.as_bytes()


def subject_of(trip: Trip, rider: Rider, agency: Agency, settings: Settings) -> str:
    """The subject of a mail."""
    return text_of(SUBJECT, trip, rider, agency, settings)
