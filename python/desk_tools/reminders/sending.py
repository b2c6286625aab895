"""Sends the reminders of a day: each is on the disk before it goes out, and the desk is asked just before."""

import csv
import datetime
import io
import logging
import os
import time
from collections import Counter
from collections.abc import Callable, Mapping
from dataclasses import dataclass, field
from pathlib import Path

from desk_tools.asking import Desk
from desk_tools.reminders import hook, reading, texts
from desk_tools.reminders.kept import FAILED, SENT, Reminder, State, key_of
from desk_tools.reminders.riders import Rider
from desk_tools.reminders.settings import MAIL, NONE, VOICE, Settings, Wrong
from desk_tools.reminders.texts import Agency, Trip

LOG = logging.getLogger("bin/reminders")
# After so many messages in a row that a gateway did not take in time, it gets no more in this run.
MOST_IN_A_ROW = 3
EVERY = 2.0
COLUMNS = ("telephone", "language", "text", "trip", "rider", "day", "window_from", "window_to")
ALREADY, NO_CHANNEL, CANCELED, LEFT = "had one", "no channel", "not booked", "left"
# What earlier runs began: it said that it failed, or nobody knows how it ended. Neither is sent again.
FAILED_BEFORE, NO_END = "failed before", "no end"
BEFORE = {SENT: ALREADY, FAILED: FAILED_BEFORE}


@dataclass(frozen=True)
class Plan:
    """One message as it would go out now. `why` says why a machine can't send it."""

    trip: Trip
    rider: Rider
    text: str
    to: str = ""
    why: str = ""


@dataclass
class Sender:
    """What a run needs to know."""

    agency: Agency
    riders: Mapping[int, Rider]
    settings: Settings
    which: str
    desk: Desk
    now: Callable[[], datetime.datetime]
    is_to_dialer: bool = False
    in_a_row: Counter[str] = field(default_factory=Counter)
    result: Counter[str] = field(default_factory=Counter)

    def planned(self, trip: Trip) -> Plan | None:
        """The message of a trip; None where the rider has no channel."""
        rider = self.riders.get(trip.rider)
        if rider is None or rider.channel == NONE:
            return None
        text = texts.text_of(self.which, trip, rider, self.agency, self.settings)
        try:
            to = rider.address
            if rider.channel not in self.settings.hooks and not self._is_dialed(rider):
                raise ValueError(f"the settings have no command for {rider.channel}")
        except ValueError as error:
            return Plan(trip, rider, text, "", str(error))
        return Plan(trip, rider, text, to)

    def _is_dialed(self, rider: Rider) -> bool:
        return self.is_to_dialer and rider.channel == VOICE

    def run(self, trips: list[Trip], state: State) -> list[Plan]:
        """Sends what has not been sent; the messages for the dialer, which are begun."""
        dialed, said_at = [], time.monotonic()
        for at, trip in enumerate(trips, 1):
            plan = self._sent(trip, state)
            dialed += [plan] if plan else []
            if time.monotonic() - said_at > EVERY:
                LOG.info("%d of %d trips", at, len(trips))
                said_at = time.monotonic()
        return dialed

    def _sent(self, trip: Trip, state: State) -> Plan | None:
        """Sends one message. That for the dialer is begun and returned."""
        key = key_of(trip.day.isoformat(), trip.number, self.which)
        plan = self.planned(trip)
        if key in state.reminders:
            self.result[BEFORE.get(state.reminders[key].result, NO_END)] += 1
        elif plan is None:
            self.result[NO_CHANNEL] += 1
        elif self.in_a_row[plan.rider.channel] >= MOST_IN_A_ROW:
            self.result[LEFT] += 1
            state.leave(self._reminder(plan))
        elif not (now := reading.booked_now(self.desk, trip)) or not (plan := self.planned(now)):
            self.result[CANCELED] += 1
        else:
            return self._begun(plan, key, state)
        return None

    def _reminder(self, plan: Plan) -> Reminder:
        at = self.now().strftime("%Y-%m-%dT%H:%M:%S")
        trip, rider = plan.trip, plan.rider
        to = plan.to or (rider.mail if rider.channel == MAIL else rider.telephone)
        of_trip = trip.day.isoformat(), trip.number, self.which
        return Reminder(*of_trip, rider.number, rider.channel, to, at)

    def _begun(self, plan: Plan, key: str, state: State) -> Plan | None:
        rider = plan.rider
        state.begin(self._reminder(plan))
        if plan.why:
            self._ended(state, key, FAILED, plan.why)
        elif self._is_dialed(rider):
            return plan
        else:
            self._handed_over(plan, key, state)
        return None

    def _handed_over(self, plan: Plan, key: str, state: State) -> None:
        channel = plan.rider.channel
        try:
            hook.send(self.settings.hooks[channel], plan.to, self._message(plan, key))
        except hook.TooLong as error:
            self.in_a_row[channel] += 1
            self._ended(state, key, FAILED, f"{error}, so nobody knows whether it was sent")
            if self.in_a_row[channel] == MOST_IN_A_ROW:
                LOG.error(
                    "%s: %s, %d times in a row: it gets no more in this run",
                    channel,
                    error,
                    MOST_IN_A_ROW,
                )
        except hook.Failed as error:
            self.in_a_row[channel] = 0
            self._ended(state, key, FAILED, str(error))
        else:
            self.in_a_row[channel] = 0
            self._ended(state, key, SENT)

    def _message(self, plan: Plan, key: str) -> bytes:
        if plan.rider.channel != MAIL:
            return f"{plan.text}\n".encode()
        subject = texts.subject_of(plan.trip, plan.rider, self.agency, self.settings)
        return texts.mail_of(key, subject, plan.text, plan.to, self.settings.hooks[MAIL].sender)

    def _ended(self, state: State, key: str, result: str, why: str = "") -> None:
        state.end(key, result, why)
        self.result[result] += 1
        if why:
            LOG.warning("trip %s: %s", key.split()[1], why)

    def dialed(self, plans: list[Plan], path: Path, state: State) -> None:
        """Writes the dialer's file, and then says of its messages that they went out."""
        write_new(path, csv_of(plans))
        for it in plans:
            self._ended(state, key_of(it.trip.day.isoformat(), it.trip.number, self.which), SENT)


def csv_of(plans: list[Plan]) -> str:
    """The rows of a dialer."""
    out = io.StringIO(newline="")
    table = csv.writer(out, lineterminator="\r\n")
    table.writerow(COLUMNS)
    for it in plans:
        trip = it.trip
        window = trip.begins, trip.ends
        table.writerow(
            [it.to, it.rider.language, it.text, trip.number, trip.rider, trip.day, *window]
        )
    return out.getvalue()


def check_new(path: Path) -> None:
    """A file that is there waits for its dialer."""
    if path.exists() or path.is_symlink():
        raise Wrong(
            f"{path} is there already: has the dialer taken it? Move it away, or name another file"
        )
    if not path.parent.is_dir():
        raise Wrong(f"there is no folder {path.parent}")


def write_new(path: Path, text: str) -> None:
    """Writes a file that was not there, whole and on the disk."""
    new = path.with_name(f"{path.name}.new")
    flags = os.O_WRONLY | os.O_CREAT | os.O_TRUNC | os.O_NOFOLLOW
    with open(os.open(new, flags, 0o600), "w", encoding="utf-8", newline="") as file:
        file.write(text)
        file.flush()
        os.fsync(file.fileno())
    try:
        os.link(new, path)
    except FileExistsError:
        raise Wrong(f"{path} is there already: has the dialer taken it?") from None
    finally:
        new.unlink()
