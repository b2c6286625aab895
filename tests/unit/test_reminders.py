"""Reminders: texts, addresses, settings, and a file in which each message stands once."""

import datetime
import json
import string
import tempfile
from collections import Counter
from pathlib import Path

import pytest
from hypothesis import given
from hypothesis import strategies as some

from desk_tools.reminders import __main__ as command
from desk_tools.reminders import kept, reading, riders, sending, settings, texts

DAY = datetime.date(2026, 12, 8)
ROOM = tempfile.TemporaryDirectory()
AGENCY = texts.Agency("Town Rides", "555-0100", 12, {1: "Mill"})


def trip(begins: int = 600, ends: int = 615) -> texts.Trip:
    return texts.Trip(1, 7, DAY, begins, ends, 1, 2)


@pytest.mark.parametrize(
    "language, begins, wanted",
    [
        ("en", 600, "Tuesday, December 8. Pickup between 10:00 AM and 10:15 AM"),
        ("en", 1445, "Wednesday, December 9. Pickup between 12:05 AM and 12:20 AM"),
        ("es", 725, "martes 8 de diciembre. Lo recogemos entre las 12:05 PM y las 12:20 PM"),
    ],
)
def test_a_text_has_the_day_and_the_window(language: str, begins: int, wanted: str) -> None:
    rider = riders.Rider(7, "Ana", language)
    told = texts.text_of("evening", trip(begins, begins + 15), rider, AGENCY, settings.Settings())
    assert wanted in told


@pytest.mark.parametrize("clock", [12, 24])
def test_a_spanish_window_has_its_articles_at_each_minute(clock: int) -> None:
    rider, agency = riders.Rider(7, "Ana", "es"), texts.Agency("Town Rides", "555-0100", clock)
    for begins in range(1_440):
        ends = begins + 15
        hours = [it // 60 % clock for it in (begins, ends)]
        first, last = ("la" if it == 1 else "las" for it in hours)
        window = (
            f"entre {first} {texts.clock_in(begins, clock)} y {last} {texts.clock_in(ends, clock)}"
        )
        assert window in texts.text_of(
            "soon", trip(begins, ends), rider, agency, settings.Settings()
        )


def test_a_text_has_the_street_of_the_home_and_not_the_name_of_a_group_of_homes(
    tmp_path: Path,
) -> None:
    """By the site's folder, whose file of the day says which address a booking named."""
    held = {"name": "Town", "places": [{"id": 1, "name": "Area 1"}, {"id": 2, "name": "Court"}]}
    (tmp_path / "agency.json").write_text(json.dumps(held))
    (tmp_path / "staff").mkdir()
    homes = [
        {"id": 5, "street": "10 Elm St", "place": 1, "riders": [7]},
        {"id": 6, "street": "12 Elm St", "place": 1, "riders": [8]},
    ]
    (tmp_path / "staff/addresses.json").write_text(json.dumps({"addresses": homes}))
    told = settings.Settings(texts={"en": {"evening": "From {place} to {goal}."}})

    def text(site: Path | None) -> str:
        agency, _ = reading.agency_in(tmp_path / "agency.json", site)
        return texts.text_of("evening", trip(), riders.Rider(7, "Ana"), agency, told)

    assert text(tmp_path) == "From 10 Elm St to Court."
    assert text(None) == "From 1 to Court."
    (tmp_path / "staff/today.json").write_text(json.dumps({"bookings": {"1": {"from_address": 6}}}))
    assert text(tmp_path) == "From 12 Elm St to Court."
    (tmp_path / "staff/addresses.json").write_text("[")
    assert text(tmp_path) == "From 1 to Court."


def test_a_window_behind_midnight_is_soon_on_the_next_day() -> None:
    late = trip(1450, 1465)
    assert reading.is_soon(late, datetime.datetime(2026, 12, 8, 23, 30), 60)
    assert not reading.is_soon(late, datetime.datetime(2026, 12, 8, 0, 0), 60)
    assert not reading.is_soon(late, datetime.datetime(2026, 12, 9, 0, 10), 60)
    assert DAY in reading.days_of_soon(datetime.datetime(2026, 12, 9, 0, 5))


@pytest.mark.parametrize(
    "text", ["", "555", "555-0101 or 555-0102", "-oops", "ask 5550101", "٥٥٥٠١٠١"]
)
def test_a_number_that_no_machine_may_dial(text: str) -> None:
    with pytest.raises(ValueError):
        riders.dialed(text)


@given(some.text(string.printable, max_size=30))
def test_an_address_is_never_an_option_of_a_command(text: str) -> None:
    for rider in (
        riders.Rider(7, channel="sms", telephone=text),
        riders.Rider(7, channel="mail", mail=text),
    ):
        try:
            to = rider.address
        except ValueError:
            continue
        assert (
            to
            and not to.startswith("-")
            and to.isascii()
            and not set(to) & set(" \n\r\t\"'`$;|<>,")
        )


@given(
    some.recursive(
        some.none() | some.integers() | some.text(),
        lambda it: some.lists(it)
        | some.dictionaries(
            some.sampled_from(
                ["channels", "sms", "command", "seconds", "texts", "en", "evening", "soon_minutes"]
            ),
            it,
        ),
        max_leaves=12,
    )
)
def test_settings_are_right_or_named(held: object) -> None:
    try:
        found = settings._settings(held)
    except ValueError as error:
        assert str(error)
        return
    for language in settings.LANGUAGES:
        assert texts.text_of("evening", trip(), riders.Rider(7, "Ana", language), AGENCY, found)


@given(
    some.lists(
        some.tuples(some.integers(1, 4), some.sampled_from(["begin", "sent", "failed", "left"])),
        max_size=12,
    ),
    some.binary(max_size=20),
)
def test_what_was_begun_stands_whatever_is_cut_off(
    steps: list[tuple[int, str]], rest: bytes
) -> None:
    path = _fresh()
    state = kept.State(path)
    for number, step in steps:
        reminder = kept.Reminder(
            DAY.isoformat(), number, "evening", 7, "sms", "5550107", "2026-12-07T18:00:00"
        )
        if step == "begin":
            state.begin(reminder)
        elif step == "left" and reminder.key not in state.reminders:
            state.leave(reminder)
        elif reminder.key in state.reminders and step != "left":
            state.end(reminder.key, step)
    path.open("ab").write(rest.replace(b"\n", b""))
    again = kept.State(path)
    assert (again.reminders, again.left) == (state.reminders, state.left)
    assert len(again.to_call(DAY)) == sum(
        it.result != "sent" for it in state.reminders.values()
    ) + len(state.left)
    assert not again.to_call(DAY + datetime.timedelta(days=1))
    again.shorten(DAY)
    again.add(kind="run", day=DAY.isoformat(), which="evening")
    assert kept.read(path).reminders == state.reminders
    again.shorten(DAY + datetime.timedelta(days=61))
    assert kept.read(path).reminders == {}


def _fresh() -> Path:
    path = Path(ROOM.name, "reminders.jsonl")
    path.unlink(missing_ok=True)
    return path


def test_a_line_of_another_program_ends_all(tmp_path: Path) -> None:
    path = tmp_path / "reminders.jsonl"
    path.write_text(json.dumps({"kind": "end", "key": "none", "result": "sent", "why": ""}) + "\n")
    with pytest.raises(settings.Wrong):
        kept.read(path)


def test_a_mail_has_one_line_for_each_head() -> None:
    mail = texts.mail_of(
        "k", "Your\nBcc: all@town.example", "Hé", "bo@town.example", "rides@town.example"
    ).decode()
    head, body = mail.split("\n\n", 1)
    assert "Subject: Your Bcc: all@town.example" in head and "\nBcc:" not in head and body


def _reminder(number: int) -> kept.Reminder:
    of_trip = DAY.isoformat(), number, "evening"
    return kept.Reminder(*of_trip, 7, "sms", "5550107", "2026-12-07T18:00:00")


def _run_again(path: Path) -> "Counter[str]":
    """What a second run over trips 1 to 3 counts, of which 1 was sent, 2 failed, and 3 has no end."""
    state = kept.State(path)
    for number in (1, 2, 3):
        state.begin(_reminder(number))
    state.end(_reminder(1).key, kept.SENT)
    state.end(_reminder(2).key, kept.FAILED, "no modem")
    who = {7: riders.Rider(7, "Ana", channel="sms", telephone="555-0107")}
    now = datetime.datetime(2026, 12, 7, 19)
    parts = AGENCY, who, settings.Settings(), "evening", None, lambda: now
    sender = sending.Sender(*parts)  # type: ignore[arg-type]
    trips = [texts.Trip(number, 7, DAY, 600, 615, 1, 2) for number in (1, 2, 3)]
    assert not sender.run(trips, state)
    return sender.result


def test_a_later_run_tells_sent_from_failed_and_begun(tmp_path: Path) -> None:
    result = _run_again(tmp_path / "reminders.jsonl")
    said = command.told_of(result, 3)
    assert said.startswith(
        "3 trips: 1 had one already, 1 failed before, 1 were begun before and have no known end. "
    )
    assert "never sent again: call" in said
    assert [it.trip for it in kept.read(tmp_path / "reminders.jsonl").to_call(DAY)] == [2, 3]


@pytest.mark.parametrize(
    "counted, wanted",
    [
        (sending.ALREADY, 0),
        (sending.NO_CHANNEL, 0),
        (sending.CANCELED, 0),
        (sending.FAILED_BEFORE, 1),
        (sending.NO_END, 1),
        (kept.FAILED, 1),
        (sending.LEFT, 1),
    ],
)
def test_the_status_is_that_of_what_is_known_as_sent(counted: str, wanted: int) -> None:
    assert command.status_of(Counter({counted: 1, kept.SENT: 5})) == wanted


def test_a_run_that_is_cut_off_names_what_it_began() -> None:
    before, after = kept.Kept(), kept.Kept()
    before.reminders = {it.key: it for it in (_reminder(1),)}
    after.reminders = {it.key: it for it in map(_reminder, (1, 2, 3))}
    assert "trips 2, 3 were begun" in command.told_of_cut(before, after)
    after.reminders.pop(_reminder(3).key)
    assert "trip 2 was begun" in command.told_of_cut(before, after)
    assert "no reminder under way" in command.told_of_cut(before, before)
