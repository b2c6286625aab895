"""The file of the day: a log is followed over all that happens to logs, and each event counts once, on its day."""

import datetime
import gzip
import json
import os
import random
import zoneinfo
from pathlib import Path
from typing import Any

import pytest
from hypothesis import given
from hypothesis import strategies as some

from desk_tools import events, today
from desk_tools.event_log import UnreadableLog, read, told_of

ZONE = zoneinfo.ZoneInfo("America/New_York")
DAY = datetime.date(2026, 12, 7)
NOON = datetime.datetime(2026, 12, 7, 17, 0, tzinfo=datetime.timezone.utc)
RECEIVED = "2026-12-07T09:20:00-05:00"


def line(kind: str, number: int = 1, received: str = RECEIVED, **fields: Any) -> bytes:
    """A line of the log, whose id is of this number."""
    path = events.path_of(kind, {"id": f"{number:026}", **fields})
    return f"{received}\t{path.replace('?', chr(9))}\toffice\n".encode()


def stop(
    number: int = 1, at: str = "2026-12-07T09:12:00", event: str = "arrived", **more: Any
) -> bytes:
    return line("stops", number, **{"vehicle": 109, "trip": 154, "event": event, "at": at, **more})


def made(*lines: bytes, day: datetime.date = DAY) -> dict[str, Any]:
    """The file of a day out of lines."""
    known = today.Known()
    known.take(lines)
    found: dict[str, Any] = json.loads(json.dumps(today.day_of(known, day, ZONE)))
    return found


def test_taps_stand_by_van_in_the_order_in_which_they_were() -> None:
    told = made(
        stop(1, "2026-12-07T09:15:59", "aboard"),
        stop(2),
        stop(1, "2026-12-07T09:15:59", "aboard"),
        stop(3, "2026-12-07T09:16:00", "no-show-rider", vehicle=9),
        stop(4, event="left", trip=7),
        stop(5, "2026-12-07T09:18:00", "no-show-agency"),
        stop(6, "2026-12-07T09:19:00", "dropped"),
    )
    kinds = [(it["trip"], it["kind"], it["minute"]) for it in told["vehicles"]["109"]["taps"]]
    wanted = [
        (154, "arrived", 552),
        (7, "skipped", 552),
        (154, "aboard", 555),
        (154, "missed", 558),
    ]
    assert kinds == [*wanted, (154, "dropped", 559)]
    assert told["vehicles"]["9"] == {"taps": [{"trip": 154, "kind": "no-show", "minute": 556}]}


def test_a_skip_has_the_stop_that_was_skipped() -> None:
    told = made(
        stop(1, event="left", stop="drop-off"),
        stop(2, "2026-12-07T09:13:00", "no-show-rider", stop="pickup"),
        stop(3, "2026-12-07T09:14:00", "left"),
    )
    assert [it.get("stop") for it in told["vehicles"]["109"]["taps"]] == [
        "drop-off",
        "pickup",
        None,
    ]


def test_a_tap_that_was_taken_back_counts_no_more() -> None:
    def undone(number: int, minute: int, vehicle: int = 109) -> bytes:
        tapped = f"2026-12-07T09:{minute}:00"
        return line(
            "undone", number, vehicle=vehicle, trip=154, tapped=tapped, at="2026-12-07T09:17:00"
        )

    seen = {"day": "2026-12-07", "from": 545, "to": 560, "wait": 5, "arrived": 552}
    lines = [
        stop(1),
        stop(2, "2026-12-07T09:15:00", "aboard"),
        stop(3, "2026-12-07T09:16:00", "no-show-rider"),
        line("no-shows", 4, vehicle=109, trip=154, at="2026-12-07T09:16:00", **seen),
    ]
    whole = made(*lines)
    assert len(whole["vehicles"]["109"]["taps"]) == 3 and whole["no_shows"]
    told = made(undone(5, 16), *lines, undone(7, 15, vehicle=9))
    assert [it["kind"] for it in told["vehicles"]["109"]["taps"]] == ["arrived", "aboard"]
    assert (told["no_shows"], told["unreviewed"]["no_shows"]) == ([], [])
    assert made(*lines, undone(8, 16), undone(9, 15), undone(10, 12))["vehicles"] == {}


def test_a_tap_that_comes_a_day_late_is_of_its_own_day() -> None:
    late = stop(1, "2026-12-06T23:59:59")
    assert made(late)["vehicles"] == {}
    assert (
        made(late, day=datetime.date(2026, 12, 6))["vehicles"]["109"]["taps"][0]["minute"] == 1439
    )


def test_a_phone_whose_clock_is_ahead_tells_of_no_future() -> None:
    assert made(stop(1, "2026-12-09T11:00:00"))["vehicles"]["109"]["taps"][0]["minute"] == 560


def test_bookings_are_those_of_today_and_later_and_the_last_one_counts() -> None:
    def booking(number: int, trip: int, day: str, minute: int, at: str) -> bytes:
        fields = {
            "day": day,
            "trip": trip,
            "mode": "by",
            "minute": minute,
            "from": 500,
            "to": 530,
            "at": at,
        }
        return line("bookings", number, channel="page", **fields)

    told = made(
        booking(1, 641, "2026-12-07", 610, "2026-12-07T08:00:00"),
        booking(2, 641, "2026-12-07", 600, "2026-12-07T07:00:00"),
        booking(3, 642, "2026-12-21", 0, "2026-12-07T07:00:00"),
        booking(4, 643, "2026-12-06", 0, "2026-12-05T07:00:00"),
    )
    assert told["bookings"] == {
        "641": {"mode": "by", "minute": 610, "from": 500, "to": 530},
        "642": {"mode": "by", "minute": 0, "from": 500, "to": 530},
    }


def test_the_addresses_that_a_booking_names_are_kept() -> None:
    fields = {"day": "2026-12-07", "trip": 641, "mode": "by", "minute": 610, "from": 500, "to": 530}
    told = made(
        line(
            "bookings",
            1,
            channel="page",
            **fields,
            at="2026-12-07T08:00:00",
            from_address=17,
            to_address=4294967295,
        )
    )
    kept = told["bookings"]["641"]
    assert (kept["from_address"], kept["to_address"]) == (17, 4294967295)


def test_an_offer_waits_until_its_trip_is_booked_or_cancelled() -> None:
    def offer(number: int, trip: int, day: str, at: str = "2026-12-07T08:00:00") -> bytes:
        named = {"trip": trip, "rider": 42, "from": 635, "to": 660, "offer": "booking"}
        return line(
            "denials",
            number,
            day=day,
            minute=540,
            rule="no vehicle",
            mode="not-before",
            at=at,
            **named,
        )

    def booked(number: int, trip: int, at: str) -> bytes:
        window = {"from": 635, "to": 660}
        return line(
            "bookings",
            number,
            day="2026-12-08",
            trip=trip,
            mode="not-before",
            minute=540,
            channel="page",
            at=at,
            **window,
        )

    told = made(
        offer(1, 1, "2026-12-08"),
        offer(2, 2, "2026-12-08"),
        booked(3, 2, "2026-12-07T08:01:00"),
        offer(4, 3, "2026-12-08"),
        line("cancellations", 5, trip=3, by="agency", at="2026-12-06T08:01:00"),
        offer(6, 4, "2026-12-06"),
        booked(7, 5, "2026-12-07T07:00:00"),
        offer(8, 5, "2026-12-08"),
        line("denials", 9, day="2026-12-08", minute=540, rule="no vehicle"),
        offer(10, 6, "2026-12-08", "2026-12-07T07:30:00"),
        line("cancellations", 11, trip=6, by="agency", at="2026-12-07T08:01:00"),
    )
    waits = {
        "day": "2026-12-08",
        "rider": 42,
        "mode": "not-before",
        "minute": 540,
        "from": 635,
        "to": 660,
        "offer": "booking",
    }
    assert told["offers"] == {"1": waits, "3": waits, "5": waits}


def test_what_else_is_told_of_a_day() -> None:
    at = "2026-12-07T09:15:00"
    told = made(
        line("notes", 1, vehicle=109, day="2026-12-07", trip=0, text="flat tire ñ 日", at=at),
        line("notes", 2, vehicle=109, day="2026-12-06", trip=0, text="yesterday", at=at),
        line(
            "no-shows",
            3,
            vehicle=109,
            day="2026-12-07",
            trip=5,
            **{"from": 545, "to": 560},
            wait=5,
            at=at,
            arrived=546,
        ),
        line(
            "no-shows",
            4,
            vehicle=109,
            day="2026-12-07",
            trip=6,
            **{"from": 545, "to": 560},
            wait=0,
            at=at,
        ),
        line("disagreements", 5, vehicle=109, trip=5, record="ridden", told="missed-rider", at=at),
        line("calls", 6, list="out 109", trip=5, result="not-reached", at=at),
        line("calls", 7, list="out 109", trip=5, result="called", at="2026-12-07T09:16:00"),
    )
    assert told["notes"] == [{"vehicle": 109, "trip": 0, "text": "flat tire ñ 日", "minute": 555}]
    assert [it["arrived"] for it in told["no_shows"]] == [546, None]
    wanted = {
        "trip": 5,
        "vehicle": 109,
        "from": 545,
        "to": 560,
        "arrived": 546,
        "wait": 5,
        "minute": 555,
    }
    assert told["no_shows"][0] == wanted
    assert told["disagreements"] == [
        {"trip": 5, "vehicle": 109, "record": "ridden", "told": "missed-rider", "minute": 555}
    ]
    assert told["calls"] == {"out 109": {"5": "called"}}
    assert told["call_times"] == {"out 109": {"5": "2026-12-07T09:16:00"}}


def no_show(number: int, trip: int, at: str, **more: Any) -> bytes:
    window = {"from": 545, "to": 560}
    fields = {"vehicle": 109, "day": at[:10], "trip": trip, "wait": 5, "at": at, "arrived": 546}
    return line("no-shows", number, f"{at}-05:00", **{**fields, **window, **more})


def test_what_dispatch_has_not_looked_at_waits_over_days_and_comes_back_where_more_is_told() -> (
    None
):
    lines = [
        no_show(1, 5, "2026-12-05T09:15:00"),
        no_show(2, 6, "2026-12-07T09:15:00"),
        no_show(3, 7, "2026-12-07T09:15:00"),
        line("reviews", 4, trip=6, outcome="missed-rider", at="2026-12-07T09:20:00"),
        line(
            "disagreements",
            5,
            vehicle=9,
            trip=7,
            record="missed-rider",
            told="ridden",
            at="2026-12-07T09:18:00",
        ),
    ]
    waits = made(*lines)["unreviewed"]
    assert [(it["day"], it["trip"]) for it in waits["no_shows"]] == [
        ("2026-12-05", 5),
        ("2026-12-07", 7),
    ]
    assert waits["no_shows"][0]["arrived"] == 546 and waits["no_shows"][0]["wait"] == 5
    assert [(it["trip"], it["record"], it["told"]) for it in waits["disagreements"]] == [
        (7, "missed-rider", "ridden")
    ]
    review = line(
        "reviews",
        6,
        "2026-12-07T09:20:00-05:00",
        trip=7,
        outcome="ridden",
        at="2026-12-07T09:19:00",
    )
    waits = made(*lines, review)["unreviewed"]
    assert [it["trip"] for it in waits["no_shows"]] == [5] and not waits["disagreements"]
    assert made(*lines, review)["settled"] == [
        {"day": "2026-12-07", "trip": 7, "outcome": "ridden", "minute": 559},
        {"day": "2026-12-07", "trip": 6, "outcome": "missed-rider", "minute": 560},
    ]
    again = line(
        "disagreements",
        7,
        vehicle=9,
        trip=7,
        record="missed-rider",
        told="ridden",
        at="2026-12-07T09:19:30",
    )
    assert [it["trip"] for it in made(*lines, review, again)["unreviewed"]["disagreements"]] == [7]
    # (a phone that asked twice: one disagreement, until dispatch has looked at it)
    assert [it["trip"] for it in made(*lines, again)["unreviewed"]["disagreements"]] == [7]


def test_notes_of_the_day_before_stay_with_that_day() -> None:
    notes = [
        line("notes", 1, vehicle=4, day="2026-12-05", trip=0, text="old", at="2026-12-05T10:00:00"),
        line(
            "notes", 2, vehicle=4, day="2026-12-06", trip=0, text="flat", at="2026-12-06T10:15:00"
        ),
        line("notes", 3, vehicle=4, day="2026-12-07", trip=9, text="new", at="2026-12-07T09:00:00"),
    ]
    told = made(*notes)
    assert [it["text"] for it in told["notes"]] == ["new"]
    assert told["earlier_notes"] == [
        {"day": "2026-12-06", "vehicle": 4, "trip": 0, "text": "flat", "minute": 615}
    ]


def test_a_tap_that_comes_a_day_late_and_a_phone_with_the_wrong_date_are_named() -> None:
    told = made(
        stop(1, "2026-12-06T18:40:00", "dropped"),
        stop(1, "2026-12-06T18:40:00", "dropped"),
        stop(2, "2031-01-02T09:10:00"),
        stop(3, "2024-02-29T09:10:00", trip=9),
    )
    assert trips(told) == [154]
    assert told["vehicles"]["109"]["taps"][0]["minute"] == 560
    assert [(it["vehicle"], it["trip"], it["kind"], it["at"]) for it in told["late"]] == [
        (109, 9, "arrived", "2024-02-29T09:10:00"),
        (109, 154, "dropped", "2026-12-06T18:40:00"),
    ]


def test_a_tap_of_the_minutes_before_midnight_is_no_sign_of_a_wrong_date() -> None:
    def late(at: str) -> list[dict[str, Any]]:
        tap = {"vehicle": 109, "trip": 154, "event": "dropped", "at": at}
        found: list[dict[str, Any]] = made(line("stops", 1, "2026-12-07T00:00:24-05:00", **tap))[
            "late"
        ]
        return found

    assert late("2026-12-06T23:58:39") == []
    assert len(late("2026-12-06T22:58:39")) == 1


def test_two_phones_of_one_van_are_one_list_and_each_tap_counts_once() -> None:
    told = made(
        stop(1, "2026-12-07T09:10:00"),
        stop(2, "2026-12-07T09:11:00", "aboard"),
        stop(3, "2026-12-07T09:10:30"),
        stop(2, "2026-12-07T09:11:00", "aboard"),
    )
    kinds = [it["kind"] for it in told["vehicles"]["109"]["taps"]]
    assert kinds == ["arrived", "arrived", "aboard"]


# Following.


def work_in(folder: Path) -> today.Work:
    agency = folder / "agency.json"
    agency.write_text('{"zone": "America/New_York"}', encoding="utf-8")
    return today.Work(today.Follower(folder / "tally.log"), folder / "today.json", agency)


def step(work: today.Work, seconds: float = 0.0) -> dict[str, Any]:
    """The file after a look, so many seconds after noon."""
    work.step(NOON + datetime.timedelta(seconds=seconds))
    found: dict[str, Any] = json.loads(work.output.read_text(encoding="utf-8"))
    return found


def trips(told: dict[str, Any]) -> list[int]:
    return [tap["trip"] for it in told["vehicles"].values() for tap in it["taps"]]


def test_an_event_behind_a_line_that_was_cut_off_counts(tmp_path: Path) -> None:
    first, second = stop(1, trip=1), stop(2, trip=2)
    path = tmp_path / "tally.log"
    for cut in range(1, len(first)):
        path.write_bytes(first[:cut] + second + stop(3, trip=3))
        found = read([path])
        # (the last field of a line without its end is whole where it is one that a line may have)
        is_whole = first[:cut].endswith(b"\toffice")
        assert [it.number("trip") for it in found.events] == [1, 2, 3][0 if is_whole else 1 :], cut
        assert is_whole or found.broken[0].startswith(f"{path}, line 1: "), cut
    work = work_in(tmp_path)
    path.write_bytes(first[:40])
    work.begin(NOON)
    assert trips(step(work)) == []
    with open(path, "ab") as file:
        file.write(second)
    assert trips(step(work)) == [2]
    assert work.known.broken == 1


def test_a_log_is_followed_over_torn_lines_rotation_and_cuts(tmp_path: Path) -> None:
    work, path = work_in(tmp_path), tmp_path / "tally.log"
    work.begin(NOON)
    assert trips(step(work)) == []
    lines = [stop(it, f"2026-12-07T09:{it:02}:00", trip=it) for it in range(1, 9)]
    path.write_bytes(lines[0] + lines[1][:50])
    assert trips(step(work)) == [1]
    with open(path, "ab") as file:
        file.write(lines[1][50:] + b"\xff\0 no line\n" + lines[2][:9])
    assert trips(step(work)) == [1, 2]
    os.rename(path, tmp_path / "tally.log-20261207")
    with open(tmp_path / "tally.log-20261207", "ab") as file:
        file.write(lines[2][9:])
    path.write_bytes(lines[3])
    assert trips(step(work)) == [1, 2, 3, 4]
    with open(tmp_path / "tally.log-20261207", "ab") as file:
        file.write(lines[4].rstrip(b"\n"))
    assert trips(step(work, 10)) == [1, 2, 3, 4]
    assert trips(step(work, 400)) == [1, 2, 3, 4, 5]
    path.write_bytes(lines[5])
    assert trips(step(work, 410)) == [1, 2, 3, 4, 5, 6]
    path.write_bytes(lines[6] + lines[7])
    assert trips(step(work, 420)) == [1, 2, 3, 4, 5, 6, 7, 8]
    assert work.known.broken == 1
    assert len(work.follower.files) == 1


def test_a_new_start_reads_logs_that_were_rotated(tmp_path: Path) -> None:
    (tmp_path / "tally.log").write_bytes(stop(1, trip=1))
    (tmp_path / "tally.log-20261207").write_bytes(stop(2, trip=2) + stop(1, trip=1))
    with gzip.open(tmp_path / "tally.log.2.gz", "wb") as file:
        file.write(stop(3, trip=3))
    (tmp_path / "tally.log.3.gz").write_bytes(b"no gzip")
    (tmp_path / "tally-north.log").write_bytes(stop(4, trip=4))
    work = work_in(tmp_path)
    work.begin(NOON)
    assert sorted(trips(step(work))) == [1, 2, 3]


def test_the_day_changes_at_the_agencys_midnight_and_made_is_always_now(tmp_path: Path) -> None:
    (tmp_path / "tally.log").write_bytes(stop(1, "2026-12-07T09:00:00"))
    work = work_in(tmp_path)
    before, after = step(work, 11 * 3600 + 3599), step(work, 12 * 3600)
    assert (before["day"], before["made"], trips(before)) == (
        "2026-12-07",
        "2026-12-08T04:59:59Z",
        [154],
    )
    assert (after["day"], after["made"], trips(after)) == ("2026-12-08", "2026-12-08T05:00:00Z", [])


@given(seed=some.integers(0, 2**32))
def test_nothing_is_lost_and_nothing_counts_twice(
    seed: int, tmp_path_factory: pytest.TempPathFactory
) -> None:
    chance, folder = random.Random(seed), tmp_path_factory.mktemp("day")
    work, path, written, rotations = work_in(folder), folder / "tally.log", 0, 0
    path.touch()
    work.begin(NOON)
    for at in range(chance.randint(1, 25)):
        deed = chance.choice(["write", "write", "again", "torn", "rotate", "cut", "look"])
        if deed == "rotate":
            rotations += 1
            os.rename(path, folder / f"tally.log-{rotations}")
            path.touch()
        elif deed == "cut":
            step(work, at)
            os.truncate(path, 0)
        elif deed == "look":
            step(work, at)
        else:
            written += deed != "again"
            bytes_now = stop(max(written, 1), trip=max(written, 1))
            written = max(written, 1)
            with open(path, "ab", buffering=0) as file:
                if deed == "torn":
                    file.write(bytes_now[:40])
                    step(work, at)
                    file.write(bytes_now[40:])
                else:
                    file.write(bytes_now)
    assert sorted(trips(step(work, 99))) == list(range(1, written + 1))


@given(some.lists(some.binary(max_size=200), max_size=5))
def test_any_bytes_are_passed_over(pieces: list[bytes]) -> None:
    known = today.Known()
    known.take([it.replace(b"\n", b"") + b"\n" for it in pieces] + [stop()])
    assert told_of(stop().rstrip(b"\n")).id in known.events


def test_what_cannot_be_read_is_one_sentence(
    tmp_path: Path, capsys: pytest.CaptureFixture[str]
) -> None:
    path = tmp_path / "nowhere" / "today.json"
    assert today.main([str(tmp_path / "tally.log"), str(path), "--once"]) == 1
    assert "Traceback" not in capsys.readouterr().err


def test_no_shows_of_ninety_days_are_kept_with_what_was_seen() -> None:
    seen = {"vehicle": 109, "from": 545, "to": 560, "wait": 8, "at": "2026-12-07T09:20:00"}
    old = datetime.date(2026, 12, 7) - datetime.timedelta(days=90)
    known = today.Known()
    known.keep_for(DAY)
    known.take(
        [
            line("no-shows", 1, day="2026-12-07", trip=154, arrived=552, **seen),
            line("no-shows", 2, f"{old}T09:20:00-05:00", day=str(old), trip=7, **seen),
            line("no-shows", 3, "2026-09-07T09:20:00-04:00", day="2026-09-07", trip=8, **seen),
            line(
                "notes",
                4,
                f"{old}T09:20:00-05:00",
                vehicle=1,
                day=str(old),
                trip=0,
                text="x",
                at=seen["at"],
            ),
        ]
    )
    known.keep_for(DAY)
    told: dict[str, Any] = json.loads(json.dumps(today.no_shows_of(known, ZONE)))
    assert (told["since"], set(told["no_shows"])) == (str(old), {"154", "7"})
    assert (told["no_shows"]["154"]["arrived"], told["no_shows"]["7"]["arrived"]) == (552, None)
    assert len(known.events) == 2


def test_a_grant_in_part_has_its_last_step() -> None:
    given = {"rider": 7, "entry": 1, "day": "2026-12-01"}
    told = made(
        line("partial-grants", 2, step="applied", at="2026-12-07T09:01:00", **given),
        line("partial-grants", 1, step="refused", at="2026-12-07T09:00:00", **given),
        line(
            "partial-grants",
            3,
            step="refused",
            at="2026-12-07T09:00:00",
            rider=8,
            entry=3,
            day="2026-12-07",
        ),
    )
    assert {it["rider"]: it["step"] for it in told["partial_grants"]} == {
        7: "applied",
        8: "refused",
    }


def denial(number: int, at: str, minute: int = 540, **more: Any) -> bytes:
    fields = {"day": "2026-12-09", "minute": minute, "rule": "no vehicle", "channel": "page"}
    return line("denials", number, **{**fields, "mode": "around", "at": at, **more})


def mark(number: int, at: str, minute: int = 540, **more: Any) -> bytes:
    fields = {"day": "2026-12-09", "minute": minute, "mode": "around", "at": at}
    return line("marks", number, **{**fields, **more})


def test_denials_of_today_say_which_of_them_were_marked_since() -> None:
    told = made(
        denial(1, "2026-12-07T09:01:00"),
        mark(2, "2026-12-07T09:02:00"),
        mark(3, "2026-12-07T09:03:00"),
        denial(4, "2026-12-07T09:10:00"),
        denial(5, "2026-12-07T09:11:00", minute=600, mode="by", channel="telephone"),
        mark(6, "2026-12-07T09:12:00", minute=600),
    )
    rows = [(it["at"][11:16], it["minute"], it["marked"]) for it in told["denials"]]
    wanted = [("09:01", 540, "2026-12-07T09:02:00"), ("09:10", 540, None), ("09:11", 600, None)]
    assert rows == wanted
    assert told["denials"][2] == {
        "id": f"{5:026}",
        "day": "2026-12-09",
        "minute": 600,
        "mode": "by",
        "channel": "telephone",
        "at": "2026-12-07T09:11:00",
        "marked": None,
    }


def test_a_denial_of_another_kind_or_another_day_is_not_among_those_of_today() -> None:
    offer = {"trip": 9, "rider": 8, "from": 700, "to": 720, "offer": "booking"}
    told = made(
        denial(1, "2026-12-06T09:01:00"),
        denial(2, "2026-12-07T09:01:00", rule="37.131(a)"),
        denial(3, "2026-12-07T09:01:00", leg="lost"),
        denial(4, "2026-12-07T09:01:00", **offer),
    )
    assert told["denials"] == []


def test_a_file_that_is_no_log_is_refused_and_a_torn_line_is_not(tmp_path: Path) -> None:
    """A wrong file has no denials: read as a log, it would make every figure 0."""
    wrong, torn = tmp_path / "agency.json", tmp_path / "tally.log"
    wrong.write_text('{\n "name": "Chervil Falls Transit"\n}\n')
    with pytest.raises(
        UnreadableLog, match="is no log of a site: none of its 3 lines tells an event"
    ):
        read([wrong])
    torn.write_bytes(stop()[:40])
    assert read([torn]).events == [] and len(read([torn]).broken) == 1
    torn.write_bytes(b"half a line\n" + stop())
    assert len(read([torn]).events) == 1
