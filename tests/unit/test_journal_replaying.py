"""The replay of writes that were under way at once, and of those near the edge of a minute, over a desk that is played."""

import dataclasses
import json
from datetime import datetime, timedelta, timezone
from pathlib import Path
from typing import Any

import pytest
from hypothesis import given
from hypothesis import strategies as some

from desk_tools.journal import lines, replaying
from desk_tools.journal.lines import Line
from desk_tools.journal.places import Places

NOON = datetime(2026, 11, 29, 12, tzinfo=timezone.utc)


def write(reply: str, path: str = "/trips", at: datetime = NOON, number: int = 1) -> Line:
    found = lines.of_fields(
        1,
        {
            "at": lines.told(at),
            "who": "00c0ffee1234",
            "number": str(number),
            "method": "POST",
            "path": path,
            "status": 200,
            "took": 1.0,
            "body": "{}",
            "reply": reply,
        },
    )
    assert found is not None
    return found


class Played(replaying.Replay):
    """A desk that answers by how many writes it has, or by its minute."""

    def __init__(
        self, folder: Path, wanted: list[str] | None = None
    ) -> None:  # pylint: disable=super-init-not-called
        self.folder, self.told, self.shown = folder, (0, ""), ""
        self.state: list[str] = []
        self.copies: dict[str, list[str]] = {}
        self.wanted = wanted or []
        self.by_minute: dict[str, str] = {}

    def kept(self, name: str) -> Path:
        self.copies[name] = list(self.state)
        return self.folder / name

    def go_back(self, kept: Path) -> None:
        self.state = list(self.copies[kept.name])

    def show(self, moment: datetime) -> None:
        self.shown = lines.told(moment)[:16]

    def post(self, line: Line, caller: int) -> tuple[int, str]:
        if self.by_minute:
            self.state.append(f"{line.number} at {self.shown}")
            return 200, self.by_minute[self.shown]
        reply = line.reply if "put" in line.reply else str(len(self.state))
        self.state.append(f"{caller} {line.path} {line.number}")
        return 200, reply

    def compared(self, before: Path, now: Path) -> tuple[int, int]:
        other = sum(one != two for one, two in zip(self.copies[now.name], self.wanted))
        return len(self.wanted) - other, other


def test_lines_of_two_sites_come_by_their_moments(tmp_path: Path) -> None:
    """Each site's lines stay in their own order, and those of another machine name its record."""
    sites = []
    for name, moments in (("one", (0, 30, 20, 90)), ("two", (40, 50))):
        folder = tmp_path / name
        folder.mkdir()
        found = [write(name, at=NOON + timedelta(seconds=it), number=it + 1) for it in moments]
        told = [
            {"at": lines.told(it.at), "method": "POST", "path": it.path, "status": 200, "took": 1}
            for it in found
        ]
        (folder / "requests").write_text("".join(json.dumps(it) + "\n" for it in told))
        sites.append(Places(folder, name, timezone.utc))
    got = [(it.at - NOON, it.site) for it in replaying.lines_of_all(sites, None)]
    second = str(tmp_path / "two")
    wanted = [(0, ""), (30, ""), (20, ""), (40, second), (50, second), (90, "")]
    assert got == [(timedelta(seconds=seconds), site) for seconds, site in wanted]


@given(order=some.permutations(range(6)))
def test_the_order_of_writes_at_once_is_found(order: list[int]) -> None:
    """The lines stand in another order than the desk had the writes."""
    group: list[replaying.Write] = [(write(str(place)), [100 + place]) for place in order]
    desk = Played(Path("/none"))
    assert replaying.in_order(desk, group, desk.kept("start"))
    assert desk.state == [f"{100 + place} /trips 1" for place in range(6)]


def test_a_write_that_no_order_explains_is_none(tmp_path: Path) -> None:
    group: list[replaying.Write] = [(write("0"), [1]), (write("7"), [2])]
    desk = Played(tmp_path)
    assert not replaying.in_order(desk, group, desk.kept("start"))


@pytest.mark.parametrize("is_second_last", [True, False])
def test_of_two_writes_of_one_record_that_order_counts_which_the_copy_has(
    tmp_path: Path, is_second_last: bool
) -> None:
    """Their replies are the same in both orders."""
    group: list[replaying.Write] = [(write("put", "/policy"), [it]) for it in (1, 2)]
    wanted = ["1 /policy 1", "2 /policy 1"]
    desk = Played(tmp_path, wanted if is_second_last else wanted[::-1])
    assert replaying.in_order(desk, group, desk.kept("start"))
    assert desk.state == desk.wanted


@pytest.mark.parametrize("minute", ["2026-11-29T11:59", "2026-11-29T12:00"])
def test_near_the_edge_of_a_minute_both_are_tried(tmp_path: Path, minute: str) -> None:
    line = write("done", at=NOON + timedelta(seconds=0.2))
    desk = Played(tmp_path)
    desk.by_minute = {"2026-11-29T11:59": "denied", "2026-11-29T12:00": "denied", minute: "done"}
    assert desk.is_answered(line, 1)
    assert desk.state == [f"1 at {minute}"]


@pytest.mark.parametrize("minute", ["2026-11-29T11:59", "2026-11-29T12:00"])
def test_where_a_day_may_have_ended_the_day_of_the_copy_counts(tmp_path: Path, minute: str) -> None:
    """Both are answered as the line says; an entry keeps the day on which it was made."""
    desk = Played(tmp_path, [f"1 at {minute}"])
    desk.by_minute = {"2026-11-29T11:59": "done", "2026-11-29T12:00": "done"}
    assert desk.is_answered(write("done", at=NOON + timedelta(seconds=0.2)), 1)
    assert desk.state == [f"1 at {minute}"]


def test_a_write_without_an_answer_stays_where_the_copy_has_it(tmp_path: Path) -> None:
    line: Any = dataclasses.replace(write("x"), status=502)
    for wanted, state in ((["1 /trips 1"], ["1 /trips 1"]), (["another"], [])):
        desk = Played(tmp_path, wanted)
        replaying.replay_unknown(desk, line, 1)
        assert desk.state == state


def test_a_reason_that_has_a_key_is_not_sure_and_the_key_is_not_printed() -> None:
    """The record leaves the key out; other words beside it are a difference all the same."""
    kept = {"words": "he read (key) to me", "day": 3}
    same = {"words": "he read hello-hello to me", "day": 3}
    said, is_sure = replaying.difference(kept, same)
    assert not is_sure and "hello" not in said and "may be a key" in said
    said, is_sure = replaying.difference(kept, {**same, "day": 4})
    assert is_sure and "hello" not in said and "day is 4, by the record 3" in said
    said, is_sure = replaying.difference(kept, {**same, "words": "he sang hello-hello to me"})
    assert is_sure and "hello" not in said
