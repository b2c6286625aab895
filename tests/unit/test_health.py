"""The figures of /metrics: what a line of the log says, and a log that was turned over."""

import json
import time
from pathlib import Path

from desk_tools import agencies
from desk_tools.health.access_log import Follower, request_of
from desk_tools.health.command import Desks
from desk_tools.health.figures import Figures, text_of

MAIN = agencies.Agency()
LINE = '127.0.0.1 - - [29/Nov/2026:21:55:01 +0000] "{} {} HTTP/2.0" {} 17 "-" "curl" desk.test 0.250 0.125'


def line(method: str = "POST", path: str = "/trips", status: int = 200) -> str:
    """A line of the log."""
    return LINE.format(method, path, status) + "\n"


def test_a_line_says_what_was_asked() -> None:
    """Path classes are few, and a write is a POST to the desk."""
    told = request_of(line())
    assert told and (told.site, told.path_class, told.status) == ("desk.test", "trips", 200)
    assert (told.seconds, told.is_write, told.moment) == (0.25, True, 1795989301)
    pages = request_of(line("GET", "/screens/any.js"))
    assert pages and (pages.path_class, pages.is_write) == ("pages", False)
    tally = request_of(line("POST", "/tally/stops"))
    assert tally and not tally.is_write
    assert request_of("something else\n") is None
    assert request_of(LINE.format("GET", "/\\x22 200 9", 400)) is not None


def test_a_log_is_followed_over_its_end(tmp_path: Path) -> None:
    """Half a line waits, and a new log is read from its beginning."""
    log = tmp_path / "access.log"
    follower = Follower(log)
    assert not list(follower.requests())
    log.write_text(line() + line()[:40], encoding="utf-8")
    assert len(list(follower.requests())) == 1
    with open(log, "a", encoding="utf-8") as file:
        file.write(line()[40:])
    assert len(list(follower.requests())) == 1
    log.rename(tmp_path / "access.log.1")
    log.write_text(line() * 3, encoding="utf-8")
    assert len(list(follower.requests())) == 3


def test_figures(tmp_path: Path) -> None:
    """Counts, refused keys, ages, and the seconds since the last write."""
    log, seen = tmp_path / "access.log", tmp_path / "seen.json"
    log.write_text(line() + line(status=401) + line("GET", "/riders/1/trips"), encoding="utf-8")
    now = time.time()
    told = {"moment": now, "backups": {MAIN.unit: now - 60}, "written": {MAIN.unit: now - 5}}
    told |= {
        "sizes": {MAIN.unit: 4096},
        "copies": {MAIN.unit: [2, 9, now]},
        "ports": {MAIN.unit: "1"},
    }
    seen.write_text(json.dumps({**told, "troubles": [[MAIN.unit, "backup"]]}), encoding="utf-8")
    figures = Figures(Follower(log), seen)
    figures.look()
    text = text_of(figures, {MAIN.unit: False})
    for wanted in (
        f'desk_up{{desk="{MAIN.unit}"}} 0',
        'desk_requests_total{site="desk.test",path="trips",status="200"} 1',
        "desk_refused_keys_total 1",
        'desk_request_seconds_bucket{path="riders",le="1"} 1',
        f'desk_file_bytes{{desk="{MAIN.unit}"}} 4096',
        f'desk_upgrade_copies{{desk="{MAIN.unit}"}} 2',
        f'desk_trouble{{desk="{MAIN.unit}",kind="backup"}} 1',
    ):
        assert wanted in text
    # By the log alone: a start of the desk moves the moment of its file, and answers no write.
    told_by_log = time.time() - 1795989301
    since = figures.seconds_since_write(MAIN.unit, True)
    assert since is not None and abs(since - max(0.0, told_by_log)) < 30
    assert figures.seconds_since_write("desk@north", False) is None
    seen.write_text(json.dumps({"sites": {"desk@north": "desk.test"}}), encoding="utf-8")
    assert figures.seconds_since_write("desk@north", False) is not None


def test_no_write_in_the_log(tmp_path: Path) -> None:
    """Where the log has no answered write nobody knows, whatever the file's moment is."""
    log, seen = tmp_path / "access.log", tmp_path / "seen.json"
    log.write_text(line(status=401), encoding="utf-8")
    seen.write_text(json.dumps({"written": {MAIN.unit: time.time()}}), encoding="utf-8")
    figures = Figures(Follower(log), seen)
    figures.look()
    assert figures.seconds_since_write(MAIN.unit, True) is None


def test_health_of_a_desk_that_is_down(tmp_path: Path) -> None:
    """503, and 404 for an agency that is not there."""
    figures = Figures(Follower(tmp_path / "none"), tmp_path / "none")
    desks = Desks(figures, "/nowhere/desk", 1)
    status, text = desks.health(None)
    assert status == 503 and json.loads(text)["answers"] is False
    assert desks.health("north")[0] == 404
