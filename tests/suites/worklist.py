"""Tries bin/worklist: `worklist PROGRAM`.

A desk's file is made by requests and by rows of days that are over, and the desk itself opens it. Each list is compared
with one worked by hand, and each standing with the desk's own answer. The last line is 'N passed, M failed', and the
exit status 1 where something failed.
"""
import contextlib
import datetime
import fcntl
import html.parser
import json
import os
import pathlib
import re
import subprocess
import sys
import tempfile

from desk_tools.tree import TOP
import serving
from desk_tools.setup import keys
from desk_tools import events, served_copy, tables
from desk_tools.days import number_of
from desk_tools.reports import copies, lists
from serving import TODAY, difference, tally, write

WORKLIST, SECONDS = f"{TOP}/bin/worklist", 60
# That of the lists: DESK names the program that is tried.
ENVIRONMENT = dict(os.environ)
NOW = number_of(TODAY)
REASONS = 'can <b>walk</b> & "ride"'
EXAMINER, OFFICER, SECOND_OFFICER = 4, 5, 9
# A case file a rider: the kind of each entry, its day from today, its author, a, b, conditions, words. (a and b of
# grants and suspensions are days from today.)
IN_PART = "Granted in part through 2030-01-01 for farther:2640; nolift. Not granted: you ride the bus from the stop at your corner."
REFUSED = [
    ("complete", -60, 4, None, None, "", ""),
    ("refuse", -40, EXAMINER, None, None, "", REASONS),
]


def granted(last):
    return [("complete", -100, 4, None, None, "", ""), ("grant", -100, 4, last, None, "always", "")]


def suspended(*more):
    return [
        *granted(300),
        ("notice", -10, OFFICER, None, None, "", "missed three"),
        ("notice heard", -6, OFFICER, None, None, "", ""),
        ("suspend", -3, OFFICER, -2, 10, "", "missed three"),
        *more,
    ]


APPEALED = ("appeal", -2, OFFICER, 4, None, "", "")
CASES = {
    101: [("complete", -21, 4, None, None, "", "")],
    102: [("complete", -20, 4, None, None, "", "")],
    103: [
        *REFUSED,
        ("appeal", -35, OFFICER, 1, None, "", ""),
        ("heard", -29, OFFICER, None, None, "", ""),
    ],
    104: [
        *REFUSED,
        ("appeal", -35, OFFICER, 1, None, "", ""),
        ("heard", -30, OFFICER, None, None, "", ""),
    ],
    105: [*REFUSED, ("appeal", -10, OFFICER, 1, None, "", "")],
    106: granted(60),
    107: granted(61),
    108: [*granted(0), ("complete", -3, 4, None, None, "", "")],
    109: granted(-1),
    110: granted(300),
    111: granted(300),
    112: suspended(),
    113: suspended(APPEALED),
    114: suspended(
        APPEALED,
        ("heard", -2, OFFICER, None, None, "", ""),
        ("overturn", -1, SECOND_OFFICER, None, None, "", ""),
    ),
    115: [
        *REFUSED,
        ("appeal", -35, OFFICER, 1, None, "", ""),
        ("heard", -31, OFFICER, None, None, "", ""),
        ("appeal denied", -1, OFFICER, None, None, "", "no"),
    ],
    # (on the day of an edge, and a day before it)
    116: [("complete", -15, 4, None, None, "", "")],
    117: [("complete", -14, 4, None, None, "", "")],
    130: [
        ("complete", -9, 4, None, None, "", ""),
        ("refuse", -3, EXAMINER, None, None, "", IN_PART),
    ],
    131: [
        ("complete", -9, 4, None, None, "", ""),
        ("refuse", -4, EXAMINER, None, None, "", IN_PART),
        ("complete", -2, 4, None, None, "", ""),
    ],
    132: [
        ("complete", -9, 4, None, None, "", ""),
        ("refuse", -4, EXAMINER, None, None, "", IN_PART),
        ("complete", -2, 4, None, None, "", ""),
        ("grant", -2, EXAMINER, 300, None, "farther:2640", ""),
    ],
    118: [*REFUSED, ("appeal", -30, OFFICER, 1, None, "", "")],
    119: [*REFUSED, ("appeal", -29, OFFICER, 1, None, "", "")],
}
# A rider's trips: on which days from today, and how they ended.
CANCELED = copies.CANCELLED
MISSED, RIDDEN, BOOKED, BY_AGENCY = (
    copies.MISSED_BY_RIDER,
    copies.RIDDEN,
    copies.BOOKED,
    copies.MISSED_BY_OPERATOR,
)
TRIPS = [
    *((110, day, MISSED) for day in (-30, -2, -1)),
    (110, -6, RIDDEN),
    (110, -7, BY_AGENCY),
    *((111, day, MISSED) for day in (-31, -4, -3)),
    *((112, day, MISSED) for day in (-20, -19, -18)),
    *((113, day, MISSED) for day in (-23, -22, -21)),
    *((114, day, MISSED) for day in (-26, -25, -24)),
    (106, -5, BOOKED),
    (106, 0, BOOKED),
    (112, 3, BOOKED),
    (113, 4, BOOKED),
    (114, 5, BOOKED),
    # (a day after the suspension of rider 112)
    (112, 11, BOOKED),
    # (canceled by the agency: one that has no other, one that has; and one canceled by its rider)
    (115, 6, CANCELED),
    (105, 6, CANCELED),
    (105, 6, BOOKED),
    (104, 6, CANCELED),
    (103, -1, CANCELED),
    # (moved by the agency to another time: one rider who was not called, and one who was)
    (115, 7, CANCELED),
    (115, 7, BOOKED),
    (115, 8, CANCELED),
    (115, 8, BOOKED),
    # (canceled by nobody knows whom)
    (115, 9, CANCELED),
    # (moved twice, since the second vehicle broke down too)
    (115, 10, CANCELED),
    (115, 10, CANCELED),
    (115, 10, BOOKED),
    # (on a closed day, as rider 112's trip of that day: canceled by the agency, and by its rider)
    (106, 11, CANCELED),
    (105, 11, CANCELED),
    # (canceled by the agency, and another trip of that day that is none in its place: it was there before, goes the other way, or was booked nobody knows when)
    (116, 12, CANCELED),
    (116, 12, BOOKED),
    (117, 13, CANCELED),
    (117, 13, BOOKED),
    (118, 14, CANCELED),
    (118, 14, BOOKED),
    # (booked again within the old window; moved away, told, and moved back; and booked again, and then given up by its rider)
    (119, 15, CANCELED),
    (119, 15, BOOKED),
    (130, 16, CANCELED),
    (130, 16, CANCELED),
    (130, 16, BOOKED),
    (131, 6, CANCELED),
    (131, 6, CANCELED),
    # (on the closed day, canceled by nobody knows whom; and a second one without an outcome in the same vehicle)
    (116, 11, CANCELED),
    (107, -5, BOOKED),
    # (an offer to which its rider said no: canceled as the agency's)
    (131, 7, CANCELED),
]
# Cancellations by trip, with their minute where it is not 9:00 AM; and when the trips in the place of others were booked.
LOG = [
    (124, "agency"),
    (125, "agency"),
    (127, "rider"),
    (128, "agency"),
    (129, "agency"),
    (131, "agency"),
    (134, "agency"),
    (135, "agency", "10:00"),
    (137, "agency"),
    (138, "rider"),
    (139, "agency"),
    (141, "agency"),
    (143, "agency"),
    (145, "agency"),
    (147, "agency"),
    (148, "agency", "10:00"),
    (150, "agency"),
    (151, "rider", "10:00"),
]
ANEW = [
    (126, "09:01"),
    (130, "09:01"),
    (132, "09:01"),
    (135, "09:01"),
    (136, "10:01"),
    (140, "08:59"),
    (142, "09:01"),
    (146, "09:01"),
    (148, "09:01"),
    (149, "10:01"),
    (151, "09:01"),
]
MOVED, MINUTES_MOVED, BACK, SHORTER, LATER = (130, 132, 148), 30, 142, 146, 153
# Offers by trip, day and promised window; those of 121 and 122 are answered, 123 has another window by now, 124 is canceled.
OFFERS = [
    (120, 3, 540, 555),
    (121, 4, 540, 555),
    (122, 5, 540, 555),
    (123, 11, 600, 615),
    (124, 6, 540, 555),
]
ANSWERS = [
    "bookings\tid={}&day={}&trip=121&mode=not-before&minute=420&from=540&to=555&channel=page&at={}T09:05:00",
    "cancellations\tid={}&trip=122&by=agency&at={}T09:05:00",
]
# How many versions of the vehicle there are besides the first and the last.
MORE_VERSIONS = 13


def day(offset):
    return TODAY + datetime.timedelta(days=offset)


def told():
    """What else people told the site, as (kind, fields)."""

    def at(offset, hour="09:30"):
        return f"{day(offset)}T{hour}:00"

    window = {"from": 540, "to": 555}
    yield "calls", {"list": "plan", "trip": 131, "result": "not-reached", "at": at(0)}
    yield "calls", {"list": "plan", "trip": 131, "result": "called", "at": at(0, "10:30")}
    yield "calls", {"list": "plan", "trip": 124, "result": "called", "at": at(0)}
    yield "calls", {"list": "plan", "trip": 124, "result": "not-reached", "at": at(0, "10:30")}
    yield "calls", {"list": "plan", "trip": 147, "result": "called", "at": at(0)}
    yield "denials", {
        "day": day(7),
        "minute": 420,
        "rule": "no vehicle",
        "channel": "page",
        "mode": "not-before",
        "at": at(0, "08:00"),
        "trip": 154,
        "rider": 131,
        **window,
        "offer": "booking",
    }
    yield "cancellations", {"trip": 154, "by": "agency", "channel": "page", "at": at(0, "08:01")}
    for trip, hour in ANEW:
        yield "bookings", {
            "day": day(6),
            "trip": trip,
            "mode": "around",
            "minute": 540,
            **window,
            "channel": "page",
            "at": at(0, hour),
        }
    for trip, offset, arrived in ((101, -30, 550), (102, -2, 560), (103, -1, 550), (107, -4, None)):
        yield "no-shows", {
            "vehicle": 1,
            "day": day(offset),
            "trip": trip,
            **window,
            "wait": 6,
            "at": at(offset),
            "arrived": arrived,
        }
    for trip, offset, record, other in (
        (104, -6, "ridden", "missed-rider"),
        (108, -3, "missed-rider", "ridden"),
    ):
        yield "disagreements", {
            "vehicle": 1,
            "trip": trip,
            "record": record,
            "told": other,
            "at": at(offset),
        }
    # (a driver has two riders aboard who are on record as no-shows: one of them is settled)
    for trip, offset in ((102, -2), (103, -1)):
        for tapped, hour in (("aboard", "09:21"), ("dropped", "09:40")):
            yield "stops", {"vehicle": 1, "trip": trip, "event": tapped, "at": at(offset, hour)}
    # (one is confirmed; two are found to be another outcome, of which one is in corrections.csv)
    for trip, right in ((103, "missed-rider"), (106, "missed-operator"), (108, "ridden")):
        yield "reviews", {"trip": trip, "outcome": right, "at": at(0)}


def line_of(kind, fields):
    path = events.path_of(
        kind,
        {
            "id": keys.made(),
            **{
                name: str(value) if isinstance(value, datetime.date) else value
                for name, value in fields.items()
            },
        },
    )
    return f"2026-02-27T09:00:00-06:00\t{path.replace('?', chr(9))}\tdispatcher\n"


def said(offset):
    return f"{day(offset).isoformat()} {day(offset):%a}"


def fill(database):
    """The rows of what is over. Trips have the times that the desk gave trip 1."""
    kinds = {name: number for number, name in enumerate(tables.ENTRIES)}
    database.execute("UPDATE vehicles SET from_day = ?", (NOW - 120,))
    database.execute("UPDATE travel SET from_day = ?", (NOW - 120,))
    # (a last version, which begins after some of the trips)
    version = database.execute("SELECT * FROM vehicles").fetchone()
    database.execute(
        "INSERT INTO vehicles VALUES (?, ?, ?, ?, ?, ?, ?, ?)", (version[0], NOW + 4, *version[2:])
    )
    for at in range(MORE_VERSIONS):
        database.execute(
            "INSERT INTO vehicles VALUES (?, ?, ?, ?, ?, ?, ?, ?)",
            (version[0], NOW - 100 + at, *version[2:]),
        )
    database.execute("INSERT INTO callers VALUES (?, 3, 0, ?)", (SECOND_OFFICER, b"\1" * 32))
    for rider, entries in CASES.items():
        database.execute("INSERT INTO riders VALUES (?, 0, 0)", (rider,))
        for place, (kind, at, author, a, b, conditions, words) in enumerate(entries):
            first, last = (
                -1 if it is None else it if kind == "appeal" else NOW + it for it in (a, b)
            )
            row = (rider, place, kinds[kind], NOW + at, author, first, last, conditions, words)
            database.execute("INSERT INTO entries VALUES (?, ?, ?, ?, ?, ?, ?, ?, ?)", row)
    like = database.execute("SELECT * FROM trips WHERE id = 1").fetchone()
    for number, (rider, at, status) in enumerate(TRIPS, 101):
        row = (number, rider, NOW + at, *like[3:-1], status)
        database.execute(f"INSERT INTO trips VALUES ({', '.join('?' * len(row))})", row)
        before = database.execute(
            "SELECT count(*) FROM stops WHERE vehicle = 1 AND day = ?", (NOW + at,)
        ).fetchone()[0]
        for kind in (0, 1) if status != CANCELED else ():
            database.execute(
                "INSERT INTO stops VALUES (1, ?, ?, ?, ?)", (NOW + at, before + kind, number, kind)
            )
    for trip in MOVED:
        database.execute(
            "UPDATE trips SET window_from = window_from + ?, window_to = window_to + ? WHERE id = ?",
            (MINUTES_MOVED, MINUTES_MOVED, trip),
        )
    database.execute("UPDATE trips SET origin = goal, goal = origin WHERE id = ?", (BACK,))
    database.execute(
        "UPDATE trips SET window_from = window_from + 5, window_to = window_to - 3 WHERE id = ?",
        (SHORTER,),
    )
    database.execute(
        "UPDATE trips SET wish = wish + 180, latest = min(latest + 180, 1439), window_from = window_from + 180, window_to = window_to + 180 WHERE id = ?",
        (LATER,),
    )
    database.execute("UPDATE desk SET last_trip = ?", (100 + len(TRIPS),))


WANTED = {
    "first": [
        (104, "officer", "appeal, heard and not decided", said(-30), "30 days"),
        (118, "officer", "appeal, not heard", said(-30), "30 days"),
        (101, "examiner", f"application; presumed eligible since {day(0)}", said(-21), "21 days"),
        (102, "examiner", f"application; presumed eligible from {day(1)}", said(-20), "20 days"),
        (116, "examiner", f"application; presumed eligible from {day(6)}", said(-15), "15 days"),
    ],
    "in-part": [
        (131, "1", said(-4), "Grant it with its conditions", "4 days ago"),
        (130, "1", said(-3), "Take the new application", "3 days ago"),
    ],
    "policies": [
        ("3", "10 %", "30", "5", "5", "in force"),
        ("1", "100 %", "1", "5", "5", ""),
        ("2", "10 %", "30", "5", "5", ""),
        ("4", "15 %", "30", "0", "5", ""),
        ("4", "10 %", "60", "0", "5", ""),
        ("6", "10 %", "90", "0", "5", ""),
    ],
    "applications": [
        (131, said(-2), said(19), "in 19 days"),
        (108, said(-3), said(18), "in 18 days"),
        (117, said(-14), said(7), "in 7 days"),
        (116, said(-15), said(6), "in 6 days"),
        (102, said(-20), said(1), "in 1 day"),
        (101, said(-21), said(0), "today"),
    ][::-1],
    "appeals": [
        (104, "refuse (entry 1)", said(-35), said(-30), said(0), "today", "caller 4"),
        (103, "refuse (entry 1)", said(-35), said(-29), said(1), "in 1 day", "caller 4"),
        (118, "refuse (entry 1)", said(-30), "not heard", "no day", "", "caller 4"),
        (119, "refuse (entry 1)", said(-29), "not heard", "no day", "", "caller 4"),
        (105, "refuse (entry 1)", said(-10), "not heard", "no day", "", "caller 4"),
        (113, "suspend (entry 4)", said(-2), "not heard", "no day", "", "caller 5"),
    ],
    "grants": [
        (108, said(0), "today", "always", said(-3)),
        (106, said(60), "in 60 days", "always", "no"),
    ],
    "missed": [
        (110, "3", "5", "60 %", "none"),
        (112, "3", "3", "100 %", f"suspended {day(-2)} to {day(10)}"),
        (113, "3", "3", "100 %", "none"),
        (114, "3", "3", "100 %", "none"),
    ],
    "suspended": [(112, said(3), "09:00", "120", "1 (Van <1>)")],
    "outcomes": [(said(-5), "1 (Van <1>)", "2", "118, 153")],
    "canceled": [
        (9, said(1), "14:00 to 14:15", "3", "2", "1", "1 (Van <1>)", "not known", ""),
        (115, said(6), "09:00 to 09:15", "124", "1", "2", "1 (Van <1>)", "agency", "not reached"),
        (115, said(9), "09:00 to 09:15", "133", "1", "2", "1 (Van <1>)", "not known", ""),
        (116, said(12), "09:00 to 09:15", "139", "1", "2", "1 (Van <1>)", "agency", ""),
        (117, said(13), "09:00 to 09:15", "141", "1", "2", "1 (Van <1>)", "agency", ""),
        (118, said(14), "09:00 to 09:15", "143", "1", "2", "1 (Van <1>)", "agency", ""),
    ],
    "moved": [
        (115, said(7), "09:00 to 09:15", "129", "09:30 to 09:45", "130", "1 (Van <1>)", ""),
        (130, said(16), "09:30 to 09:45", "148", "09:00 to 09:15", "149", "1 (Van <1>)", ""),
    ],
    "no-shows": [
        (
            111,
            said(-4),
            "107",
            "09:00 to 09:15",
            "not tapped",
            "6",
            "1 (Van <1>)",
            "missed by the rider",
            "no arrival",
        ),
        (
            110,
            said(-2),
            "102",
            "09:00 to 09:15",
            "09:20",
            "6",
            "1 (Van <1>)",
            "missed by the rider",
            "5 minutes after the window",
        ),
    ],
    "disagreements": [
        (110, said(-6), "104", "1 (Van <1>)", "ridden", "missed by the rider", "09:30"),
        (110, said(-2), "102", "1 (Van <1>)", "missed by the rider", "aboard", "09:21"),
    ],
    "corrections": [(111, "106", "missed-rider", "missed-operator")],
    "closed": [
        (
            112,
            said(11),
            "Christmas Day",
            "09:00 to 09:15",
            "123",
            "1 (Van <1>)",
            "booked: cancel it",
        ),
        (
            106,
            said(11),
            "Christmas Day",
            "09:00 to 09:15",
            "137",
            "1 (Van <1>)",
            "canceled: call the rider",
        ),
        (
            116,
            said(11),
            "Christmas Day",
            "09:00 to 09:15",
            "152",
            "1 (Van <1>)",
            "canceled, not known by whom: call the rider",
        ),
    ],
    "versions": [("1 (Van <1>)", "15", "5")],
    "vehicles": [("1 (Van <1>)", said(4), "12", said(4), said(16), said(17))],
    "offers": [(112, said(3), "not before 07:00", "09:00 to 09:15", "120", "1", "2")],
}
# What a title counts where it is not the rows: trips of which several are in a row, what nobody knows, and nothing at all.
COUNTED = {"outcomes": ": 2", "canceled": ": 4, and 2 by nobody knows whom", "policies": ""}
WITHOUT_LOG = {
    "closed": ": 1 booked, canceled ones not known",
    **dict.fromkeys(
        ("canceled", "moved", "no-shows", "disagreements", "corrections", "offers"), ": not known"
    ),
}


class Page(html.parser.HTMLParser):
    """The rows of each section's table, by the section, and the names of all elements."""

    def __init__(self, text):
        super().__init__()
        self.sections, self.tags, self.attributes, self.at, self.cell = {}, set(), set(), None, None
        self.feed(text)

    def handle_starttag(self, tag, attributes):
        self.tags.add(tag)
        self.attributes.update(name for name, _ in attributes)
        if tag in ("section", "details"):
            self.at = dict(attributes).get("id")
        elif tag == "tr":
            self.sections.setdefault(self.at, []).append([])
        elif tag in ("td", "th"):
            self.cell = ""
        elif tag == "time" and self.cell is not None:
            at = datetime.date.fromisoformat(dict(attributes)["datetime"])
            self.sections[self.at][-1].append(f"{at.isoformat()} {at:%a}")
            self.cell = None

    def handle_data(self, text):
        if self.cell is not None:
            self.cell += text

    def handle_endtag(self, tag):
        if tag in ("td", "th") and self.cell is not None:
            self.sections[self.at][-1].append(self.cell)
            self.cell = None


def counts_of(text):
    """What each title of a page counts, by its list, with the colon; and the lists that say that nothing waits."""
    sections = re.findall(
        r'<section id="([a-z-]+)".*?<h2[^>]*>(.*?)</h2>(.*?)</section>', text, re.DOTALL
    )
    return {
        name: title[title.find(":") :] if ":" in title else "" for name, title, _ in sections
    }, {name for name, _, rest in sections if "Nothing waits here" in rest}


def run_of(*words):
    return subprocess.run(
        [WORKLIST, *map(str, words)],
        capture_output=True,
        text=True,
        timeout=SECONDS,
        env=ENVIRONMENT,
    )


def made(program, folder):
    """A desk's file that the desk opens, its copy, and the words that name the agency's files."""
    file, copy = serving.make_agency(program, folder), f"{folder}/desk-2026-01-02-0230.db"
    serving.with_database(file, fill)
    serving.copy_database(file, copy)
    write(
        f"{folder}/agency.json",
        json.dumps(
            {
                "name": "Hill & Dale",
                "vehicles": [{"id": 1, "name": "Van <1>"}],
                "closed": [{"day": day(11).isoformat(), "name": "Christmas Day"}],
            }
        ),
    )
    write(
        f"{folder}/tally.log",
        "".join(
            f"2026-02-27T09:00:00-06:00\t/tally/cancellations\tid={keys.made()}&trip={trip}&by={by}"
            f"&at={TODAY}T{hour[0] if hour else '09:00'}:00\n"
            for trip, by, *hour in LOG
        )
        + "".join(
            f"2026-02-27T09:00:01-06:00\t/tally/denials\tid={keys.made()}&day={day(at)}&minute=420&rule=no%20vehicle&channel=page"
            f"&mode=not-before&at={TODAY}T09:00:01&trip={trip}&rider=112&from={begins}&to={ends}\n"
            for trip, at, begins, ends in OFFERS
        )
        + "".join(
            f"2026-02-27T09:05:00-06:00\t/tally/{it.format(keys.made(), *[day(4), TODAY][-it.count('{}') + 1:])}\n"
            for it in ANSWERS
        )
        + "".join(line_of(*it) for it in told()),
    )
    write(f"{folder}/corrections.csv", "trip,outcome,who,why\n108,ridden,Dana,she was aboard\n")
    write(f"{folder}/roster.csv", "rider,name\n101,Ana <i>Sol\n")
    return (
        file,
        copy,
        [
            "--agency",
            f"{folder}/agency.json",
            "--roster",
            f"{folder}/roster.csv",
            "--today",
            TODAY,
            "--tally",
            f"{folder}/tally.log",
            "--corrections",
            f"{folder}/corrections.csv",
        ],
    )


def faults_of_lists(folder, copy, words):
    """Each list of the page has the rows that were worked by hand, and the text has the same."""
    ran = run_of(copy, *words, "--html", f"{folder}/page.html")
    yield difference("the page's run", (0, ""), (ran.returncode, ran.stderr))
    text = pathlib.Path(f"{folder}/page.html").read_text("utf-8")
    page = Page(text)
    printed = run_of(copy, *words).stdout
    squeezed = [re.sub(" {2,}", "|", it) for it in printed.splitlines()]
    for name, rows in WANTED.items():
        wanted = [[*(str(it) for it in row)] for row in rows]
        got = page.sections.get(name, [[]])[1:]
        if isinstance(rows[0][0], int):
            for row in wanted:
                row.insert(1, "Ana <i>Sol" if row[0] == "101" else "")
        yield difference(f"the list {name}", wanted, got)
        lost = [row for row in wanted if "|".join(filter(None, row)) not in squeezed]
        yield difference(f"the lines of {name} that the text lacks", [], lost)
    yield difference("what stands first", "first", next((it for it in page.sections if it), None))
    yield difference(
        "elements that the page must not have", set(), page.tags & {"b", "i", "script", "style"}
    )
    yield difference(
        "attributes that the site refuses", set(), page.attributes & {"style", "onclick"}
    )
    yield difference("the page's title", True, "<title>What waits, Hill &amp; Dale</title>" in text)
    wanted = {
        f"rider-{it}"
        for it in (101, 102, 103, 104, 105, 108, 110, 112, 113, 114, 116, 117, 118, 119, 130, 131)
    }
    yield difference(
        "case files on the page",
        wanted,
        {it for it in page.sections if it and it.startswith("rider-")},
    )
    yield difference(
        "the reasons on the page",
        True,
        "can &lt;b&gt;walk&lt;/b&gt; &amp; &quot;ride&quot; (may" in text,
    )
    yield difference("the mode of the page", 0o640, os.stat(f"{folder}/page.html").st_mode & 0o777)


def faults_of_counts(folder, copy, words):
    """A title counts what it says that it counts; where nobody knows, it says so, and never that nothing waits."""

    def titles_of(label, given, wanted):
        ran = run_of(copy, *given, "--html", f"{folder}/counts.html")
        yield difference(f"{label}: the page's run", 0, ran.returncode)
        text = pathlib.Path(f"{folder}/counts.html").read_text("utf-8")
        counts, nothing = counts_of(text)
        links = {
            name: title[title.find(":") :] if ":" in title else ""
            for name, title in re.findall(r'<li><a href="#([a-z-]+)">(.*?)</a>', text)
        }
        yield difference(
            f"{label}: titles that count otherwise",
            {},
            {name: counts[name] for name, it in wanted.items() if counts[name] != it},
        )
        yield difference(
            f"{label}: links that count otherwise than the titles",
            {},
            {name: it for name, it in links.items() if counts[name] != it},
        )
        yield difference(
            f"{label}: where nothing waits, as nobody knows",
            set(),
            {name for name in nothing if counts[name] != ": 0"},
        )
        printed = run_of(copy, *given).stdout
        yield difference(
            f"{label}: lines that count so",
            [],
            [it for it in wanted.values() if it and f"{it}\n" not in printed],
        )

    log, agency = words.index("--tally"), words.index("--agency")
    yield from titles_of(
        "all files", words, {**{name: f": {len(rows)}" for name, rows in WANTED.items()}, **COUNTED}
    )
    yield from titles_of("no log", [*words[:log], *words[log + 2 :]], WITHOUT_LOG)
    yield from titles_of(
        "no agency's file", [*words[:agency], *words[agency + 2 :]], {"closed": ": not known"}
    )
    with open(f"{folder}/tally.log", encoding="utf-8") as file:
        write(f"{folder}/cut.log", f"{file.read()}2026-02-27T09:00:00-06:00\t/tally/calls\tid=x\n")
    said_of = run_of(copy, *words[: log + 1], f"{folder}/cut.log", *words[log + 2 :]).stdout.split(
        "\n\n"
    )[0]
    yield difference(
        "a line that could not be read",
        True,
        "1 line of the site's log could not be read" in said_of,
    )


def faults_of_standings(program, file, copy):
    """What a case file says of today is what the desk says."""
    with copies.Copy(copy) as opened, served_copy.served(
        pathlib.Path(program), pathlib.Path(copy), TODAY
    ) as asked:
        files = opened.case_files()
        told = {
            it: " ".join(lists.standing_told(opened, asked, it, files[it], NOW)) for it in CASES
        }
    with serving.Desk(program, file) as desk:
        yield difference("a desk's file while it is served", 1, run_of(file).returncode)
        for rider, text in told.items():
            reply = desk.get(f"/riders/{rider}/standing/{TODAY}", "panel")
            found = re.search(r"Standing today: ([\w-]+)(?: until ([\d-]+))?", text)
            got = {"standing": found[1], "until": found[2], "suspended": "Suspended today." in text}
            wanted = {it: reply.body.get(it) for it in got} if reply else None
            yield difference(f"standing of rider {rider}", wanted, got)


def faults_of_policies(copy):
    """Whom a policy would have met, each number at its edge, and words that are no policy."""
    for words, met in [
        ("3,100,3", 3),
        ("3,100,2", 0),
        ("2,100,2", 5),
        ("3,60,30", 5),
        ("3,61,30", 4),
        ("4,1,366", 0),
        ("1,1,1", 5),
    ]:
        ran = run_of(copy, "--pattern", words, "--today", TODAY)
        yield None if f": {met} of the 5 riders" in ran.stdout else f"--pattern {words}: {ran.stdout} {ran.stderr}"
    for words in ("0,10,30", "3,101,30", "3,10,367", "3,10", "x"):
        ran = run_of(copy, "--pattern", words)
        yield difference(f"--pattern {words}", 2, ran.returncode)


def faults_of_patterns(program, folder, copy):
    """Whom a policy that is not in force would meet is counted by the tool: beside the desk's own word where it is in force."""
    for policy in (3, 100, 3), (2, 100, 2), (3, 60, 30), (3, 61, 30), (1, 1, 1):
        changed = f"{folder}/policy.db"
        serving.copy_database(copy, changed)
        serving.with_database(
            changed,
            lambda it: it.execute(
                "UPDATE desk SET min_missed = ?, percent = ?, span_days = ?", policy
            ),
        )
        with copies.Copy(changed) as opened, served_copy.served(
            pathlib.Path(program), pathlib.Path(changed), TODAY
        ) as asked:
            query = "SELECT day, status FROM trips WHERE rider = ? AND status IN (?, ?, ?)"
            ended = {
                it: opened.rows(query, it, RIDDEN, MISSED, BY_AGENCY) for it in range(110, 115)
            }
            counted = {
                it: lists.meets([(on, how == MISSED) for on, how in trips], NOW, opened.policy)
                for it, trips in ended.items()
            }
            yield difference(
                f"who meets {policy}", {it: asked.has_pattern(it) for it in counted}, counted
            )
        os.remove(changed)


def faults_of_case_file(copy):
    ran = run_of(copy, "--rider", 114, "--today", TODAY)
    kinds = re.findall(r"(?m)^\d+ +\d{4}-\d\d-\d\d \w{3}  ([a-z ]+?)  ", ran.stdout)
    yield difference("entries of rider 114", [kind for kind, *_ in CASES[114]], kinds)
    for rider, wanted in (9, "A visitor, without an attendant."), (
        7,
        "A resident, with an attendant.",
    ):
        yield difference(
            f"the record of rider {rider}", True, wanted in run_of(copy, "--rider", rider).stdout
        )
    # (the third trip that rider 111 missed is older than the days of the policy)
    for rider, days in (110, (-30, -2, -1)), (111, (-4, -3)):
        found = re.findall(
            r"(?m)^Missed by the rider on (\S+):",
            run_of(copy, "--rider", rider, "--today", TODAY).stdout,
        )
        yield difference(f"what rider {rider} missed", [str(day(it)) for it in days], found)
    lost = run_of(copy, "--rider", 999)
    wanted = 1, f"bin/worklist: {copy} has no rider 999\n"
    yield difference("a rider who is not there", wanted, (lost.returncode, lost.stderr))


def faults_of_refusals(folder, copy):
    """What is no copy of a desk's file is refused by one sentence."""

    def refused(label, path, wanted, *more):
        ran = run_of(path, *more)
        is_so = (
            ran.returncode == 1
            and not ran.stdout
            and wanted in ran.stderr
            and ran.stderr.count("\n") == 1
        )
        return None if is_so else f"{label}: {ran}"

    other = f"{folder}/other.db"
    write(other, "trip,rider\n")
    yield refused("a text", other, "is no database of SQLite")
    yield refused("no file", f"{folder}/none.db", "can't be read: No such file")
    os.makedirs(f"{folder}/empty")
    content = pathlib.Path(copy).read_bytes()
    for length in 40, 4_096, len(content) - 1:
        pathlib.Path(f"{folder}/cut.db").write_bytes(content[:length])
        yield refused(
            f"a file cut to {length} bytes",
            f"{folder}/cut.db",
            f"was cut: it has {length:,} bytes of ",
        )
    os.mkfifo(f"{folder}/pipe.db")
    yield refused("a pipe", f"{folder}/pipe.db", "is no file")
    yield refused("an empty folder", f"{folder}/empty", "has no backup named desk-*.db")
    os.remove(other)
    serving.with_database(other, lambda it: it.execute("CREATE TABLE notes (a)"))
    yield refused(
        "another program's file", other, "is no sound copy of a desk's file: no such table: desk"
    )
    serving.copy_database(copy, f"{folder}/later.db")
    serving.with_database(
        f"{folder}/later.db", lambda it: it.execute("UPDATE desk SET version = 9")
    )
    yield refused(
        "version 9",
        f"{folder}/later.db",
        "has tables of version 9, and versions 1 and 2 are read here",
    )
    write(f"{copy}-wal", "")
    yield refused("a log beside it", copy, "-wal, beside it: this is a desk's own file")
    os.remove(f"{copy}-wal")
    with open(copy, "r+b") as file:
        fcntl.lockf(file, fcntl.LOCK_EX, copies.LOCKED, copies.FIRST_LOCKED)
        yield refused("a locked file", copy, f"process {os.getpid()} has {copy} open and locked")
    yield refused(
        "a page that can't be written", copy, "No such file", "--html", f"{folder}/none/page.html"
    )
    serving.with_database(
        f"{folder}/later.db", lambda it: it.execute("UPDATE desk SET version = 2")
    )
    serving.with_database(
        f"{folder}/later.db", lambda it: it.execute("UPDATE entries SET day = 9999999")
    )
    yield refused(
        "a day that is none",
        f"{folder}/later.db",
        "the rows of table entries are those of no sound state (fault 31)",
    )
    for words in ("--today", "2026-02-30"), ("--rider", "0"), ():
        yield difference(
            f"the words {words}", 2, run_of(*([copy] if words else []), *words).returncode
        )


def faults_of_other_copies(folder, copy, words):
    """A file of version 1 gives the same; of a folder the newest is read; an old copy is named so."""
    first = f"{folder}/first.db"
    serving.copy_database(copy, first)

    serving.with_database(first, serving.put_back)
    wanted = run_of(copy, *words).stdout.split("\n", 2)[2]
    yield difference("a file of version 1", wanted, run_of(first, *words).stdout.split("\n", 2)[2])
    newest = f"{folder}/desk-2026-01-03-0230.db"
    os.rename(first, newest)
    write(f"{folder}/desk-2026-01-04-0230.db.part", "")
    yield difference(
        "the newest of a folder",
        True,
        "from the copy desk-2026-01-03" in run_of(folder, *words).stdout,
    )
    moment = datetime.datetime.combine(day(-2), datetime.time(12)).timestamp()
    os.utime(newest, (moment, moment))
    yield difference(
        "an old copy", True, "This copy is 2 days old" in run_of(newest, *words).stdout
    )
    with contextlib.suppress(FileNotFoundError):
        os.remove(f"{folder}/desk-2026-01-04-0230.db.part")


def faults(program, folder):
    file, copy, words = made(program, folder)
    before = pathlib.Path(copy).read_bytes()
    yield from faults_of_lists(folder, copy, words)
    yield from faults_of_counts(folder, copy, words)
    yield from faults_of_standings(program, file, copy)
    yield from faults_of_patterns(program, folder, copy)
    yield from faults_of_case_file(copy)
    yield from faults_of_policies(copy)
    yield from faults_of_refusals(folder, copy)
    yield from faults_of_other_copies(folder, copy, words)
    yield None if pathlib.Path(copy).read_bytes() == before else f"{copy} was changed"


def main(program):
    ENVIRONMENT["DESK"] = program
    with tempfile.TemporaryDirectory() as folder:
        return tally("tests/worklist", faults(program, folder))


if __name__ == "__main__":
    if len(sys.argv) != 2:
        sys.exit("usage: worklist PROGRAM")
    sys.exit(main(os.path.realpath(sys.argv[1])))
