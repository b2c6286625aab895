"""Tries bin/tally: what it counts, what came twice, and lines that can't be read.

The last line is 'N passed, M failed', and the exit status 1 where something failed.
"""
import collections
import csv
import datetime
import gzip
import html.parser
import io
import random
import subprocess
import sys
import tempfile
import urllib.parse

from desk_tools.tree import TOP
from desk_tools.setup import keys, tally_log
from desk_tools.setup.rules import RULES
from serving import difference, tally

CHANNELS = tally_log.EVENTS["denials"].all_fields["channel"].words
TAPS = tally_log.EVENTS["stops"].all_fields["event"].words
TALLY, SECONDS, SEED = f"{TOP}/bin/tally", 60, 20261128
AT = "2026-11-28T09:24:40-06:00"
ID = "0123456789abcdefghjkmnpqrs"


def run_of(folder, *words):
    return subprocess.run(
        [TALLY, *words], capture_output=True, text=True, timeout=SECONDS, cwd=folder
    )


def line_of(kind, **fields):
    return f"{AT}\t/tally/{kind}\t{urllib.parse.urlencode(fields)}\n"


def denial(key=ID, day="2026-12-01", minute="540", rule="no vehicle", **more):
    return line_of("denials", id=key, day=day, minute=minute, rule=rule, **more)


def stop(key=ID, vehicle="1", trip="7", event="arrived", at="2026-11-28T09:24:00"):
    return line_of("stops", id=key, vehicle=vehicle, trip=trip, event=event, at=at)


def cancellation(key=ID, trip="7", by="rider", at="2026-11-28T09:24:00"):
    return line_of("cancellations", id=key, trip=trip, by=by, at=at)


def write(path, *lines):
    with open(path, "wb") as file:
        file.writelines(it if isinstance(it, bytes) else it.encode() for it in lines)


class Cells(html.parser.HTMLParser):
    """The rows of a page's table, each as its cells."""

    def __init__(self, text):
        super().__init__()
        self.rows, self.is_cell = [], False
        self.feed(text)

    def handle_starttag(self, tag, _):
        if tag == "tr":
            self.rows.append([])
        self.is_cell = tag in ("th", "td")

    def handle_endtag(self, _):
        self.is_cell = False

    def handle_data(self, text):
        if self.is_cell:
            self.rows[-1].append(text)


def faults_of_denials(folder):
    """Random denials of three years, some sent again, in two logs of which one is packed, beside a plain count."""
    chance, wanted, lines = random.Random(SEED), collections.Counter(), []
    for _ in range(600):
        day = datetime.date(2025, 11, 1) + datetime.timedelta(days=chance.randint(0, 150) * 5)
        rule, channel = chance.choice([*RULES]), chance.choice([None, *CHANNELS])
        wanted[f"{day:%Y-%m}", channel or "page", rule] += 1
        more = {"channel": channel, "mode": "by", "at": "2026-11-28T09:24:00"} if channel else {}
        lines += [denial(keys.made(), day, chance.randint(0, 1439), rule, **more)] * chance.choice(
            [1, 1, 1, 2, 3]
        )
    chance.shuffle(lines)
    write(f"{folder}/a.log", *lines[:500], stop())
    with gzip.open(f"{folder}/b.log.gz", "wb") as file:
        file.write("".join(lines[500:] + lines[:3]).encode())
    run = run_of(folder, "denials", "a.log", "b.log.gz", "--html", "page.html")
    rows = list(csv.DictReader(io.StringIO(run.stdout)))
    got = {
        (row["month"], row["channel"], rule): int(row[rule])
        for row in rows
        for rule in RULES
        if row[rule] != "0"
    }
    yield difference(
        "denials by month, channel and rule",
        (0, "", dict(wanted)),
        (run.returncode, run.stderr, got),
    )
    months = sorted({month for month, _, _ in wanted})
    spans = (
        (int(months[-1][:4]) - int(months[0][:4])) * 12
        + int(months[-1][5:])
        - int(months[0][5:])
        + 1
    )
    yield difference("months without a gap", spans * len(CHANNELS), len(rows))
    yield difference("the sums of months", 600, sum(int(row["all"]) for row in rows))
    with open(f"{folder}/page.html", encoding="utf-8") as file:
        cells = Cells(file.read()).rows
    heads = [at for at, row in enumerate(cells) if row[0] == "month"]
    sums = [
        ["month", *RULES, "all"],
        *(
            [month, *(str(sum(got.get((month, it, rule), 0) for it in CHANNELS)) for rule in RULES)]
            for month in sorted({row["month"] for row in rows})
        ),
    ]
    yield difference("the page's table", sums[1:], [row[:-1] for row in cells[1 : heads[1] - 1]])
    yield difference(
        "the page's sum", ["all", "600"], [cells[heads[1] - 1][0], cells[heads[1] - 1][-1]]
    )
    ends = [*heads[2:], len(cells)]
    yield difference(
        "the page's tables by channel",
        [str(sum(count for (_, it, _), count in wanted.items() if it == one)) for one in CHANNELS],
        [cells[at - 1][-1] for at in ends],
    )
    write(f"{folder}/none.log")
    run = run_of(folder, "denials", "none.log", "--html", "none.html")
    yield difference(
        "a log of nothing",
        (0, f"month,channel,{','.join(RULES)},all\n"),
        (run.returncode, run.stdout),
    )


def faults_of_stops(folder):
    """Taps are listed by their time, each once."""
    other = keys.made()
    later = stop(other, trip="9", event="aboard", at="2026-11-28T10:00:00")
    write(f"{folder}/tally.log", later, denial(keys.made()), stop(), stop(ID.upper()))
    run = run_of(folder, "stops", "tally.log")
    wanted = (
        "day,vehicle,trip,event,stop,at,received,told_by\n"
        f"2026-11-28,1,7,arrived,,09:24:00,{AT},\n2026-11-28,1,9,aboard,,10:00:00,{AT},\n"
    )
    yield difference("taps", (0, wanted, ""), (run.returncode, run.stdout, run.stderr))


def faults_of_cancellations(folder):
    """Cancellations are listed by their time, each once."""
    later = cancellation(keys.made(), trip="9", by="agency", at="2026-11-28T10:00:00")
    write(
        f"{folder}/tally.log",
        later,
        denial(keys.made()),
        stop(keys.made()),
        cancellation(),
        cancellation(ID.upper()),
    )
    run = run_of(folder, "cancellations", "tally.log")
    wanted = (
        "day,trip,by,channel,at,received,told_by\n"
        f"2026-11-28,7,rider,,09:24:00,{AT},\n2026-11-28,9,agency,,10:00:00,{AT},\n"
    )
    yield difference("cancellations", (0, wanted, ""), (run.returncode, run.stdout, run.stderr))


BROKEN = [
    ("\n", "it has 1 parts and 0 signs, and a line has a time, a path and a query"),
    (denial()[:40], "it has 2 parts and 40 signs, and a line has a time, a path and a query"),
    (b"\0" * 40 + b"\n", "it has 1 parts and 40 signs, and a line has a time, a path and a query"),
    (b"\xff" + denial().encode(), "it has the byte 0xff"),
    (
        denial()[:-1] + "x" * 5_000 + "\n",
        "it has 3 parts and more than 4,096 signs, and a line has a time, a path and a query",
    ),
    (
        b"x" * 4_097 + b"\n",
        "it has 1 parts and more than 4,096 signs, and a line has a time, a path and a query",
    ),
    (
        b"x" * 4_098 + b"\n",
        "it has 1 parts and more than 4,096 signs, and a line has a time, a path and a query",
    ),
    (
        b"x" * 100_000 + b"\n",
        "it has 1 parts and more than 4,096 signs, and a line has a time, a path and a query",
    ),
    (
        line_of("other", id=ID),
        f"the path '/tally/other' is none of {', '.join(f'/tally/{it}' for it in tally_log.EVENTS)}",
    ),
    (denial("short"), "id 'short' is not 26 signs of base32"),
    (denial(ID[:25] + "u"), f"id '{ID[:25]}u' is not 26 signs of base32"),
    (denial(day="2026-02-30"), "day '2026-02-30' is no time"),
    (denial(day="20260228"), "day '20260228' is no day YYYY-MM-DD of 2000 to 2099"),
    (denial(day="1999-12-31"), "day '1999-12-31' is no day YYYY-MM-DD of 2000 to 2099"),
    (denial(minute="1440"), "minute '1440' is no number from 0 to 1439"),
    (denial(minute="-1"), "minute '-1' is no number from 0 to 1439"),
    (denial(rule="<script>"), f"rule '<script>' is none of {', '.join(RULES)}"),
    (denial()[:-1] + f"&id={keys.made()}\n", "id is missing, or stands twice"),
    (line_of("denials", id=ID, day="2026-12-01", minute="1"), "rule is missing, or stands twice"),
    (denial().replace(AT, "yesterday"), "the time 'yesterday' is no time"),
    (stop(event="flew"), f"event 'flew' is none of {', '.join(TAPS)}"),
    (
        stop(at="2026-11-28 09:24"),
        "at '2026-11-28 09:24' is no time YYYY-MM-DDTHH:MM:SS of 2000 to 2099",
    ),
    (stop(at="2026-11-28T25:00:00"), "at '2026-11-28T25:00:00' is no time"),
    (stop(trip="0"), "trip '0' is no number from 1 to 4294967295"),
    (cancellation(by="nobody"), "by 'nobody' is none of rider, agency"),
    (cancellation(trip="x"), "trip 'x' is no number from 1 to 4294967295"),
    (
        cancellation(at="2100-01-01T00:00:00"),
        "at '2100-01-01T00:00:00' is no time YYYY-MM-DDTHH:MM:SS of 2000 to 2099",
    ),
]


# Each list: a line of the log, and its row.
ROWS = {
    "bookings": (
        dict(
            day="2026-12-01",
            trip=7,
            mode="by",
            minute=600,
            **{"from": 540, "to": 555},
            channel="page",
            at="2026-11-28T09:00:00",
            lead=15,
        ),
        "day,trip,mode,minute,window_from,window_to,channel,lead,from_address,to_address,at,received,told_by",
        "2026-12-01,7,by,600,540,555,page,15,,,09:00:00",
    ),
    "no-shows": (
        dict(
            vehicle=2,
            day="2026-11-28",
            trip=7,
            **{"from": 540, "to": 555},
            wait=6,
            at="2026-11-28T09:00:00",
        ),
        "day,vehicle,trip,window_from,window_to,wait,arrived,at,received,told_by",
        "2026-11-28,2,7,540,555,6,,09:00:00",
    ),
    "notes": (
        dict(
            vehicle=2, day="2026-11-28", trip=0, text='flat "tire", ñ 日本', at="2026-11-28T09:00:00"
        ),
        "day,vehicle,trip,text,at,received,told_by",
        '2026-11-28,2,0,"flat ""tire"", ñ 日本",09:00:00',
    ),
    "disagreements": (
        dict(vehicle=2, trip=7, record="ridden", told="missed-rider", at="2026-11-28T09:00:00"),
        "day,vehicle,trip,record,told,at,received,told_by",
        "2026-11-28,2,7,ridden,missed-rider,09:00:00",
    ),
    "reviews": (
        dict(trip=7, outcome="ridden", at="2026-11-28T09:00:00"),
        "day,trip,outcome,at,received,told_by",
        "2026-11-28,7,ridden,09:00:00",
    ),
    "calls": (
        dict(list="van 2 is out", trip=7, result="called", at="2026-11-28T09:00:00"),
        "day,list,trip,result,at,received,told_by",
        "2026-11-28,van 2 is out,7,called,09:00:00",
    ),
}


def faults_of_lists(folder):
    """Each kind of event is listed, with whose key told it."""
    lines = [
        line_of(kind, id=keys.made(), **dict(fields))[:-1] + "\tvehicle\n"
        for kind, (fields, _, _) in ROWS.items()
    ]
    write(f"{folder}/tally.log", *lines, *lines)
    for kind, (_, head, row) in ROWS.items():
        run = run_of(folder, kind, "tally.log")
        yield difference(
            kind, (0, f"{head}\n{row},{AT},vehicle\n", ""), (run.returncode, run.stdout, run.stderr)
        )


def faults_of_rotation(folder):
    """Logs in any order: what stands in two counts once, the first one counts, and a torn line is named once."""
    early, late = "2026-11-28T08:00:00-06:00", "2026-11-29T10:00:00-06:00"
    first, again = stop().replace(AT, early), stop().replace(AT, late)
    torn = line_of("bookings", id=keys.made(), **ROWS["bookings"][0])[:-2]
    write(
        f"{folder}/tally.log",
        again,
        stop(keys.made(), trip="8", at="2026-11-27T23:59:59").replace(AT, late),
        torn,
    )
    write(f"{folder}/tally.log-20261129", first, denial(keys.made()))
    wanted = (
        "day,vehicle,trip,event,stop,at,received,told_by\n"
        f"2026-11-27,1,8,arrived,,23:59:59,{late},\n2026-11-28,1,7,arrived,,09:24:00,{early},\n"
    )
    for logs in (["tally.log", "tally.log-20261129"], ["tally.log-20261129", "tally.log"]):
        run = run_of(folder, "stops", *logs)
        yield difference(f"taps of {logs}", (0, wanted), (run.returncode, run.stdout))
        is_named = (
            run.stderr.startswith("bin/tally: tally.log, line 3: it is cut off")
            and "1 line could" in run.stderr
        )
        yield None if is_named else f"a torn line: {run.stderr}"


def ended(line):
    """The line with its end."""
    return line if line[-1:] in ("\n", b"\n") else f"{line}\n"


def faults_of_broken(folder):
    """Each line that can't be read is named, and those round it are counted."""
    for line, said in BROKEN:
        write(f"{folder}/tally.log", denial(keys.made()), ended(line), denial(keys.made()))
        log = tally_log.read([f"{folder}/tally.log"])
        wanted = 2, [f"{folder}/tally.log, line 2: {said}"]
        yield difference(f"the line {line!r}", wanted, (len(log.denials), log.broken))
    write(
        f"{folder}/tally.log", denial(), denial(minute="541"), *(ended(line) for line, _ in BROKEN)
    )
    run = run_of(folder, "denials", "tally.log", "--html", "page.html")
    lines = run.stderr.splitlines()
    wanted = 0, 11, f"bin/tally: tally.log, line 2: the id {ID} stands before with other words"
    yield difference("a log of broken lines", wanted, (run.returncode, len(lines), lines[0]))
    wanted = f"bin/tally: {len(BROKEN) + 1} lines could not be read, and not counted"
    yield difference("its last word", wanted, lines[-1])
    with open(f"{folder}/page.html", encoding="utf-8") as file:
        is_told = f"{len(BROKEN) + 1} lines of the log could not be read" in file.read()
        yield None if is_told else "the page says nothing of broken lines"
    for words, status in ((["denials", "no.log"], 1), (["denials"], 2), (["stops", "page.gz"], 1)):
        write(f"{folder}/page.gz", "no gzip")
        run = run_of(folder, *words)
        is_told = run.returncode == status and run.stderr and "Traceback" not in run.stderr
        yield None if is_told else f"{words}: {run}"


def all_faults():
    for each in (
        faults_of_denials,
        faults_of_stops,
        faults_of_cancellations,
        faults_of_broken,
        faults_of_lists,
        faults_of_rotation,
    ):
        with tempfile.TemporaryDirectory() as folder:
            yield from each(folder)


if __name__ == "__main__":
    sys.exit(tally("tests/tally", all_faults()))
