"""Asks a rehearsal 20,000 requests, and prints how many it answers in a second of processor, and its peak memory.

`bench/rehearse` has a desk of 200 riders. `bench/rehearse full` asks the same of a desk of one caller of a kind, one rider, one
place and one fixed route, and of a desk of 1,000 callers, 70,000 riders (a rehearsal takes 100,000 messages), 100 places and 50 routes
of 200 points, and prints the ratio; what makes a desk is left out of its figure. bin/desk has to have built the program. A figure
is of the machine it was taken on; compare figures of one machine."""
import collections
import datetime
import hashlib
import os
import random
import re
import resource
import subprocess
import sys
import tempfile

from desk_tools.tree import TOP

PROGRAM = os.path.join(TOP, "crates", "pt_app", "out", "pt_app")
REQUESTS = 20_000
# The least of so many runs counts: others who use the machine only add to it.
RUNS = 9
MOST_ENTRIES = 200
FIRST_DAY = datetime.date(2025, 1, 1)
DAYS = 365
CLERKS = [2, 3, 4]
EXAMINERS = [5, 6, 7]
# Measures a process of its own; a child's peak as Python sees it begins at Python's.
TIME = "/usr/bin/time"

# How many there are of each: callers beside the admin, riders, places, fixed routes and their points.
Desk = collections.namedtuple("Desk", "callers riders places routes points")
SOME = Desk(6, 200, 0, 0, 0)
ONE = Desk(6, 1, 1, 1, 2)
FULL = Desk(999, 70_000, 100, 50, 200)


def spelled(day, minute, key, path, number=None, body=None):
    """A message: its moment, and a POST of a body, or a GET where there is none."""
    text = "" if body is None else body
    method = "GET" if body is None else "POST"
    numbered = "" if number is None else f"Desk-Number: {number}\r\n"
    head = f"{method} {path} HTTP/1.1\r\nDesk-Key: {key}\r\n{numbered}Content-Length: {len(text)}\r\n\r\n"
    return f"@ {day} {minute}\n{head}{text}"


def messages(desk, requests):
    """The messages that make the desk, and then so many entries and standings of its riders, by chance from a fixed seed."""
    chance = random.Random(37125)
    numbers = collections.Counter()
    entered = collections.Counter()

    def write(day, minute, caller, path, body):
        numbers[caller] += 1
        key = "abc" if caller == 1 else f"key of {caller}"
        return spelled(day, minute, key, path, numbers[caller], body)

    for caller in range(2, desk.callers + 2):
        role = "examiner" if caller in EXAMINERS else "clerk"
        digest = hashlib.sha256(f"key of {caller}".encode()).hexdigest()
        body = f'{{"id":{caller},"role":"{role}","subject":0,"digest":"{digest}"}}'
        yield write(FIRST_DAY, 0, 1, "/callers", body)
    for place in range(1, desk.places + 1):
        yield write(FIRST_DAY, 0, 1, "/places", f'{{"id":{place},"x":{place},"y":0,"core":false}}')
    points = ",".join(f"[{x},0]" for x in range(desk.points))
    for route in range(1, desk.routes + 1):
        body = (f'{{"id":{route},"width":3960,"points":[{points}],"accessible":true,"days":[1],'
                '"first":0,"last":1439}')
        yield write(FIRST_DAY, 0, 1, "/routes", body)
    for rider in range(1, desk.riders + 1):
        body = f'{{"id":{rider},"kind":"resident","attendant":false}}'
        yield write(FIRST_DAY, 0, chance.choice(CLERKS), "/riders", body)
    for turn in range(requests):
        day = FIRST_DAY + datetime.timedelta(days=turn * DAYS // requests)
        minute = turn % 1440
        rider = chance.randint(1, desk.riders)
        if entered[rider] == MOST_ENTRIES or chance.random() < 0.5:
            seen = day + datetime.timedelta(days=chance.randint(0, 30))
            yield spelled(day, minute, f"key of {chance.choice(CLERKS)}", f"/riders/{rider}/standing/{seen}")
            continue
        until = day + datetime.timedelta(days=chance.randint(0, 60))
        callers, body = chance.choice([
            (CLERKS, '{"entry":"complete"}'),
            (EXAMINERS, f'{{"entry":"grant","until":"{until}","conditions":["always"]}}'),
            (EXAMINERS, '{"entry":"refuse","reasons":"can board and ride the fixed route"}'),
        ])
        entered[rider] += 1
        yield write(day, minute, chance.choice(callers), f"/riders/{rider}/entries", body)


def rehearsed(desk, requests):
    """Seconds of processor, kibibytes at the peak, and replies by their status."""
    asked = list(messages(desk, requests))
    with tempfile.TemporaryFile() as sent, tempfile.TemporaryFile() as replies, \
            tempfile.NamedTemporaryFile("r") as peak:
        sent.write("".join(asked).encode())
        sent.seek(0)
        before = resource.getrusage(resource.RUSAGE_CHILDREN)
        subprocess.run([TIME, "-f", "%M", "-o", peak.name, PROGRAM, "rehearse", "abc"],
                       stdin=sent, stdout=replies, check=True)
        after = resource.getrusage(resource.RUSAGE_CHILDREN)
        seconds = after.ru_utime + after.ru_stime - before.ru_utime - before.ru_stime
        replies.seek(0)
        statuses = collections.Counter(re.findall(rb"HTTP/1\.1 (\d+) ", replies.read()))
        kibibytes = int(peak.read())
    if sum(statuses.values()) != len(asked):
        sys.exit(f"bench/rehearse: {sum(statuses.values())} replies to {len(asked)} requests")
    return seconds, kibibytes, statuses


def rate(name, desk):
    """Requests a second once the desk is made."""
    runs = [(rehearsed(desk, 0)[0], rehearsed(desk, REQUESTS)) for _ in range(RUNS)]
    made = min(seconds for seconds, _ in runs)
    seconds, kibibytes, statuses = min((whole for _, whole in runs), key=lambda whole: whole[0])
    of_status = ", ".join(f"{count} of {status.decode()}" for status, count in sorted(statuses.items()))
    a_second = REQUESTS / max(seconds - made, 1e-9)
    print(f"{name}: {REQUESTS} requests over {desk.riders} riders: {a_second:.0f} a second of processor; made in {made:.2f} s; "
          f"peak memory {kibibytes} KiB; replies: {of_status}")
    return a_second


def main():
    if not os.access(PROGRAM, os.X_OK):
        sys.exit("bench/rehearse: the program is not built: run bin/desk --help first")
    if not os.access(TIME, os.X_OK):
        sys.exit(f"bench/rehearse: {TIME} is not there")
    if sys.argv[1:] == ["full"]:
        one = rate("one of each", ONE)
        print(f"full / one of each: {rate('full', FULL) / one:.2f}")
    else:
        rate("some", SOME)


main()
