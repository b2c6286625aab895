"""Sends a desk messages that break off, and messages at the ends of what it reads: `messages PROGRAM`.

Each front of each message of the first example and of a booking comes on a connection of its own, which then ends. It
is told `http.head` until the head is whole, and then `http.length`. The whole message on the next connection is done,
and in the end the rows are those of a desk that got the whole messages alone. Heads of 64 and 65 lines, a body of
16,384 bytes and one more, and JSON of 127 and 128 levels come too: what is too much is told by its name and does
nothing, and the next connection is answered. A client that sends more than its request, in one piece or while it is
answered, reads its whole reply. The last line is 'N passed, M failed', and the exit status 1 where something failed.
"""
import sys
import tempfile
import time

from desk_tools.tree import TOP
from conversations import rehearsal
from serving import (
    ADMINS_KEY,
    TRIP,
    Desk,
    Refused,
    Reply,
    content_of,
    copy_database,
    difference,
    faults_of_database,
    make_agency,
    message_of,
    ran,
    received_from,
    reply_in,
    tally,
    told_program,
)

EXAMPLE = f"{TOP}/examples/first-rights.requests"
DONE = {"done": True}
# What the whole messages of the first example are told at a new desk, today and with no time between them.
TOLD = [DONE, DONE, {"entered": 0}, *[{"standing": "none", "suspended": False}] * 2]
BOOKING = message_of("POST", "/trips", "hello", 90, {"rider": 9, **TRIP, "wish": 1200})
RESIDENT = {"kind": "resident", "attendant": False}
# The most header lines, bytes of a body and levels of its JSON, and what is told of more.
MOST = [("lines", 64, "http.head"), ("length", 16_384, "http.length"), ("levels", 127, "http.json")]


def example():
    """The messages of the first example, without the lines of their moments."""
    with open(EXAMPLE, "rb") as script:
        return [message.partition(b"\n")[2] for _, message in rehearsal.requests_of(script.read())]


# What breaks off.


def refusal_of(front, message):
    """What a front is told of a message that is none yet: of its head, or of its length once the head is whole."""
    head = message.index(b"\r\n\r\n") + 4
    return Reply(400, {"denied": "http.head" if len(front) < head else "http.length"})


def faults_of_fronts(desk, message, told):
    """Each front is refused, and the whole message is told this on the connection after them."""
    name = message.partition(b" HTTP")[0].decode()
    for length in range(len(message)):
        front = message[:length]
        yield difference(
            f"{length} bytes of {name}", refusal_of(front, message), desk.sent_and_ended(front)
        )
    yield difference(f"all of {name}", told, desk.sent(message))


def faults_of_conversation(program, file, copy, messages, told):
    """The messages, each after its fronts over the copy, and without them over the file: the rows are then the same."""
    copy_database(file, copy)
    with Desk(program, file) as desk:
        for message, wanted in zip(messages, told):
            yield difference(f"{message[:40]}, with no front before it", wanted, desk.sent(message))
    with Desk(program, copy) as desk:
        for message, wanted in zip(messages, told):
            yield from faults_of_fronts(desk, message, wanted)
    yield from faults_of_database(copy)
    yield difference("the rows after all fronts", content_of(file), content_of(copy))


def faults_of_example(program, folder):
    file = f"{folder}/example.db"
    made = ran(program, "init", file, ADMINS_KEY)
    yield difference("init", (0, b""), (made.returncode, made.stderr))
    yield from faults_of_conversation(
        program, file, f"{folder}/fronts.db", example(), [Reply(200, it) for it in TOLD]
    )


def faults_of_booking(program, file, folder):
    booked = {
        "due": 350,
        "fare": 350,
        "trip": 4,
        "vehicle": 1,
        "window_from": 1140,
        "window_to": 1155,
    }
    yield from faults_of_conversation(
        program, file, f"{folder}/booked.db", [BOOKING], [Reply(200, booked)]
    )


# What is at the ends of what is read.


def resident(rider, number, lines=None, length=None, levels=None):
    """A message that puts a resident: with so many header lines, a body of so many bytes, or JSON of so many levels."""
    message = message_of("POST", "/riders", "hello", number, {"id": rider, **RESIDENT})
    head, _, body = message.partition(b"\r\n\r\n")
    if levels:
        body = body[:-1] + b',"more":' + b"[" * (levels - 1) + b"]" * (levels - 1) + b"}"
    body = body.ljust(length or 0)
    named = [it for it in head.split(b"\r\n") if not it.startswith(b"Content-Length")]
    named.append(b"Content-Length: %d" % len(body))
    more = [b"More-%d: x" % it for it in range((lines or 0) + 1 - len(named))]
    return b"\r\n".join([*named, *more, b"", body])


def faults_of_ends(desk):
    """The most that is read, and one more, which does nothing and leaves the number of its write free."""
    for number, (what, most, fault) in enumerate(MOST, 91):
        rider = 100 + number
        trips = message_of("GET", f"/riders/{rider}/trips", "hello")
        told = desk.sent(resident(rider, number, **{what: most + 1}))
        yield difference(f"{what}: {most + 1}", Reply(400, {"denied": fault}), told)
        yield difference(
            f"the next after {most + 1} {what}",
            Reply(404, {"denied": "desk.unknown"}),
            desk.sent(trips),
        )
        yield difference(
            f"{what}: {most}", Reply(200, DONE), desk.sent(resident(rider, number, **{what: most}))
        )
        yield difference(
            f"the next after {most} {what}", Reply(200, {"trips": []}), desk.sent(trips)
        )


# More than a request.

# How many bytes come after a request, and in how many pieces after the first.
MORE = [(1, 0), (20_000, 0), (60_000, 0), (6_000, 2)]


def sent_with_more(desk, message, length, pieces):
    """The reply to a message that so many bytes more come with, the last of them in pieces, a little later each."""
    piece = length // (pieces + 1)
    with desk.connected() as connection:
        connection.sendall(message + b"x" * (length - piece * pieces))
        for _ in range(pieces):
            time.sleep(0.02)
            connection.sendall(b"x" * piece)
        return reply_in(received_from(connection))


def told_with_more(desk, message, length, pieces):
    try:
        return sent_with_more(desk, message, length, pieces)
    except OSError as error:
        return error


def faults_of_more(desk):
    """A read, and a head that is too long, of clients that send more than these."""
    trips = message_of("GET", "/riders/9/trips", "hello")
    long_head = resident(300, 95, lines=MOST[0][1] + 1)
    wanted = desk.sent(trips)
    yield None if wanted and wanted.status == 200 else f"the trips of a rider: {wanted}"
    for length, pieces in MORE:
        label = f"{length} bytes more in {pieces + 1} pieces"
        yield difference(
            f"a read with {label}", wanted, told_with_more(desk, trips, length, pieces)
        )
        refused = told_with_more(desk, long_head, length, pieces)
        yield difference(f"a long head with {label}", Reply(400, {"denied": MOST[0][2]}), refused)


def all_faults(program):
    with tempfile.TemporaryDirectory() as folder:
        try:
            file = make_agency(program, folder)
            yield from faults_of_example(program, folder)
            yield from faults_of_booking(program, file, folder)
            with Desk(program, file) as desk:
                yield from faults_of_ends(desk)
                yield from faults_of_more(desk)
            yield from faults_of_database(file)
        except (Refused, OSError) as error:
            yield str(error)


def main(words):
    program, flags = told_program(words, __doc__)
    if flags:
        print(__doc__, end="", file=sys.stderr)
        return 2
    return tally("tests/messages", all_faults(program))


if __name__ == "__main__":
    sys.exit(main(sys.argv[1:]))
