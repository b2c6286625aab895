"""How many requests a second `serve` answers: `bench/serve [--few] PROGRAM [FOLDER]`.

Each request has a connection of its own, and comes when the one before it is answered. Reads ask for a rider's standing; writes change a
rider's record; bookings book a trip and cancel it, in turn. Beside the desk a loop answers the same requests with one fixed reply, and a
second loop, for writes, that first appends each request to a file and sees it to the disk. The best of three runs counts; with --few they
are short, to try this script. The files are in FOLDER, which tells the disk, or in a new folder of the machine's temporary one. It needs
rustc. A figure is of the machine it was taken on; compare figures of one machine.
"""
import os
import socket
import subprocess
import sys
import tempfile

from desk_tools.tree import TOP
from serving import Desk, TOMORROW, TRIP, make_agency, message_of, rows

RUNS = 3
READS, WRITES = 10_000, 2_000
# Above the numbers of the clerk's writes that make the agency.
FIRST_NUMBER = 100


def reads(count):
    return [message_of("GET", f"/riders/7/standing/{TOMORROW}", "mine")] * count


class Clerk:
    """Writes whose numbers rise, over all runs."""

    def __init__(self, file):
        self.number = FIRST_NUMBER
        self.trip = rows(file, "SELECT last_trip FROM desk")[0][0]

    def spelled(self, path, body):
        self.number += 1
        return message_of("POST", path, "hello", self.number, body)

    def writes(self, count):
        return [self.spelled("/riders", {"id": 7, "kind": "resident", "attendant": it % 2 == 0}) for it in range(count)]

    def bookings(self, count):
        made = []
        for _ in range(count // 2):
            self.trip += 1
            made.append(self.spelled("/trips", {"rider": 9, **TRIP, "wish": 1200}))
            made.append(self.spelled(f"/trips/{self.trip}/cancel", {}))
        return made


def asked(peer, port, requests, folder):
    """How many a second were answered; each has to be answered with 200."""
    path = f"{folder}/requests"
    with open(path, "wb") as file:
        file.write(b"".join(b"%d\n%s" % (len(it), it) for it in requests))
    told = subprocess.run([peer, "ask", str(port), path], capture_output=True, check=True).stdout.split()
    taken, others, seconds = int(told[0]), int(told[1]), float(told[2])
    if others or taken != len(requests):
        sys.exit(f"bench/serve: {taken} of {len(requests)} requests were answered with 200, {others} otherwise")
    return taken / seconds


def asked_loop(peer, requests, folder, words):
    with subprocess.Popen([peer, "loop", *words], stdout=subprocess.PIPE) as loop:
        port = int(loop.stdout.readline())
        rate = asked(peer, port, requests, folder)
        with socket.create_connection(("127.0.0.1", port)) as last:
            last.sendall(b"END")
        return rate


def show(name, desk_rate, loops):
    beside = "; ".join(f"{loop} {rate:.0f}, the desk {desk_rate / rate:.3f} of it" for loop, rate in loops.items())
    print(f"{name}: the desk answers {desk_rate:.0f} a second; {beside}", flush=True)


def main(words):
    words, reads_count, writes_count = (words[1:], 200, 100) if words[:1] == ["--few"] else (words, READS, WRITES)
    if len(words) not in (1, 2):
        print(__doc__, end="", file=sys.stderr)
        return 2
    with tempfile.TemporaryDirectory(dir=words[1] if len(words) > 1 else None) as folder:
        peer, log = f"{folder}/peer", f"{folder}/log"
        subprocess.run(["rustc", "-C", "opt-level=3", "-o", peer, f"{TOP}/bench/serve.rs"], check=True)
        program = os.path.abspath(words[0])
        file = make_agency(program, folder)
        clerk = Clerk(file)
        kinds = {
            "reads": (lambda: reads(reads_count), {"the loop": []}),
            "writes": (lambda: clerk.writes(writes_count), {"the loop": [], "the loop with its file": [log]}),
            "bookings": (lambda: clerk.bookings(writes_count), {"the loop": [], "the loop with its file": [log]}),
        }
        with Desk(program, file) as desk:
            for name, (requests, loops) in kinds.items():
                runs = [requests() for _ in range(RUNS)]
                rate = max(asked(peer, desk.port, it, folder) for it in runs)
                show(name, rate, {loop: max(asked_loop(peer, it, folder, words) for it in runs) for loop, words in loops.items()})
    return 0


if __name__ == "__main__":
    sys.exit(main(sys.argv[1:]))
