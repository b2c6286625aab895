"""Eight clients that write to a site from another machine, and send again what was not answered."""

from __future__ import annotations

import json
import threading
from dataclasses import dataclass, field

from desk_tools.booted import office
from desk_tools.booted.machines import Machine
from desk_tools.booted.town import Town

CLIENTS = range(8)
FIRST_CALLER, FIRST_RIDER = 20, 1_000_000
# Runs in a machine. Each client makes riders under one number after another, and the same one again until it is answered
# by 200. It ends when the file `stop` is there. It prints how far each came, and what was answered.
PROGRAM = """
import http.client, json, os, ssl, sys, threading, time
address, name, certificate, stop = sys.argv[1:5]
begun = json.loads(sys.argv[5])
answered, lock = [], threading.Lock()
context = ssl.create_default_context(cafile=certificate)
context.check_hostname = False
def write(client):
    number = begun[str(client)]
    while not os.path.exists(stop):
        rider = %(rider)d + 100_000 * client + number
        body = json.dumps({"id": rider, "kind": "visitor", "attendant": False})
        head = {"Desk-Key": f"a key of client {client}", "Desk-Number": str(number), "Host": name}
        status = 0
        try:
            line = http.client.HTTPSConnection(address, 443, timeout=5, context=context)
            line.request("POST", "/riders", body, head)
            status = line.getresponse().status
            line.close()
        except (OSError, http.client.HTTPException):
            pass
        if status == 200:
            with lock:
                answered.append(rider)
            number += 1
            begun[str(client)] = number
        else:
            time.sleep(0.2)
threads = [threading.Thread(target=write, args=(it,)) for it in range(%(clients)d)]
for it in threads:
    it.start()
for it in threads:
    it.join()
print(json.dumps({"answered": answered, "next": begun}))
""" % {
    "rider": FIRST_RIDER,
    "clients": len(CLIENTS),
}


def let_in(town: Town) -> None:
    """Each client is a clerk of the agency."""
    for client in CLIENTS:
        body = {"id": FIRST_CALLER + client, "role": "clerk", "subject": 0}
        body["digest"] = office.digest_of(f"a key of client {client}")
        number = town.next_number()
        reply = office.ask(town.machine, "/callers", key=town.admin, body=body, number=number)
        town.checks.equal(f"client {client} is let in", 200, reply.status)


@dataclass
class Writers:
    """The clients, while this is used: `at` is the machine from which they write."""

    at: Machine
    address: str
    begun: dict[str, int] = field(default_factory=lambda: {str(it): 1 for it in CLIENTS})
    answered: list[int] = field(default_factory=list)
    said: str = ""

    def __enter__(self) -> Writers:
        self.at.run("rm -f /root/stop; cat >/root/writers.py", stdin=PROGRAM)
        self.thread = threading.Thread(target=self.write, daemon=True)
        self.thread.start()
        return self

    def write(self) -> None:
        """Until it is stopped."""
        words = f"{self.address} {office.NAME} {office.CERTIFICATE} /root/stop '{json.dumps(self.begun)}'"
        self.said = self.at.run(f"timeout 240 python3 /root/writers.py {words}", check=False).output

    def __exit__(self, *_: object) -> None:
        self.at.run("touch /root/stop")
        self.thread.join(60)
        try:
            told = json.loads(self.said.splitlines()[-1])
        except (ValueError, IndexError):
            raise RuntimeError(f"the writing clients failed: {self.said[-400:]}") from None
        self.answered, self.begun = told["answered"], told["next"]


def riders_of(machine: Machine) -> set[int]:
    """The riders whom the clients made, in a backup of the desk that serves there."""
    machine.run("rm -f /root/seen.db; /usr/lib/desk/deploy/backup /root/seen.db")
    words = f"sqlite3 -readonly /root/seen.db 'SELECT id FROM riders WHERE id >= {FIRST_RIDER}'"
    return {int(it) for it in machine.run(words).output.split()}
