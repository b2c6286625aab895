"""Tries three agencies on one machine, as deploy/README.md has them: `try-agencies PROGRAM`.

Each has its file, its port, its zone and its keys; the words of its desk are those of the unit desk@.service. nginx
gives each its own name and certificate, by the site that deploy/site prints. A key of one agency is nobody's in the
others, what one writes is in its file alone, and where the desk of one ends or has no room on its disk, the others go
on. Without nginx and openssl what takes them is left out, and that is said. The last line is 'N passed, M failed', and
the exit status 1 where something failed.
"""
import contextlib
import os
import re
import resource
import shutil
import socket
import ssl
import subprocess
import sys
import tempfile
import time

from desk_tools.tree import TOP
from serving import (
    SECONDS,
    difference,
    faults_of_database,
    free_port,
    message_of,
    ran,
    received_from,
    reply_in,
    rows,
    write,
    tally,
    told_program,
)

AGENCIES = {"north": "EST5EDT,M3.2.0,M11.1.0", "south": "CST6CDT,M3.2.0,M11.1.0", "west": "MST7"}
UNIT = f"{TOP}/deploy/desk@.service"
# A file of that length takes fewer writes than these: to the desk that is a full disk.
LONGEST, MOST_WRITES = 330_000, 200
NO_CALLER, NO_KEY = (403, {"denied": "desk.caller"}), (401, {"denied": "desk.key"})


class Agency:
    """The desk of one agency, started by the words of the unit."""

    def __init__(self, program, folder, name, zone):
        self.name, self.key = name, f"{name}'s key"
        self.host, self.port = f"{name}.example.org", free_port()
        self.file = f"{folder}/desk-{name}/desk.db"
        os.mkdir(os.path.dirname(self.file))
        write(f"{folder}/etc/{name}.conf", f"NAME={self.host}\nPORT={self.port}\nZONE={zone}\n")
        words = re.search(r"(?m)^ExecStart=(.*)$", content_of(UNIT))[1].replace("%i", name)
        words = (
            words.replace("${ZONE}", zone)
            .replace("${PORT}", str(self.port))
            .replace("/var/lib", folder)
        )
        self.words = [program, *words.split()[1:]]
        self.process = None

    def start(self, longest=resource.RLIM_INFINITY):
        limit = lambda: resource.setrlimit(resource.RLIMIT_FSIZE, (longest, longest))  # noqa: E731
        self.process = subprocess.Popen(
            self.words,
            stdin=subprocess.DEVNULL,
            stderr=subprocess.PIPE,
            preexec_fn=limit,
            restore_signals=False,
        )
        said = self.process.stderr.readline().decode()
        return difference(f"the desk of {self.name}", f"listening on 127.0.0.1:{self.port}\n", said)

    def stop(self):
        if self.process:
            self.process.kill()
            self.process.wait()
            self.process.stderr.close()
        self.process = None

    def told(
        self, key, method="GET", path="/days/2025-03-10/sheet", number=None, body=None, tls=None
    ):
        """The status and the body of a reply: of the desk itself, or by `tls` of nginx, under the agency's name."""
        message = message_of(method, path, key, number, body).replace(
            b"\r\n", f"\r\nHost: {self.host}\r\n".encode(), 1
        )
        line = (
            tls(self.host) if tls else socket.create_connection(("127.0.0.1", self.port), SECONDS)
        )
        with contextlib.closing(line):
            line.sendall(message.replace(b" HTTP/1.1", b" HTTP/1.0", 1) if tls else message)
            received = received_from(line)
        return tuple(reply_in(received) or ()) or (int(received.split()[1]), "")


def content_of(path):
    with open(path, encoding="utf-8") as file:
        return file.read()


# Keys and files.


def faults_of_keys(agencies, tls=None):
    """Each admin's key holds in its own agency and in no other."""
    for here in agencies:
        for other in agencies:
            wanted = NO_CALLER if here is other else NO_KEY
            yield difference(f"{here.key} at {other.name}", wanted, other.told(here.key, tls=tls))


def faults_of_writes(agencies):
    """What one writes is in its file and in no other."""
    for number, agency in enumerate(agencies, 1):
        place = {"id": number, "x": number, "y": 0, "core": False}
        yield difference(
            "a place", (200, {"done": True}), agency.told(agency.key, "POST", "/places", 1, place)
        )
    for number, agency in enumerate(agencies, 1):
        agency.stop()
        yield difference(
            f"the places of {agency.name}", [(number,)], rows(agency.file, "SELECT id FROM places")
        )
        yield from faults_of_database(agency.file)
        yield agency.start()


# One that ends, and one whose disk is full.


def faults_of_an_end(agencies, tls=None):
    """While one desk does not run, the others answer, and nginx says 502 for that one alone."""
    agencies[0].stop()
    for agency in agencies[1:]:
        yield difference(
            f"{agency.name} beside one that ended", NO_CALLER, agency.told(agency.key, tls=tls)
        )
    if tls:
        yield difference("the one that ended", 502, agencies[0].told(agencies[0].key, tls=tls)[0])
    yield agencies[0].start()
    yield difference(
        "the one that ended, started", NO_CALLER, agencies[0].told(agencies[0].key, tls=tls)
    )


def faults_of_a_full_disk(agencies, folder):
    """A desk without room answers 503, and the watch starts that one anew, and no other."""
    full = agencies[1]
    full.stop()
    yield full.start(LONGEST)
    told = (
        full.told(full.key, "POST", "/callers", number, clerk(number))
        for number in range(10, 10 + MOST_WRITES)
    )
    refused = next((it for it in told if it[0] != 200), None)
    yield difference("a write without room", (503, {"denied": "desk.store"}), refused)
    write(f"{folder}/etc/watch.conf", "SITE=none\n")
    watched = {
        **os.environ,
        "SETTINGS": f"{folder}/etc",
        "STATE": f"{folder}/watched",
        "RESTART": "true",
        "SHOW": "true",
        "BACKUPS": os.path.dirname(full.file),
        "DATA": folder,
    }
    told = subprocess.run(
        [f"{TOP}/deploy/watch"], env=watched, capture_output=True, text=True, timeout=SECONDS
    )
    wanted = f"deploy/watch: desk@{full.name}: answers 503, and is restarted\n"
    yield difference("the watch", (1, wanted), (told.returncode, told.stderr))
    full.stop()
    yield full.start()
    yield difference("the one that was full, started", NO_CALLER, full.told(full.key))


def clerk(number):
    return {"id": number, "role": "clerk", "subject": 0, "key": f"clerk {number}"}


def fault_of_backup(agency):
    """A backup of one agency has its places."""
    copy = f"{agency.file}-copy"
    environment = {**os.environ, "FILE": agency.file, "PROCESS": f"echo {agency.process.pid}"}
    words = [f"{TOP}/deploy/backup", copy, agency.name]
    told = subprocess.run(words, env=environment, capture_output=True, text=True, timeout=SECONDS)
    if told.returncode:
        return f"a backup: {told}"
    return difference("its places", [(3,)], rows(copy, "SELECT id FROM places"))


# nginx.


def nginx_settings(folder, port):
    """The settings of an nginx that has only the site of the agencies, out of this folder and on this port."""
    words = [f"{TOP}/deploy/site", f"{folder}/etc", "--trial", folder, "--tls", str(port)]
    return subprocess.run(words, check=True, capture_output=True, text=True, timeout=SECONDS).stdout


def make_certificate(agency, folder):
    """A certificate of the agency's own, where its site looks for it."""
    at = f"{folder}/desk-{agency.name}"
    words = [
        "openssl",
        "req",
        "-x509",
        "-newkey",
        "rsa:2048",
        "-nodes",
        "-days",
        "2",
        "-subj",
        f"/CN={agency.host}",
    ]
    words += ["-addext", f"subjectAltName=DNS:{agency.host}"]
    words += ["-keyout", f"{at}/key.pem", "-out", f"{at}/certificate.pem"]
    subprocess.run(words, check=True, capture_output=True, timeout=SECONDS)
    return f"{at}/certificate.pem"


@contextlib.contextmanager
def nginx(agencies, folder):
    """A way to the agencies by TLS, each of whose names is held against its own certificate."""
    port = free_port()
    certificates = {it.host: make_certificate(it, folder) for it in agencies}
    with open(f"{folder}/nginx.conf", "w", encoding="utf-8") as file:
        file.write(nginx_settings(folder, port))
    words = [
        "nginx",
        "-g",
        "daemon off;",
        "-e",
        f"{folder}/nginx.log",
        "-c",
        f"{folder}/nginx.conf",
    ]
    process = subprocess.Popen(words)

    def connected(host):
        context = ssl.create_default_context(cafile=certificates[host])
        return context.wrap_socket(
            socket.create_connection(("127.0.0.1", port), SECONDS), server_hostname=host
        )

    try:
        wait_for(port)
        yield connected
    finally:
        process.terminate()
        process.wait(SECONDS)


def wait_for(port):
    for _ in range(50):
        with contextlib.suppress(OSError), socket.create_connection(("127.0.0.1", port), SECONDS):
            return
        time.sleep(0.2)
    raise TimeoutError(f"nobody listens on {port}")


def faults(program, folder):
    os.mkdir(f"{folder}/etc")
    agencies = [Agency(program, folder, name, zone) for name, zone in AGENCIES.items()]
    try:
        for agency in agencies:
            yield difference("init", 0, ran(program, "init", agency.file, agency.key).returncode)
            yield agency.start()
        yield from faults_of_keys(agencies)
        yield from faults_of_writes(agencies)
        yield from faults_of_an_end(agencies)
        yield from faults_of_a_full_disk(agencies, folder)
        yield fault_of_backup(agencies[2])
        if not (shutil.which("nginx") and shutil.which("openssl")):
            print("deploy/try-agencies: skipped: the site, which takes nginx and openssl")
            return
        with nginx(agencies, folder) as tls:
            yield from faults_of_keys(agencies, tls)
            yield from faults_of_an_end(agencies, tls)
    finally:
        for agency in agencies:
            agency.stop()


def main(words):
    program, _ = told_program(words, __doc__)
    with tempfile.TemporaryDirectory(prefix="desk-agencies-") as folder:
        return tally("deploy/try-agencies", faults(program, folder))


if __name__ == "__main__":
    sys.exit(main(sys.argv[1:]))
