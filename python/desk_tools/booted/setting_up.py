"""An installation, a setup, the first reply, and what is seen from outside."""

from __future__ import annotations

import json

from desk_tools import agencies
from desk_tools.booted import office
from desk_tools.booted.town import Town

MAIN = agencies.Agency()
# Takes what the watch sends, as an agency's own service would.
HOOK = """
import http.server
class Handler(http.server.BaseHTTPRequestHandler):
    def do_POST(self):
        told = self.rfile.read(int(self.headers["Content-Length"]))
        for name, mode in (("alarms", "ab"), ("last-alarm", "wb")):
            with open(f"/root/{name}", mode) as file:
                file.write(told)
        self.send_response(204)
        self.end_headers()
http.server.HTTPServer(("127.0.0.1", 9099), Handler).serve_forever()
"""


def check(town: Town) -> None:
    """All of this part."""
    check_installing(town)
    check_setup(town)
    check_site(town)
    check_health(town)


def check_installing(town: Town) -> None:
    """The package starts nothing."""
    checks, machine = town.checks, town.machine
    ran = office.install(machine, office.bring(machine, town.package))
    checks.holds("apt installs the package", ran.is_well, ran.output)
    listening = machine.run("ss -Hltn | awk '{print $4}' | grep -v ':22$'", check=False)
    checks.equal("nothing listens before desk-setup", "", listening.output)
    suggested = machine.run("dpkg-query -W -f '${Recommends}' desk").output
    checks.holds("no server comes with it", "nginx" not in suggested, suggested)


def check_setup(town: Town) -> None:
    """desk-setup asks, tries whom it tells, and ends when all answers."""
    checks, machine = town.checks, town.machine
    wrong = office.set_up(machine, "--alarm nobody", check=False)
    checks.has("an alarm that is nobody's", "no mail address", wrong.output)
    machine.run("cat >/root/hook.py", stdin=HOOK)
    machine.run("systemd-run --quiet --unit hook python3 /root/hook.py")
    machine.wait_for("curl -s -o /dev/null -X POST --data '' http://127.0.0.1:9099/", 10)
    ran = office.set_up(machine, "--alarm http://127.0.0.1:9099/desk")
    town.admin = office.key_in(ran.output)
    checks.has("desk-setup ends", f"{office.AGENCY} is set up", ran.output)
    checks.holds("it shows the admin's key", len(town.admin) > 20, ran.output)
    checks.has("it sent a test line", "this is a test", machine.run("cat /root/alarms").output)
    units = [f"{MAIN.unit}.service", *map(MAIN.unit_of, ("backup.timer", "worklist.timer"))]
    for unit in [*units, *MAIN.beside, *agencies.UNITS_OF_MACHINE, "nginx.service"]:
        said = machine.run(f"systemctl is-active {unit}; systemctl is-enabled {unit}", check=False)
        checks.equal(f"{unit} runs and is enabled", "active\nenabled\n", said.output)
    words = f"openssl x509 -in {office.CERTIFICATE} -noout -ext basicConstraints,extendedKeyUsage"
    told = machine.run(words).output
    checks.has("the certificate signs no other", "CA:FALSE", told)
    checks.has("the certificate is a server's", "TLS Web Server Authentication", told)


def check_site(town: Town) -> None:
    """The first reply by the site, and a write."""
    checks, machine = town.checks, town.machine
    checks.has("the pages", "<!doctype html>", office.ask(machine, "/").body)
    reply = office.ask(machine, "/days/2026-01-01/sheet", key=town.admin)
    checks.equal(
        "the admin is known", (403, "desk.caller"), (reply.status, json.loads(reply.body)["denied"])
    )
    body = {"id": 90, "x": 0, "y": 0, "core": False}
    reply = office.ask(machine, "/places", key=town.admin, body=body, number=town.next_number())
    checks.equal("a write", (200, '{"done":true}'), (reply.status, reply.body.strip()))
    reply = office.ask(machine, "/days/2026-01-01/sheet", key="nobody")
    checks.equal("a key of nobody", 401, reply.status)


def check_health(town: Town) -> None:
    """What a balancer and Prometheus see, of a desk that is well and of one that is away."""
    checks, machine = town.checks, town.machine
    # (what was asked before the first write is kept for five seconds)
    machine.wait_for("test -e /run/desk-watch.json", 40)
    reply = office.ask(machine, "/health")
    told = json.loads(reply.body or "{}")
    checks.equal("/health", (200, True), (reply.status, told.get("answers")))
    checks.has("its version", "desk 0.", str(told.get("version")))
    checks.holds("the last write", 0 <= told.get("seconds_since_write", -1) < 120, told)
    figures = machine.run("curl -s http://127.0.0.1:8436/metrics").output
    for wanted in (
        f'desk_up{{desk="{MAIN.unit}"}} 1',
        f'desk_requests_total{{site="{office.NAME}",path="places",status="200"}} 1',
        "desk_refused_keys_total 1",
        f'desk_file_bytes{{desk="{MAIN.unit}"}}',
        'desk_request_seconds_count{path="places"}',
    ):
        checks.has("/metrics", wanted, figures)
    checks.equal("/metrics from outside", 404, office.ask(machine, "/metrics").status)
    machine.run(f'sed -i \'s/^{{/{{ "telephone": "555-0100",/\' {MAIN.names}')
    machine.run("desk-setup --site")
    machine.run(f"systemctl stop {MAIN.unit}")
    reply = office.ask(machine, "/riders/7/trips", key=town.admin, accept="text/html")
    checks.equal("the desk is away", (502, "5"), (reply.status, reply.headers.get("retry-after")))
    checks.has("a person reads whom to call", "555-0100", reply.body)
    reply = office.ask(machine, "/riders/7/trips", key=town.admin)
    checks.has(
        "a program reads JSON", '{"denied": "site.away", "telephone": "555-0100"}', reply.body
    )
    words = f"curl -sk --resolve {office.NAME}:443:127.0.0.1 https://{office.NAME}/health"
    is_told = machine.wait_for(f"{words} -o /dev/null -w '%{{http_code}}' | grep -qx 503", 15)
    checks.holds("/health of a desk that is away", is_told)
    machine.run(f"systemctl start {MAIN.unit}")
    checks.holds("it answers again", office.answers(machine))
