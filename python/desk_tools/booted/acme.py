"""A certificate by ACME, from pebble: a small authority for trials, which runs in the machine."""

from __future__ import annotations

import json
import shutil
from pathlib import Path

from desk_tools import agencies
from desk_tools.booted import office
from desk_tools.booted.town import Town

PEBBLE = Path("/usr/bin/pebble")
CONFIG = {
    "pebble": {
        "listenAddress": "127.0.0.1:14000",
        "managementListenAddress": "127.0.0.1:15000",
        "certificate": "/root/pebble/cert.pem",
        "privateKey": "/root/pebble/key.pem",
        "httpPort": 80,
        "tlsPort": 5001,
        "ocspResponderURL": "",
        "externalAccountBindingRequired": False,
    }
}
DIRECTORY = "https://localhost:14000/dir"


def check(town: Town) -> None:
    """All of this part. Without pebble it is left out."""
    checks, machine = town.checks, town.machine
    if not PEBBLE.exists():
        print("tests/booted: left out: a certificate by ACME, for lack of pebble")
        return
    before = machine.run(f"cat {office.CERTIFICATE}").output
    failed = office.set_up(machine, f"--acme {DIRECTORY}")
    checks.has("an authority that does not answer", "gave no certificate", failed.output)
    checks.equal("the site keeps its own", before, machine.run(f"cat {office.CERTIFICATE}").output)
    start(town)
    ran = office.set_up(machine, f"--acme {DIRECTORY}")
    log = machine.run("journalctl -u desk-acme -n 20 -o cat").output
    checks.has("a certificate by ACME", "is the authority's", ran.output + log)
    issuer = machine.run(f"openssl x509 -in {office.CERTIFICATE} -noout -issuer").output
    checks.has("it is the authority's", "Pebble", issuer)
    seen = machine.run(
        f"echo | openssl s_client -connect 127.0.0.1:443 -servername {office.NAME} 2>/dev/null"
        " | openssl x509 -noout -issuer"
    ).output
    checks.equal("the site shows it", issuer, seen)
    checks.holds(
        "it is renewed by itself",
        machine.run("systemctl is-active desk-acme.timer", check=False).is_well,
    )
    forced = "sed 's/--cron/--cron --force/' /lib/systemd/system/desk-acme.service >/run/systemd/system/desk-acme.service"
    serial = machine.run(f"openssl x509 -in {office.CERTIFICATE} -noout -serial").output
    machine.run(f"{forced} && systemctl daemon-reload && systemctl start desk-acme")
    again = machine.run(f"openssl x509 -in {office.CERTIFICATE} -noout -serial").output
    checks.holds("a renewal in the unit gives another one", serial != again, again)
    machine.run("rm /run/systemd/system/desk-acme.service && systemctl daemon-reload")


def start(town: Town) -> None:
    """Starts pebble in the machine, which trusts it."""
    machine = town.machine
    shutil.copy(PEBBLE, machine.root / "usr/local/bin/pebble")
    machine.run(f"mkdir -p /root/pebble {agencies.SETTINGS}/acme")
    machine.run("cat >/root/pebble/config.json", stdin=json.dumps(CONFIG))
    words = "openssl req -x509 -newkey rsa:2048 -nodes -days 9 -subj /CN=localhost"
    words += " -addext subjectAltName=DNS:localhost -keyout key.pem -out cert.pem"
    machine.run(f"cd /root/pebble && {words}")
    machine.run("cp /root/pebble/cert.pem /usr/local/share/ca-certificates/pebble.crt")
    machine.run("update-ca-certificates")
    machine.run(f"echo '127.0.0.1 {office.NAME}' >>/etc/hosts")
    unit = "systemd-run --quiet --unit pebble --setenv=PEBBLE_VA_NOSLEEP=1"
    machine.run(f"{unit} --setenv=PEBBLE_WFE_NONCEREJECT=0 pebble -config /root/pebble/config.json")
    machine.wait_for(f"curl -sf -o /dev/null {DIRECTORY}", 15)
