"""The steps of a setup: the desk's file and its keys, the agency's file, the site, the units' settings."""
import contextlib
import glob
import json
import os
import re
import shutil
import subprocess
import sys
from pathlib import Path
from typing import Any

from desk_tools import agencies
from desk_tools.commands import site as sites
from desk_tools.demo import mark
from desk_tools.machine import away, by_hand, confs
from desk_tools.machine.changes import run
from desk_tools.machine.changes import Changes
from desk_tools.machine.settings import before, Failure, MAIL, NO_ALARM, rule_of
from desk_tools.machine.settings import Settings
from desk_tools.tree import TOP

MAIN = agencies.Agency()
PROGRAM, FILE, KEYS = "/usr/bin/desk", MAIN.file, "/var/lib/desk-setup"
AGENCY, SERVED, WATCH = MAIN.names, MAIN.site, f"{agencies.SETTINGS}/watch.conf"
NGINX, SITE, FILES_OF_NGINX = (
    "/etc/nginx/nginx.conf",
    "/etc/nginx/conf.d/desk.conf",
    "/etc/nginx/modules-enabled/90-desk.conf",
)
TLS, UNITS, SHIPPED = MAIN.tls, "/etc/systemd/system", "/lib/systemd/system"
# Folders that root alone reads.
CLOSED = f"{agencies.SETTINGS}/keys", MAIN.backups
# By which the site keeps its record, as files and as Debian's packages.
LUA = ("/usr/lib/nginx/modules/ngx_http_lua_module.so", "/usr/lib/*/lua/5.1/cjson.so")
LUA_PACKAGES = ("libnginx-mod-http-lua", "lua-cjson")
CONNECTIONS = 16_384


def make_file(changes: Changes) -> Any:
    """The desk's file with two admins, unless there is one. Their keys: KEYS has them until they were shown."""
    if not os.path.lexists(FILE):
        for name in FILE, f"{FILE}-wal", f"{FILE}-shm":
            changes.note(name)
        os.makedirs(KEYS, mode=0o700, exist_ok=True)
        run(f"{TOP}/deploy/new-desk", KEYS, env={**os.environ, "DESK": PROGRAM, "FILE": FILE})
    found = []
    for name in sorted(os.listdir(KEYS), key=len) if os.path.isdir(KEYS) else []:
        # (what begins with a dot is a key that a killed setup did not finish)
        if name.startswith("."):
            continue
        found.append((name, Path(f"{KEYS}/{name}").read_text("ascii").strip()))
    return found


def forget_keys() -> None:
    shutil.rmtree(KEYS, ignore_errors=True)


def make_agency(changes: Changes, told: Settings) -> None:
    """The agency's file, of which an earlier one stays but for what is told, and whether the program is a trial one."""
    agency = {}
    if os.path.exists(AGENCY):
        try:
            agency = json.loads(Path(AGENCY).read_text("utf-8"))
            changed = {**agency, **told}
        except (OSError, ValueError, TypeError):
            raise Failure(f"{AGENCY} is no JSON object: mend it or move it away") from None
    else:
        changed = dict(told)
    changed.pop("unproved", None)
    if mark.logic_of(PROGRAM) is None:
        changed["unproved"] = True
    if changed != agency:
        changes.write(AGENCY, json.dumps(changed, indent=1, ensure_ascii=False) + "\n", 0o600)


def make_site_files() -> Any:
    """What the site serves of the agency's files."""
    words = [f"{TOP}/bin/site-files", AGENCY]
    for name in "roster", "drivers":
        if os.path.exists(path := MAIN.own(f"{name}.csv")):
            words += [f"--{name}", path]
    ran = subprocess.run([*words, SERVED], capture_output=True, text=True, check=False)
    if not os.path.exists(f"{SERVED}/agency.json") or ran.returncode > 1:
        raise Failure(f"the site's files were not made: {ran.stderr.strip()}")
    away.put(json.loads(Path(f"{SERVED}/agency.json").read_text("utf-8")), SERVED)
    print(ran.stderr, end="", file=sys.stderr)


def make_away_of_others() -> None:
    """The page for people while a desk is away, of each other agency whose files are there."""
    for agency in agencies.of_machine(agencies.SETTINGS):
        path = f"{agency.site}/agency.json"
        if agency.name != MAIN.name and os.path.exists(path):
            away.put(json.loads(Path(path).read_text("utf-8")), agency.site)


def put_back_site_files() -> None:
    """What the site serves is again of the agency's file as it is, or nothing is served."""
    if os.path.exists(AGENCY):
        with contextlib.suppress(Failure, OSError):
            make_site_files()
    elif os.path.isdir(SERVED):
        for name in os.listdir(SERVED):
            path = f"{SERVED}/{name}"
            shutil.rmtree(path) if os.path.isdir(path) else os.remove(path)


def make_certificate(changes: Changes, name: str) -> Any:
    """A certificate that the machine signs itself, unless there is one."""
    if os.path.exists(f"{TLS}/certificate.pem"):
        return False
    os.makedirs(TLS, mode=0o700, exist_ok=True)
    changes.note(f"{TLS}/key.pem")
    changes.note(f"{TLS}/certificate.pem")
    # (an authority may be about to sign for a key that is there, and it may be nowhere else)
    key = ["-key", f"{TLS}/key.pem"]
    if not os.path.exists(f"{TLS}/key.pem"):
        key = ["-newkey", "rsa:2048", "-nodes", "-keyout", f"{TLS}/key.pem"]
    words = [
        "req",
        "-x509",
        *key,
        "-days",
        "825",
        "-subj",
        f"/CN={name}",
    ]
    words += [
        "-addext",
        f"subjectAltName=DNS:{name}",
        "-addext",
        "basicConstraints=critical,CA:FALSE",
    ]
    words += [
        "-addext",
        "extendedKeyUsage=serverAuth",
        "-addext",
        "keyUsage=critical,digitalSignature,keyEncipherment",
    ]
    run("openssl", *words, "-out", f"{TLS}/certificate.pem")
    os.chmod(f"{TLS}/key.pem", 0o600)
    return True


def told_of_certificate(name: str) -> list[str]:
    """What keeps browsers from the site by the certificate that is there, in a sentence, or nothing."""
    path = f"{TLS}/certificate.pem"
    words = ["openssl", "x509", "-in", path, "-noout"]
    said = run(*words, "-checkhost", name)
    if "does match" not in said:
        return [
            f"The certificate {path} is not one for {name}, so browsers refuse the site. Put the right one there, and "
            "run desk-setup again."
        ]
    ends = subprocess.run([*words, "-checkend", "0"], capture_output=True, check=False)
    if ends.returncode:
        return [
            f"The certificate {path} has ended, so browsers refuse the site. Renew it, and run desk-setup again."
        ]
    return []


def close_to_others() -> None:
    """Folders and keys that somebody made beforehand are root's alone too: they hold keys and riders' data."""
    for folder in CLOSED:
        if os.path.isdir(folder):
            os.chmod(folder, 0o700)
    if os.path.isdir(TLS):
        os.chmod(TLS, os.stat(TLS).st_mode & 0o755)
    if os.path.exists(path := f"{TLS}/key.pem"):
        os.chmod(path, os.stat(path).st_mode & 0o640)


def make_site(changes: Changes, settings: Settings, lines: list[str]) -> None:
    """nginx's site and its room for connections, which nginx itself looks through before they count."""
    text = site_text()
    if settings["port"] != "443":
        text = re.sub(r"(listen (?:\[::\]:)?)443\b", rf"\g<1>{settings['port']}", text)
        text = text.replace(
            "https://$server_name$request_uri",
            f"https://$server_name:{settings['port']}$request_uri",
        )
    make_record()
    make_log()
    make_away_of_others()
    if is_by_hand(SITE, before().get("site")):
        changes.write(f"{SITE}.new", text)
        lines.append(
            f"{SITE} was changed by hand and stays. Compare it with {SITE}.new, which this version would serve."
        )
    else:
        changes.write(SITE, text)
    settings["site"] = by_hand.digest_of(text)
    whole = Path(NGINX).read_text("utf-8")
    found = re.search(r"worker_connections (\d+);", whole)
    if found and int(found[1]) < CONNECTIONS:
        changes.write(NGINX, whole.replace(found[0], f"worker_connections {CONNECTIONS};"))
    changes.write(FILES_OF_NGINX, "worker_rlimit_nofile 40000;\n")
    run("nginx", "-t")


def site_text() -> str:
    """The site of each agency of this machine, on the usual port."""
    text = Path(f"{TOP}/deploy/desk.nginx").read_text("utf-8")
    try:
        return sites.of_agencies(text, agencies.SETTINGS)
    except sites.Wrong as wrong:
        raise Failure(str(wrong)) from None


def make_log() -> None:
    """The log of what the site is told. A driver's note may name a rider, so it is for the site and the group adm."""
    os.makedirs(agencies.LOGS, exist_ok=True)
    # (a folder that a restore made is root's alone; who reads the log has no way in)
    os.chmod(agencies.LOGS, 0o755)
    with open(MAIN.tally, "ab"):
        os.chmod(MAIN.tally, 0o640)
    with contextlib.suppress(LookupError):
        shutil.chown(MAIN.tally, "www-data", "adm")


def has_lua() -> bool:
    return all(glob.glob(it) for it in LUA)


def make_record() -> Any:
    """The folder of the record, and the key that signs each day of it."""
    if not has_lua():
        raise Failure(
            f"nginx has no Lua, by which the site keeps its record: apt install {' '.join(LUA_PACKAGES)}"
        )
    os.makedirs(agencies.LOGS, exist_ok=True)
    run(f"{TOP}/bin/journal", "begin")


def is_by_hand(path: str, digest: str | None) -> bool:
    """Whether the file is there and is not the one that an earlier setup wrote."""
    if not os.path.exists(path):
        return False
    return by_hand.digest_of(Path(path).read_text("utf-8", errors="replace")) != digest


def make_conf(changes: Changes, settings: Settings) -> None:
    """NAME, PORT and ZONE of the desk. What a person wrote beside them stays, and PORT too."""
    text = ""
    if os.path.exists(MAIN.conf):
        text = Path(MAIN.conf).read_text("utf-8")
    changed = confs.with_value(text, "NAME", settings["name"])
    changed = confs.with_value(changed, "PORT", confs.value_in(text, "PORT") or agencies.PORT)
    changed = confs.with_value(changed, "ZONE", rule_of(settings["zone"]))
    if changed != text:
        changes.write(MAIN.conf, changed)


def make_units(changes: Changes, settings: Settings) -> Any:
    """The desk's own settings, the zone of the timers, the wait for the clock at a start, and the watch."""
    make_conf(changes, settings)
    changes.write(
        f"{UNITS}/systemd-time-wait-sync.service.d/desk.conf", "[Service]\nTimeoutStartSec=5min\n"
    )
    for path in sorted(glob.glob(f"{SHIPPED}/desk-*.timer")):
        name = os.path.basename(path).replace("@.", f"@{MAIN.name}.")
        make_timer(changes, path, f"{UNITS}/{name}.d/zone.conf", settings["zone"])
    make_watch(changes, settings)


def make_timer(changes: Changes, path: str, drop_in: str, zone: str) -> None:
    """A timer's hours are those of the agency's clocks, whatever the machine's zone is."""
    with open(path, encoding="utf-8") as file:
        hours = [line.strip() for line in file if line.startswith("OnCalendar=")]
    if hours:
        lines = "".join(f"{it} {zone}\n" for it in hours)
        changes.write(
            drop_in,
            f"# By desk-setup. For another hour make a file beside this one.\n[Timer]\nOnCalendar=\n{lines}",
        )


def make_watch(changes: Changes, settings: Settings) -> Any:
    """What the watch looks at and whom it tells. A file that is there stays, but for another answer to who is told."""
    text = f"SITE=127.0.0.1:{settings['port']}\n"
    if os.path.exists(WATCH):
        text = Path(WATCH).read_text("utf-8")
        # (an earlier version made it for everybody to read)
        os.chmod(WATCH, 0o600)
        if settings["alarm"] == before().get("alarm", NO_ALARM):
            return
    is_mail = bool(MAIL.fullmatch(settings["alarm"]))
    is_hook = not is_mail and settings["alarm"] != NO_ALARM
    text = confs.with_value(text, "MAIL", settings["alarm"] if is_mail else None)
    text = confs.with_value(text, "HOOK", settings["alarm"] if is_hook else None)
    changes.write(WATCH, text, 0o600)


def send_test(alarm: str, lines: list[str]) -> None:
    """Sends a line to whom the watch tells, where that is somebody new."""
    if alarm == NO_ALARM:
        lines.append(
            f"Nobody is told when something is wrong. desk-setup --alarm you@example.org changes that ({WATCH})."
        )
        return
    ran = subprocess.run(
        [f"{TOP}/deploy/watch", "--test"], capture_output=True, text=True, check=False
    )
    if ran.returncode:
        lines.append(
            f"{alarm} got no test line: {ran.stderr.strip()}. Mend {WATCH}, and run {TOP}/deploy/watch --test."
        )
    else:
        lines.append(
            f"{alarm} was sent a test line. If it does not come, nobody is told when something is wrong."
        )


def install_nginx(lines: list[str]) -> bool:
    """nginx and its Lua, by apt, where they are not installed. It listens from now on, as a desk is set up."""
    if shutil.which("nginx") and has_lua():
        return True
    words = ["apt-get", "install", "--yes", "--quiet", "nginx", *LUA_PACKAGES, "openssl"]
    named = {**os.environ, "DEBIAN_FRONTEND": "noninteractive"}
    ran = subprocess.run(
        words, stdin=subprocess.DEVNULL, check=False, env=named, capture_output=True, text=True
    )
    if ran.returncode and not shutil.which("nginx"):
        lines.append(
            "nginx is not installed, and apt-get could not install it: there is no site. Install it, and run "
            "desk-setup again."
        )
        return False
    return True
