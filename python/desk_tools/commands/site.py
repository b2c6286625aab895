#!/usr/bin/env python3
"""Prints the site for nginx of the agencies of a machine, or of a trial.

`site [FOLDER]` makes it of desk.nginx, with the servers of that file for each AGENCY.conf of FOLDER (/etc/desk). Such
a file has NAME, the agency's name on the net, and PORT, its desk's port. The agency's certificate is in
/etc/ssl/desk-AGENCY, its files are in /var/lib/desk-site/AGENCY, and its tally is /var/log/desk/tally-AGENCY.log.
desk-setup makes the site of all agencies by the same way.

`site --trial HERE --desk PORT` prints settings for an nginx that serves one agency on 127.0.0.1 out of the folder HERE,
on free ports: certificate.pem, key.pem, site/ (the agency's files) and tally.log are in HERE. With FOLDER it does so
for several agencies, whose certificates are in HERE/desk-AGENCY, files in HERE/site/AGENCY, and tallies in
HERE/tally-AGENCY.log. The record is HERE/journal or HERE/journal-AGENCY. Start it by `nginx -e HERE/nginx.log -c SETTINGS`.
"""

from __future__ import annotations

import argparse
import os
import re
import sys
from typing import Any, NoReturn

from desk_tools import agencies, ending
from desk_tools.arguments import usage_of
from desk_tools.ports import free_port
from desk_tools.tree import DEPLOY, TOP

DOOR = "8436"
# Debian's libnginx-mod-http-lua, by which the site keeps its record, and what that stands on.
MODULES = (
    "/usr/lib/nginx/modules/ndk_http_module.so",
    "/usr/lib/nginx/modules/ngx_http_lua_module.so",
)
TEMPORARY = ("client_body", "proxy", "fastcgi", "uwsgi", "scgi")


class Wrong(Exception):
    """Why there is no site, in one sentence."""


def fail(why: str) -> NoReturn:
    """Ends with a sentence."""
    raise Wrong(why)


def content_of(path: str) -> str:
    try:
        with open(path, encoding="utf-8") as text:
            return text.read()
    except OSError as why:
        fail(f"{path} cannot be read: {why.strerror}")


def replaced(text: str, changes: dict[str, str]) -> str:
    """The text with each of these words changed; one that is not there is an error of desk.nginx."""
    for old, new in changes.items():
        if old not in text:
            fail(f"desk.nginx has no {old}")
        text = text.replace(old, new)
    return text


def value_in(path: str, name: Any) -> Any:
    values = re.findall(rf"(?m)^{name}=(.*)$", content_of(path))
    if len(values) != 1 or not re.fullmatch(r"[A-Za-z0-9.-]+", values[0]):
        fail(
            f"{path} has no {name}, or two, or one with other signs than letters, digits, dots and dashes"
        )
    return values[0]


def agencies_in(folder: str) -> list[tuple[str, str, str]]:
    """(agency, name, port) of each AGENCY.conf."""
    try:
        names = list(agencies.confs_in(folder))
    except OSError as why:
        fail(f"{folder} cannot be read: {why.strerror}")
    if not names:
        fail(f"there is no AGENCY.conf in {folder}")
    found = []
    for it in names:
        name, port = (value_in(agencies.Agency(it, folder).conf, word) for word in ("NAME", "PORT"))
        found.append((it, name, port))
    taken = {DOOR: "the site"}
    for agency, *values in found:
        for value in values:
            if value in taken:
                fail(f"{agency} and {taken[value]} have one {value}")
            taken[value] = agency
    return found


def paths_of(agency: agencies.Agency) -> list[str]:
    """What desk.nginx has of the agency whose site it is, but for its name on the net and its port."""
    return [
        f"{agency.tls}/",
        agency.site,
        agency.tally,
        f"127.0.0.1:8435/health/{agency.name}",
        f"{agency.record}/",
        f"/run/desk-journal-{agency.name}/",
        agency.fence,
    ]


def of_agencies(site: str, folder: str) -> str:
    """The site with its servers once for each agency."""
    head, server, rest = site.partition("server {")
    ours, parts = paths_of(agencies.Agency()), list[str]()
    for name, host, port in agencies_in(folder):
        changes = dict(zip(ours, paths_of(agencies.Agency(name)), strict=True))
        changes |= {f"127.0.0.{it}:8437": f"127.0.0.{it}:{port}" for it in (1, 2)}
        parts.append(replaced(server + rest, {"desk.example.org": host, **changes}))
    return head + "\n".join(parts)


def of_one(site: str, here: str, files: str | None) -> str:
    """The site of a trial of one agency, whose files have no agency's name in theirs."""
    main = agencies.Agency()
    changes = {
        f"{main.tls}/": f"{here}/",
        main.site: files or f"{here}/site",
        main.tally: f"{here}/tally.log",
        f"{main.record}/": f"{here}/journal/",
        f"/run/desk-journal-{main.name}/": f"{here}/",
        main.fence: f"{here}/fenced",
    }
    return replaced(site, changes)


def without_record(site: Any) -> Any:
    """The site without the lines of the record, for a machine that has no Lua in nginx. Its tally leaves no key out."""
    site = re.sub(
        r"(?m)^ *(\w+_by_lua_\w+|set \$desk_(from|line|reader|told|reply)) .*\n", "", site
    ).replace("$desk_told", "$args")
    return re.sub(
        r"(?m)^ *(log_format|access_log) .*\bdesk_(journal|read)\b.*\n(    '.*\n)*", "", site
    )


def of_trial(site: str, told: argparse.Namespace) -> str:
    """Settings of an nginx that serves the site out of a folder, on ports of its own."""
    tls, plain, door = told.tls or free_port(), told.plain or free_port(), free_port()
    of_several = {
        "/etc/ssl/": f"{told.trial}/",
        "/var/log/desk/": f"{told.trial}/",
        agencies.SITES: told.files or f"{told.trial}/site",
        f"{agencies.SETTINGS}/": f"{told.trial}/",
        "/run/desk-journal-": f"{told.trial}/journal-",
    }
    changes = {
        "listen 443": f"listen 127.0.0.1:{tls}",
        "listen 80;": f"listen 127.0.0.1:{plain};",
        f"127.0.0.1:{DOOR}": f"127.0.0.1:{door}",
        "/usr/share/desk/pages": told.pages,
        "/run/desk-keys": f"{told.trial}/keys",
        "127.0.0.1:8435": f"127.0.0.1:{told.health or free_port()}",
        "/var/www/html": f"{told.trial}/site",
        "/var/log/nginx/": f"{told.trial}/",
        **(of_several if told.folder else {}),
    }
    if not told.folder:
        site = of_one(site, told.trial, told.files)
    has_record = all(os.path.exists(it) for it in MODULES)
    if has_record:
        changes["/usr/lib/desk/deploy/journal.lua"] = f"{DEPLOY}/journal.lua"
    else:
        site = without_record(site)
    site = replaced(re.sub(r"(?m)^ *listen \[::\].*\n", "", site), changes)
    if told.desk:
        site = replaced(site, {f"127.0.0.{it}:8437": f"127.0.0.{it}:{told.desk}" for it in (1, 2)})
    for folder in re.findall(r"access_log (\S+)/requests ", site):
        os.makedirs(folder, mode=0o750, exist_ok=True)
    record = "".join(f"load_module {it};\n" for it in MODULES) if has_record else ""
    temporary = "".join(f"{it}_temp_path {told.trial}/temp-{it};\n" for it in TEMPORARY)
    user = "user root;\n" if os.getuid() == 0 else ""
    return (
        f"{user}{record}pid {told.trial}/nginx.pid;\nerror_log {told.trial}/nginx.log;\nworker_processes 1;\n"
        f"worker_rlimit_nofile 16384;\nevents {{ worker_connections 8192; }}\n"
        f"http {{\ninclude /etc/nginx/mime.types;\naccess_log off;\n{temporary}{site}}}\n"
    )


def main(words: list[str]) -> None:
    reader = usage_of("deploy/site", __doc__)
    reader.takes("folder FOLDER", nargs="?")
    reader.takes("--trial HERE", type=lambda it: os.path.abspath(it))
    reader.takes("--desk PORT", "of a trial: the port of the one desk", type=int)
    reader.takes("--tls PORT", "of a trial: the port of the site (a free one)", type=int)
    reader.takes("--plain PORT", "of a trial: the port that sends on (a free one)", type=int)
    reader.takes("--health PORT", "of a trial: the port of deploy/health (a free one)", type=int)
    reader.takes("--pages", "of a trial: the folder of the pages", default=f"{TOP}/pages")
    reader.takes("--files", "of a trial: the folder of the agency's files (HERE/site)")
    told = reader.parse_args(words)
    try:
        print(site_for(told), end="")
    except Wrong as why:
        print(f"deploy/site: {why}", file=sys.stderr)
        sys.exit(2)


def site_for(told: argparse.Namespace) -> str:
    """The site that the words ask for. Raises Wrong."""
    if told.trial and not (told.folder or told.desk):
        fail("a trial of one agency takes --desk PORT")
    site = content_of(f"{DEPLOY}/desk.nginx")
    if told.folder or not told.trial:
        site = of_agencies(site, told.folder or agencies.SETTINGS)
    return of_trial(site, told) if told.trial else site


if __name__ == "__main__":
    ending.run("deploy/site", main)
