#!/usr/bin/env python3
"""deploy/new-admin-key OLD NEW URL: gives an admin the key in the file NEW, by that in OLD, at the desk of URL.

The key in NEW is made where there is no such file. So it is not lost where the line breaks: run the same command again
until it says that the new key holds. The admin is caller 1, or --caller NUMBER.
"""

from __future__ import annotations

import argparse
import os
import sys

from desk_tools.arguments import usage_of
from desk_tools.ops.asking import Asking, line_to
from desk_tools.ops.ending import Failure, run_script
from desk_tools.ops.keys import digest_of, key_made_or_in
from desk_tools.setup.desk import key_in
from desk_tools.setup.limits import NotAnswered, Wrong

# An admin may not read a sheet, so it is known by that denial.
SHEET, KNOWN = "/days/2000-01-01/sheet", 403


def change(given: argparse.Namespace) -> None:
    line = line_to(given.url, given.certificate)
    new = key_made_or_in(given.new)
    told = None
    if line.ask("GET", SHEET, new).status != KNOWN:
        old = Asking(line, given.old)
        if line.ask("GET", SHEET, old.caller.key).status != KNOWN:
            raise Failure(f"nobody has the key in {given.old}, or it is no admin's")
        body = {"id": given.caller, "role": "admin", "subject": 0, "digest": digest_of(new).hex()}
        told = old.post("/callers", body)
    seen = line.ask("GET", SHEET, new)
    if seen.status != KNOWN:
        raise Failure(f"the new key does not hold: {told.body if told else seen.body}")
    if os.path.exists(given.old) and key_in(given.old) != new:
        os.remove(given.old)


def main(words: list[str]) -> None:
    usage = usage_of("deploy/new-admin-key", __doc__)
    usage.takes("old OLD")
    usage.takes("new NEW")
    usage.takes("url URL")
    usage.takes("--certificate FILE", "the site's certificate, where you made it yourself")
    usage.takes("--caller NUMBER", "the admin's number (1)", type=int, default=1)
    given = usage.parse_args(words)
    try:
        change(given)
    except (Wrong, NotAnswered) as failure:
        raise Failure(str(failure)) from None
    print("The new key holds; the old one is gone.")


if __name__ == "__main__":
    sys.exit(run_script("new-admin-key", main, sys.argv[1:]))
