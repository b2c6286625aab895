#!/usr/bin/env python3
"""Writes, checks and runs rehearsals of the desk, so that nobody has to count bytes.

  bin/rehearsal write FILE       the rehearsal of a script, for `bin/desk rehearse`
  bin/rehearsal check FILE       where a rehearsal goes wrong: the message, the byte, and what is wrong
  bin/rehearsal run KEY FILE     runs a script at a desk whose admin has KEY, each reply beside its request
  bin/rehearsal look KEY FILE    does so by a program in which nothing was proved, some minutes after the first call

A script has a request a line: DAY MINUTE METHOD PATH KEY [NUMBER] [BODY], as in

  2025-02-17 480 POST /callers abc 1 {"id":2,"role":"clerk","subject":0,"key":"hello"}
  2025-03-10 480 GET /riders/7/standing/2025-03-14 hello

A line DAY MINUTE use NAME [FIELD=VALUE ..] [xCOUNT], .. stands for requests that tests/rehearsals/named has, each with
its fields in place of those there, and with the next number of its key:

  2025-03-10 480 use clerk, dispatcher, policy fare=200, vehicle id=2 capacity=1, trip x3

Lines that are empty or begin with # are left out. A request without BODY has no Content-Length, and the BODY - is an
empty one, of length 0. A body's "key" stands for the "digest" of it, the SHA-256 in hexadecimal, which the desk asks
for. A key with a blank in it, another method, another header and a body of two lines have no place in a script. FILE
may be - for standard input. The environment's DESK, where it is set, is the program to run in place of bin/desk.
`run` builds the program by its first call, and proves it; `look` compiles what rehearses alone, each time anew, with
no proof, and takes scripts of at most a minute. The exit status is 1 where a rehearsal or a script is wrong, and 2
for other words than these.
"""

from __future__ import annotations

import hashlib
import json
import os
import re
import shutil
import subprocess
import sys
import tempfile
from collections.abc import Callable, Iterator
from typing import Any

from desk_tools import ending
from desk_tools.arguments import HELP
from desk_tools.tree import TOP

# What a line with `use` names: NAME METHOD PATH KEY BODY.
NAMED = f"{TOP}/tests/rehearsals/named"
# The crates that the program of `look` names.
LOOKED_AT = "pt_base_values pt_http_inbox pt_http_rehearsal pt_desk_store"
MOMENT = re.compile(rb"@ (\d{4})-(\d\d)-(\d\d) (0|[1-9]\d{0,3})\r?\n")
LINE = re.compile(r"(\S+) (\S+) (GET|POST) (\S+) (\S+)(?: (\d+))?(?: (\{.*\}|-))?")
USE = re.compile(r"(\S+ \S+) use (.+)")
ITEM = re.compile(r"([\w-]+)((?: \w+=\S+)*)(?: x(\d+))?")
HEAD_END = re.compile(rb"\r?\n\r?\n")
LENGTH = re.compile(rb"(?im)^content-length:[ \t]*(\d+)[ \t]*\r?$")


class Wrong(Exception):
    """What is wrong with a script or a rehearsal."""


def with_digest(body: str) -> str:
    """The body, its "key" replaced by the digest of the key."""
    try:
        fields = json.loads(body)
    except ValueError:
        return body
    if not isinstance(fields.get("key"), str):
        return body
    digest = hashlib.sha256(fields["key"].encode()).hexdigest()
    told = [
        ("digest", digest) if name == "key" else (name, value) for name, value in fields.items()
    ]
    return json.dumps(dict(told), separators=(",", ":"), ensure_ascii=False)


def message_of(line: str) -> bytes:
    """The message of a script's line."""
    found = LINE.fullmatch(line)
    if not found:
        raise Wrong(f"this is not DAY MINUTE METHOD PATH KEY [NUMBER] [BODY]: {line}")
    day, minute, method, path, key, number, body = found.groups()
    content = b"" if body in (None, "-") else with_digest(body).encode()
    head = [f"@ {day} {minute}\n{method} {path} HTTP/1.1", f"Desk-Key: {key}"]
    head += [f"Desk-Number: {number}"] if number else []
    head += [f"Content-Length: {len(content)}"] if body else []
    return "\r\n".join([*head, "", ""]).encode() + content


def named_requests() -> dict[str, tuple[str, dict[str, Any]]]:
    """The requests that a script may name: METHOD, PATH and KEY as one text, and the fields of the body."""
    with open(NAMED, encoding="utf-8") as file:
        lines = [line.split() for line in file if line.strip() and not line.startswith("#")]
    return {name: (" ".join(target), json.loads(body)) for name, *target, body in lines}


def lines_of_use(moment: str, items: str, numbers: dict[str, int]) -> Iterator[str]:
    """The lines that a line with `use` stands for; `numbers` has the last number of each key."""
    known = named_requests()
    for item in items.split(", "):
        found = ITEM.fullmatch(item)
        if not found or found[1] not in known:
            raise Wrong(
                f"this is no NAME [FIELD=VALUE ..] [xCOUNT] of {os.path.relpath(NAMED)}: {item}"
            )
        target, fields = known[found[1]]
        try:
            others = {
                name: json.loads(value)
                for name, _, value in (it.partition("=") for it in found[2].split())
            }
        except ValueError:
            raise Wrong(
                f"a VALUE is JSON without blanks, and strings have quotation marks: {item}"
            ) from None
        body = json.dumps({**fields, **others}, separators=(",", ":"), ensure_ascii=False)
        key = target.split()[-1]
        for _ in range(int(found[3] or 1)):
            numbers[key] = numbers.get(key, 0) + 1
            yield f"{moment} {target} {numbers[key]} {body}"


def requests_of(script: bytes) -> Iterator[tuple[str, bytes]]:
    """The requests of a script, each as its line and its message."""
    numbers: dict[str, int] = {}
    for at, line in enumerate(script.decode("utf-8").splitlines(), 1):
        if line.strip() and not line.startswith("#"):
            try:
                use = USE.fullmatch(line.strip())
                for request in lines_of_use(use[1], use[2], numbers) if use else [line]:
                    yield request, message_of(request.strip())
                found = LINE.fullmatch(line.strip())
                if found and found[6]:
                    numbers[found[5]] = int(found[6])
            except Wrong as wrong:
                raise Wrong(f"line {at}: {wrong}") from None


def written(script: bytes) -> bytes:
    """The rehearsal of a script."""
    return b"".join(message for _, message in requests_of(script))


def check(rehearsal: bytes) -> int:
    """How many messages the rehearsal has; `Wrong` tells where the first one of them goes wrong."""
    at = count = 0
    while at < len(rehearsal):
        count += 1
        moment = MOMENT.match(rehearsal, at)
        if not moment:
            found = rehearsal[at : at + 40].split(b"\n")[0].decode("utf-8", "backslashreplace")
            longer = " (or the length of the message before is wrong)" if count > 1 else ""
            raise Wrong(
                f"message {count}, byte {at}: here a line '@ YYYY-MM-DD M' must stand{longer}, and not: {found}"
            )
        end = HEAD_END.search(rehearsal, moment.end())
        if not end:
            raise Wrong(
                f"message {count}, byte {moment.end()}: its head has no end, which is an empty line"
            )
        lengths = LENGTH.findall(rehearsal[moment.end() : end.end()])
        body, length = end.end(), int(lengths[0]) if lengths else 0
        if len(rehearsal) < body + length:
            left = len(rehearsal) - body
            raise Wrong(
                f"message {count}, byte {body}: its Content-Length is {length}, and {left} bytes are left"
            )
        at = body + length
    return count


def replies_in(output: bytes) -> Iterator[tuple[str, str]]:
    """The replies in what the desk wrote, each as its status and its body."""
    while output:
        head, _, rest = output.partition(b"\r\n\r\n")
        length = int(said[1]) if (said := LENGTH.search(head)) else 0
        yield head.split(b"\r\n")[0].decode().partition(" ")[2], rest[:length].decode(
            "utf-8", "backslashreplace"
        )
        output = rest[length:]


def rehearsed(key: str, rehearsal: bytes) -> tuple[bytes, int]:
    """What the desk answers to a rehearsal, and its exit status."""
    desk = os.environ.get("DESK") or f"{TOP}/bin/desk"
    ran = subprocess.run([desk, "rehearse", key], input=rehearsal, stdout=subprocess.PIPE)
    return ran.stdout, ran.returncode


def lay_out(room: Any) -> None:
    """Copies the sources of the crates, and the program that looks at them as one crate more, into a folder."""
    top = TOP
    for crate in os.listdir(f"{top}/crates"):
        for part in ("src", "specs", "proofs"):
            if os.path.isdir(f"{top}/crates/{crate}/{part}"):
                shutil.copytree(f"{top}/crates/{crate}/{part}", f"{room}/crates/{crate}/{part}")
    for part in ("src", "specs", "proofs"):
        os.makedirs(f"{room}/crates/look/{part}")
    shutil.copy(f"{TOP}/bin/look.program", f"{room}/crates/look/src/main.rt")
    shutil.copy(f"{top}/HANDLES", f"{room}/HANDLES")
    for part in ("specs", "proofs"):
        open(f"{room}/crates/look/{part}/Lib.antt", "x").close()
    with open(f"{top}/crates.txt", encoding="utf-8") as file, open(
        f"{room}/crates.txt", "w", encoding="utf-8"
    ) as both:
        both.write(f"{file.read()}look: {LOOKED_AT}\n")


def looked_at(key: Any, rehearsal: Any) -> Any:
    """What a desk in which nothing was proved answers to a rehearsal, and its exit status."""
    if not shutil.which("rt"):
        raise Wrong("there is no rt of the Rattle kit on this machine")
    print("bin/rehearsal: compiling, with no proof; this takes some minutes.", file=sys.stderr)
    with tempfile.TemporaryDirectory() as room:
        lay_out(room)
        ran = subprocess.run(
            ["rt", "try", "--", key],
            input=rehearsal,
            cwd=f"{room}/crates/look",
            capture_output=True,
        )
    if b"run=ended" not in ran.stderr:
        sys.stderr.buffer.write(ran.stderr)
        raise Wrong("the desk was not compiled, or did not end")
    return ran.stdout, ran.returncode


def run(
    key: str, script: bytes, answer: Callable[[str, bytes], tuple[bytes, int]] = rehearsed
) -> int:
    """Prints each request of the script and, below it, its reply."""
    requests = list(requests_of(script))
    output, status = answer(key, b"".join(it for _, it in requests))
    replies = list(replies_in(output))
    for at, (line, _) in enumerate(requests):
        told, body = replies[at] if at < len(replies) else ("no reply", "")
        print(f"{line}\n    {told}  " + body.rstrip("\n").replace("\n", "\n        "))
    return status


def look(key: str, script: bytes) -> int:
    """Prints what `run` does, by a program in which nothing was proved."""
    status = run(key, script, looked_at)
    print("Nothing was proved of the program that answered: this was a first look.")
    return status


def main(words: list[str]) -> int:
    if words in HELP:
        print(__doc__, end="")
        return 0
    verbs = {"write": 1, "check": 1, "run": 2, "look": 2}
    if len(words) < 1 or verbs.get(words[0]) != len(words) - 1:
        print(__doc__, end="", file=sys.stderr)
        return 2
    name = words[-1]
    try:
        with sys.stdin.buffer if name == "-" else open(name, "rb") as file:
            content = file.read()
        if words[0] in ("run", "look"):
            return run(words[1], content) if words[0] == "run" else look(words[1], content)
        if words[0] == "write":
            sys.stdout.buffer.write(written(content))
        else:
            print(f"{check(content)} messages, each of its stated length")
        sys.stdout.flush()
    except (Wrong, OSError, UnicodeDecodeError) as wrong:
        print(f"bin/rehearsal: {name}: {wrong}", file=sys.stderr)
        return 1
    return 0


if __name__ == "__main__":
    ending.run("bin/rehearsal", main)
