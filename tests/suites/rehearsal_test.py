"""Tries bin/rehearsal: `rehearsal_test PROGRAM` runs each example at the desk PROGRAM and compares what is printed.

examples/NAME.requests is a script, examples/NAME.replies what `bin/rehearsal run abc` prints of it. The last line is
'N passed, M failed'.
"""
import glob
import os
import subprocess
import sys

from desk_tools.tree import TOP

MESSAGE = "@ 2025-03-10 480\nPOST /trips/2/cancel HTTP/1.1\r\nDesk-Key: hello\r\nDesk-Number: 4\r\nContent-Length: 2\r\n\r\n{}"
# A message without a body, with an empty one, and with the digest of a key.
PLAIN = "@ 2025-03-10 480\nGET /riders/7/trips HTTP/1.1\r\nDesk-Key: hello\r\n\r\n"
EMPTY = PLAIN.replace("hello\r\n", "hello\r\nContent-Length: 0\r\n")
DIGEST = (
    EMPTY.replace(": 0", ": 77")
    + '{"digest":"2cf24dba5fb0a30e26e83b2ac5b9e29e1b161e5c1fa7425e73043362938b9824"}'
)
# A script with `use`, and the message of each request that it stands for.
USED = "2025-03-10 480 GET /riders/7/trips hello\n2025-03-10 480 POST /trips/2/cancel hello 4 {}\n2025-03-11 0 use complete, complete x2\n"
COMPLETE = (
    MESSAGE.replace("10 480", "11 0")
    .replace("/trips/2/cancel", "/riders/7/entries")
    .replace(": 2", ": 20")
)
SPELLED = (
    PLAIN
    + MESSAGE
    + "".join(
        COMPLETE.replace("Number: 4", f"Number: {n}")[:-2] + '{"entry":"complete"}'
        for n in (5, 6, 7)
    )
)
# What is given to which verb, and what must come out of it, or how what it says must begin.
CASES = [
    ("write", "# a comment\n\n2025-03-10 480 POST /trips/2/cancel hello 4 {}\n", MESSAGE, ""),
    ("write", "2025-03-10 480 GET /riders/7/trips hello\n", PLAIN, ""),
    ("write", "2025-03-10 480 GET /riders/7/trips hello -\n", EMPTY, ""),
    ("write", '2025-03-10 480 GET /riders/7/trips hello {"key":"hello"}\n', DIGEST, ""),
    (
        "write",
        "2025-03-10 480 PUT /trips/2/cancel hello 4 {}\n",
        "",
        "line 1: this is not DAY MINUTE METHOD PATH",
    ),
    ("write", USED, SPELLED, ""),
    (
        "write",
        "2025-03-10 480 use clerk, nobody\n",
        "",
        "line 1: this is no NAME [FIELD=VALUE ..] [xCOUNT] of",
    ),
    (
        "write",
        "2025-03-10 480 use clerk, place x=east\n",
        "",
        "line 1: a VALUE is JSON without blanks",
    ),
    ("check", MESSAGE * 2, "2 messages, each of its stated length\n", ""),
    (
        "check",
        MESSAGE + MESSAGE.replace(": 2", ": 3"),
        "",
        "message 2, byte 206: its Content-Length is 3, and 2 bytes",
    ),
    (
        "check",
        MESSAGE.replace(": 2", ": 1") + MESSAGE,
        "",
        "message 2, byte 103: here a line '@ YYYY-MM-DD M' must stand",
    ),
    ("check", MESSAGE.partition("Content")[0], "", "message 1, byte 17: its head has no end"),
]


def rehearsal(*words, given="", desk=None):
    environment = {**os.environ, **({"DESK": desk} if desk else {})}
    words = [f"{TOP}/bin/rehearsal", *words]
    ran = subprocess.run(words, input=given.encode(), capture_output=True, env=environment)
    return ran.stdout.decode(), ran.stderr.decode(), ran.returncode


def faults_of_cases():
    for verb, given, printed, said in CASES:
        out, error, status = rehearsal(verb, "-", given=given)
        begins = f"bin/rehearsal: -: {said}" if said else ""
        is_right = out == printed and error.startswith(begins) and status == int(bool(said))
        yield None if is_right else f"bin/rehearsal {verb} of {given!r} gives {out!r} and says {error!r}"


def faults_of_examples(program):
    for script in sorted(glob.glob(f"{TOP}/examples/*.requests")):
        with open(script.replace(".requests", ".replies"), encoding="utf-8") as file:
            wanted = file.read()
        out, error, _ = rehearsal("run", "abc", script, desk=program)
        yield None if out == wanted else f"{os.path.relpath(script, TOP)} gives\n{out}{error}"


def main(words):
    if len(words) != 1:
        print(__doc__, end="", file=sys.stderr)
        return 2
    faults = [*faults_of_cases(), *faults_of_examples(os.path.abspath(words[0]))]
    print(*(f"tests/rehearsal_test: {it}" for it in faults if it), sep="\n", end="\n" * any(faults))
    failed = sum(it is not None for it in faults)
    print(f"{len(faults) - failed} passed, {failed} failed")
    return 1 if failed else 0


if __name__ == "__main__":
    sys.exit(main(sys.argv[1:]))
