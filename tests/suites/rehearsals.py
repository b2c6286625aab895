"""Compares conversations with what a program answers: `run PROGRAM [FOLDER..]`, FOLDER beside this file; none: each.

A conversation is a file of requests, each with the moment at which it comes, a file NAME.out of the replies that are
wanted, and a file NAME.txt that tells in words what it shows. The requests are a script, NAME.requests, whose bytes are
made here, or bytes, NAME.http. `PROGRAM rehearse abc` reads them. A conversation that fails is named, and told with the
first reply that differs. The last line is 'N passed, M failed', and the exit status 1 where one failed.
"""
import os
import subprocess
import sys

from desk_tools.tree import TOP
from conversations import KINDS, asked_in, rehearsal

HERE = f"{TOP}/tests/rehearsals"
# (bin/desk builds the program by its first call)
FIRST_SECONDS, SECONDS = 3600, 60


def replies_in(output: bytes) -> list[bytes]:
    """The output cut into replies, each by its own stated length; what can't be cut is one piece."""
    pieces = []
    while output:
        head, gap, _ = output.partition(b"\r\n\r\n")
        lengths = [
            line[15:].strip()
            for line in head.split(b"\r\n")
            if line.lower().startswith(b"content-length:")
        ]
        if not (
            head.startswith(b"HTTP/1.1 ") and gap and len(lengths) == 1 and lengths[0].isdigit()
        ):
            return [*pieces, output]
        end = len(head) + len(gap) + int(lengths[0])
        pieces.append(output[:end])
        output = output[end:]
    return pieces


def shown(label, piece):
    """The piece as lines of text, each after the label."""
    if piece is None:
        return f"    {label} nothing\n"
    text = piece.decode("utf-8", "backslashreplace").replace("\r\n", "\n").rstrip("\n")
    return "".join(f"    {label} {line}\n" for line in text.split("\n"))


def difference(wanted, got):
    """The first reply that differs, and how many there are."""
    for at in range(max(len(wanted), len(got))):
        want, have = (replies[at] if at < len(replies) else None for replies in (wanted, got))
        if want == have:
            continue
        text = f"  reply to message {at + 1} (wanted {len(wanted)} replies, got {len(got)})\n"
        text += shown("wanted", want) + shown("got   ", have)
        if want and have and shown("", want) == shown("", have):
            text += f"    (only bytes that aren't shown differ: {want!r}, {have!r})\n"
        return text
    return ""


def fault(program, conversation, seconds):
    """None where the conversation goes as it should, else what is wrong."""
    try:
        asked = asked_in(conversation)
        with open(f"{conversation}.out", "rb") as file:
            wanted = file.read()
    except (rehearsal.Wrong, OSError) as wrong:
        return f"  {wrong}\n"
    try:
        ran = subprocess.run(
            [program, "rehearse", "abc"], input=asked, capture_output=True, timeout=seconds
        )
    except subprocess.TimeoutExpired:
        return f"  no end after {seconds} seconds\n"
    if ran.stdout == wanted:
        return None
    told = (
        difference(replies_in(wanted), replies_in(ran.stdout)) + f"  exit status {ran.returncode}\n"
    )
    return told + (shown("stderr", ran.stderr) if ran.stderr else "")


def conversations_in(folder):
    """The conversations of which the folder has the requests or the replies."""
    names = map(os.path.splitext, os.listdir(f"{HERE}/{folder}"))
    return [
        f"{HERE}/{folder}/{it}"
        for it in sorted({name for name, ending in names if ending in {*KINDS, ".out"}})
    ]


def main(words):
    if not words:
        print(__doc__, end="", file=sys.stderr)
        return 2
    program = os.path.abspath(words[0]) if os.path.exists(words[0]) else words[0]
    folders = words[1:] or sorted(it for it in os.listdir(HERE) if os.path.isdir(f"{HERE}/{it}"))
    passed = failed = 0
    for folder in folders:
        for conversation in conversations_in(folder.rstrip("/")):
            wrong = fault(program, conversation, SECONDS if passed + failed else FIRST_SECONDS)
            if wrong is None:
                passed += 1
            else:
                failed += 1
                print(f"FAILED {os.path.relpath(conversation, HERE)}\n{wrong}", end="")
    print(f"{passed} passed, {failed} failed")
    return 1 if failed else 0


if __name__ == "__main__":
    sys.exit(main(sys.argv[1:]))
