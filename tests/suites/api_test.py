"""Tries docs/API.md: `api_test PROGRAM` sends its examples to the desk PROGRAM, in their order, and compares each reply.

The examples are one story, examples/api-story.md. There a block `http` is a whole request below the line of its moment, or
the whole reply to the request before it. Both are compared to the byte, but for the CR before each line end of a head. A
block `rehearsal` has requests in the short form of bin/rehearsal, and below each what `bin/rehearsal run` prints of its
reply. Each block of docs/API.md, but for shell commands, is part of the story, word for word.

docs/openapi.yaml has to have the same paths and methods as the headings of docs/API.md, the fields that the examples send,
and the statuses that they get. Each path has a whole request in the story. openapi.yaml is read by its layout alone: two
blanks a level, a key a line. The last line is 'N passed, M failed', and the exit status is 1 where something failed.
"""
import collections
import json
import os
import re
import subprocess
import sys

from desk_tools.tree import TOP
from conversations import rehearsal
from suites import rehearsals as runner

PAGE, STORY, MACHINES = "docs/API.md", "examples/api-story.md", "docs/openapi.yaml"
ADMINS_KEY = "abc"
BLOCK = re.compile(r"^```(http|rehearsal)\n(.*?)^```$", re.M | re.S)
QUOTED = re.compile(r"^```(\w+)\n(.*?)^```$", re.M | re.S)
HEADING = re.compile(r"^### (GET|POST) (/\S*)$", re.M)
REQUEST_LINE = re.compile(rb"(GET|POST) (\S+) HTTP/1\.1\r\n")

# A request of the story: the line where it begins, its bytes, the reply that is wanted, and how replies are compared.
Example = collections.namedtuple("Example", "line message wanted seen")
# What openapi.yaml says of one path: the names of its methods, fields and statuses.
Operation = collections.namedtuple("Operation", "methods fields statuses")


def content_of(path):
    with open(f"{TOP}/{path}", encoding="utf-8") as file:
        return file.read()


# The story.


def as_sent(text):
    """A head as it is sent, and the body below it."""
    head, _, body = text.partition("\n\n")
    return (head.rstrip("\n").replace("\n", "\r\n") + "\r\n\r\n").encode(), body.encode()


def whole_request(text):
    """The message of a block: the line of its moment, and the request."""
    moment, _, request = text.partition("\n")
    head, body = as_sent(request)
    message = moment.encode() + b"\n" + head + body.removesuffix(b"\n")
    rehearsal.check(message)
    return message


def whole_reply(text):
    """The reply of a block, its body as long as its head says."""
    head, body = as_sent(text)
    length = int((rehearsal.LENGTH.search(head) or [0, -1])[1])
    if length < 0 or body[length:] not in (b"", b"\n"):
        raise rehearsal.Wrong(f"its body is not of the length that its head says: {text}")
    return head + body[:length]


def as_printed(reply):
    """What bin/rehearsal prints of a reply."""
    status, body = next(rehearsal.replies_in(reply))
    return f"    {status}  ".encode() + body.rstrip("\n").replace("\n", "\n        ").encode()


def unchanged(reply):
    return reply


def short_examples(text, line):
    """The examples of a block in the short form, whose first line is this one."""
    lines = [(at, it) for at, it in enumerate(text.splitlines(), line) if not it.startswith("#")]
    starts = [at for at, (_, it) in enumerate(lines) if not it.startswith(" ")]
    for start, end in zip(starts, [*starts[1:], len(lines)]):
        at, request = lines[start]
        wanted = "\n".join(it for _, it in lines[start + 1 : end])
        yield Example(at, rehearsal.message_of(request), wanted.encode(), as_printed)


def examples_of(story):
    """The examples of the story, in their order."""
    asked = None
    for block in BLOCK.finditer(story):
        line = story.count("\n", 0, block.start()) + 2
        form, text = block.groups()
        try:
            if (asked is not None) != (form == "http" and text.startswith("HTTP/")):
                raise rehearsal.Wrong("here a reply has no request, or a request no reply")
            if form == "rehearsal":
                yield from short_examples(text, line)
            elif asked is None:
                asked = Example(line, whole_request(text), None, unchanged)
            else:
                yield asked._replace(wanted=whole_reply(text))
                asked = None
        except rehearsal.Wrong as wrong:
            raise rehearsal.Wrong(f"line {line}: {wrong}") from None


def faults_of_replies(program, examples):
    """For each example None, or how its reply differs."""
    messages = b"".join(it.message for it in examples)
    ran = subprocess.run([program, "rehearse", ADMINS_KEY], input=messages, stdout=subprocess.PIPE)
    replies = runner.replies_in(ran.stdout)
    for example, reply in zip(examples, replies):
        told = runner.difference([example.wanted], [example.seen(reply)]).partition("\n")[2]
        yield f"{STORY}, line {example.line}:\n{told}" if told else None
    for example in examples[len(replies) :]:
        yield f"{STORY}, line {example.line}: no reply\n"
    is_whole = len(replies) <= len(examples) and ran.returncode == 0
    yield None if is_whole else f"{len(replies)} replies to {len(examples)} requests, exit status {ran.returncode}\n"


# The page beside the story, and beside what machines read.


def faults_of_quotes(page, story):
    """For each block of the page, but for shell commands, None, or that it is no part of the story."""
    for block in QUOTED.finditer(page):
        line = page.count("\n", 0, block.start()) + 1
        if block[1] != "sh":
            yield None if f"\n{block[2]}" in story else f"{PAGE}, line {line}: this block is no part of {STORY}\n"


def members_below(name, lines):
    """The keys one level below each line that is this key."""
    found, depth = set(), None
    for line in lines:
        indent = len(line) - len(line.lstrip())
        if depth is not None and line.strip() and indent <= depth:
            depth = None
        key = re.match(r' *"?(\w+)"?:', line)
        if depth is not None and key and indent == depth + 2:
            found.add(key[1])
        if line.strip().removeprefix("- ") == f"{name}:":
            depth = len(line) - len(line.lstrip(" -"))
    return found


def operations_in(text):
    """What openapi.yaml says of each path."""
    paths = re.search(r"(?m)^paths:\n((?: .*\n|\n)*)", text)[1]
    parts = re.split(r"(?m)^  (/\S*):\n", paths)[1:]
    for path, block in zip(parts[::2], parts[1::2]):
        lines = block.splitlines()
        methods = {it.upper() for it in re.findall(r"(?m)^    (get|post):$", block)}
        yield path, Operation(
            methods, members_below("properties", lines), members_below("responses", lines)
        )


def path_of(target, paths):
    """The path that a request's target takes."""
    shapes = {path: re.sub(r"\{\w+\}", "[^/]+", path) for path in paths}
    return next((path for path, shape in shapes.items() if re.fullmatch(shape, target)), None)


def sent_and_got(examples, paths):
    """For each path the fields that the examples send, and the statuses that they get."""
    fields, statuses = collections.defaultdict(set), collections.defaultdict(set)
    for example in examples:
        path = path_of(REQUEST_LINE.search(example.message)[2].decode(), paths)
        body = example.message.partition(b"\r\n\r\n")[2]
        fields[path] |= set(json.loads(body or b"{}"))
        statuses[path].add(re.search(rb"\d{3}", example.wanted)[0].decode())
    return fields, statuses


def faults_of_paths(page, examples, operations):
    """For each path of either document None, or how they differ."""
    headings = {path: method for method, path in HEADING.findall(page)}
    fields, statuses = sent_and_got(examples, headings)
    whole = {
        path_of(REQUEST_LINE.search(it.message)[2].decode(), headings)
        for it in examples
        if it.seen is unchanged
    }
    for path in sorted({*headings, *operations}):
        there = operations.get(path, Operation(set(), set(), set()))
        differences = []
        if there.methods != {headings.get(path)}:
            differences.append(
                f"the methods are {headings.get(path)} and {', '.join(there.methods) or None}"
            )
        if there.fields != fields[path]:
            differences.append(f"the fields are {sorted(fields[path])} and {sorted(there.fields)}")
        if not statuses[path] <= there.statuses:
            differences.append(
                f"{MACHINES} has no status {sorted(statuses[path] - there.statuses)}"
            )
        if path not in whole:
            differences.append("no whole request")
        yield f"{path} in {PAGE} and {MACHINES}: {'; '.join(differences)}\n" if differences else None


def main(words):
    if len(words) != 1:
        print(__doc__, end="", file=sys.stderr)
        return 2
    page, story = content_of(PAGE), content_of(STORY)
    try:
        examples = list(examples_of(story))
        faults = [
            *faults_of_replies(os.path.abspath(words[0]), examples),
            *faults_of_quotes(page, story),
        ]
        operations = dict(operations_in(content_of(MACHINES)))
        # (what the site is told is no path of the desk: tests/unit holds it against the table of events)
        desks = {path: it for path, it in operations.items() if not path.startswith("/tally/")}
        faults += faults_of_paths(page, examples, desks)
    except rehearsal.Wrong as wrong:
        faults = [f"{STORY}: {wrong}\n"]
    print(*(f"tests/api_test: {it}" for it in faults if it), sep="", end="")
    failed = sum(it is not None for it in faults)
    print(f"{len(faults) - failed} passed, {failed} failed")
    return 1 if failed else 0


if __name__ == "__main__":
    sys.exit(main(sys.argv[1:]))
