"""Holds docs/openapi.yaml against OpenAPI's own rules and against the desk: `openapi PROGRAM`.

The file is checked by the schema of Debian's openapi-specification. Then a client that knows nothing but the file sends each
operation of the desk: a right request; each field at both ends of its range, one beyond each, missing and of other kinds; no
key; a number used twice. Each reply has to have a status that the file names, and a body of the schema that stands there. A
field that the file allows must not be http.field, and one that it does not allow must be. The paths /tally/ are the site's:
tests/unit and deploy/try-site have them. The last line is 'N passed, M failed', and the exit status 1 where something failed.
"""
import collections
import copy
import hashlib
import json
import os
import re
import subprocess
import sys

from desk_tools.tree import TOP
from suites.rehearsals import replies_in
from serving import LINE, POLICY, difference, tally, told_program

try:
    import jsonschema
    import yaml
except ImportError as error:
    print(
        f"{error.name} is not installed for {sys.executable} (python3-jsonschema, python3-yaml): left out\n0 passed, 0 failed"
    )
    sys.exit(0)

FILE, RULES = (
    f"{TOP}/docs/openapi.yaml",
    "/usr/share/openapi-specification/schemas/v3.0/schema.json",
)
PREFIX_OF_SITE, ADMINS_KEY = "/tally/", "abc"
# What stands for no field.
MISSING = object()
# One request: by whom, which operation, with which values, and the moment; a number where it is a write.
Sent = collections.namedtuple("Sent", "label key operation values number moment wanted")


def as_schema(value):
    """A schema of OpenAPI 3.0 as one of JSON: `nullable` is a kind more."""
    if isinstance(value, list):
        return [as_schema(it) for it in value]
    if not isinstance(value, dict):
        return value
    found = {name: as_schema(it) for name, it in value.items() if name != "nullable"}
    if value.get("nullable"):
        found["type"] = [value["type"], "null"]
    return found


class Client:
    """A client that the file makes: its operations by their ids, each with its path, method, fields and replies."""

    def __init__(self, document):
        self.document = document
        self.operations = {}
        for path, methods in document["paths"].items():
            for method, it in methods.items():
                self.operations[it["operationId"]] = {**it, "path": path, "method": method.upper()}

    def resolved(self, value):
        """What a reference leads to."""
        while isinstance(value, dict) and "$ref" in value:
            found = self.document
            for part in value["$ref"].removeprefix("#/").split("/"):
                found = found[part]
            value = found
        return value

    def parameters(self, operation):
        return [self.resolved(it) for it in self.operations[operation].get("parameters", [])]

    def bodies(self, operation):
        """The schemas of the body: one, or each of a choice; none where the operation takes no body."""
        asked = self.operations[operation].get("requestBody")
        if not asked:
            return []
        schema = self.resolved(asked["content"]["application/json"]["schema"])
        return [self.resolved(it) for it in schema.get("oneOf", [schema])]

    def body_for(self, operation, values):
        """The schema whose kind the values have."""
        kinds = self.bodies(operation)
        return next(
            (
                it
                for it in kinds
                if len(kinds) == 1 or values.get("entry") in it["properties"]["entry"]["enum"]
            ),
            {"properties": {}, "required": []},
        )

    def message(self, sent):
        """The bytes of a request."""
        it, values = self.operations[sent.operation], dict(sent.values)
        path = it["path"]
        for one in self.parameters(sent.operation):
            if one["in"] == "path":
                path = path.replace(f"{{{one['name']}}}", str(values.pop(one["name"])))
        head = [f"{it['method']} {path} HTTP/1.1"]
        head += [f"Desk-Key: {sent.key}"] if sent.key else []
        head += [f"Desk-Number: {sent.number}"] if it["method"] == "POST" else []
        body = (
            json.dumps(
                {name: value for name, value in values.items() if value is not MISSING}
            ).encode()
            if it["method"] == "POST"
            else b""
        )
        head += [f"Content-Length: {len(body)}"] if body else []
        return "\r\n".join([*head, "", ""]).encode() + body

    def fault_of(self, sent, reply):
        """Why a reply is none that the file has, or None."""
        head, _, body = reply.partition(b"\r\n\r\n")
        status = head.split()[1].decode()
        responses = self.operations[sent.operation]["responses"]
        if status not in responses:
            return f"status {status} is not in the file"
        content = self.resolved(responses[status])["content"]
        kind = re.search(rb"(?i)content-type: ([^;\r]+)", head)[1].decode()
        if kind not in content:
            return f"its kind is {kind}, and the file has {', '.join(content)}"
        value = json.loads(body) if kind == "application/json" else body.decode()
        # (the references lead into the document)
        schema = {
            **as_schema(self.resolved(content[kind]["schema"])),
            "components": as_schema(self.document["components"]),
        }
        found = next(jsonschema.Draft4Validator(schema).iter_errors(value), None)
        return found and f"{value}: {found.message}"


# The right requests, in an order in which each finds what it needs. Keys are those of the callers that it puts.

MORNING, LATER = "2025-03-10 540", "2025-03-11 700"
DAYS = [1, 2, 3, 4, 5, 6, 7]
CALLERS = {"clerk": 0, "examiner": 0, "officer": 0, "dispatcher": 0, "driver": 1, "rider": 7}
BOOKING = {
    "rider": 7,
    "day": "2025-03-11",
    "wish": 600,
    "from": 1,
    "to": 1,
    "by": 720,
    "attendant": False,
    "companions": 0,
}
TIME = {
    "day": "2025-03-12",
    "wish": 700,
    "from": 1,
    "to": 1,
    "by": None,
    "attendant": True,
    "companions": 1,
}


def put_caller(number, role):
    digest = hashlib.sha256(role.encode()).hexdigest()
    fields = {"id": number, "role": role, "subject": CALLERS[role], "digest": digest}
    return ADMINS_KEY, "putCaller", fields


RIGHT = [
    *(put_caller(*it) for it in enumerate(("clerk", "examiner", "officer", "dispatcher"), 2)),
    (ADMINS_KEY, "putPolicy", {**POLICY, "fare": 350, "min_missed": 1, "percent": 1}),
    (ADMINS_KEY, "putPlace", {"id": 1, "x": 0, "y": 0, "core": False}),
    (ADMINS_KEY, "putRoute", {**LINE, "points": [[0, 0], [100, 0]]}),
    (
        "dispatcher",
        "putVehicle",
        {
            "id": 1,
            "from_day": "2025-03-10",
            "days": DAYS,
            "depot": 1,
            "capacity": 4,
            "opens": 0,
            "closes": 1439,
            "duration": 1439,
            "chairs": 1,
        },
    ),
    ("clerk", "putRider", {"id": 7, "kind": "resident", "attendant": True, "wheelchair": False}),
    *(put_caller(*it) for it in enumerate(("driver", "rider"), 6)),
    ("clerk", "enter", {"rider": 7, "entry": "complete"}),
    ("examiner", "enter", {"rider": 7, "entry": "refuse", "reasons": "not yet"}),
    ("clerk", "enter", {"rider": 7, "entry": "appeal", "against": 1}),
    ("officer", "enter", {"rider": 7, "entry": "heard"}),
    (
        "officer",
        "enter",
        {"rider": 7, "entry": "appeal-granted", "until": "2026-03-01", "conditions": ["always"]},
    ),
    ("rider", "book", BOOKING),
    ("clerk", "book", {**BOOKING, "wish": 900, "by": None}),
    ("clerk", "book", {**BOOKING, "wish": 1000, "by": None}),
    ("clerk", "change", {"trip": 3, **TIME}),
    ("dispatcher", "cancel", {"trip": 3}),
    ("clerk", "standing", {"rider": 7, "day": "2025-03-11"}),
    ("clerk", "letter", {"rider": 7, "entry": 1}),
    ("rider", "trips", {"rider": 7}),
    ("dispatcher", "manifest", {"vehicle": 1, "day": "2025-03-11"}),
    ("dispatcher", "daySheet", {"day": "2025-03-11"}),
    ("dispatcher", "exportTrips", {"day": "2025-03-11"}),
    ("driver", "outcome", {"trip": 1, "outcome": "missed-rider"}),
    ("dispatcher", "outcome", {"trip": 2, "outcome": "ridden"}),
]
AT = {"outcome": LATER}
# (a case file has room for few suspensions: what comes after the pattern of missed trips)
AFTER = [
    ("clerk", "enter", {"rider": 7, "entry": "notice", "basis": "missed a trip"}),
    ("officer", "enter", {"rider": 7, "entry": "notice-heard"}),
    (
        "officer",
        "enter",
        {
            "rider": 7,
            "entry": "suspend",
            "starts": "2025-03-20",
            "ends": "2025-03-21",
            "reasons": "missed trips",
        },
    ),
]


def values_of(schema):
    """Values that a schema allows and others that it does not: both ends of its range, one beyond each, other kinds."""
    kind, good, bad = schema.get("type"), [], [{}, [{}]]
    if "enum" in schema:
        good, bad = list(schema["enum"]), [*bad, "none of these", 7]
    elif kind == "integer":
        good = [schema["minimum"], schema["maximum"]]
        bad += [schema["minimum"] - 1, schema["maximum"] + 1, 1.5, "1", True]
    elif kind == "boolean":
        good, bad = [True, False], [*bad, 0, "true"]
    elif kind == "string" and schema.get("format") == "date":
        good, bad = ["2000-01-01", "2099-12-31"], [
            *bad,
            "1999-12-31",
            "2100-01-01",
            "2025-02-30",
            "2025-3-1",
            7,
        ]
    elif kind == "string":
        good, bad = strings_of(schema), [*bad, 7, *strings_beyond(schema)]
    elif kind == "array":
        good, bad = [], [7, "1", {}, *lists_beyond(schema)]
    return good, [*bad, *([] if schema.get("nullable") else [None])]


def strings_of(schema):
    long = schema.get("maxLength")
    return ["a", "a" * long] if long else []


def strings_beyond(schema):
    found = [""] if schema.get("minLength") or schema.get("pattern") else []
    found += ["a" * (schema["maxLength"] + 1)] if "maxLength" in schema else []
    return [*found, *(["\n", "é"] if schema.get("pattern") else [])]


def lists_beyond(schema):
    """Lists that are too short or too long, and lists with an item that is wrong."""
    inner = schema["items"]
    right = inner["enum"][0] if "enum" in inner else inner.get("minimum", "always")
    found = [[]] if schema.get("minItems") else []
    found += [[right] * (schema["maxItems"] + 1)] if "maxItems" in schema else []
    return [*found, [7.5], ["none"], [None]]


def together(values, name):
    """Values of which some go together: a rider and a driver have a number in `subject`, and nobody else has."""
    if name == "role":
        return {**values, "subject": CALLERS.get(values["role"], 0)}
    if name == "subject":
        return {**values, "role": "rider" if values["subject"] else "clerk"}
    return values


class Trial:
    """The requests that the file gives, and what each has to be answered with."""

    def __init__(self, client):
        self.client, self.sent, self.numbers = client, [], collections.Counter()

    def add(self, label, key, operation, values, wanted, number=None, moment=None):
        if number is None:
            self.numbers[key] += 1
            number = self.numbers[key]
        self.sent.append(
            Sent(
                label, key, operation, values, number, moment or AT.get(operation, MORNING), wanted
            )
        )

    def add_all(self):
        """Each right request, and before it each of its wrong ones."""
        for key, operation, values in RIGHT:
            self.add_wrong(key, operation, values)
            self.add("right", key, operation, values, 200)
        self.add_again(
            "clerk",
            "putRider",
            {"id": 8, "kind": "visitor", "attendant": False, "wheelchair": None},
        )
        for key, operation, values in AFTER:
            moment = "2025-03-12 600"
            self.add("right", key, operation, values, 200, moment=moment)

    def add_wrong(self, key, operation, values):
        """Each field and each parameter of a request, out of its range and at its ends."""
        self.add("without a key", "", operation, values, 401, number=1)
        self.add("a key of nobody", "nobody", operation, values, 401, number=1)
        for one in self.client.parameters(operation):
            schema = self.client.resolved(one["schema"])
            for value in values_of(schema)[1]:
                if isinstance(value, (dict, list, bool)) or value in (None, "", "1"):
                    continue
                if one["in"] == "path":
                    self.add(
                        f"{one['name']} {value!r} in the path",
                        key,
                        operation,
                        {**values, one["name"]: value},
                        404,
                    )
                else:
                    # (0 is below every last number, and so no number to use)
                    self.add(
                        f"the number {value}",
                        key,
                        operation,
                        values,
                        409 if value == 0 else ("http.field", "Desk-Number"),
                        number=value,
                    )
        schema = self.client.body_for(operation, values)
        for name, inner in schema["properties"].items():
            good, bad = values_of(self.client.resolved(inner))
            # (another word of `entry` is another body)
            wrong = [it for it in bad if name != "entry" or not isinstance(it, str)] + (
                [MISSING] if name in schema["required"] else []
            )
            for value in wrong:
                self.add(
                    f"{name} {'missing' if value is MISSING else repr(value)[:40]}",
                    key,
                    operation,
                    {**values, name: value},
                    ("http.field", name),
                )
            if name != "entry":
                # (by a caller whose role may not ask it, so that nothing is written)
                for value in good:
                    other = "examiner" if key != "examiner" else "driver"
                    self.add(
                        f"{name} {value!r:.40}",
                        other,
                        operation,
                        together({**values, name: value}, name),
                        "no http.field",
                    )

    def add_again(self, key, operation, values):
        """A write again is answered as the first one, and another one of its number is refused."""
        self.add("right", key, operation, values, 200)
        number = self.numbers[key]
        self.add("the same again", key, operation, values, 200, number=number)
        self.add(
            "another with its number",
            key,
            operation,
            {**values, "attendant": True},
            409,
            number=number,
        )

    def faults(self, program):
        """For each request None, or how its reply is none of the file or another than it has to be."""
        asked = b"".join(
            f"@ {it.moment}\n".encode() + self.client.message(it)
            for it in sorted(self.sent, key=lambda it: it.moment)
        )
        ran = subprocess.run(
            [program, "rehearse", ADMINS_KEY], input=asked, capture_output=True, check=False
        )
        replies = replies_in(ran.stdout)
        yield difference("the replies", len(self.sent), len(replies))
        for sent, reply in zip(sorted(self.sent, key=lambda it: it.moment), replies):
            told = self.client.fault_of(sent, reply) or fault_of_answer(sent, reply)
            yield told and f"{sent.operation}, {sent.label}: {told}"


def fault_of_answer(sent, reply):
    """How an answer is another than it has to be, or None."""
    status, body = int(reply.split()[1]), reply.partition(b"\r\n\r\n")[2]
    said = json.loads(body) if body.startswith(b"{") else {}
    told = said.get("denied"), said.get("field")
    if isinstance(sent.wanted, int):
        return None if status == sent.wanted else f"status {status} {told} for {sent.wanted}"
    if sent.wanted == "no http.field":
        return None if told[0] != "http.field" else f"the file allows it, and the desk says {told}"
    return None if told == sent.wanted else f"{status} {told} for {sent.wanted}"


# The file itself.


def faults_of_file(document):
    """OpenAPI's own rules, and what its schema cannot say."""
    if os.path.exists(RULES):
        with open(RULES, encoding="utf-8") as file:
            found = list(jsonschema.Draft4Validator(json.load(file)).iter_errors(document))
        yield f"{'/'.join(map(str, found[0].absolute_path))}: {found[0].message[:300]}" if found else None
    else:
        print("openapi-specification is not installed: its schema is left out")
    text = json.dumps(document)
    for reference in sorted(set(re.findall(r'"\$ref": "#/([^"]+)"', text))):
        held = document
        for part in reference.split("/"):
            held = held.get(part, {}) if isinstance(held, dict) else {}
        yield None if held else f"#/{reference} leads nowhere"
    operations = [
        (path, method, it)
        for path, methods in document["paths"].items()
        for method, it in methods.items()
    ]
    names = [it["operationId"] for _, _, it in operations]
    yield difference("operationId twice", len(names), len(set(names)))
    client = Client(document)
    for path, _, it in operations:
        named = sorted(
            one["name"] for one in client.parameters(it["operationId"]) if one["in"] == "path"
        )
        yield difference(f"the parameters of {path}", sorted(re.findall(r"\{(\w+)\}", path)), named)
        lost = {"401", "403", "429", "502", "503", "504"} - set(it["responses"])
        yield f"{path} has no {sorted(lost)}" if lost else None
    yield None if document.get("servers") else "the file names no server"


def faults_of_tool(document):
    """A file with faults is refused by the schema, and a client of a wrong file finds that the desk does otherwise."""
    broken = copy.deepcopy(document)
    broken["paths"]["/policy"]["post"]["requestBody"]["content"]["application/json"]["schema"][
        "properties"
    ]["base"]["type"] = ["integer", "null"]
    yield None if any(faults_of_file(broken)) or not os.path.exists(
        RULES
    ) else "a kind of OpenAPI 3.1 is not found"


def faults(program):
    with open(FILE, encoding="utf-8") as file:
        document = yaml.safe_load(file)
    yield from faults_of_file(document)
    yield from faults_of_tool(document)
    client, trial = Client(document), None
    desks = {
        it for it, one in client.operations.items() if not one["path"].startswith(PREFIX_OF_SITE)
    }
    yield difference("operations of the file that are tried", desks, {it for _, it, _ in RIGHT})
    for operation in sorted(desks):
        tried = {name for _, it, values in [*RIGHT, *AFTER] if it == operation for name in values}
        named = {name for it in client.bodies(operation) for name in it["properties"]} | {
            it["name"] for it in client.parameters(operation) if it["in"] == "path"
        }
        yield difference(f"fields of {operation} that are tried", named, tried)
    trial = Trial(client)
    trial.add_all()
    yield from trial.faults(program)


if __name__ == "__main__":
    named_program, _ = told_program(sys.argv[1:], __doc__)
    sys.exit(tally("tests/openapi", faults(named_program)))
