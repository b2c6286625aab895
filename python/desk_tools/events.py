"""What is told to the site and written into its log: the events, and the form of each field.

`events.json` is the one table of them. From it come `pages/parts/events.js`, by which pages spell an event, and the
part of `deploy/desk.nginx` that lets an event by; both are written by `python3 -m desk_tools.events`. Programs that
tell events spell them by `path_of`, and whoever reads the log reads a query by `fields_of`.
"""

import argparse
import datetime
import json
import re
import sys
import unicodedata
import urllib.parse
from collections.abc import Iterable, Mapping, Sequence
from dataclasses import dataclass
from pathlib import Path

from desk_tools import ending

HERE = Path(__file__).resolve().parent
TOP = HERE.parent.parent
SCRIPT, SITE = Path("pages/parts/events.js"), Path("deploy/desk.nginx")
PAGE, MACHINES = Path("docs/API.md"), Path("docs/openapi.yaml")
# Between these is what is made of the table; in a page they are remarks of HTML.
BEGIN, END = (
    "(from here on by python3 -m desk_tools.events)",
    "(up to here by python3 -m desk_tools.events)",
)
PREFIX = "/tally/"
ALPHABET, SIGNS = "0123456789abcdefghjkmnpqrstvwxyz", 26
LONGEST_NUMBER, MOST_FIELDS = 10, 20
# What a page need not say of an event, since it is filled in.
FILLED_IN = ("id", "at", "channel")
# The years are those in which the desk has days.
DAY, TIME = "20[0-9]{2}-[0-9]{2}-[0-9]{2}", "[0-9]{2}:[0-9]{2}:[0-9]{2}"
OF_TIME = "time YYYY-MM-DDTHH:MM:SS"

Value = int | str | datetime.date | datetime.datetime


@dataclass(frozen=True)
class Form:
    """The form of a field: a number from low to high, one of some words, a text of at most so many characters."""

    says: str
    kind: str
    low: int = 0
    high: int = 0
    words: tuple[str, ...] = ()
    most: int = 0


@dataclass(frozen=True)
class Event:
    """One kind of event: whose keys may tell it, and its fields in their order. Those of `optional` may be left out."""

    name: str
    says: str
    who: str
    fields: dict[str, Form]
    optional: dict[str, Form]

    @property
    def all_fields(self) -> dict[str, Form]:
        """The fields in the order in which they are spelled."""
        return {**self.fields, **self.optional}


def _form(
    says: str, kind: str, low: int = 0, high: int = 0, words: Sequence[str] = (), most: int = 0
) -> Form:
    return Form(says, kind, low, high, tuple(words), most)


def _read() -> dict[str, Event]:
    table = json.loads((HERE / "events.json").read_text(encoding="utf-8"))
    forms = {name: _form(**given) for name, given in table["forms"].items()}
    return {
        name: Event(
            name,
            given["says"],
            given["who"],
            {field: forms[form] for field, form in given["fields"].items()},
            {field: forms[form] for field, form in given["optional"].items()},
        )
        for name, given in table["events"].items()
    }


EVENTS = _read()


# Reading a query.


def fields_of(event: Event, query: str) -> dict[str, Value | None]:
    """The fields of a query by their names; None for one that may be left out and is. A ValueError says what is wrong."""
    given = urllib.parse.parse_qs(
        query, keep_blank_values=True, max_num_fields=MOST_FIELDS, errors="strict"
    )
    found: dict[str, Value | None] = {}
    for name, form in event.all_fields.items():
        texts = given.get(name, [])
        if name in event.optional and not texts:
            found[name] = None
        elif len(texts) != 1:
            raise ValueError(f"{name} is missing, or stands twice")
        else:
            found[name] = value_of(name, form, texts[0])
    return found


def value_of(name: str, form: Form, text: str) -> Value:
    """What a field's text says. A ValueError says why it is none."""
    if form.kind == "id":
        return _id_of(text)
    if form.kind == "number":
        if not re.fullmatch(f"[0-9]{{1,{LONGEST_NUMBER}}}", text, re.ASCII) or not (
            form.low <= int(text) <= form.high
        ):
            raise ValueError(f"{name} {text[:40]!r} is no number from {form.low} to {form.high}")
        return int(text)
    if form.kind == "word":
        if text not in form.words:
            raise ValueError(f"{name} {text[:40]!r} is none of {', '.join(form.words)}")
        return text
    if form.kind == "text":
        return _text_of(name, form, text)
    if form.kind == "day":
        return _matched(name, text, DAY, "day YYYY-MM-DD").date()
    return _matched(name, text, f"{DAY}T{TIME}", OF_TIME)


def _id_of(text: str) -> str:
    found = re.sub(r"[\s-]+", "", text).lower()
    if len(found) != SIGNS or not set(found) <= set(ALPHABET):
        raise ValueError(f"id {text[:40]!r} is not {SIGNS} signs of base32")
    return found


def _text_of(name: str, form: Form, text: str) -> str:
    if not text.strip() or len(text) > form.most:
        raise ValueError(
            f"{name} has {len(text)} characters, and has 1 to {form.most} that are no blanks alone"
        )
    if any(unicodedata.category(sign) in ("Cc", "Zl", "Zp") for sign in text):
        raise ValueError(f"{name} has a sign that ends a line or controls a printer")
    return text


def _matched(name: str, text: str, pattern: str, said: str) -> datetime.datetime:
    if not re.fullmatch(pattern, text, re.ASCII):
        raise ValueError(f"{name} {text[:40]!r} is no {said} of 2000 to 2099")
    try:
        return datetime.datetime.fromisoformat(text)
    except ValueError:
        raise ValueError(f"{name} {text[:40]!r} is no time") from None


# Spelling a request.


def path_of(kind: str, given: Mapping[str, object]) -> str:
    """The path and query that tell an event, to be sent by POST. A ValueError says what is wrong in its fields."""
    event = EVENTS[kind]
    spelled = [
        (name, _spelled(given[name])) for name in event.all_fields if given.get(name) is not None
    ]
    query = urllib.parse.urlencode(spelled, quote_via=urllib.parse.quote, safe="")
    fields_of(event, query)
    unknown = sorted(set(given) - set(event.all_fields))
    if unknown:
        raise ValueError(f"{kind} have no field {', '.join(unknown)}")
    return f"{PREFIX}{kind}?{query}"


def _spelled(value: object) -> str:
    return value.isoformat() if isinstance(value, datetime.date) else str(value)


# The patterns by which the site lets an event by.


def pattern_of(event: Event) -> str:
    """A pattern of the whole query: the fields in their order, each in its form."""
    parts = [f"{name}={_pattern(form)}" for name, form in event.fields.items()]
    more = [f"(?:&{name}={_pattern(form)})?" for name, form in event.optional.items()]
    return f"^{'&'.join(parts)}{''.join(more)}$"


def _pattern(form: Form) -> str:
    if form.kind == "id":
        return "[0-9A-HJKMNP-TV-Za-hjkmnp-tv-z]{26}"
    if form.kind == "number":
        return _numbers(form.low, form.high)
    if form.kind == "word":
        return f"(?:{'|'.join(map(_word, form.words))})"
    if form.kind == "text":
        return f"(?:{_SIGN}){{1,{form.most}}}"
    day = "20[0-9]{2}-(?:0[1-9]|1[0-2])-(?:0[1-9]|[12][0-9]|3[01])"
    colon = "(?::|%3[Aa])"
    return (
        day
        if form.kind == "day"
        else f"{day}T(?:[01][0-9]|2[0-3]){colon}[0-5][0-9]{colon}[0-5][0-9]"
    )


# One character of UTF-8, as it is or percent-encoded, and none that controls.
_HEX, _NEXT = "[0-9A-Fa-f]", "%[89ABab][0-9A-Fa-f]"
_SIGN = "|".join(
    [
        "[0-9A-Za-z!'()*._~+-]",
        f"%[2-6]{_HEX}|%7[0-9A-Ea-e]",
        f"%(?:[Cc][2-9A-Fa-f]|[Dd]{_HEX}){_NEXT}",
        f"%[Ee]0%[ABab]{_HEX}{_NEXT}",
        f"%[Ee][1-9A-CEFa-cef](?:{_NEXT}){{2}}",
        f"%[Ee][Dd]%[89]{_HEX}{_NEXT}",
        f"%[Ff]0%[9ABab]{_HEX}(?:{_NEXT}){{2}}",
        f"%[Ff][1-3](?:{_NEXT}){{3}}",
        f"%[Ff]4%8{_HEX}(?:{_NEXT}){{2}}",
    ]
)


def _for_nginx(pattern: str) -> str:
    """The same pattern with a sign's part once, since the site's engine takes none that is very long."""
    return re.sub(
        re.escape(f"(?:{_SIGN}){{1,") + "([0-9]+)}",
        lambda found: f"(?:({_SIGN})(?1){{0,{int(found[1]) - 1}}})",
        pattern,
    )


def _word(word: str) -> str:
    """A word's pattern; signs that some programs percent-encode stand both ways."""
    either = {" ": "(?:[+]|%20)", "(": "(?:[(]|%28)", ")": "(?:[)]|%29)", ".": "[.]"}
    return "".join(either.get(sign, sign) for sign in word)


def _numbers(low: int, high: int) -> str:
    """The whole numbers from low to high, without leading zeros."""
    found, first = ([] if low else ["0"]), max(low, 1)
    if first == 1 and high >= 9:
        length = len(str(high + 1)) - 1
        found.append(f"[1-9][0-9]{{0,{length - 1}}}")
        first = 10**length
    for length in range(len(str(first)), len(str(high)) + 1):
        begin, end = max(first, 10 ** (length - 1)), min(high, 10**length - 1)
        if begin <= end:
            found += _of_length(str(begin), str(end))
    return f"(?:{'|'.join(found)})"


def _of_length(low: str, high: str) -> list[str]:
    """The numbers from low to high, which have the same length."""
    if not low or low == high:
        return [low]
    if low[1:] == "0" * len(low[1:]) and high[1:] == "9" * len(high[1:]):
        rest = len(low) - 1
        many = {0: "", 1: "[0-9]"}.get(rest, f"[0-9]{{{rest}}}")
        return [(low[0] if low[0] == high[0] else f"[{low[0]}-{high[0]}]") + many]
    if low[0] == high[0]:
        return [low[0] + rest for rest in _of_length(low[1:], high[1:])]
    zeros, nines = "0" * (len(low) - 1), "9" * (len(low) - 1)
    found: list[str] = []
    if low[1:] != zeros:
        found += [low[0] + rest for rest in _of_length(low[1:], nines)]
        low = chr(ord(low[0]) + 1) + zeros
    last = [] if high[1:] == nines else [high[0] + rest for rest in _of_length(zeros, high[1:])]
    if last:
        high = chr(ord(high[0]) - 1) + nines
    if low <= high:
        found += _of_length(low, high)
    return found + last


# What is written from the table.

_ASKS = {
    "anybody": ("@tell-who", ""),
    "staff": ("@tell-staff-who", ""),
    "vehicle": ("@tell-driver", "set $vehicle $arg_vehicle;\n        "),
}


def locations() -> str:
    """The part of the site's settings that lets events by: a location for each kind."""
    return "".join(
        f"""    location = {PREFIX}{event.name} {{
        types {{ }}
        default_type application/json;
        if ($request_method != POST) {{ return 405 '{{"denied":"http.method"}}'; }}
        if ($args !~ "{_for_nginx(pattern_of(event))}") {{ return 400 '{{"denied":"http.field"}}'; }}
        {_ASKS[event.who][1]}set $desk_seen asking;
        auth_request /desk-seen;
        auth_request_set $desk_seen $upstream_cache_status;
        try_files /none {_ASKS[event.who][0]};
    }}
"""
        for event in EVENTS.values()
    )


def with_part(path: Path, text: str, part: str) -> str:
    """A text with another part between the lines that have BEGIN and END."""
    lines = text.splitlines(keepends=True)
    places = [[at for at, line in enumerate(lines) if it in line] for it in (BEGIN, END)]
    if [len(it) for it in places] != [1, 1]:
        raise ValueError(f"{path} has not one part between {BEGIN} and {END}")
    (begin,), (end,) = places
    return "".join([*lines[: begin + 1], part, *lines[end:]])


# Who may tell an event.
_WHO = {
    "anybody": "everybody",
    "staff": "clerk, examiner, officer, dispatcher",
    "vehicle": "the driver of `vehicle`, dispatcher",
}


def tables() -> str:
    """The tables of events and of the forms of their fields, for a page."""
    rows = [
        f"| `{PREFIX}{it.name}` | {it.says} | {_WHO[it.who]} | {_listed(it.fields)} | {_listed(it.optional)} |\n"
        for it in EVENTS.values()
    ]
    fields: dict[Form, list[str]] = {}
    for it in EVENTS.values():
        for name, form in it.all_fields.items():
            names = fields.setdefault(form, [])
            names += [] if name in names else [name]
    forms = [
        f"| {_listed(names)} | {form.says}{_range(form)} |\n" for form, names in fields.items()
    ]
    return (
        "\n| Path | Tells | Who | Fields, in this order | Then, where known |\n|---|---|---|---|---|\n"
        + "".join(rows)
        + "\n| Field | Holds |\n|---|---|\n"
        + "".join(forms)
        + "\n"
    )


def _listed(names: Iterable[str]) -> str:
    return ", ".join(f"`{it}`" for it in names)


def _range(form: Form) -> str:
    if form.kind == "number":
        return f", {form.low} to {form.high}"
    if form.kind == "text":
        return f" of at most {form.most} characters of any language"
    return f": {_listed(form.words)}" if form.words else ""


def paths() -> str:
    """The paths of openapi.yaml by which events are told."""
    return "".join(map(_path, EVENTS.values()))


def _path(event: Event) -> str:
    words = "".join(part.capitalize() for part in event.name.split("-"))
    who = _WHO[event.who].replace("`", "")
    fields = "".join(
        f"        - {{ name: {name}, in: query, required: {json.dumps(name in event.fields)}, "
        f"description: {json.dumps(form.says)}, schema: {_schema(form)} }}\n"
        for name, form in event.all_fields.items()
    )
    return f"""  {PREFIX}{event.name}:
    post:
      operationId: tell{words}
      tags: [site]
      summary: {json.dumps("Tell the site: " + event.says)}
      description: {json.dumps(f"Who: {who}. The fields stand in the query, in this order.")}
      parameters:
{fields}      responses:
        "204": {{ description: the site has it }}
        "400": {{ $ref: "#/components/responses/BadRequest" }}
        "401": {{ $ref: "#/components/responses/Unauthorized" }}
        "403": {{ $ref: "#/components/responses/Forbidden" }}
        "429": {{ $ref: "#/components/responses/TooMany" }}
        "502": {{ $ref: "#/components/responses/Away" }}
        "503": {{ $ref: "#/components/responses/Unavailable" }}
        "504": {{ $ref: "#/components/responses/NotInTime" }}
"""


def _schema(form: Form) -> str:
    if form.kind == "number":
        wide = ", format: int64" if form.high >= 2**31 else ""
        return f"{{ type: integer{wide}, minimum: {form.low}, maximum: {form.high} }}"
    if form.kind == "word":
        return f"{{ type: string, enum: {json.dumps(list(form.words))} }}"
    if form.kind == "text":
        return f"{{ type: string, minLength: 1, maxLength: {form.most} }}"
    pattern = {"id": f"[{ALPHABET}]{{{SIGNS}}}", "day": DAY, "moment": f"{DAY}T{TIME}"}[form.kind]
    return f'{{ type: string, pattern: "^{pattern}$" }}'


def script() -> str:
    """The module of the pages that has the table."""
    rows = [
        f"    {json.dumps(event.name)}: {{\n"
        + "".join(f"        {_row(event, name)},\n" for name in event.all_fields)
        + "    },\n"
        for event in EVENTS.values()
    ]
    types = [f" *     {json.dumps(event.name)}: {_type(event)},\n" for event in EVENTS.values()]
    return f"""// What is told to the site, and the form of each field: written by python3 -m desk_tools.events of python/desk_tools/events.json.

/** @typedef {{{{ kind: "id" | "day" | "moment" | "number" | "word" | "text", low?: number, high?: number, words?: string[], most?: number,
 *     optional?: boolean }}}} Form */

/** What a page says of an event. Its id, its moment and its channel are filled in where they are left out.
 * @typedef {{{{
{"".join(types)} * }}}} Fields */

/** @typedef {{keyof Fields}} Kind */

/** @type {{Record<Kind, Record<string, Form>>}} */
export const EVENTS = {{
{"".join(rows)}}};
"""


def _row(event: Event, name: str) -> str:
    form = event.all_fields[name]
    said: dict[str, object] = {
        "kind": form.kind,
        **({"low": form.low, "high": form.high} if form.kind == "number" else {}),
        **({"words": form.words} if form.words else {}),
        **({"most": form.most} if form.most else {}),
        **({"optional": True} if name in event.optional else {}),
    }
    spelled = [f"{key}: {json.dumps(value)}" for key, value in said.items()]
    return f"{name}: {{ {', '.join(spelled)} }}"


def _type(event: Event) -> str:
    """The type of what a page says of an event, for the type checker."""
    said = []
    for name, form in event.all_fields.items():
        is_open = name in (*event.optional, *FILLED_IN)
        kind = "number" if form.kind == "number" else "string"
        if form.words and name != "rule":
            kind = " | ".join(json.dumps(word) for word in form.words)
        said.append(f"{name}{'?' if is_open else ''}: {kind}")
    return f"{{ {', '.join(said)} }}"


def main(arguments: list[str]) -> int:
    """Writes what is made of the table; with --check it says what is not up to date and ends with 1."""
    reader = argparse.ArgumentParser("python3 -m desk_tools.events", description=main.__doc__)
    reader.add_argument("--check", action="store_true", help="write nothing")
    words = reader.parse_args(arguments)
    parts = {SITE: locations(), PAGE: tables(), MACHINES: paths()}
    made = {
        path: with_part(path, (TOP / path).read_text(encoding="utf-8"), part)
        for path, part in parts.items()
    }
    made[SCRIPT] = script()
    old = [
        path
        for path, text in made.items()
        if not (TOP / path).exists() or (TOP / path).read_text(encoding="utf-8") != text
    ]
    for path in old:
        if words.check:
            print(f"{path} is not what python/desk_tools/events.json makes", file=sys.stderr)
        else:
            (TOP / path).write_text(made[path], encoding="utf-8")
    return 1 if words.check and old else 0


if __name__ == "__main__":
    ending.run("desk_tools.events", main)
