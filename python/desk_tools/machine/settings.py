"""What desk-setup is told: by words, by an earlier run, or by answers; and what of it is refused."""
import json
import os
import re
import sys
import argparse

from desk_tools import agencies, alarms

MAIN = agencies.Agency()
SETTINGS, ZONES = f"{agencies.SETTINGS}/setup.json", "/usr/share/zoneinfo"
NAME = re.compile(r"(?=.{1,253}$)[a-z0-9]([a-z0-9-]*[a-z0-9])?(\.[a-z0-9]([a-z0-9-]*[a-z0-9])?)*")
OWN_PORTS = 80, 8435, 8436, 8437
NO_ALARM, MAIL = "none yet", re.compile(r"[A-Za-z0-9._%+-]+@[A-Za-z0-9.-]+")
HOOK = re.compile(r"https?://[A-Za-z0-9._~:/?#@!&=%+,;-]+")
NO_OFFSITE = "none yet"
OFFSITE = f"a mounted folder, a host by ssh (MACHINE:/FOLDER), or {NO_OFFSITE}"
# What a setup is told, by the names of QUESTIONS.
Settings = dict[str, str]
# What may run by itself, and the files without which it does not.
NIGHTLY: dict[str, list[str]] = {
    "backup": [],
    "worklist": [],
    "standing-orders": [
        MAIN.own("standing-orders.csv"),
        MAIN.key("standing-orders"),
        MAIN.key("standing-orders-dispatcher"),
    ],
}
QUESTIONS = {
    "agency": ("The agency's name", None),
    "zone": ("Its zone, such as America/New_York", None),
    "name": ("The site's name on the net, such as desk.example.org", None),
    "port": ("The site's port", "443"),
    "alarm": (
        "Who is told when something is wrong: a mail address, an https:// address, or none yet",
        "none yet",
    ),
    "offsite": (f"Where copies go beside this machine: {OFFSITE}", NO_OFFSITE),
    "nightly": (f"What runs each night: {', '.join(NIGHTLY)}, or none", "backup, worklist"),
}


class Failure(Exception):
    """What keeps the setup from going on, in one sentence."""

    status = 1


class WrongWords(Failure):
    """What was said cannot be meant, and nothing was tried."""

    status = 2


def rule_of(zone: str) -> str:
    """The POSIX rule of an IANA zone, which is the last line of its file."""
    path = os.path.realpath(f"{ZONES}/{zone}")
    try:
        with open(path, "rb") as file:
            content = file.read()
    except OSError:
        content = b""
    if (
        not path.startswith(f"{ZONES}/")
        or not content.startswith(b"TZif")
        or not content.endswith(b"\n")
    ):
        raise WrongWords(f"{zone!r} is no zone that this machine knows, such as America/New_York")
    return content.rstrip(b"\n").rpartition(b"\n")[2].decode("ascii")


def nightly_in(text: str) -> str:
    """What is to run each night, in the order of NIGHTLY."""
    words = [it for it in re.split(r"[ ,]+", text) if it]
    if words == ["none"]:
        return "none"
    wrong = [it for it in words if it not in NIGHTLY]
    if wrong or not words:
        raise WrongWords(
            f"{' '.join(wrong)!r} does not run each night: {', '.join(NIGHTLY)} may, or none"
        )
    if "worklist" in words and "backup" not in words:
        raise WrongWords("worklist reads the night's backup, so it goes with backup")
    for name in words:
        for path in NIGHTLY[name]:
            if not os.path.exists(path):
                raise WrongWords(
                    f"{name} takes {path}, which is not there: see STANDING-ORDERS.md, and run this again"
                )
    return ", ".join(it for it in NIGHTLY if it in words)


def alarm_in(text: str) -> str:
    """Who is told: a mail address, an address on the net that takes lines, or "none yet"."""
    if text in ("none", NO_ALARM):
        return NO_ALARM
    if MAIL.fullmatch(text) or HOOK.fullmatch(text):
        return text
    raise WrongWords(
        f"{text!r} is no mail address, no address that begins with https://, and not none yet"
    )


def judged(name: str, text: str) -> str:
    """The value of a setting, or a failure that says what is wrong with it."""
    text = text.strip()
    if name == "zone":
        rule_of(text)
    elif name == "name" and not NAME.fullmatch(text):
        raise WrongWords(f"{text!r} is no name of a machine on the net, such as desk.example.org")
    elif name == "port" and not (
        text.isascii()
        and text.isdigit()
        and 1 <= int(text) <= 65_535
        and int(text) not in OWN_PORTS
    ):
        raise WrongWords(
            f"{text!r} is no port for the site: 1 to 65535, and not 80 or 8435 to 8437, which it has besides"
        )
    elif name == "agency" and (not text or not text.isprintable() or len(text) > 100):
        raise WrongWords("the agency's name is one line of 1 to 100 signs")
    elif name == "alarm":
        return alarm_in(text)
    elif name == "offsite" and not re.fullmatch(
        rf"({NO_OFFSITE}|none|([A-Za-z0-9._@-]+:)?/[A-Za-z0-9._/-]+)", text
    ):
        raise WrongWords(f"{text!r} is not {OFFSITE}")
    return nightly_in(text) if name == "nightly" else text


def judged_anew(name: str, text: str) -> str:
    """The value of a new answer. An earlier one that can be read on its way stays, and the watch names it."""
    value = judged(name, text)
    if name == "alarm" and alarms.is_open(value):
        raise WrongWords(
            f"{value} is not encrypted, so others can read what it is told: name an https:// address, or one of "
            "this machine such as http://127.0.0.1:9099/desk"
        )
    return value


def before() -> Settings:
    """What an earlier run was told."""
    try:
        with open(SETTINGS, encoding="utf-8") as file:
            return {name: str(value) for name, value in json.load(file).items()}
    except (OSError, ValueError, AttributeError):
        return {}


def asked(given: argparse.Namespace) -> Settings:
    """The settings: by words, else by questions, where an earlier answer or a usual one is offered."""
    earlier = before()
    settings: Settings = {}
    for name, (question, usual) in QUESTIONS.items():
        offered = earlier.get(name, usual)
        if getattr(given, name) is not None:
            settings[name] = judged_anew(name, getattr(given, name))
            continue
        if not sys.stdin.isatty():
            if offered is None:
                raise WrongWords(f"--{name} is missing, and there is nobody to ask")
            settings[name] = judged(name, offered)
            continue
        while name not in settings:
            answer = (
                input(f"{question}{f' [{offered}]' if offered else ''}: ").strip() or offered or ""
            )
            try:
                is_kept = answer == earlier.get(name)
                settings[name] = (judged if is_kept else judged_anew)(name, answer)
            except Failure as failure:
                print(failure)
    return settings


def text_of(settings: Settings) -> str:
    return json.dumps(settings, indent=1, ensure_ascii=False) + "\n"
