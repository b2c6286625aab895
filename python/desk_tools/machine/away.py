"""What the site shows while the desk is away: a page for people, with the agency's telephone number, and JSON for programs."""
import html
import json
import os
from typing import Any

PAGE = """<!doctype html>
<html lang="en">
<meta charset="utf-8">
<meta name="viewport" content="width=device-width">
<title>{name}</title>
<h1>{name}</h1>
<p>The system does not answer right now. Your trips stay as they are. Try again in a few minutes.</p>
{call}
<div lang="es">
<p>El sistema no responde en este momento. Sus viajes siguen como estaban. Inténtelo de nuevo en unos minutos.</p>
{call_es}
</div>
</html>
"""


def line(words: str, telephone: str | None) -> str:
    """A paragraph with the number, or nothing where the agency has none."""
    if not telephone:
        return ""
    number = html.escape(telephone)
    return f'<p>{words} <a href="tel:{number.replace(" ", "")}">{number}</a>.</p>'


def texts_of(agency: dict[str, Any]) -> dict[str, str]:
    """The two files, by name."""
    name, telephone = agency.get("name") or "The desk", agency.get("telephone")
    page = PAGE.format(
        name=html.escape(name),
        call=line("To book or cancel, call", telephone),
        call_es=line("Para reservar o cancelar, llame al", telephone),
    )
    told = {"denied": "site.away", **({"telephone": telephone} if telephone else {})}
    return {"away.html": page, "away.json": json.dumps(told, ensure_ascii=False) + "\n"}


def put(agency: dict[str, Any], folder: str) -> None:
    """Writes both for the site's group. Each is whole at any moment."""
    for name, text in texts_of(agency).items():
        path = f"{folder}/{name}"
        with open(
            os.open(f"{path}.new", os.O_WRONLY | os.O_CREAT | os.O_TRUNC, 0o640),
            "w",
            encoding="utf-8",
        ) as file:
            os.fchmod(file.fileno(), 0o640)
            os.fchown(file.fileno(), -1, os.stat(folder).st_gid)
            file.write(text)
        os.replace(f"{path}.new", path)
