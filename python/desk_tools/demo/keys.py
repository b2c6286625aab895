"""The demonstration's keys: a word for the role and eight chance signs, in a file that only its owner reads."""

from __future__ import annotations

import hashlib
import json
import os
import secrets

SIGNS = "0123456789abcdefghjkmnpqrstvwxyz"


def digest_of(key: str) -> str:
    return hashlib.sha256(key.encode()).hexdigest()


def made_key(who: str) -> str:
    signs = "".join(secrets.choice(SIGNS) for _ in range(8))
    return f"{who.replace(' ', '-')}-{signs[:4]}-{signs[4:]}"


def write_keys(path: str, names: list[str]) -> dict[str, str]:
    """Makes a key for each, and keeps them."""
    keys = {who: made_key(who) for who in names}
    with open(
        os.open(path, os.O_WRONLY | os.O_CREAT | os.O_EXCL, 0o600), "w", encoding="ascii"
    ) as file:
        json.dump(keys, file, indent=1)
        file.write("\n")
    return keys


def read_keys(path: str) -> dict[str, str]:
    with open(path, encoding="ascii") as file:
        found: dict[str, str] = json.load(file)
    return found
