"""Keys of callers as people type them: 26 signs of base32, without the letters i, l, o and u.

Such a key is the same with hyphens, blanks and capital letters. Any other key is used exactly as it is.
"""

from __future__ import annotations

import re
import secrets

ALPHABET, SIGNS = "0123456789abcdefghjkmnpqrstvwxyz", 26
BETWEEN = re.compile(r"[\s-]+")


def made() -> str:
    """A new key, of 130 bits."""
    return "".join(secrets.choice(ALPHABET) for _ in range(SIGNS))


def normalized(key: str) -> str:
    """The key as the desk knows it."""
    plain = BETWEEN.sub("", key).lower()
    return plain if len(plain) == SIGNS and {*plain} <= {*ALPHABET} else key
