"""What conversations send: NAME.requests is a script of bin/rehearsal, and NAME.http has bytes that no script gives."""
import os
from collections.abc import Callable

from desk_tools.commands import rehearsal

# The endings of their files, and how each gives the bytes.
KINDS: dict[str, Callable[[bytes], bytes]] = {".requests": rehearsal.written, ".http": bytes}


def asked_in(conversation: str) -> bytes:
    """The bytes that a conversation sends. It is named by its path, without an ending."""
    kinds = [it for it in KINDS if os.path.exists(f"{conversation}{it}")]
    if len(kinds) != 1:
        raise rehearsal.Wrong(
            f"{conversation} needs one file of {', '.join(KINDS)}, and has {len(kinds)}"
        )
    path = f"{conversation}{kinds[0]}"
    with open(path, "rb") as file:
        content = file.read()
    try:
        return KINDS[kinds[0]](content)
    except (rehearsal.Wrong, UnicodeDecodeError) as wrong:
        raise rehearsal.Wrong(f"{path}: {wrong}") from None
