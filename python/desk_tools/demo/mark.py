"""Whether a program was proved. The kit's compiler leaves the logic of the proof in it; a program only tried has none."""
import re
import struct

# Of an ELF file for 64 bits: where its sections are told, and of a section its name, its place and its length.
SECTIONS, SECTION = "<40xQ10xHHH", "<I20xQQ"
LOGIC = re.compile(rb"(?:^|\0)rattle logic=([0-9a-f]{64})(?:\0|$)")


def part_of(content: bytes, name: bytes) -> bytes:
    """What a section of an ELF file holds; nothing, where there is no such section."""
    start, length, count, of_names = struct.unpack_from(SECTIONS, content)
    told = [struct.unpack_from(SECTION, content, start + at * length) for at in range(count)]
    names = told[of_names][1]
    for at, place, size in told:
        if content[names + at :].startswith(name + b"\0"):
            return content[place : place + size]
    return b""


def logic_of(path: str) -> str | None:
    """The logic in which the program was proved, or None."""
    with open(path, "rb") as file:
        content = file.read()
    try:
        found = (
            LOGIC.search(part_of(content, b".comment")) if content.startswith(b"\x7fELF") else None
        )
    except (struct.error, IndexError):
        return None
    return found[1].decode() if found else None
