"""Makes the picture of a page smaller: its 256 most frequent colors, and for each other one the nearest of them."""
import collections
import struct
import zlib
from collections.abc import Iterator

SIGNATURE, MOST_COLORS = b"\x89PNG\r\n\x1a\n", 256


def chunks_of(image: bytes) -> Iterator[tuple[bytes, bytes]]:
    """Each chunk of a PNG as (kind, content)."""
    at = len(SIGNATURE)
    while at < len(image):
        (size,) = struct.unpack(">I", image[at : at + 4])
        yield image[at + 4 : at + 8], image[at + 8 : at + 8 + size]
        at += size + 12


def chunk(kind: bytes, content: bytes) -> bytes:
    return (
        struct.pack(">I", len(content))
        + kind
        + content
        + struct.pack(">I", zlib.crc32(kind + content))
    )


def predicted(left: int, up: int, corner: int) -> int:
    """What PNG's fourth filter expects of a byte, by its neighbors."""
    guess = left + up - corner
    far = [abs(guess - left), abs(guess - up), abs(guess - corner)]
    return (left, up, corner)[far.index(min(far))]


def row_of(kind: int, filtered: bytes, above: bytes, step: int) -> bytearray:
    """A row of bytes without its filter."""
    row = bytearray(filtered)
    for at, byte in enumerate(row):
        left = row[at - step] if at >= step else 0
        if kind == 1:
            row[at] = byte + left & 255
        elif kind == 2:
            row[at] = byte + above[at] & 255
        elif kind == 3:
            row[at] = byte + (left + above[at]) // 2 & 255
        elif kind == 4:
            row[at] = byte + predicted(left, above[at], above[at - step] if at >= step else 0) & 255
        else:
            break
    return row


def pixels_of(packed: bytes, width: int, height: int, step: int) -> Iterator[list[bytes]]:
    """The rows of a picture, each a list of colors."""
    data = zlib.decompress(packed)
    above: bytes = bytes(width * step)
    for at in range(height):
        start = at * (width * step + 1)
        above = row_of(data[start], data[start + 1 : start + 1 + width * step], above, step)
        yield [bytes(above[pixel : pixel + 3]) for pixel in range(0, width * step, step)]


def nearest(color: bytes, palette: list[bytes]) -> int:
    def far(at: int) -> int:
        return sum((one - other) * (one - other) for one, other in zip(color, palette[at]))

    return min(range(len(palette)), key=far)


def reduced(image: bytes) -> bytes:
    """The same picture with fewer colors; a PNG of another form stays as it is."""
    parts = list(chunks_of(image))
    width, height, depth, kind, *_ = struct.unpack(">IIBBBBB", parts[0][1])
    if depth != 8 or kind not in (2, 6):
        return image
    rows = list(
        pixels_of(
            b"".join(it for name, it in parts if name == b"IDAT"),
            width,
            height,
            3 if kind == 2 else 4,
        )
    )
    counts = collections.Counter(color for row in rows for color in row)
    palette = [color for color, _ in counts.most_common(MOST_COLORS)]
    number = {color: nearest(color, palette) for color in counts}
    data = b"".join(b"\0" + bytes(number[color] for color in row) for row in rows)
    return (
        SIGNATURE
        + chunk(b"IHDR", struct.pack(">IIBBBBB", width, height, 8, 3, 0, 0, 0))
        + chunk(b"PLTE", b"".join(palette))
        + chunk(b"IDAT", zlib.compress(data, 9))
        + chunk(b"IEND", b"")
    )
