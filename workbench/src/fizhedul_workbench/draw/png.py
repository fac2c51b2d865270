"""Images in PNG, whose lower rows are cut off."""

import struct
import zlib
from collections.abc import Iterator

SIGNATURE = b"\x89PNG\r\n\x1a\n"
CHANNELS = {0: 1, 2: 3, 3: 1, 4: 2, 6: 4}


def chunks(image: bytes) -> Iterator[tuple[bytes, bytes]]:
    """The chunks of an image, each with its name and its content."""
    at = len(SIGNATURE)
    while at < len(image):
        (size,) = struct.unpack(">I", image[at : at + 4])
        yield image[at + 4 : at + 8], image[at + 8 : at + 8 + size]
        at += 12 + size


def chunk(name: bytes, content: bytes) -> bytes:
    return struct.pack(">I", len(content)) + name + content + struct.pack(">I", zlib.crc32(name + content))


def bytes_of_row(header: bytes) -> int:
    """How many bytes a row takes, with the one that says how it is told by the row above."""
    width, _, depth, colour = struct.unpack(">IIBB", header[:10])
    return 1 + (int(width) * CHANNELS[int(colour)] * int(depth) + 7) // 8


def cut(image: bytes, height: int) -> bytes:
    """The upper rows of an image; each row is told by those above it alone."""
    parts = list(chunks(image))
    header = dict(parts)[b"IHDR"]
    rows = zlib.decompress(b"".join(content for name, content in parts if name == b"IDAT"))
    kept = zlib.compress(rows[: height * bytes_of_row(header)])
    written = SIGNATURE
    for place, (name, content) in enumerate(parts):
        if name == b"IHDR":
            written += chunk(name, header[:4] + struct.pack(">I", height) + header[8:])
        elif name != b"IDAT":
            written += chunk(name, content)
        elif parts[place - 1][0] != b"IDAT":
            written += chunk(name, kept)
    return written
