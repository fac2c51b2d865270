"""Time zones, as the system's files of the time zone database (RFC 8536) give them."""

import os
import struct
import zoneinfo
from dataclasses import dataclass

from .words import MISSING, Refused

HEADER = struct.Struct(">4s1s15x6I")
ALWAYS_SAME = frozenset(["UTC", "Etc/UTC", "GMT", "Z"])


@dataclass(frozen=True)
class Zone:
    """When the offset from UTC changes, in seconds since 1970, and whether it goes on changing for ever."""

    name: str
    offsets: tuple[tuple[int | None, int], ...]
    changes_for_ever: bool

    def offset_at(self, second: int) -> int:
        """Seconds ahead of UTC."""
        found = self.offsets[0][1]
        for begin, offset in self.offsets:
            if begin is not None and begin > second:
                break
            found = offset
        return found

    def changes_within(self, first: int, last: int | None) -> bool:
        """Whether two offsets hold within these seconds; without a last one, whether they do for ever."""
        if self.changes_for_ever and (last is None or last > (self.offsets[-1][0] or 0)):
            return True
        start = self.offset_at(first)
        inside = (
            offset
            for begin, offset in self.offsets
            if begin is not None and begin > first and (last is None or begin <= last)
        )
        return any(offset != start for offset in inside)


def zone_file(name: str) -> str | None:
    """The file of a zone, or None where there is no zone of this name."""
    parts = name.split("/")
    if not name or any(part in ("", ".", "..") for part in parts) or "\0" in name:
        return None
    for folder in zoneinfo.TZPATH:
        path = os.path.join(folder, *parts)
        if os.path.isfile(path):
            return path
    return None


def zone_of(name: str) -> Zone | None:
    """The zone of a name, or None where there is none."""
    if name in ALWAYS_SAME:
        return Zone("UTC", ((None, 0),), False)
    if not zoneinfo.TZPATH or not any(os.path.isdir(folder) for folder in zoneinfo.TZPATH):
        raise Refused("the Debian package tzdata is missing (apt-get install tzdata)", MISSING)
    path = zone_file(name)
    if path is None:
        return None
    with open(path, "rb") as file:
        return zone_in(name, file.read())


def zone_in(name: str, content: bytes) -> Zone | None:
    """The zone that a file's bytes hold: the second block, whose numbers have 64 bits, and the rule after it."""
    if len(content) < HEADER.size or content[:4] != b"TZif" or content[4:5] < b"2":
        return None
    _, _, utc, std, leap, times, types, letters = HEADER.unpack_from(content)
    start = HEADER.size + times * 5 + types * 6 + letters + leap * 8 + std + utc
    _, _, utc, std, leap, times, types, letters = HEADER.unpack_from(content, start)
    start += HEADER.size
    begins = struct.unpack_from(f">{times}q", content, start)
    kinds = content[start + times * 8 : start + times * 9]
    table = start + times * 9
    seconds = [struct.unpack_from(">i", content, table + 6 * kind)[0] for kind in range(types)]
    rule = content[table + types * 6 + letters + leap * 12 + std + utc :].strip(b"\n")
    changes = [(begin, seconds[kind]) for begin, kind in zip(begins, kinds)]
    return Zone(name, ((None, seconds[0]), *changes), b"," in rule)
