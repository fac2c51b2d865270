"""The files of a feed in the General Transit Feed Specification (GTFS): a folder or a ZIP archive."""

import os
import zipfile
import zlib
from dataclasses import dataclass, field

from ..words import FAILED_READ, Refused
from .tables import Table, read_table

MOST_FILE_BYTES = 2**30
BAD_ARCHIVE = (zipfile.BadZipFile, zipfile.LargeZipFile, zlib.error, EOFError, NotImplementedError, RuntimeError)

REQUIRED = {
    "agency.txt": ["agency_timezone"],
    "routes.txt": ["route_id"],
    "stops.txt": ["stop_id"],
    "trips.txt": ["route_id", "service_id", "trip_id"],
    "stop_times.txt": ["trip_id", "arrival_time", "departure_time", "stop_id", "stop_sequence"],
}
OPTIONAL = {
    "calendar.txt": [
        "service_id",
        "monday",
        "tuesday",
        "wednesday",
        "thursday",
        "friday",
        "saturday",
        "sunday",
        "start_date",
        "end_date",
    ],
    "calendar_dates.txt": ["service_id", "date", "exception_type"],
    "frequencies.txt": ["trip_id", "start_time", "end_time", "headway_secs"],
}
READ = {
    "agency.txt": {"agency_timezone"},
    "routes.txt": {"route_id", "route_short_name", "route_long_name"},
    "stops.txt": {"stop_id", "stop_name"},
    "trips.txt": set(REQUIRED["trips.txt"]),
    "stop_times.txt": set(REQUIRED["stop_times.txt"]),
    "calendar.txt": set(OPTIONAL["calendar.txt"]),
    "calendar_dates.txt": set(OPTIONAL["calendar_dates.txt"]),
    "frequencies.txt": {*OPTIONAL["frequencies.txt"], "exact_times"},
}


@dataclass
class Feed:
    """The tables of a feed by their files, and what of it is not carried over."""

    name: str
    tables: dict[str, Table] = field(default_factory=dict)
    left: list[str] = field(default_factory=list)

    def table(self, file: str) -> Table:
        """The table of a file, without records where the feed has no such file."""
        return self.tables.get(file) or Table(file, [], [])

    def leave(self, what: str) -> None:
        self.left.append(what)


def files_of_folder(path: str) -> dict[str, bytes]:
    found = {}
    for name in sorted(os.listdir(path)):
        full = os.path.join(path, name)
        if os.path.isfile(full):
            wanted = name in REQUIRED or name in OPTIONAL
            with open(full, "rb") as file:
                found[name] = file.read() if wanted else b""
    return found


def files_of_archive(path: str) -> dict[str, bytes]:
    found = {}
    with zipfile.ZipFile(path) as archive:
        for entry in archive.infolist():
            if entry.is_dir():
                continue
            if entry.filename in found:
                raise Refused(f"{path}: the archive has {entry.filename} twice")
            wanted = entry.filename in REQUIRED or entry.filename in OPTIONAL
            if wanted and entry.file_size > MOST_FILE_BYTES:
                raise Refused(f"{path}: {entry.filename} has more than {MOST_FILE_BYTES} bytes")
            found[entry.filename] = archive.read(entry) if wanted else b""
    return found


def files_of(path: str) -> dict[str, bytes]:
    """The files of a feed by name; those that are not read are empty here."""
    try:
        return files_of_folder(path) if os.path.isdir(path) else files_of_archive(path)
    except OSError as fault:
        raise Refused(f"{path}: {fault.strerror}", FAILED_READ) from fault
    except BAD_ARCHIVE as fault:
        raise Refused(f"{path}: it is no folder and no ZIP archive that can be read: {fault}") from fault


def read_feed(path: str) -> Feed:
    """The tables of a feed. Files and filled columns that are not read are listed as not carried over."""
    files = files_of(path)
    feed = Feed(path)
    for name, required in (REQUIRED | OPTIONAL).items():
        if name in files:
            feed.tables[name] = read_table(name, files[name], required)
        elif name in REQUIRED:
            raise Refused(f"{path}: there is no file {name}")
    if "calendar.txt" not in files and "calendar_dates.txt" not in files:
        raise Refused(f"{path}: there is neither calendar.txt nor calendar_dates.txt")
    others = [name for name in files if name not in feed.tables]
    if others:
        feed.leave("files " + ", ".join(others))
    for name, table in feed.tables.items():
        columns = [c for c in table.columns if c in table.filled and c not in READ[name]]
        if columns:
            feed.leave(f"columns of {name}: " + ", ".join(columns))
    return feed
