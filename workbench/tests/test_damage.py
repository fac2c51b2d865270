"""Damaged files: each is read, or refused in one line; no other error reaches the user."""

import random
import zipfile
from pathlib import Path

import pytest
from fizhedul_workbench.__main__ import main
from tools import TOP

EXAMPLES = TOP / "workbench" / "examples"
PIECES = [b"\x00", b"\xff", b'"', b",", b"\n", b";", b":", b"=", b"Z", b"99", b"-", b"\xc3\xa4", b" ", b"+", b"n"]


def damaged(chance: random.Random, content: bytes) -> bytes:
    """The bytes with a few of them taken out, doubled or replaced."""
    made = bytearray(content)
    for _ in range(chance.randint(1, 3)):
        place = chance.randrange(len(made) + 1)
        kind = chance.randrange(2)
        if kind == 0:
            del made[place : place + chance.randint(1, 8)]
        elif kind == 1:
            made[place:place] = chance.choice(PIECES)
        elif kind == 2:
            made[place : place + 1] = chance.choice(PIECES)
        else:
            made[place:place] = made[place : place + 20]
    return bytes(made)


def is_told(capsys: pytest.CaptureFixture[str], words: list[str]) -> bool:
    """Runs a tool; true where it refused, in one line and without output."""
    status = main(words)
    told = capsys.readouterr()
    if status:
        assert told.err.startswith("refused: ") and told.err.count("\n") == 1 and told.out == ""
        assert status in (3, 6)
    return status != 0


@pytest.mark.parametrize("seed", range(2))
def test_damaged_calendars(tmp_path: Path, capsys: pytest.CaptureFixture[str], seed: int) -> None:
    chance = random.Random(seed)
    content = (
        (EXAMPLES / "upkeep" / "upkeep.ics")
        .read_bytes()
        .replace(b"FREQ=MONTHLY;BYMONTH=6,12;", b"FREQ=YEARLY;BYMONTH=6;")
    )
    refused = 0
    for _ in range(100):
        (tmp_path / "a.ics").write_bytes(damaged(chance, content))
        refused += is_told(capsys, ["import", "ics", str(tmp_path / "a.ics")])
    assert refused > 10


@pytest.mark.parametrize("seed", range(2))
def test_damaged_feeds(tmp_path: Path, capsys: pytest.CaptureFixture[str], seed: int) -> None:
    chance = random.Random(seed)
    files = {file.name: file.read_bytes() for file in (EXAMPLES / "harbour" / "feed").iterdir()}
    refused = 0
    for _ in range(100):
        name = chance.choice(sorted(files))
        for each, content in files.items():
            (tmp_path / each).write_bytes(damaged(chance, content) if each == name else content)
        refused += is_told(capsys, ["import", "gtfs", str(tmp_path)])
    assert refused > 10


def test_damaged_archives(tmp_path: Path, capsys: pytest.CaptureFixture[str]) -> None:
    chance = random.Random(1)
    with zipfile.ZipFile(tmp_path / "feed.zip", "w", zipfile.ZIP_DEFLATED) as packed:
        for file in (EXAMPLES / "harbour" / "feed").iterdir():
            packed.write(file, file.name)
    content = (tmp_path / "feed.zip").read_bytes()
    refused = 0
    for _ in range(100):
        (tmp_path / "a.zip").write_bytes(damaged(chance, content))
        refused += is_told(capsys, ["import", "gtfs", str(tmp_path / "a.zip")])
    assert refused > 50


def test_damaged_tables(tmp_path: Path, capsys: pytest.CaptureFixture[str]) -> None:
    chance = random.Random(2)
    content = b'dep: time,arr: time,line: line,where\n5+60n,30+60n,7,arr = dep + 25\n-3,12,"a ""b""",\n'
    refused = 0
    for _ in range(300):
        (tmp_path / "a.csv").write_bytes(damaged(chance, content))
        refused += is_told(capsys, ["import", "csv", str(tmp_path / "a.csv")])
    assert refused > 30
