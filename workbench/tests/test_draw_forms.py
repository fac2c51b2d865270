"""The form of a picture, by the ending of its file."""

from pathlib import Path

import pytest
from tools import shell, tool


@pytest.mark.parametrize("file, front", [("a.svg", b"<?xml"), ("a.html", b"<!DOCTYPE"), ("A.HTM", b"<!DOCTYPE")])
def test_the_ending_says_the_form(tmp_path: Path, file: str, front: bytes) -> None:
    (tmp_path / "bus.lrp").write_text("relation bus(t: time) { (5+60n); }")
    (tmp_path / "all.lrq").write_text("{ t: time | bus(t) }")
    words = ["draw", "db=bus.lrp", "query=all.lrq", "from=0", "to=100"]
    assert tool(*words, f"out={file}", folder=tmp_path).returncode == 0
    assert (tmp_path / file).read_bytes().startswith(front)


def test_an_ending_that_is_no_form_is_refused(tmp_path: Path) -> None:
    (tmp_path / "bus.lrp").write_text("relation bus(t: time) { (5+60n); }")
    (tmp_path / "all.lrq").write_text("{ t: time | bus(t) }")
    words = ["draw", "db=bus.lrp", "query=all.lrq", "from=0", "to=100"]
    for more, wanted in (
        (["out=a.jpg"], "'a.jpg' does not end in .html, .svg or .png"),
        (["out=a"], "'a' does not end in"),
        (["out=a.html", "format=svg"], "'a.html' is to be html by its ending, and svg by its format"),
    ):
        done = tool(*words, *more, folder=tmp_path)
        assert done.returncode == 2 and wanted in done.stderr
    assert tool(*words, "out=a.picture", "format=svg", folder=tmp_path).returncode == 0
    out, status = shell(tmp_path, "{ t: time | bus(t) }\n.draw a.jpg\n", "db=bus.lrp")
    assert status == 2 and "refused: usage: 'a.jpg' does not end in" in out
