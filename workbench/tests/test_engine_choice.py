"""Which engine answers the tools, and how the files are read that it is asked about."""

import os
import subprocess
from pathlib import Path

import pytest
from fizhedul_workbench.engine import chosen
from fizhedul_workbench.engine.texts import Files
from fizhedul_workbench.words import Refused
from tools import RUN, environment


def test_a_file_is_read_again_once_it_may_have_changed(tmp_path: Path) -> None:
    files, path = Files(), tmp_path / "a"
    assert files.content(str(path)) is None
    path.write_bytes(b"one")
    os.utime(path, (1, 1))
    assert files.content(str(path)) == b"one"
    path.write_bytes(b"two")
    os.utime(path, (1, 1))
    assert files.content(str(path)) == b"two"
    path.unlink()
    assert files.content(str(path)) is None and files.content("a\0b") is None


class TestWhichEngineAnswers:
    """The library where it is there, else the program."""

    @pytest.fixture(autouse=True)
    def clone(self, tmp_path: Path, monkeypatch: pytest.MonkeyPatch) -> None:
        for name in ("FIZHEDUL_PROGRAM", "FIZHEDUL_LIBRARY"):
            monkeypatch.delenv(name, raising=False)
        self.source = tmp_path / "crates/lrp_c/src/lib.rt"
        self.built = tmp_path / "crates/lrp_c/out/library/lib/libfizhedul.so.1"
        for each in (self.source, self.built):
            each.parent.mkdir(parents=True)
            each.touch()
        monkeypatch.setattr(chosen, "CRATES", tmp_path / "crates")
        monkeypatch.setattr(chosen, "LIBRARY", self.built)
        self.missing: set[str] = set()
        monkeypatch.setattr(chosen, "need_library", self.need)

    def need(self, path: str) -> None:
        if path in self.missing:
            raise Refused(f"{path} is missing")

    def test_a_clone_has_its_own(self) -> None:
        assert chosen.library_path() == chosen.needed_library() == str(self.built)
        self.missing.add(str(self.built))
        assert chosen.library_path() is None
        with pytest.raises(Refused):
            chosen.needed_library()

    def test_one_that_is_older_than_its_sources_does_not_answer(self) -> None:
        os.utime(self.built, (1, 1))
        assert chosen.library_path() is None
        self.built.unlink()
        assert chosen.library_path() is None

    def test_an_installation_has_that_of_the_system(self, monkeypatch: pytest.MonkeyPatch, tmp_path: Path) -> None:
        monkeypatch.setattr(chosen, "CRATES", tmp_path / "none")
        assert chosen.library_path() == ""
        self.missing.add("")
        assert chosen.library_path() is None

    def test_what_is_named_answers(self, monkeypatch: pytest.MonkeyPatch) -> None:
        monkeypatch.setenv("FIZHEDUL_PROGRAM", "/bin/true")
        assert chosen.library_path() is None
        monkeypatch.setenv("FIZHEDUL_LIBRARY", "named.so")
        assert chosen.library_path() == "named.so"
        self.missing.add("named.so")
        with pytest.raises(Refused, match="named.so is missing"):
            chosen.library_path()


def test_a_library_that_cannot_be_loaded_is_refused(tmp_path: Path) -> None:
    (tmp_path / "bus.lrp").write_text("relation bus(t: time) { (5+60n); }")
    wrong = environment(FIZHEDUL_LIBRARY=str(tmp_path / "none.so"))
    words = [str(RUN), "shell", "db=bus.lrp"]
    done = subprocess.run(words, input=".tables\n", capture_output=True, text=True, cwd=tmp_path, env=wrong)
    assert "refused: the shared library" in done.stdout + done.stderr and done.returncode == 1
