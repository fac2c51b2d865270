"""What holds of all modules."""

import subprocess

import pytest
from tools import TIME, TOP, sources, tool


def test_no_module_has_more_than_300_lines() -> None:
    lengths = {source: source.read_text(encoding="utf-8").count("\n") for source in sources()}
    assert len(lengths) > 30
    assert [str(source) for source, length in lengths.items() if length > 300] == []


@pytest.mark.parametrize(
    "module, package, words",
    [
        ("icalendar", "python3-icalendar", ["import", "ics", "a.ics"]),
        ("dateutil", "python3-dateutil", ["import", "ics", "a.ics"]),
        ("starlette", "python3-starlette", ["page", "db=a.lrp"]),
        ("uvicorn", "python3-uvicorn", ["page", "db=a.lrp"]),
    ],
)
def test_a_missing_package_is_one_line(
    tmp_path_factory: pytest.TempPathFactory, module: str, package: str, words: list[str]
) -> None:
    folder = tmp_path_factory.mktemp("empty")
    paths = [str(TOP / "workbench" / "src"), str(TOP / "share" / "launcher")]
    hidden = f"import sys; sys.modules[{module!r}] = None; sys.path[:0] = {paths!r}\n"
    hidden += f"from fizhedul_workbench.__main__ import main; sys.exit(main({words!r}))"
    done = subprocess.run(["/usr/bin/python3", "-c", hidden], capture_output=True, text=True, cwd=folder, timeout=TIME)
    assert done.returncode == 1 and done.stdout == ""
    assert done.stderr == f"refused: the Debian package {package} is missing (apt-get install {package})\n"


def test_the_first_word_names_a_tool() -> None:
    done = tool()
    assert done.returncode == 2
    assert done.stderr == "refused: usage: the first word is one of shell, draw, page, import, export, spread\n"
