"""The two ways to the engine give the same, may be given up, and are started again; databases are kept."""

import asyncio
import os
import signal
import subprocess
import time
from collections.abc import Callable, Coroutine
from pathlib import Path
from typing import Any

import pytest
from fizhedul_workbench.engine.asked import Asked, Engine
from fizhedul_workbench.engine.holders import LARGE
from fizhedul_workbench.engine.libraries import LibraryEngine
from fizhedul_workbench.engine.programs import ProgramEngine
from fizhedul_workbench.page.asking import Failed, Matter, count_in, least_of, page_in, shell_words
from pages import SECONDS, is_running
from standin import standin, told
from tools import TOP, environment

BUS = b"relation bus(t: time) { (5+60n); }"
ALL = b"{ t: time | bus(t) }"


@pytest.fixture
def library(tmp_path: Path, monkeypatch: pytest.MonkeyPatch) -> str:
    """The folder of the package in the library's place."""
    return standin(tmp_path, monkeypatch)


def by_library(library: str) -> LibraryEngine:
    return LibraryEngine("", library)


def with_engine(make: Callable[[], Engine], act: Callable[[Engine], Coroutine[Any, Any, None]]) -> None:
    """Does something with an engine, and closes it."""

    async def done() -> None:
        engine = make()
        try:
            await act(engine)
        finally:
            await engine.close()

    asyncio.run(done())


@pytest.mark.parametrize("name", ["program", "library"])
def test_it_answers_and_refuses(library: str, name: str) -> None:
    async def act(engine: Engine) -> None:
        matter = Matter(BUS, ALL)
        assert engine.name == name and (await page_in(engine, matter, (0, 130), 10)).answers == [[5], [65], [125]]
        assert (
            await least_of(engine, matter) == [5]
            and await least_of(engine, matter.about("{ t: time | t < t }")) is None
        )
        with pytest.raises(Failed) as failed:
            await least_of(engine, matter.about("{ t: time | tram(t) }"))
        assert failed.value.fault.line == "refused: query UnknownRelation at 1:13"
        assert failed.value.fault.place == (0, 12, 16) and "Its relations are bus(t: time)." in failed.value.fault.means
        watched = await engine.run(Asked("watch", {"db": BUS, "query": ALL, "edits": b"- bus (5+60n);"}))
        assert (watched.status, watched.text) == (0, "5\nnone\n")

    with_engine(ProgramEngine if name == "program" else lambda: by_library(library), act)


def test_a_window_is_counted_where_the_engine_can(library: str) -> None:
    async def act(engine: Engine) -> None:
        matter = Matter(BUS, ALL)
        assert await count_in(engine, matter, (0, 1439)) == "24"
        assert await count_in(engine, matter.about("{ t: time, u: time | (bus(t) and bus(u)) }"), (0, 1439)) is None

    async def without(engine: Engine) -> None:
        assert await count_in(engine, Matter(BUS, b"{ t: time | tram(t) }"), (0, 1439)) is None

    with_engine(lambda: by_library(library), act)
    with_engine(ProgramEngine, without)


def test_a_library_that_ends_is_started_again(library: str) -> None:
    async def act(engine: Engine) -> None:
        with pytest.raises(Failed) as failed:
            await least_of(engine, Matter(BUS, ALL, cap=13))
        assert failed.value.fault.line == "the engine was ended by signal 9"
        assert await least_of(engine, Matter(BUS, ALL)) == [5]

    with_engine(lambda: by_library(library), act)


def test_work_that_is_given_up_ends(library: str) -> None:
    async def act(engine: Engine) -> None:
        assert isinstance(engine, LibraryEngine)
        task = asyncio.ensure_future(least_of(engine, Matter(BUS, ALL, cap=14)))
        while not os.path.exists(os.environ["TOLD"]) or not told(library, "run"):
            await asyncio.sleep(0.02)
        ((process, *_),) = told(library, "run")
        task.cancel()
        with pytest.raises(asyncio.CancelledError):
            await task
        assert await least_of(engine, Matter(BUS, ALL)) == [5]
        begun = time.monotonic()
        while is_running(process):
            assert time.monotonic() - begun < SECONDS
            await asyncio.sleep(0.02)

    with_engine(lambda: by_library(library), act)


def test_short_work_that_is_given_up_ends_no_process(library: str) -> None:
    async def act(engine: Engine) -> None:
        assert isinstance(engine, LibraryEngine)
        engine.holders.patience = SECONDS
        await engine.ready()
        processes = set(engine.holders.all)
        for _ in range(6):
            task = asyncio.ensure_future(least_of(engine, Matter(BUS, ALL, cap=15)))
            await asyncio.sleep(0.01)
            task.cancel()
        assert await least_of(engine, Matter(BUS, ALL)) == [5]
        while engine.holders.aside:
            await asyncio.sleep(0.02)
        assert processes <= set(engine.holders.all) and len(engine.holders.all) <= 4

    with_engine(lambda: by_library(library), act)


def test_questions_at_once_have_their_own_answers(library: str) -> None:
    async def act(engine: Engine) -> None:
        matters = [Matter(f"relation bus(t: time) {{ ({number}); }}".encode(), ALL) for number in range(12)]
        found = await asyncio.gather(*(least_of(engine, matter) for matter in matters))
        assert found == [[number] for number in range(12)]

    for make in (ProgramEngine, lambda: by_library(library)):
        with_engine(make, act)


def test_the_words_are_those_of_a_shell() -> None:
    matter = Matter(BUS, b'{ t: time | # "all"\n  bus(t) }', is_civil=True, cap=5)
    asked = matter.asking("list", **matter.ends(0, 9), form="json")
    assert shell_words(asked, {"db": "a b.lrp"}) == (
        "./fizhedul list 'db=a b.lrp' 'query={ t: time | bus(t) }' cap=5 plan=guarded civil=yes"
        " from=1970-01-01T00:00 to=1970-01-01T00:09"
    )


def test_an_interrupt_ends_the_page_and_its_program(tmp_path: Path) -> None:
    (tmp_path / "bus.lrp").write_bytes(BUS)
    words = [str(TOP / "workbench/run"), "page", "db=bus.lrp"]
    process = subprocess.Popen(words, stdout=subprocess.PIPE, stderr=subprocess.PIPE, cwd=tmp_path, env=environment())
    assert process.stdout is not None and process.stdout.readline().startswith(b"http://127.0.0.1:")
    process.send_signal(signal.SIGINT)
    _, told = process.communicate(timeout=SECONDS)
    assert process.returncode == 0
    assert told == b"fizhedul: the page is at this link, on this machine alone; Ctrl-C ends it\n"


def test_a_database_is_read_once(library: str) -> None:
    async def act(engine: Engine) -> None:
        for number in range(5):
            await page_in(engine, Matter(BUS, ALL), (number, 1439), 2)
            assert await least_of(engine, Matter(BUS, ALL)) == [5]
        assert len(told(library, "open")) == 1
        # It is asked by the same process as long as that one is free.
        assert len({process for process, *_ in told(library, "run")}) == 1

    with_engine(lambda: by_library(library), act)


def test_a_large_database_is_read_by_two_processes_at_most(library: str) -> None:
    async def act(engine: Engine) -> None:
        large = BUS + b" " * LARGE
        found = await asyncio.gather(*(page_in(engine, Matter(large, ALL), (0, 9), number) for number in range(1, 9)))
        assert all(page.answers == [[5]] for page in found)
        assert len(told(library, "open")) <= 2
        # One that is given up while it waits for its turn takes none.
        tasks = [asyncio.ensure_future(least_of(engine, Matter(large, ALL, cap=15))) for _ in range(6)]
        await asyncio.sleep(0.01)
        for task in tasks:
            task.cancel()
        await asyncio.wait(tasks)
        assert await least_of(engine, Matter(large, ALL)) == [5]

    with_engine(lambda: by_library(library), act)


@pytest.mark.parametrize("steps", range(8))
def test_a_question_that_is_given_up_while_its_process_begins_ends(library: str, steps: int) -> None:
    async def act(engine: Engine) -> None:
        task = asyncio.ensure_future(least_of(engine, Matter(BUS, ALL)))
        for _ in range(steps):
            await asyncio.sleep(0)
        task.cancel()
        await asyncio.wait([task])
        if steps % 2:
            assert await least_of(engine, Matter(BUS, ALL)) == [5]

    with_engine(lambda: by_library(library), act)


def test_a_database_that_is_asked_once_only_is_not_kept(library: str) -> None:
    async def act(engine: Engine) -> None:
        assert await least_of(engine, Matter(BUS, ALL, is_once=True)) == [5]
        assert told(library, "open") == []

    with_engine(lambda: by_library(library), act)


def test_another_database_is_another_one(library: str) -> None:
    async def act(engine: Engine) -> None:
        for number in (5, 7, 5, 7, 9):
            other = BUS.replace(b"5", str(number).encode())
            assert await least_of(engine, Matter(other, ALL)) == [number]
        # Two are kept; the third one takes the place of the one that was asked longest ago.
        assert [kind for _, kind, *_ in told(library, "open", "close")] == ["open", "open", "close", "open"]

    with_engine(lambda: by_library(library), act)


def test_a_database_whose_process_ended_is_opened_anew(library: str) -> None:
    async def act(engine: Engine) -> None:
        assert isinstance(engine, LibraryEngine)
        assert await least_of(engine, Matter(BUS, ALL)) == [5]
        ((process, *_),) = told(library, "open")
        os.kill(process, signal.SIGKILL)
        with pytest.raises(Failed) as failed:
            await least_of(engine, Matter(BUS, ALL))
        assert failed.value.fault.line == "the engine was ended by signal 9"
        assert await least_of(engine, Matter(BUS, ALL)) == [5]
        assert len(told(library, "open")) == 2

    with_engine(lambda: by_library(library), act)
