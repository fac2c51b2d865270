"""A served page, and what a browser does on it."""

import http.client
import json
import os
import signal
import subprocess
import time
from collections.abc import Iterator
from contextlib import contextmanager
from dataclasses import dataclass, field
from pathlib import Path
from typing import Any

from devtools import Tab
from tools import RUN, TOP, environment, program

SECONDS = 600
EXAMPLES = TOP / "examples"
WEEK = (EXAMPLES / "week/week.lrp").read_text()
CONNECTIONS = (EXAMPLES / "week/connections.lrq").read_text()
SHOWN = "Number(document.documentElement.dataset.shown || 0)"


@dataclass
class Served:
    """A page that is served: its link in parts, and the versions of the texts that were sent."""

    link: str
    process: subprocess.Popen[str]
    texts: dict[str, str] = field(default_factory=dict)

    @property
    def host(self) -> str:
        return self.link.split("/")[2]

    @property
    def token(self) -> str:
        return self.link.split("/")[3]

    def children(self) -> list[int]:
        """The processes that the server started, and that are there still."""
        number = self.process.pid
        return [int(each) for each in Path(f"/proc/{number}/task/{number}/children").read_text().split()]

    def work(self) -> float:
        """The seconds of a processor that the server and what it started have taken."""
        ticks = 0
        # Of the server those that have ended count too.
        for process, last in [(self.process.pid, 15), *((child, 13) for child in self.children())]:
            parts = Path(f"/proc/{process}/stat").read_text().rsplit(")", 1)[1].split()
            ticks += sum(int(part) for part in parts[11:last])
        return ticks / os.sysconf("SC_CLK_TCK")

    def raw(
        self, method: str, path: str, body: bytes | None = None, headers: dict[str, str] | None = None
    ) -> tuple[int, dict[str, str], bytes]:
        """A request as it is given; status, headers and body of the answer."""
        connection = http.client.HTTPConnection(self.host, timeout=SECONDS)
        try:
            connection.request(method, path, body, headers or {})
            answer = connection.getresponse()
            return answer.status, {key.lower(): value for key, value in answer.getheaders()}, answer.read()
        finally:
            connection.close()

    def post(self, name: str, body: Any, **headers: str) -> tuple[int, Any]:
        """A call as the page makes it."""
        given = {"Content-Type": "application/json", "Origin": f"http://{self.host}", **headers}
        content = body if isinstance(body, bytes) else json.dumps(body).encode()
        status, _, answer = self.raw("POST", f"/{self.token}/api/{name}", content, given)
        return status, json.loads(answer)

    def ask(self, name: str, db: str, query: str, **more: Any) -> Any:
        """A question about these texts."""
        texts = {"db": {"version": 1, "text": db}, "query": {"version": 1, "text": query}}
        if "base" in more:
            texts["base"] = {"version": 1, "text": more.pop("base")}
        body = {"tab": "test", "lane": name, "texts": texts, "from": "0", "to": "1439", **more}
        status, found = self.post(name, body)
        assert status == 200, found
        return found


@contextmanager
def served(folder: Path, *words: str, **more: str) -> Iterator[Served]:
    """A page for the words, which ends with the block."""
    process = subprocess.Popen(
        [str(RUN), "page", *words],
        stdout=subprocess.PIPE,
        stderr=subprocess.PIPE,
        text=True,
        cwd=folder,
        env=environment(**more),
    )
    assert process.stdout is not None and process.stderr is not None
    try:
        link = process.stdout.readline().strip()
        assert link.startswith("http://127.0.0.1:"), process.stderr.read()
        yield Served(link, process)
    finally:
        process.send_signal(signal.SIGINT)
        try:
            process.wait(SECONDS)
        except subprocess.TimeoutExpired:
            process.kill()
            process.wait()
        process.stdout.close()
        process.stderr.close()


@contextmanager
def week_served(folder: Path) -> Iterator[Served]:
    """A page for the example of a week."""
    (folder / "week.lrp").write_text(WEEK)
    (folder / "connections.lrq").write_text(CONNECTIONS)
    with served(folder, "db=week.lrp", "query=connections.lrq") as found:
        found.post("open", {})
        yield found


def of_program(tmp_path: Path, command: str, db: str, query: str, *words: str) -> str:
    """What the program writes for these texts."""
    (tmp_path / "db.lrp").write_text(db)
    (tmp_path / "query.lrq").write_text(query)
    return program(command, f"db={tmp_path / 'db.lrp'}", f"query={tmp_path / 'query.lrq'}", *words)


def wait_for(page: Tab, script: str, wanted: Any = True) -> Any:
    """The value of an expression in the page once it is the wanted one."""
    begin = time.monotonic()
    found = page.value(script)
    while found != wanted:
        assert time.monotonic() - begin < SECONDS, (script, found, page.errors)
        time.sleep(0.03)
        found = page.value(script)
    return found


def drawn(page: Tab) -> None:
    """Waits until what was changed has been drawn, and who looks for what is in view has been told."""
    page.value("new Promise((done) => requestAnimationFrame(() => setTimeout(done))).then(() => 1)")


def ends(process: int) -> None:
    """Waits until there is no such process."""
    begin = time.monotonic()
    while is_running(process):
        assert time.monotonic() - begin < SECONDS
        time.sleep(0.05)


def waiting(folder: Path) -> int:
    """The number of the program that waits, as the file 'wait' says, once it does; the ones after it don't."""
    begin = time.monotonic()
    while not (folder / "waiting").exists():
        assert time.monotonic() - begin < SECONDS
        time.sleep(0.05)
    (folder / "wait").unlink()
    process = int((folder / "waiting").read_text())
    (folder / "waiting").unlink()
    return process


def is_running(process: int) -> bool:
    try:
        os.kill(process, 0)
    except ProcessLookupError:
        return False
    return True


def at_rest(page: Tab) -> None:
    """Waits until all that was changed has its answer."""
    wait_for(page, "fizhedul.isAtRest()")


def open_page(page: Tab, link: str) -> None:
    """Opens a page, and waits for its first answer."""
    page.open(link)
    wait_for(page, f"{SHOWN} > 0")
    at_rest(page)


def editor(kind: str) -> str:
    return f"document.querySelector('#{kind}-editor .CodeMirror').CodeMirror"


def set_text(page: Tab, kind: str, text: str) -> None:
    """A text in place of the editor's, and the answer to it where there is one."""
    page.value(f"{editor(kind)}.setValue({json.dumps(text)})")


def answered(page: Tab, kind: str, text: str) -> None:
    """Sets a text, and waits for its answer."""
    before = page.value(SHOWN)
    set_text(page, kind, text)
    wait_for(page, f"{SHOWN} > {before}")
    at_rest(page)


def typed(page: Tab, text: str) -> None:
    """Types into what has the focus, key by key."""
    for letter in text:
        page.key(letter, letter)


def text_of(page: Tab, selector: str) -> str:
    return str(page.value(f"document.querySelector({json.dumps(selector)}).textContent"))


def rows(page: Tab) -> list[list[str]]:
    """The rows of the table."""
    script = "[...document.querySelectorAll('#answers tbody tr')].map((r) => [...r.cells].map((c) => c.textContent))"
    found: list[list[str]] = page.value(script)
    return found


def click(page: Tab, selector: str) -> None:
    """A click of the pointer in the middle of an element."""
    script = (
        f"(() => {{ const e = document.querySelector({json.dumps(selector)}); e.scrollIntoView({{ block: 'nearest' }});"
        " const b = e.getBoundingClientRect(); return [b.x + b.width / 2, b.y + b.height / 2]; })()"
    )
    x, y = page.value(script)
    for kind in ("mousePressed", "mouseReleased"):
        page.call("Input.dispatchMouseEvent", type=kind, x=x, y=y, button="left", clickCount=1)


def forget(page: Tab) -> None:
    """What was changed is forgotten, so that the next page opens without a question."""
    page.value("['db', 'query'].forEach((kind) => { fizhedul.state.saved[kind] = fizhedul.state.texts[kind]; })")


def press(page: Tab, key: str, code: int, modifiers: int = 0) -> None:
    """A key with the number by which the editor knows it."""
    for kind in ("rawKeyDown", "keyUp"):
        page.call("Input.dispatchKeyEvent", type=kind, key=key, windowsVirtualKeyCode=code, modifiers=modifiers)
