"""The server of the page: who may ask, what is refused, and that nothing is changed by what is refused."""

import json
import os
import socket
import stat
import subprocess
from collections.abc import Iterator
from pathlib import Path

import pytest
from pages import Served, served
from tools import RUN, TIME, environment, tool

DB = "relation bus(t: time) {\n  (5+60n);\n}\n"
QUERY = "{ t: time | bus(t) }\n"


@pytest.fixture(scope="module")
def folder(tmp_path_factory: pytest.TempPathFactory) -> Path:
    found = tmp_path_factory.mktemp("served")
    (found / "bus.lrp").write_text(DB)
    (found / "all.lrq").write_text(QUERY)
    (found / "other.lrp").write_text("relation other() { }")
    return found


@pytest.fixture(scope="module")
def page(folder: Path) -> Iterator[Served]:
    with served(folder, "db=bus.lrp", "query=all.lrq") as found:
        yield found


def is_unchanged(folder: Path) -> bool:
    names = {each.name for each in folder.iterdir()}
    texts = [(folder / name).read_text() for name in ("bus.lrp", "all.lrq", "other.lrp")]
    return names == {"bus.lrp", "all.lrq", "other.lrp"} and texts == [DB, QUERY, "relation other() { }"]


def saving(page: Served, **more: object) -> dict[str, object]:
    """What a page sends to save the database."""
    _, found = page.post("open", {})
    return {"which": "db", "text": "changed", "digest": found["db"]["digest"], **more}


def test_the_page_and_its_parts_are_served(page: Served) -> None:
    status, headers, body = page.raw("GET", f"/{page.token}/")
    assert status == 200 and b'<script src="site/main.js" type="module">' in body
    policy = headers["content-security-policy"]
    assert "default-src 'none'" in policy and "'unsafe-inline'" not in policy and "script-src 'self'" in policy
    assert headers["referrer-policy"] == "no-referrer" and headers["x-content-type-options"] == "nosniff"
    for name in ("style.css", "editor.js", "main.js", "grammar.json"):
        assert page.raw("GET", f"/{page.token}/site/{name}")[0] == 200
    assert b"style=" not in body and b"onclick" not in body and b"http://" not in body


def test_it_listens_on_this_machine_alone(page: Served) -> None:
    port = int(page.host.split(":")[1])
    lines = Path("/proc/net/tcp").read_text().splitlines()[1:]
    local = [line.split()[1] for line in lines if line.split()[3] == "0A" and line.split()[1].endswith(f":{port:04X}")]
    assert local == [f"0100007F:{port:04X}"]
    v6 = Path("/proc/net/tcp6")
    assert not v6.exists() or f":{port:04X} 0000" not in v6.read_text()


@pytest.mark.parametrize("token", ["", "wrong", "%2e%2e", "x" * 32])
def test_a_wrong_token_is_refused(page: Served, folder: Path, token: str) -> None:
    headers = {"Content-Type": "application/json", "Origin": f"http://{page.host}"}
    for method, path in (("GET", f"/{token}/"), ("GET", f"/{token}/site/main.js"), ("POST", f"/{token}/api/save")):
        body = json.dumps(saving(page)).encode() if method == "POST" else None
        assert page.raw(method, path, body, headers)[0] == 403, path
    assert page.raw("GET", "/")[0] == 403 and page.raw("GET", f"/{page.token}")[0] == 403
    assert is_unchanged(folder)


@pytest.mark.parametrize("origin", ["http://example.org", "null", "http://127.0.0.1:1", "https://127.0.0.1", ""])
def test_another_origin_is_refused(page: Served, folder: Path, origin: str) -> None:
    status, found = page.post("save", saving(page), Origin=origin)
    assert (status, found) == (403, {"refused": "the origin is another one"})
    assert page.raw("GET", f"/{page.token}/", headers={"Origin": origin})[0] == 403
    assert is_unchanged(folder)


def test_a_call_without_an_origin_is_refused(page: Served, folder: Path) -> None:
    headers = {"Content-Type": "application/json"}
    body = json.dumps(saving(page)).encode()
    assert page.raw("POST", f"/{page.token}/api/save", body, headers)[0] == 403
    assert is_unchanged(folder)


def test_another_host_and_another_page_are_refused(page: Served) -> None:
    port = page.host.split(":")[1]
    for host in ("example.org", f"example.org:{port}", "127.0.0.1", "127.0.0.1:1", ""):
        assert page.raw("GET", f"/{page.token}/", headers={"Host": host})[0] == 403, host
    assert page.raw("GET", f"/{page.token}/", headers={"Host": f"localhost:{port}"})[0] == 200
    assert page.raw("GET", f"/{page.token}/", headers={"Sec-Fetch-Site": "cross-site"})[0] == 403


@pytest.mark.parametrize(
    "path",
    ["site/../../bus.lrp", "site/..%2f..%2fbus.lrp", "site/%2e%2e/tool.py", "../bus.lrp", "bus.lrp", "site//etc/passwd"]
    + ["site/page.html", "site/tool.py", "site/%ff%fe.js", "api/open/..", "site/"],
)
def test_a_path_outside_is_refused(page: Served, path: str) -> None:
    status, _, body = page.raw("GET", f"/{page.token}/{path}")
    assert status in (404, 405) and b"relation" not in body and b"import" not in body and b"root:" not in body


@pytest.mark.parametrize("which", ["other", "../other.lrp", "/etc/passwd", "edits", "\ud800", 5, None])
def test_no_other_file_is_written(page: Served, folder: Path, which: object) -> None:
    status, found = page.post("save", saving(page, which=which, forced=True))
    assert status == 400 and "refused" in found
    assert is_unchanged(folder)


def test_a_body_of_100_megabytes_is_refused(page: Served, folder: Path) -> None:
    port = int(page.host.split(":")[1])
    head = f"POST /{page.token}/api/save HTTP/1.1\r\nHost: {page.host}\r\nOrigin: http://{page.host}\r\n"
    head += "Content-Type: application/json\r\n"
    for length in ("Content-Length: 100000000\r\n", "Transfer-Encoding: chunked\r\n"):
        with socket.create_connection(("127.0.0.1", port), timeout=TIME) as connection:
            connection.sendall((head + length + "\r\n").encode())
            answer = connection.recv(1 << 16)
        assert answer.split()[1] in (b"413", b"411"), answer
    assert is_unchanged(folder) and page.post("open", {})[0] == 200


@pytest.mark.parametrize(
    "body", [b"", b"{", b'{"which": "\xff"}', b"\xff\xfe", b"[" * 100_000, b"NaN x", b"5", b"null"]
)
def test_what_is_no_request_is_refused(page: Served, folder: Path, body: bytes) -> None:
    for name in ("save", "look", "why", "stop", "share"):
        status, found = page.post(name, body)
        assert status == 400 and "refused" in found, name
    assert is_unchanged(folder)


def test_a_body_that_is_no_json_is_refused(page: Served) -> None:
    assert page.post("open", b"{}", **{"Content-Type": "text/plain"})[0] == 415
    assert page.raw("DELETE", f"/{page.token}/")[0] == 405


def test_odd_requests_are_refused(page: Served) -> None:
    good = {"version": 1, "text": QUERY}
    texts = {"db": {"version": 1, "text": DB}, "query": good}
    base = {"tab": "odd", "lane": "look", "texts": texts, "from": "0", "to": "9"}
    for more in (
        {"tab": ""},
        {"tab": "x" * 65},
        {"texts": {"other": good}},
        {"texts": {**texts, "query": {"version": "1"}}},
        {"texts": {**texts, "query": {"version": 1, "text": 5}}},
        {"from": "0; rm", "to": "9"},
        {"from": 0},
        {"cap": 0},
        {"cap": "1"},
        {"limit": 10**9},
        {"width": True},
    ):
        status, found = page.post("look", {**base, **more})
        assert status == 400 and found["refused"], more
    assert page.post("look", {**base, "texts": {"db": {"version": 7}, "query": {"version": 7}}}) == (
        409,
        {"missing": ["db", "query"]},
    )
    status, found = page.post("look", {**base, "texts": {**texts, "query": {"version": 2, "text": "\ud800"}}})
    assert status == 400 and "refused" in found


def test_saving_is_whole_or_not_at_all(tmp_path: Path) -> None:
    (tmp_path / "bus.lrp").write_text(DB)
    with served(tmp_path, "db=bus.lrp", "query=new.lrq") as page:
        _, found = page.post("open", {})
        assert found["query"] == {"name": "new.lrq", "text": "", "digest": found["query"]["digest"]}
        status, saved = page.post("save", {"which": "query", "text": QUERY, "digest": found["query"]["digest"]})
        assert status == 200 and (tmp_path / "new.lrq").read_text() == QUERY
        again = {"which": "query", "text": "{ | 0 = 0 }", "digest": saved["digest"]}
        assert page.post("save", again)[0] == 200 and (tmp_path / "new.lrq").read_text() == "{ | 0 = 0 }"
        assert page.post("save", again) == (409, {"changed": True})
        (tmp_path / "bus.lrp").write_text(DB + "# by somebody else\n")
        change = {"which": "db", "text": "mine", "digest": found["db"]["digest"]}
        assert page.post("save", change) == (409, {"changed": True})
        assert (tmp_path / "bus.lrp").read_text() == DB + "# by somebody else\n"
        assert page.post("save", {**change, "forced": True})[0] == 200
        assert (tmp_path / "bus.lrp").read_text() == "mine"
        status, refused = page.post("save", {**change, "text": "x" * 16_777_217, "forced": True})
        assert "16777216" in refused["fault"]["line"] and (tmp_path / "bus.lrp").read_text() == "mine"
        assert sorted(each.name for each in tmp_path.iterdir()) == ["bus.lrp", "new.lrq"]


def test_a_file_that_cannot_be_written_is_told(tmp_path: Path) -> None:
    (tmp_path / "bus.lrp").write_text(DB)
    with served(tmp_path, "db=bus.lrp", "query=gone/new.lrq") as page:
        _, found = page.post("open", {})
        status, refused = page.post("save", {"which": "query", "text": QUERY, "digest": found["query"]["digest"]})
        assert status == 200 and refused["fault"]["line"].startswith("refused: ")
        assert "No such file or directory" in refused["fault"]["line"]


def test_texts_lie_in_a_private_folder_that_goes(tmp_path: Path) -> None:
    (tmp_path / "bus.lrp").write_text(DB)
    folder = tmp_path / "temporary"
    folder.mkdir()
    with served(tmp_path, "db=bus.lrp", TMPDIR=str(folder)) as page:
        page.ask("look", DB, QUERY)
        (private,) = folder.iterdir()
        assert stat.S_IMODE(private.stat().st_mode) == 0o700 and len(list(private.iterdir())) == 2
    assert list(folder.iterdir()) == []


def test_names_that_are_no_utf8_and_missing_files_are_refused(tmp_path: Path) -> None:
    (tmp_path / "bus.lrp").write_text(DB)
    odd = os.fsencode(tmp_path) + b"/odd\xff.lrp"
    with open(odd, "w") as file:
        file.write(DB)
    for words in ([b"db=" + odd], [b"db=bus.lrp", b"query=" + odd]):
        done = subprocess.run(
            [str(RUN), "page", *words], capture_output=True, cwd=tmp_path, env=environment(), timeout=TIME
        )
        assert (
            done.returncode == 6 and done.stdout == b"" and b"odd\xef\xbf\xbd.lrp: the name isn't UTF-8" in done.stderr
        )
    (tmp_path / "latin.lrp").write_bytes(b'relation r(d: data) { ("\xe9"); }')
    for word, status, reason in (
        ("db=none.lrp", 6, "none.lrp: No such file or directory"),
        ("db=latin.lrp", 3, "latin.lrp: the text isn't UTF-8"),
        ("db=bus.lrp port=x", 2, "usage: port=x is no whole number"),
        ("query=bus.lrp", 2, "usage: the key 'db' is missing"),
        ("db=bus.lrp civil=yes hour=1", 2, "usage: with civil=yes an hour has 60 steps of time"),
        ("db=bus.lrp from=1.5", 2, "usage: from=1.5 is no whole number"),
    ):
        done = tool("page", *word.split(), folder=tmp_path)
        assert (done.returncode, done.stdout, done.stderr) == (status, "", f"refused: {reason}\n")
    assert sorted(each.name for each in tmp_path.iterdir() if b"\xff" not in os.fsencode(each)) == [
        "bus.lrp",
        "latin.lrp",
    ]


def test_a_port_that_is_taken_is_told(tmp_path: Path, page: Served) -> None:
    (tmp_path / "bus.lrp").write_text(DB)
    port = page.host.split(":")[1]
    done = tool("page", "db=bus.lrp", f"port={port}", folder=tmp_path)
    assert (done.returncode, done.stderr) == (7, f"refused: port {port}: Address already in use\n")
