"""The page's own files, and the editor's from Debian's package; they are read once."""

import json
from dataclasses import dataclass
from pathlib import Path

from ..draw.page import asset
from ..words import MISSING, Refused

OWN = Path(__file__).parent / "site"
EDITOR = Path("/usr/share/javascript/codemirror")
# The parts of the editor that the page uses, and its own sheets, each as one file.
SCRIPTS = ["lib/codemirror", "addon/hint/show-hint", "addon/edit/matchbrackets", "addon/edit/closebrackets"]
SCRIPTS += ["addon/search/searchcursor", "addon/dialog/dialog", "addon/search/search"]
SHEETS = ["lib/codemirror", "addon/hint/show-hint", "addon/dialog/dialog"]
OWN_SHEETS = ["page.css", "editors.css"]
GRAMMAR = Path(__file__).resolve().parents[4] / "editors/vscode/syntaxes/fizhedul.tmLanguage.json"
KINDS = {".js": "text/javascript", ".css": "text/css", ".json": "application/json"}


@dataclass(frozen=True)
class Asset:
    """A file of the page, and what it is."""

    data: bytes
    kind: str


def assets() -> dict[str, Asset]:
    """All that the page loads, by names without folders."""
    found = {entry.name: entry.read_bytes() for entry in OWN.iterdir() if Path(entry.name).suffix == ".js"}
    found["editor.js"] = b"\n".join(editor_file(f"{name}.js") for name in SCRIPTS)
    sheets = [editor_file(f"{name}.css") for name in SHEETS]
    sheets.append(asset("picture.css").encode())
    found["style.css"] = b"\n".join([*sheets, *((OWN / name).read_bytes() for name in OWN_SHEETS)])
    found["grammar.json"] = json.dumps(json.loads(GRAMMAR.read_bytes())).encode()
    return {name: Asset(data, KINDS[Path(name).suffix]) for name, data in found.items()}


def editor_file(path: str) -> bytes:
    try:
        return (EDITOR / path).read_bytes()
    except FileNotFoundError:
        raise Refused(
            "the Debian package libjs-codemirror is missing (apt-get install libjs-codemirror)", MISSING
        ) from None


def main_page() -> bytes:
    """The page, which names its modules, so that a browser loads them all at once."""
    names = sorted(entry.name for entry in OWN.iterdir() if entry.name.endswith(".js"))
    links = "\n".join(f'<link rel="modulepreload" href="site/{name}">' for name in names)
    return (OWN / "page.html").read_bytes().replace(b"<!-- modules -->", links.encode())
