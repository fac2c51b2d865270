"""The first word names the tool; what a tool refuses is one line on standard error, and a status."""

import io
import os
import sys
from collections.abc import Callable, Sequence

from .words import FAILED_WRITE, INTERRUPTED, MISSING, NO_MEMORY, Refused, usage

PACKAGES = {
    "dateutil": "python3-dateutil",
    "distributed": "python3-distributed",
    "icalendar": "python3-icalendar",
    "prompt_toolkit": "python3-prompt-toolkit",
    "pygments": "python3-pygments",
    "starlette": "python3-starlette",
    "uvicorn": "python3-uvicorn",
}


def shell(words: Sequence[str]) -> None:
    from .shell.tool import shell_tool

    shell_tool(words)


def draw(words: Sequence[str]) -> None:
    from .draw.tool import draw_tool

    draw_tool(words)


def imports(words: Sequence[str]) -> None:
    from .imports.tool import import_tool

    import_tool(words)


def exports(words: Sequence[str]) -> None:
    from .imports.tool import export_tool

    export_tool(words)


def page(words: Sequence[str]) -> None:
    from .page.tool import page_tool

    page_tool(words)


def spread(words: Sequence[str]) -> None:
    from .spread.tool import spread_tool

    spread_tool(words)


TOOLS: dict[str, Callable[[Sequence[str]], None]] = {
    "shell": shell,
    "draw": draw,
    "page": page,
    "import": imports,
    "export": exports,
    "spread": spread,
}


def main(words: Sequence[str]) -> int:
    """Runs one tool, and gives the status."""
    for stream in (sys.stdin, sys.stdout, sys.stderr):
        if isinstance(stream, io.TextIOWrapper):
            stream.reconfigure(encoding="utf-8", errors="replace")
    try:
        if not words or words[0] not in TOOLS:
            raise usage(f"the first word is one of {', '.join(TOOLS)}")
        TOOLS[words[0]](words[1:])
    except Refused as refused:
        print(f"refused: {refused.reason}", file=sys.stderr)
        print(refused.explained, end="", file=sys.stderr)
        return refused.status
    except ModuleNotFoundError as fault:
        package = PACKAGES.get((fault.name or "").split(".")[0])
        if package is None:
            raise
        print(
            f"refused: the Debian package {package} is missing (apt-get install {package})",
            file=sys.stderr,
        )
        return MISSING
    except BrokenPipeError:
        os.dup2(os.open(os.devnull, os.O_WRONLY), sys.stdout.fileno())
        return FAILED_WRITE
    except OSError as fault:
        print(f"refused: the output could not be written: {fault.strerror}", file=sys.stderr)
        return FAILED_WRITE
    except MemoryError:
        print("refused: memory", file=sys.stderr)
        return NO_MEMORY
    except KeyboardInterrupt:
        return INTERRUPTED
    return 0


if __name__ == "__main__":
    sys.exit(main(sys.argv[1:]))
