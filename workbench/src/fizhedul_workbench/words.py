"""The words of a tool, and how a tool refuses."""

from collections.abc import Iterable, Mapping

USAGE = 2
BAD_INPUT = 3
FAILED_READ = 6
FAILED_WRITE = 7
NO_MEMORY = 8
MISSING = 1
INTERRUPTED = 130


class Refused(Exception):
    """What a tool will not do: one sentence, the status with which the tool ends, and what explains it to a reader."""

    def __init__(self, reason: str, status: int = BAD_INPUT, explained: str = "") -> None:
        super().__init__(reason)
        self.reason = reason
        self.status = status
        self.explained = explained


def refused_at(file: str, line: int, reason: str) -> Refused:
    """A fault of a file that was read, with its line."""
    return Refused(f"{file}:{line}: {reason}")


def usage(reason: str) -> Refused:
    return Refused(f"usage: {reason}", USAGE)


def keyed(words: Iterable[str], keys: Iterable[str], required: Iterable[str] = ()) -> dict[str, str]:
    """The words `key=value` by their keys, each of which is one of `keys` and stands at most once."""
    allowed = set(keys)
    found: dict[str, str] = {}
    for word in words:
        key, equals, value = word.partition("=")
        if not equals:
            raise usage(f"'{word}' is no word of the form key=value")
        if key not in allowed:
            raise usage(f"there is no key '{key}' here; there are {', '.join(sorted(allowed))}")
        if key in found:
            raise usage(f"the key '{key}' stands twice")
        if not value:
            raise usage(f"the key '{key}' has no value")
        found[key] = value
    for key in required:
        if key not in found:
            raise usage(f"the key '{key}' is missing")
    return found


def whole(found: Mapping[str, str], key: str, default: int, least: int, most: int) -> int:
    """The whole number of a key, from `least` to `most`."""
    text = found.get(key)
    if text is None:
        return default
    digits = text[1:] if text.startswith("-") else text
    if not (digits.isascii() and digits.isdigit()) or (len(digits) > 1 and digits[0] == "0"):
        raise usage(f"{key}={text} is no whole number")
    number = int(text)
    if not least <= number <= most:
        raise usage(f"{key}={text} is not from {least} to {most}")
    return number


def choice(found: Mapping[str, str], key: str, default: str, choices: Iterable[str]) -> str:
    """The value of a key, one of a few."""
    allowed = list(choices)
    value = found.get(key, default)
    if value not in allowed:
        raise usage(f"{key}={value} is none of {', '.join(allowed)}")
    return value


def is_guarded(found: Mapping[str, str]) -> bool:
    """Whether a query is planned under guards, as it is where no key says otherwise."""
    return choice(found, "plan", "guarded", ["guarded", "written"]) == "guarded"


def several(found: Mapping[str, str], key: str) -> list[str]:
    """The values of a key, with commas between them."""
    value = found.get(key)
    return value.split(",") if value else []
