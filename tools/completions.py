"""Completions for bash, zsh and fish, made from the tables of keys and the pages of help."""

import re

from table import SHARE, Key

TOPICS = ["language", "page", "refusals", "spread", "workbench"]
TOOLS = {"shell": "a prompt over one database", "draw": "a picture of a window", "page": "a page to work on, in a browser",
         "import": "a database from other data", "export": "a window as a table",
         "spread": "many questions or windows on many machines"}


def help_of_commands() -> dict[str, str]:
    """What the overview says of each command."""
    overview = (SHARE / "help/overview.txt").read_text()
    return dict(re.findall(r"^  ([a-z]+) +[a-z]+=\S+(?: \S+=\S+)*  +(\S.*)$", overview, re.MULTILINE)) | TOOLS


def help_of_keys(command: str) -> dict[str, str]:
    """What the page of a command says of each key, on its first line."""
    found: dict[str, str] = {}
    if command in TOOLS:
        return found
    page = (SHARE / f"help/{command}.txt").read_text()
    for keys, said in re.findall(r"^  ([a-z]+=\S+(?: [a-z]+=\S+)*)  +(\S.*)$", page, re.MULTILINE):
        for key in re.findall(r"([a-z]+)=", keys):
            found.setdefault(key, re.split(r"[:;(]", said)[0].strip())
    return found


def topics(table: dict[str, dict[str, Key]]) -> list[str]:
    """The topics of help."""
    return [*(command for command in table if command not in TOOLS), *TOPICS]


def each_key(table: dict[str, dict[str, Key]], kind: str) -> dict[str, Key]:
    """The keys of all commands whose value is of this kind; a key means the same for each of its commands."""
    return {key.name: key for keys in table.values() for key in keys.values() if key.kind == kind}


def bash(table: dict[str, dict[str, Key]]) -> str:
    """The completion of bash."""
    keys = "\n".join(f"        {command}) keys='{' '.join(table[command])}' ;;" for command in table)
    files = "\n".join(f"        {name}) endings='{key.of[0]}' ;;" for name, key in each_key(table, "file").items())
    values = "\n".join(f"        {name}) values='{' '.join(key.of)}' ;;" for name, key in each_key(table, "one").items())
    text = (SHARE / "completions/bash.in").read_text()
    return fill(text, {"COMMANDS": " ".join(help_of_commands()), "TOPICS": " ".join(topics(table)), "KEYS": keys,
                       "FILES": files, "VALUES": values})


def zsh(table: dict[str, dict[str, Key]]) -> str:
    """The completion of zsh."""
    said = help_of_commands()
    commands = "\n".join(f"        '{command}:{quote(said[command])}'" for command in said)
    keys = ""
    for command, its_keys in table.items():
        of_keys = help_of_keys(command)
        entries = " ".join(f"'{name}:{quote(of_keys.get(name, ''))}'" for name in its_keys)
        keys += f"        {command}) keys=({entries}) ;;\n"
    files = "\n".join(f"        {name}) _path_files -/ -g '*.{key.of[0]}' ;;" for name, key in each_key(table, "file").items())
    values = "\n".join(f"        {name}) compadd -- {' '.join(key.of)} ;;" for name, key in each_key(table, "one").items())
    text = (SHARE / "completions/zsh.in").read_text()
    return fill(text, {"COMMANDS": commands, "TOPICS": " ".join(topics(table)), "KEYS": keys.rstrip("\n"),
                       "FILES": files, "VALUES": values})


def fish(table: dict[str, dict[str, Key]]) -> str:
    """The completion of fish."""
    lines = [f"complete -c fizhedul -f -n __fizhedul_at_command -a {command} -d '{quote(said)}'"
             for command, said in help_of_commands().items()]
    lines.append(f"complete -c fizhedul -f -n '__fizhedul_at help' -a '{' '.join(topics(table))}'")
    for command, keys in table.items():
        of_keys = help_of_keys(command)
        for name, key in keys.items():
            lines.append(f"complete -c fizhedul -f -n '__fizhedul_wants_key {command} {name}' -a '{name}=' "
                         f"-d '{quote(of_keys.get(name, ''))}'")
            value = {"file": f"(__fizhedul_files {name} .{''.join(key.of[:1])})",
                     "one": " ".join(f"{name}={word}" for word in key.of)}.get(key.kind)
            if value:
                lines.append(f"complete -c fizhedul -f -n '__fizhedul_at {command} {name}' -a '{value}'")
    return fill((SHARE / "completions/fish.in").read_text(), {"LINES": "\n".join(lines)})


def quote(text: str) -> str:
    """Text between single quotes of a shell; a colon would end a description of zsh."""
    return text.replace("'", "").replace(":", " -")


def fill(text: str, parts: dict[str, str]) -> str:
    """A text with each @NAME@ replaced."""
    for name, part in parts.items():
        text = text.replace(f"@{name}@", part)
    return text
