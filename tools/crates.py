"""The crates that the program stands on, by crates.txt."""

import hashlib
import os

TOP = os.path.dirname(os.path.dirname(os.path.realpath(__file__)))
MAIN = "lrp_main"


def bytes_of(file):
    with open(file, "rb") as it:
        return it.read()


class Crates:
    """The crates that the program stands on, and itself."""

    def __init__(self):
        self.uses = self.needed(self.listed())

    def listed(self):
        """Each crate of the repository with all libraries that it uses."""
        found = {}
        with open(f"{TOP}/crates.txt", encoding="utf-8") as file:
            for line in file:
                name, _, below = line.partition("#")[0].partition(":")
                if name.strip():
                    found[name.split()[0]] = below.split()
        return found

    def needed(self, listed):
        found, left = {}, [MAIN]
        while left:
            name = left.pop()
            if name not in found:
                found[name] = listed[name]
                left += [below for below in listed[name] if below in listed]
        return found

    def own(self, name):
        """The crates of the repository that a crate uses."""
        return [it for it in self.uses[name] if it in self.uses]

    def of_kit(self, name):
        """The toolchain's libraries that a crate uses."""
        return ["std", *(it for it in self.uses[name] if it not in self.uses)]

    def below(self, name):
        """All crates of the repository that a crate stands on."""
        found = set()
        for it in self.own(name):
            found |= {it} | self.below(it)
        return found

    def sources(self, name):
        for part in ("src", "specs", "proofs"):
            for folder, folders, files in os.walk(f"{TOP}/crates/{name}/{part}"):
                folders.sort()
                yield from (f"{folder}/{file}" for file in sorted(files) if file.endswith((".rt", ".antt")))

    def lines(self):
        """The lines of code of each crate."""
        code = {name: [file for file in self.sources(name) if file.endswith(".rt")] for name in self.uses}
        return {name: sum(bytes_of(file).count(b"\n") for file in files) for name, files in code.items()}

    def ranks(self, lines):
        """For each crate the lines of code on the longest chain of crates from it up to the program."""
        found = {}

        def rank(name):
            if name not in found:
                found[name] = lines[name] + max([rank(above) for above in self.uses if name in self.uses[above]], default=0)
            return found[name]

        return {name: rank(name) for name in self.uses}

    def key(self, name, toolchain, libraries):
        """A sum of all that a crate's library is made from, once those below it are built; of these the sums are given."""
        texts = [(os.path.relpath(file, TOP), bytes_of(file)) for file in self.sources(name)]
        below = [(it, libraries(it)) for it in sorted(self.below(name))]
        return hashlib.sha256(repr((toolchain, self.uses[name], below, texts)).encode()).hexdigest()

    def is_newer(self, time_built):
        """Whether a source is newer than what was built at that time."""
        return any(os.stat(file).st_mtime > time_built for name in self.uses for file in self.sources(name) if file.endswith(".rt"))
