"""The record of a proof: which sources were proved, with which verdicts, and the sum of the program that was made of them.

It lies beside the program, in crates/lrp_main/out/proof. `verdict` has the sum of the program, that of the file `sources`,
the toolchain, and the line with which the prover ended for each crate; `sources` has the sums of all sources, as 'sha256sum
-c' reads them. A program of another sum than the one noted there has no record.
"""

import glob
import hashlib
import os
import shutil

from crates import MAIN, TOP, bytes_of

FOLDER = f"{TOP}/crates/{MAIN}/out/proof"


def sum_of(data):
    return hashlib.sha256(data).hexdigest()


def sums_of_sources(crates):
    """The sum of each source, with its path in the repository, in the order of the paths."""
    files = [file for name in crates.uses for file in crates.sources(name)]
    files += [file for name in ("crates.txt", "HANDLES") for file in glob.glob(f"{TOP}/{name}")]
    return "".join(f"{sum_of(bytes_of(file))}  {os.path.relpath(file, TOP)}\n" for file in sorted(files))


def verdict_in(log):
    """The last verdict among the lines of a prover."""
    lines = [line for line in log.decode(errors="replace").splitlines() if line.startswith("logic=")]
    return lines[-1] if lines else None


def forget():
    """Takes the record away."""
    shutil.rmtree(FOLDER, ignore_errors=True)


def write(sources, program, toolchain, verdicts):
    """Writes the record of a program that was made of these sources; for each crate its verdict is given."""
    lines = [f"program {sum_of(bytes_of(program))}", f"sources {sum_of(sources.encode())}", f"toolchain {toolchain}"]
    lines += [f"{name} {verdicts[name]}" for name in sorted(verdicts)]
    forget()
    os.makedirs(FOLDER)
    for name, text in (("sources", sources), ("verdict", "\n".join([*lines, ""]))):
        with open(f"{FOLDER}/{name}", "w", encoding="utf-8") as file:
            file.write(text)
