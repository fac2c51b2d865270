"""The program with a library of our own before the C library's calls."""

import os
import subprocess

from common import HERE, WAIT


def library_of(name, folder):
    """The library that is written in NAME.c, made in the folder; none where there is no C compiler."""
    made = os.path.join(folder, name + ".so")
    words = ["cc", "-O1", "-shared", "-fPIC", "-o", made, os.path.join(HERE, name + ".c"), "-ldl"]
    try:
        subprocess.run(words, check=True, capture_output=True)
    except (OSError, subprocess.CalledProcessError):
        return None
    return made


def run_with(library, program, words, tell, keys):
    """The status and the output, and whether the library wrote to the pipe that the variable `tell` names: that it let
    something fail."""
    told, end = os.pipe()
    env = {"LD_PRELOAD": library, tell: str(end), **{key: str(value) for key, value in keys.items()}}
    ran = subprocess.run(
        [program.path, *words],
        cwd=program.folder,
        env=env,
        pass_fds=[end],
        stdin=subprocess.DEVNULL,
        capture_output=True,
        timeout=WAIT,
    )
    os.close(end)
    has_told = os.read(told, 1) != b""
    os.close(told)
    return (ran.returncode, ran.stdout + ran.stderr), has_told
