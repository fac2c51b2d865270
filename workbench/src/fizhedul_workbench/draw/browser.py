"""A browser without a window, which turns pages into images."""

import os
import shutil
import subprocess
import tempfile
from pathlib import Path

from ..words import MISSING, Refused
from .png import cut

BROWSERS = ["chromium", "chromium-browser", "google-chrome", "google-chrome-stable"]
SECONDS = 180
# What a window has beside its page, and more: an image is of the window, and below the page it is blank.
FRAME = 300


def browser() -> str | None:
    """The browser that the variable FIZHEDUL_BROWSER names, else the first that is installed."""
    named = os.environ.get("FIZHEDUL_BROWSER")
    found = [shutil.which(each) for each in ([named] if named else BROWSERS)]
    return next((each for each in found if each), None)


def browser_words(folder: str) -> list[str]:
    """The words of a run with a profile of its own; only root needs to go without the sandbox."""
    found = browser()
    if found is None:
        raise Refused("the Debian package chromium is missing (apt-get install chromium)", MISSING)
    words = [found, "--headless=new", "--disable-gpu", "--hide-scrollbars", "--mute-audio", "--no-first-run"]
    words += ["--disable-dev-shm-usage", f"--user-data-dir={folder}/profile"]
    return words + (["--no-sandbox"] if os.geteuid() == 0 else [])


def image_of(svg: str, width: int, height: int) -> bytes:
    """The image, in PNG, of a picture."""
    with tempfile.TemporaryDirectory(prefix="fizhedul-") as folder:
        page, image = Path(folder) / "picture.html", Path(folder) / "picture.png"
        body = f'<!DOCTYPE html><meta charset="utf-8"><body style="margin:0">{svg}</body>'
        page.write_text(body, encoding="utf-8")
        words = browser_words(folder)
        words += [f"--window-size={width},{height + FRAME}", f"--screenshot={image}", page.as_uri()]
        try:
            done = subprocess.run(words, capture_output=True, timeout=SECONDS, stdin=subprocess.DEVNULL)
        except subprocess.TimeoutExpired as fault:
            raise Refused(f"the browser gave no image within {SECONDS} seconds", MISSING) from fault
        if done.returncode or not image.exists():
            raise Refused("the browser gave no image", MISSING)
        return cut(image.read_bytes(), height)
