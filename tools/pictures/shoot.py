#!/usr/bin/python3
"""Writes the pages of the examples, and the picture of one that the guide shows.

    tools/pictures/shoot.py            writes examples/two-sites/plan.html, examples/twelve-sites/plan.html and
                                   docs/pictures/page.png
    tools/pictures/shoot.py --check    fails where the pages differ from what hsp writes, or the picture is too large

The picture takes Chromium, its driver, and Python's selenium and PIL (Debian: chromium chromium-driver
python3-selenium python3-pil). Only the pages are compared, since fonts differ between machines.
"""

import argparse
import io
import os
import subprocess
import sys
import tempfile
from pathlib import Path

sys.path.insert(0, str(Path(__file__).resolve().parents[1]))

from lib import examples, programs


TOP = Path(programs.TOP)
PICTURE = TOP / "docs" / "pictures" / "page.png"
WIDTH, HEIGHT, COLOURS, LARGEST = 1200, 1000, 64, 120_000
# The time of the pages of the examples: 27 November 2026, 09:00 UTC.
TIME = "1795770000"
PAGES = {"two-sites": ["--unit", "ms"], "twelve-sites": ["--title", "twelve-sites"]}


def page_of(name: str, folder: Path) -> str:
    source = TOP / "examples" / name
    if name == "twelve-sites":
        source = folder / name
        source.mkdir()
        examples.write(str(source), examples.twelve_sites())
    environment = {
        **os.environ,
        **programs.variables(),
        "PYTHONPATH": str(TOP / "companion"),
        "SOURCE_DATE_EPOCH": TIME,
    }
    out = folder / f"{name}.html"
    words = [sys.executable, "-m", "hsp", "view", str(source), "-o", str(out), *PAGES[name]]
    subprocess.run(words, check=True, env=environment, stdout=subprocess.DEVNULL)
    return out.read_text(encoding="utf-8")


def shot(page: Path) -> bytes:
    """The head of a page as a browser shows it."""
    from selenium import webdriver
    from selenium.webdriver.chrome.options import Options

    options = Options()
    for word in ("--headless=new", "--no-sandbox", "--disable-gpu", "--hide-scrollbars"):
        options.add_argument(word)  # type: ignore[no-untyped-call]
    browser = webdriver.Chrome(options=options)
    try:
        size = {"width": WIDTH, "height": HEIGHT, "deviceScaleFactor": 1, "mobile": False}
        browser.execute_cdp_cmd("Emulation.setDeviceMetricsOverride", size)
        browser.get(page.as_uri())
        return bytes(browser.get_screenshot_as_png())
    finally:
        browser.quit()


def small(picture: bytes) -> bytes:
    """The picture in few colours."""
    from PIL import Image

    room = io.BytesIO()
    Image.open(io.BytesIO(picture)).convert("RGB").quantize(COLOURS).save(room, "PNG", optimize=True)
    return room.getvalue()


def main() -> int:
    arguments = argparse.ArgumentParser(description="Writes the pages of the examples, and a picture of one.")
    arguments.add_argument("--check", action="store_true", help="compare, and write nothing")
    check = arguments.parse_args().check
    faults = []
    with tempfile.TemporaryDirectory() as room:
        for name in PAGES:
            target, text = TOP / "examples" / name / "plan.html", page_of(name, Path(room))
            if not check:
                target.write_text(text, encoding="utf-8")
            elif not target.exists() or target.read_text(encoding="utf-8") != text:
                faults.append(f"{target.relative_to(TOP)} is not what hsp writes: run tools/pictures/shoot.py")
    if not check:
        PICTURE.write_bytes(small(shot(TOP / "examples" / "two-sites" / "plan.html")))
    if not PICTURE.exists() or PICTURE.stat().st_size > LARGEST:
        faults.append(f"{PICTURE.relative_to(TOP)} is absent, or larger than {LARGEST:,} octets")
    print("\n".join(faults + [f"pages: {len(PAGES)}, {len(faults)} faults"]))
    return 1 if faults else 0


if __name__ == "__main__":
    programs.ended(main)
