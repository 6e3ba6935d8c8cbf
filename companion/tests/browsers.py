"""Pages in headless Chromium, as the tests of pages see them."""

import base64
import hashlib
import json
import re
import shutil
from collections.abc import Iterator
from pathlib import Path
from typing import Any

import pytest
from selenium import webdriver
from selenium.webdriver.chrome.options import Options
from selenium.webdriver.chrome.service import Service as Driver

from conftest import Hsp

WIDTHS = (1200, 420)
# The contrast of each text with what is behind it (WCAG 2.1, success criterion 1.4.3), least first.
CONTRAST = """
const bright = it => { const [r, g, b] = it.map(v => (v /= 255) <= .04045 ? v / 12.92 : ((v + .055) / 1.055) ** 2.4);
  return .2126 * r + .7152 * g + .0722 * b; };
const parts = it => (it.match(/[\\d.]+/g) || []).map(Number);
const behind = it => { for (; it; it = it.parentElement) { const c = parts(getComputedStyle(it).backgroundColor);
  if (c.length == 3 || c[3] > 0) return c; } return [255, 255, 255]; };
const found = [];
const walk = document.createTreeWalker(document.body, NodeFilter.SHOW_TEXT);
while (walk.nextNode()) {
  const it = walk.currentNode.parentElement, text = walk.currentNode.textContent.trim();
  if (!text || it.closest("script, style, svg, option") || !it.getClientRects().length) continue;
  const [a, b] = [bright(parts(getComputedStyle(it).color)), bright(behind(it))].sort((x, y) => y - x);
  found.push([(a + .05) / (b + .05), text]);
}
return found.sort((a, b) => a[0] - b[0])[0];
"""


def viewed(hsp: Hsp, room: Path, words: dict[str, list[str]]) -> dict[str, Path]:
    """The pages that `hsp view` writes into a folder, each by its words. Names of shortages begin with `short`."""
    for name, given in words.items():
        hsp("view", *given, "-o", str(room / f"{name}.html"), status=3 if name.startswith("short") else 0)
    return {name: room / f"{name}.html" for name in words}


def widened(two: Path, wider: Path) -> Path:
    """A copy of the example of two sites in which a full server has more room."""
    shutil.copytree(two, wider)
    (wider / "capacity.csv").write_text((two / "capacity.csv").read_text().replace("paris,2,1510", "paris,2,1800"))
    return wider


class Page:
    def __init__(self, browser: Any, path: Path, width: int, scheme: str) -> None:
        self.browser, self.path = browser, path
        media = [{"name": "prefers-color-scheme", "value": scheme}]
        browser.execute_cdp_cmd("Emulation.setEmulatedMedia", {"features": media})
        size = {"width": width, "height": 900, "deviceScaleFactor": 1, "mobile": width < 600}
        browser.execute_cdp_cmd("Emulation.setDeviceMetricsOverride", size)
        browser.get_log("browser")
        browser.get_log("performance")
        browser.get(path.as_uri())

    def run(self, script: str) -> Any:
        return self.browser.execute_script(script)

    def text(self) -> str:
        return str(self.run("return document.body.innerText"))

    def requests(self) -> list[str]:
        """The addresses that the page asked for, but its own."""
        events = (json.loads(it["message"])["message"] for it in self.browser.get_log("performance"))
        asked = (it["params"]["request"]["url"] for it in events if it["method"] == "Network.requestWillBeSent")
        return [it for it in asked if it != self.path.as_uri()]

    def shown(self) -> list[list[str]]:
        """The cells of the rows that the table shows."""
        cells = (
            "return [...document.getElementById('rows').tBodies[0].rows].map(r => [...r.cells].map(c => c.textContent))"
        )
        return list(self.run(cells))

    def choose(self, field: str, value: str) -> None:
        self.run(
            f"const it = document.getElementById({field!r}); it.value = {value!r}; "
            "it.dispatchEvent(new Event('input', {bubbles: true}))"
        )


@pytest.fixture(scope="module")
def browser() -> Iterator[Any]:
    options = Options()
    options.binary_location = shutil.which("chromium") or "chromium"
    for word in ("--headless=new", "--no-sandbox", "--disable-gpu"):
        options.add_argument(word)
    options.set_capability("goog:loggingPrefs", {"browser": "ALL", "performance": "ALL"})
    driver = webdriver.Chrome(service=Driver(shutil.which("chromedriver") or "chromedriver"), options=options)
    yield driver
    driver.quit()


def assert_stands(browser: Any, path: Path, width: int, scheme: str) -> Page:
    """A page that logs no fault, asks nothing of a network, is no wider than the window, and can be read."""
    page = Page(browser, path, width, scheme)
    assert browser.get_log("browser") == []
    assert page.requests() == []
    assert page.run("return document.documentElement.scrollWidth") <= width
    contrast, text = page.run(CONTRAST)
    assert contrast >= 4.5, f"{text}: {contrast:.2f}"
    return page


def allowed(kind: str, text: str) -> str:
    """What the policy says of an element of the page, by its text."""
    found = re.findall(rf"<{kind}>(.*?)</{kind}>", text, re.DOTALL)
    assert len(found) == 1
    return f"{kind}-src 'sha256-{base64.b64encode(hashlib.sha256(found[0].encode()).digest()).decode()}'"
