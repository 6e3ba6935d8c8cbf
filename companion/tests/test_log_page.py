"""hsp view of a demand that no table holds, in headless Chromium."""

import json
import re
import shlex
import shutil
from collections import Counter
from pathlib import Path
from typing import Any
from urllib.parse import unquote

import pytest

from hsp.base.programs import Programs
from hsp.plans.plans import planned
from hsp.plans.service import read_service

from browsers import WIDTHS, Page, allowed, assert_stands, browser, viewed, widened
from conftest import TOP, Hsp
from services import table_of

__all__ = ["browser"]
NAMES = ("log", "short", "compared")


@pytest.fixture(scope="module")
def pages(hsp: Hsp, tmp_path_factory: pytest.TempPathFactory) -> dict[str, Path]:
    """The pages of the example of two sites, as if a table held two rows only."""
    room = tmp_path_factory.mktemp("log-pages")
    own = Path(shutil.copytree(TOP / "examples" / "two-sites", room / "two sites"))
    wider = widened(own, room / "wider")
    (wider / "demand.csv").write_text((own / "demand.csv").read_text().replace(",475", ",476"))
    words = {
        "log": [str(own), "--unit", "ms"],
        "short": [str(own), "--demand", str(own / "premiere.csv")],
        "compared": [str(wider), "--before", str(own)],
    }
    with pytest.MonkeyPatch.context() as patched:
        patched.setattr("hsp.plans.counted.MOST_DEMAND_ROWS", 2)
        return viewed(hsp, room, words)


@pytest.mark.parametrize("scheme", ["light", "dark"])
@pytest.mark.parametrize("width", WIDTHS)
@pytest.mark.parametrize("name", NAMES)
def test_a_page_stands(browser: Any, pages: dict[str, Path], name: str, width: int, scheme: str) -> None:
    page = assert_stands(browser, pages[name], width, scheme)
    policy = f"default-src 'none'; {allowed('style', page_text(page))}; {allowed('script', page_text(page))}"
    assert policy in page_text(page)


def page_text(page: Page) -> str:
    return page.path.read_text(encoding="utf-8")


def test_the_rows_are_what_the_plan_sends(
    browser: Any, pages: dict[str, Path], monkeypatch: pytest.MonkeyPatch
) -> None:
    """Each region's queries at the servers where they pay least, and the same in the download."""
    monkeypatch.setattr("hsp.plans.counted.MOST_DEMAND_ROWS", 2)
    page = Page(browser, pages["log"], 1200, "light")
    programs = Programs()
    plan = planned(read_service(str(pages["log"].parent / "two sites"), programs, {}), programs)
    servers = plan.service.servers
    wanted = Counter(
        (it.region, " or ".join(servers[own].label for own in it.amounts), f"{sum(it.amounts.values()):,}")
        for it in plan.classes
    )
    shown = page.shown()
    assert Counter((it[0], it[1], it[2]) for it in shown) == wanted and len(shown) == len(plan.classes)
    sums: Counter[str] = Counter()
    for row in shown:
        sums[row[0]] += int(row[2].replace(",", ""))
    assert sums == {region: asked for region, (asked, _) in plan.regions.items()}
    assert "dataset" not in page.text()
    link = page.run(
        "const it = document.getElementById('save'); it.addEventListener('click', event => event.preventDefault());"
        "it.click(); return it.href"
    )
    rows = table_of(unquote(link.partition(",")[2]))
    loads: Counter[tuple[str, str]] = Counter()
    for own in rows:
        loads[own["site"], own["server_id"]] += int(own["queries"])
    assert loads == {(it.site, str(it.id)): plan.loads[it.number] for it in servers if plan.loads[it.number]}
    page.choose("find", "PARIS 2")
    assert page.shown() and all("paris 2" in it[1] for it in page.shown())


def test_a_search_says_which_command_answers(
    browser: Any, pages: dict[str, Path], hsp: Hsp, monkeypatch: pytest.MonkeyPatch
) -> None:
    """Its words are one handle in any shell, and the command answers."""
    monkeypatch.setattr("hsp.plans.counted.MOST_DEMAND_ROWS", 2)
    page = Page(browser, pages["log"], 1200, "light")
    folder = pages["log"].parent / "two sites"
    said = page.run("return document.getElementById('where').textContent")
    assert shlex.split(said) == ["hsp", "where", str(folder), "REGION", "HANDLE"]
    for handle in ("20.500.1234/film-5", "20.1/it's $HOME \\ `a`", '20.1/"x" <b>'):
        page.choose("from", "us")
        page.run(
            f"const it = document.getElementById('handle'); it.value = {json.dumps(handle)}; "
            "it.dispatchEvent(new Event('input', {bubbles: true}))"
        )
        words = shlex.split(page.run("return document.getElementById('where').textContent"))
        assert words == ["hsp", "where", str(folder), "us", handle]
        assert f"{handle} from us  goes to " in hsp(*words[1:]).stdout
    page.choose("handle", "")
    assert page.run("return document.getElementById('where').textContent").endswith(" us HANDLE")


def test_a_shortage_names_regions(browser: Any, pages: dict[str, Path]) -> None:
    """Those that hsplan's rows of premiere.csv add up to: 1,142 of eu, 1,148 of us and 950 of asia."""
    page = Page(browser, pages["short"], 1200, "light")
    cells = "[...document.querySelectorAll('.lack tbody tr')].map(r => [...r.cells].map(c => c.innerText))"
    rows = page.run(f"return {cells}")
    assert rows == [["us", "1,148"], ["eu", "1,142"], ["asia", "950"]]
    assert "Rows of 3 regions ask for 3,240 queries." in page.text()
    assert "After that purchase." in page.text()


def test_a_changed_log_is_named(browser: Any, pages: dict[str, Path]) -> None:
    text = Page(browser, pages["compared"], 1200, "light").text()
    assert "capacity of paris 2: 1,510 → 1,800 and demand: 6,282 → 6,283 queries" in text


def test_a_page_needs_no_script(browser: Any, pages: dict[str, Path], tmp_path: Path) -> None:
    plain = tmp_path / "plain.html"
    plain.write_text(
        re.sub(r"<script.*?</script>", "", pages["log"].read_text(encoding="utf-8"), flags=re.S), encoding="utf-8"
    )
    page = Page(browser, plain, 1200, "light")
    assert page.shown() and page.run("return document.getElementById('asking').hidden")
    assert "hsplan-stream says: hsp where" in page.text() and "hsplan-stream check says yes" in page.text()
