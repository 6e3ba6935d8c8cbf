"""hsp view: each page in headless Chromium, at two widths, in light and dark."""

import json
import random
import re
import shutil
import subprocess
from collections import Counter
from dataclasses import replace
from fractions import Fraction
from pathlib import Path
from typing import Any
from urllib.parse import unquote

import pytest

from hsp.base.programs import Programs
from hsp.plans.page import ServerView, changes_between
from hsp.plans.plans import planned
from hsp.plans.service import read_service

from browsers import WIDTHS, Page, allowed, assert_stands, browser, viewed, widened
from conftest import TOP, Example, Hsp
from services import read, table_of

from lib import instances, memory

__all__ = ["browser"]
PAGES = ("two-sites", "base", "hosts", "shortage", "compared", "ahead", "twelve-sites")


@pytest.fixture(scope="module")
def pages(hsp: Hsp, twelve: Path, tmp_path_factory: pytest.TempPathFactory) -> dict[str, Path]:
    room = tmp_path_factory.mktemp("pages")
    two = Path(shutil.copytree(TOP / "examples" / "two-sites", room / "two-sites"))
    base = Path(shutil.copytree(TOP / "examples" / "base", room / "base"))
    wider = widened(two, room / "wider")
    words = {
        "two-sites": [str(two), "--unit", "ms"],
        "base": [str(base)],
        "hosts": [str(two), "--settings", str(two / "hosts.toml")],
        "shortage": [str(two), "--demand", str(two / "premiere.csv")],
        "compared": [str(wider), "--before", str(two)],
        "ahead": [str(two), "--more", "--reserve", "2", "--settings", str(two / "hosts.toml")],
        "twelve-sites": [str(twelve)],
    }
    return viewed(hsp, room, words)


@pytest.mark.parametrize("scheme", ["light", "dark"])
@pytest.mark.parametrize("width", WIDTHS)
@pytest.mark.parametrize("name", PAGES)
def test_a_page_stands(browser: Any, pages: dict[str, Path], name: str, width: int, scheme: str) -> None:
    assert_stands(browser, pages[name], width, scheme)


@pytest.mark.parametrize("name", ["two-sites", "base", "twelve-sites"])
def test_a_page_has_the_numbers_of_the_reports(browser: Any, pages: dict[str, Path], twelve: Path, name: str) -> None:
    folder = twelve if name == "twelve-sites" else pages[name].parent / name
    service, programs = read(folder)
    plan = planned(service, programs)
    page = Page(browser, pages[name], 1200, "light")
    text = page.text()
    assert f"{plan.cost:,}" in text
    rows = page.run(
        "return [...document.querySelectorAll('.servers tbody tr')].map(r => "
        "[r.cells[0].textContent, r.querySelector('.num').firstChild.textContent + r.querySelector('.num span').textContent])"
    )
    assert rows == [[str(it.id), f"{plan.loads[it.number]:,} / {service.capacity(it):,}"] for it in service.servers]
    matrix = page.run(
        "return [...document.querySelectorAll('.matrix tbody tr')].map(r => [r.cells[0].firstChild.textContent.trim(), "
        "...[...r.cells].slice(1).map(c => (c.querySelector('b') || {}).textContent || '')])"
    )
    for region, *shares in matrix:
        asked = plan.regions[region][0]
        for at, share in enumerate(shares):
            sent = plan.shares.get((region, at), 0)
            exact = 100 * sent / asked
            said = {"": 0.0, "<1%": 0.5, ">99%": 99.5}.get(share) if share in ("", "<1%", ">99%") else float(share[:-1])
            assert said is not None and abs(said - exact) <= 0.5


def test_rows_are_sorted_and_searched(browser: Any, pages: dict[str, Path]) -> None:
    page = Page(browser, pages["twelve-sites"], 1200, "light")
    assert page.text().count("7,070 of 7,070 rows") == 1
    assert len(page.shown()) == 100
    page.run("document.querySelectorAll('#rows th button')[2].click()")
    counts = [int(it[2].replace(",", "")) for it in page.shown()]
    assert counts == sorted(counts, reverse=True)
    page.run("document.querySelectorAll('#rows th button')[2].click()")
    counts = [int(it[2].replace(",", "")) for it in page.shown()]
    assert counts == sorted(counts)
    handle = page.shown()[0][1]
    page.choose("find", handle.upper())
    assert page.shown() and all(handle.lower() in it[1].lower() for it in page.shown())
    page.choose("find", "")
    page.choose("kind", "split")
    assert page.shown() and all(":" in it[5] for it in page.shown())


def test_rows_are_a_download(browser: Any, pages: dict[str, Path]) -> None:
    """The table behind the link has each use of the plan, by region and handle, with its server."""
    page = Page(browser, pages["two-sites"], 1200, "light")
    link = page.run(
        "const it = document.getElementById('save'); it.addEventListener('click', event => event.preventDefault());"
        "it.click(); return [it.download, it.href]"
    )
    assert link[0] == "rows.csv" and link[1].startswith("data:text/csv;charset=utf-8,")
    rows = table_of(unquote(link[1].partition(",")[2]))
    service, programs = read(pages["two-sites"].parent / "two-sites")
    own = [service.rows[use.row] for use in service.certificate.uses]
    wanted = Counter(
        (it.region, it.handle, str(it.count), service.sites[use.site].name, str(use.queries))
        for it, use in zip(own, service.certificate.uses)
    )
    names = ("region", "handle", "count", "site", "queries")
    assert Counter(tuple(row[name] for name in names) for row in rows) == wanted
    assert {(row["site"], row["server_id"]) for row in rows} <= {(it.site, str(it.id)) for it in service.servers}


def test_a_page_names_what_it_was_made_of(hsp: Hsp, folder: Path) -> None:
    """The sums are those of sha256sum, and the time is that of SOURCE_DATE_EPOCH, as date -u has it."""
    hsp("view", str(folder), SOURCE_DATE_EPOCH="1795600800")
    text = (folder / "plan.html").read_text(encoding="utf-8")
    assert "planned 25 November 2026, 10:00 UTC" in text
    names = ["settings.toml", "demand.csv", "costs.csv", "capacity.csv"]
    words = ["sha256sum", *names]
    printed = subprocess.run(words, cwd=folder, capture_output=True, text=True, check=True).stdout.split()
    for name, sum in zip(printed[1::2], printed[::2]):
        assert re.search(rf"{re.escape(name)}</th><td class=\"left\"><code>{sum}</code>", text)


def test_the_reserve_stands_beside_the_verdict(hsp: Hsp, browser: Any, pages: dict[str, Path]) -> None:
    """Of two-sites paris 2 and reston 2 are full; reston 3 has 1,205 of 1,470, which is 82%."""
    head = "return document.querySelector('h1').innerText"
    said = Page(browser, pages["two-sites"], 1200, "light").run(head)
    assert said == "Everyone is served. 2 of 5 servers are full. The fullest of the others, reston 3, is 82% full."
    said = Page(browser, pages["hosts"], 1200, "light").run(head)
    assert said.startswith("Everyone is served. 2 of 5 servers and 1 machine are full. ")


def test_regions_stand_by_their_names(browser: Any, pages: dict[str, Path]) -> None:
    page = Page(browser, pages["twelve-sites"], 1200, "light")
    for table in (".matrix", ".dots"):
        names = page.run(
            f"return [...document.querySelectorAll('{table} tbody tr:not(.soft)')].map(it => "
            "it.cells[0].firstChild.textContent.trim())"
        )
        assert len(names) > 3 and names == sorted(names)
    names = page.run("return [...document.getElementById('in').options].slice(1).map(it => it.textContent)")
    assert names == sorted(names)
    page.choose("in", page.run("return document.getElementById('in').options[1].value"))
    assert {it[0] for it in page.shown()} == {names[0]}


def test_shares_of_regions_are_said_to_be_sums(browser: Any, pages: dict[str, Path]) -> None:
    text = Page(browser, pages["two-sites"], 1200, "light").text()
    assert "By shares of regions only: 2 of 5 servers too full, 476 queries too many." in text
    assert "fill no server too much" in Page(browser, pages["base"], 1200, "light").text()


def test_a_shortage_is_short_on_a_phone(browser: Any, pages: dict[str, Path]) -> None:
    """Each handle takes two lines: itself with its queries, and who asks for it."""
    page = Page(browser, pages["shortage"], 420, "light")
    rows = page.run(
        "return [...document.querySelectorAll('.lack tbody tr')].map(it => [it.innerText, it.offsetHeight])"
    )
    assert len(rows) == 4 and all(height <= 60 for _, height in rows)
    assert [it.strip() for it in rows[0][0].split("\n") if it.strip()][-1] == "asia 488, eu 376, us 432"


def test_a_long_purchase_names_its_largest_parts(hsp: Hsp, browser: Any, twelve: Path, tmp_path: Path) -> None:
    """Six servers are named, and the others are counted and marked below."""
    folder = Path(shutil.copytree(twelve, tmp_path / "less"))
    lines = (folder / "capacity.csv").read_text().splitlines()
    rows = [line.rsplit(",", 1) for line in lines[1:]]
    (folder / "capacity.csv").write_text(
        "\n".join([lines[0], *(f"{own},{int(room) // 2}" for own, room in rows)]) + "\n"
    )
    bought = json.loads(hsp("plan", str(folder), "--json", status=3).stdout)["least_purchase"]
    assert len(bought) > 6
    hsp("view", str(folder), status=3)
    page = Page(browser, folder / "plan.html", 1200, "light")
    more = sorted((it["more"] for it in bought), reverse=True)[6:]
    assert f" and {sum(more):,} at {len(more)} more server" in page.text()
    assert page.run("return document.querySelectorAll('.bar .bought').length") == len(bought)


def test_a_purchase_counts_in_what_is_above_capacity(hsp: Hsp, folder: Path) -> None:
    """The page of a shortage compares what the page of a folder with the purchase does, and so marks its servers."""
    demand = ["--demand", str(folder / "premiere.csv")]
    hsp("view", str(folder), *demand, status=3)
    short, table = (folder / "plan.html").read_text(encoding="utf-8"), folder / "capacity.csv"
    rows = dict(line.rsplit(",", 1) for line in table.read_text().splitlines())
    for it in json.loads(hsp("plan", str(folder), *demand, "--json", status=3).stdout)["least_purchase"]:
        key = f"{it['site']},{it['server_id']}"
        rows[key] = str(int(rows[key]) + it["more"])
    table.write_text("".join(f"{key},{room}\n" for key, room in rows.items()))
    hsp("view", str(folder), *demand)
    bought = (folder / "plan.html").read_text(encoding="utf-8")
    above = re.search(r"[0-9]+ servers would get [0-9,]+ queries above capacity", bought)
    assert above and above[0] in short and short.count("<small>left alone") == bought.count("<small>left alone")


def test_two_plans_of_one_title_have_distinct_names(hsp: Hsp, browser: Any, folder: Path) -> None:
    (folder / "hsp.toml").write_text('title = "Films"\n')
    later = Path(shutil.copytree(folder, folder.parent / "later"))
    hsp("view", str(later), "--before", str(folder))
    assert "in the plan of Films (two-sites)" in Page(browser, later / "plan.html", 1200, "light").text()
    (folder / "hsp.toml").write_text('title = "Old films"\n')
    hsp("view", str(later), "--before", str(folder))
    assert "in the plan of Old films 6,282 cost" in Page(browser, later / "plan.html", 1200, "light").text()


def test_a_page_needs_no_script(browser: Any, pages: dict[str, Path], tmp_path: Path) -> None:
    text = pages["two-sites"].read_text(encoding="utf-8")
    plain = tmp_path / "plain.html"
    plain.write_text(re.sub(r"<script.*?</script>", "", text, flags=re.S), encoding="utf-8")
    page = Page(browser, plain, 1200, "light")
    assert len(page.shown()) == 36 and "Everyone is served." in page.text()
    assert page.run("return document.getElementById('controls').hidden")


def test_a_handle_stays_text(hsp: Hsp, browser: Any, folder: Path) -> None:
    evil = "20.500.1234/<script>document.title='evil'</script><img src=x onerror=alert(1)>"
    with open(folder / "demand.csv", "a", encoding="utf-8") as file:
        file.write(f'eu,"{evil}",1\n')
    hsp("view", str(folder), "--title", "<b>films</b>")
    page = Page(browser, folder / "plan.html", 1200, "light")
    assert browser.title == "<b>films</b>: load plan"
    page.choose("find", "<script>")
    assert [it[1] for it in page.shown()] == [evil]
    assert page.requests() == [] and browser.get_log("browser") == []


@pytest.mark.parametrize("region", ["scandinavia", "thelandsabouttheseaofthenorth"])
def test_the_rows_stay_within_a_narrow_page(hsp: Hsp, browser: Any, folder: Path, region: str) -> None:
    """A handle is broken behind its slash, not within a word, and no name widens the page."""
    for name in ("demand.csv", "costs.csv"):
        text = (folder / name).read_text().replace("asia,", f"{region},").replace("report-", "herbarium.")
        (folder / name).write_text(text)
    hsp("view", str(folder))
    page = Page(browser, folder / "plan.html", 420, "light")
    assert page.run("return document.documentElement.scrollWidth") <= 420
    right, lines = page.run(
        "const cells = [...document.querySelectorAll('#rows tbody td:nth-child(2)')], range = document.createRange();"
        "return [document.getElementById('rows').getBoundingClientRect().right, cells.map(it => {"
        "range.selectNodeContents(it); return new Set([...range.getClientRects()].map(it => it.top)).size})]"
    )
    assert right <= 420 and set(lines) <= {1, 2}


def test_a_printed_page_says_how_many_rows_it_has(browser: Any, pages: dict[str, Path]) -> None:
    for name, note in (("twelve-sites", '"The first 40 of these rows are printed."'), ("two-sites", "none")):
        page = Page(browser, pages[name], 1200, "light")
        browser.execute_cdp_cmd("Emulation.setEmulatedMedia", {"media": "print"})
        look = "getComputedStyle(document.getElementById('rows').parentElement, '::after').content"
        shown = page.run(
            f"return [{look}, [...document.querySelectorAll('#rows tbody tr')].filter(it => it.offsetHeight).length]"
        )
        browser.execute_cdp_cmd("Emulation.setEmulatedMedia", {"media": ""})
        assert shown == [note, 40 if name == "twelve-sites" else 36]


def test_a_page_forbids_the_network(pages: dict[str, Path]) -> None:
    for path in pages.values():
        text = path.read_text(encoding="utf-8")
        assert not re.search(r"""(src|href)=["']?(https?:)?//""", text)


def test_a_page_allows_only_its_own_style_and_script(pages: dict[str, Path]) -> None:
    for path in pages.values():
        text = path.read_text(encoding="utf-8")
        policy = f"default-src 'none'; {allowed('style', text)}; {allowed('script', text)}"
        assert f"content=\"{policy}; base-uri 'none'; form-action 'none'\">" in text
        assert " style=" not in text and " onclick=" not in text


@pytest.mark.parametrize("name", ["two-sites", "shortage"])
def test_what_gets_into_a_page_is_not_run(browser: Any, pages: dict[str, Path], tmp_path: Path, name: str) -> None:
    """As if a text were not escaped."""
    text = pages[name].read_text(encoding="utf-8")
    within = (
        '<base href="https://example.org/"><script>document.title = "run"</script><style>h1{color:rgb(1,2,3)}</style>'
        '<h2 id="styled" style="color:rgb(1,2,3)">x</h2><button id="on" onclick="document.title = 1">x</button>'
        "<script>(() => {})();</script>"
    )
    path = tmp_path / "page.html"
    path.write_text(text.replace("<header>", f"<header>{within}", 1), encoding="utf-8")
    page = Page(browser, path, 1200, "light")
    page.run("document.getElementById('on').click()")
    assert page.run("return document.title") == re.search("<title>(.*?)</title>", text)[1]  # type: ignore[index]
    colour = "return getComputedStyle(document.querySelector('{}')).color"
    assert page.run(colour.format("h1")) != "rgb(1, 2, 3)" != page.run(colour.format("#styled"))
    assert page.run("return document.baseURI") == path.as_uri()
    assert len(browser.get_log("browser")) >= 5
    assert page.run("return document.querySelectorAll('#rows tbody tr').length") > 10


def test_sizes_of_pages(pages: dict[str, Path]) -> None:
    assert pages["twelve-sites"].stat().st_size <= 300_000
    assert pages["two-sites"].stat().st_size <= 40_000


def test_the_largest_service(hsp_apart: Hsp, browser: Any, tmp_path: Path) -> None:
    """1,024 servers of 32 sites and 8,192 rows: within 15 seconds of a processor and 1.5 megabytes, with sites folded."""
    instances.inputs(str(tmp_path), random.Random(1), factor=1.2)
    before = memory.spent_below()
    hsp_apart("view", str(tmp_path))
    gone = memory.spent_below() - before
    path = tmp_path / "plan.html"
    assert path.stat().st_size <= 1_500_000 and gone <= 15, f"{path.stat().st_size} octets, {gone:.1f} seconds"
    page = Page(browser, path, 420, "light")
    assert browser.get_log("browser") == []
    assert page.run("return document.documentElement.scrollWidth") <= 420
    assert page.run("return document.querySelectorAll('details').length") > 0


def test_only_what_changed_is_named(hsp: Hsp, example: Example, tmp_path: Path) -> None:
    old = example("two-sites")
    new = Path(shutil.copytree(old, tmp_path / "new"))
    programs = Programs()
    before = read_service(str(old), programs, {})
    assert changes_between(before, read_service(str(new), programs, {})) == []
    (new / "capacity.csv").write_text((old / "capacity.csv").read_text().replace("paris,2,1510", "paris,2,1800"))
    (new / "costs.csv").write_text((old / "costs.csv").read_text().replace("eu,paris,12", "eu,paris,13"))
    (new / "demand.csv").write_text((old / "demand.csv").read_text().replace(",475", ",476"))
    assert changes_between(before, read_service(str(new), programs, {})) == [
        "capacity of paris 2: 1,510 → 1,800",
        "cost eu to paris: 12 → 13",
        "demand: 1 row, 6,282 → 6,283 queries",
    ]


@pytest.mark.parametrize("full", [True, False])
@pytest.mark.parametrize("bought", [0, 5])
@pytest.mark.parametrize("before", [10, 11])
def test_a_server_with_something_to_see_is_not_folded_away(full: bool, bought: int, before: int) -> None:
    view = ServerView(0, 1, "paris 1", 10, 10, before, bought, None, full)
    assert view.is_plain == (not full and bought == 0 and before == 10)


def test_all_pages_have_one_head() -> None:
    """What stands there, as which scripts and styles a page may have, is written once."""
    texts = {path.name: path.read_text() for path in (TOP / "companion/hsp/templates").glob("*.html")}
    assert [name for name, text in texts.items() if "<!doctype" in text] == ["head.html"]
    assert [name for name, text in texts.items() if "Content-Security-Policy" in text] == ["head.html"]
    assert sorted(name for name, text in texts.items() if 'from "head.html" import head' in text) == [
        "day.html",
        "page.html",
    ]


def test_a_log_in_another_order_has_not_changed(example: Example) -> None:
    """Nor has one whose rows are split; another count, region or handle is a change."""
    folder, programs = example("two-sites"), Programs()
    found = []
    split = "us,20.1/b,2\nus,20.1/b,3\neu,20.1/a,2000000\n"
    for rows in ("eu,20.1/a,2000000\nus,20.1/b,5\n", split, "eu,20.1/a,2000005\n"):
        (folder / "demand.csv").write_text(f"region,handle,count\n{rows}")
        kept = folder / f"{len(found)}.csv"
        kept.write_bytes((folder / "demand.csv").read_bytes())
        found.append(read_service(str(folder), programs, {"demand": str(kept)}))
    assert changes_between(found[0], found[1]) == []
    assert changes_between(found[0], found[2]) == ["demand: 2,000,005 → 2,000,005 queries"]


def test_a_reserve_below_1_percent_is_said_twice(example: Example) -> None:
    service = replace(read_service(str(example("two-sites")), Programs(), {}), reserve=Fraction(15, 10_000))
    assert service.kept_back == "0.15% (not 15%) of each capacity kept back"
