"""What reaches a terminal or a page: no field of a file steers it, forges a line, or turns its direction."""

import json
import os
import pty
import re
import subprocess
import sys
import unicodedata
from pathlib import Path
from xml.etree import ElementTree

import pytest

from hsp.base.text import UNSEEN, escaped

from conftest import TOP, Example, variables
from test_sites import ADMIN, invoke, site_json, value_json

# An escape sequence, its ends, a line of our own, another line end, and marks of direction.
HOSTILE = "\x1b]0;pwned\x07\x1b[2J\x9b2J\nhsp: all is well\r\u2028\u202edlrow\u2066"
SHOWN = r"\x1b]0;pwned\x07\x1b[2J\x9b2J\nhsp: all is well\r\u2028\u202edlrow\u2066"
# The same in one line, as hsplan-stream takes handles.
IN_LINE, IN_LINE_SHOWN = HOSTILE.replace("\n", "").replace("\r", ""), SHOWN.replace(r"\n", "").replace(r"\r", "")
# What a terminal takes for a colour.
COLOUR = re.compile("\x1b\\[[0-9;]*m")
TITLES = "".join(f"{key} = {json.dumps(f'{key}{HOSTILE}')}\n" for key in ("title", "cost", "time"))


def unseen(text: str) -> set[str]:
    """The signs of a text that nobody sees, but for the ends of its lines."""
    return {it for it in text if it != "\n" and unicodedata.category(it) in UNSEEN}


def test_each_sign_that_is_not_seen_is_an_escape() -> None:
    assert escaped(HOSTILE) == SHOWN
    assert escaped("Zürich\u00a0 \u05e9 \U0001f600 20.500.1/x") == "Zürich\u00a0 \u05e9 \U0001f600 20.500.1/x"
    assert escaped("\udcff\U000e0001") == r"\udcff\U000e0001"
    kinds = {chr(it): unicodedata.category(chr(it)) for it in range(0x20000)}
    assert {it for it, kind in kinds.items() if kind in UNSEEN} == {it for it in kinds if escaped(it) != it}


@pytest.fixture
def hostile(example: Example, tmp_path: Path) -> Path:
    """A service whose handles, titles and folder are hostile."""
    folder = example("two-sites").rename(tmp_path / f"folder{HOSTILE}")
    (folder / "hsp.toml").write_text(TITLES)
    demand = folder / "demand.csv"
    rows = demand.read_text().splitlines()
    region, handle, count = rows[1].split(",")
    rows[1] = f'{region},"{handle}{IN_LINE}",{count}'
    demand.write_text("\n".join(rows) + "\n")
    return folder


def lines_of(*words: object, status: int = 0) -> str:
    """All that a command prints. Nothing of it steers a terminal, and no line is forged."""
    done = invoke(*words, status=status)
    text = done.stdout + done.stderr
    assert unseen(text) == set(), repr(text)
    assert "\nhsp: all is well" not in text
    return text


def test_a_plan_of_hostile_files(hostile: Path) -> None:
    assert f"title{SHOWN}  2 sites" in lines_of("plan", hostile)
    assert f" cost{SHOWN}" in lines_of("plan", hostile, "--all", "--unit", f"cost{HOSTILE}")
    lines_of("plan", hostile, "--json")
    assert json.loads(invoke("plan", hostile, "--json").stdout)["title"] == f"title{SHOWN}"
    assert unseen(lines_of("plan", hostile, "--csv")) == set()
    lines_of("whatif", hostile)
    lines_of("whatif", hostile, "--server", "paris:2", "--chart", hostile / "chart.svg")
    assert f"({f'cost{SHOWN}'})" in "".join(ElementTree.parse(hostile / "chart.svg").getroot().itertext())
    lines_of("doctor", hostile)
    lines_of("doctor", hostile, "--json")
    lines_of("doctor", "--", "plan", *(f"--{it}={hostile}/{it}.csv" for it in ("demand", "costs")), status=2)


def test_a_shortage_of_hostile_files(hostile: Path) -> None:
    header, *rows = (hostile / "capacity.csv").read_text().splitlines()
    none = [",".join([*it.split(",")[:2], "0"]) for it in rows]
    (hostile / "capacity.csv").write_text("\n".join([header, *none]) + "\n")
    demand = hostile / "demand.csv"
    demand.write_text(demand.read_text().replace('",', '",9', 1))
    assert IN_LINE_SHOWN in lines_of("plan", hostile, status=3).split("who   ")[1]
    lines_of("plan", hostile, "--json", status=3)
    lines_of("view", hostile, status=3)
    assert unseen((hostile / "plan.html").read_text()) == set()


def test_a_page_of_hostile_files(hostile: Path) -> None:
    lines_of("view", hostile)
    text = (hostile / "plan.html").read_text()
    assert unseen(text) == set()
    assert IN_LINE_SHOWN in text and f"title{SHOWN}" in text


def test_hostile_sites(tmp_path: Path) -> None:
    whole = {"responseCode": 1, f"key{HOSTILE}": 1, "values": [value_json(3, site_json("paris", 7)), ADMIN]}
    site = site_json("reston", 8, **{f"field{HOSTILE}": 2})
    site["servers"][0][f"server{HOSTILE}"] = 3
    site["servers"][0]["publicKey"] = {"format": HOSTILE, "value": HOSTILE}
    site["attributes"] = [{"name": "desc", "value": f"reston{HOSTILE}"}]
    (tmp_path / f"a{HOSTILE}.json").write_text(json.dumps(whole))
    (tmp_path / "b.json").write_text(json.dumps(site))
    found = lines_of("sites", tmp_path / f"a{HOSTILE}.json", tmp_path / "b.json")
    assert f"field{SHOWN}" in found and f"a{SHOWN}.json" in found
    folder = tmp_path / f"into{HOSTILE}"
    folder.mkdir()
    lines_of("sites", tmp_path / "b.json", "--into", folder)
    values = {"values": [{"type": HOSTILE}]}
    for wrong in ({f"no{HOSTILE}": 1}, {"responseCode": HOSTILE}, values, site | {"version": HOSTILE}):
        (tmp_path / "b.json").write_text(json.dumps(wrong))
        lines_of("sites", tmp_path / "b.json", status=1)
    lines_of("sites", tmp_path / f"none{HOSTILE}", status=5)
    lines_of("new", tmp_path / f"new{HOSTILE}")
    lines_of("new", tmp_path / f"new{HOSTILE}", status=5)


def test_hostile_logs(tmp_path: Path) -> None:
    networks, log = tmp_path / f"net{HOSTILE}.csv", tmp_path / f"log{HOSTILE}.json"
    networks.write_text("network,region\n192.0.2.0/24,eu\n")
    rows = [("192.0.2.1", it) for it in (f"20.500.1/a{HOSTILE}", f"20.500.1/a{IN_LINE}", HOSTILE, "1/x")]
    rows.append((HOSTILE, "20.500.1/b"))
    log.write_text("".join(json.dumps({"client": a, "handle": b}) + "\n" for a, b in rows))
    known = ["demand", log, "--regions", networks, "-o", tmp_path / "table"]
    assert f"log{SHOWN}.json:1: " in lines_of(*known)
    networks.write_text(f'network,region\n192.0.2.0/24,"eu{HOSTILE}"\n')
    lines_of(*known, status=1)
    networks.write_text(f'network,region\n"{HOSTILE}",eu\n')
    lines_of(*known, status=1)
    log.write_text(HOSTILE + "\n")
    lines_of(*known, status=1)
    lines_of("fleet", "demand", log, "--regions", tmp_path / f"none{HOSTILE}", status=5)
    lines_of("fleet", "dispatch", tmp_path, f"0={log}", "--fronts", "1", status=5)


@pytest.mark.parametrize("words", [["plan"], ["view"], ["whatif"], ["doctor"], ["sites", "x", "--into"], [""]])
def test_hostile_words(tmp_path: Path, words: list[str]) -> None:
    lines_of(*[*words, f"none{HOSTILE}"][-2 if words == [""] else 0 :], status=2)


def missing(folder: Path) -> Path:
    """A folder that has nothing but a name that forges a line."""
    other = folder / f"other{HOSTILE}"
    other.mkdir()
    return other


def test_a_file_that_is_absent_forges_no_line(folder: Path) -> None:
    given = ["--demand", f"{folder}/none{HOSTILE}", "--costs", f"{folder}/other{HOSTILE}"]
    text = lines_of("plan", folder, *given, status=5)
    assert "/none" in text and "/other" in text
    lines_of("view", folder, "--before", missing(folder), status=5)


def at_terminal(*words: object) -> str:
    leader, follower = pty.openpty()
    environment = variables(TERM="xterm")
    command = [sys.executable, "-m", "hsp", *map(str, words)]
    run = subprocess.Popen(command, stdin=follower, stdout=follower, stderr=follower, env=environment)
    os.close(follower)
    found = b""
    try:
        while block := os.read(leader, 1 << 16):
            found += block
    except OSError:
        pass
    run.wait()
    os.close(leader)
    return found.decode()


def test_a_terminal_gets_only_colours(hostile: Path, tmp_path: Path) -> None:
    log, networks = tmp_path / "log.json", tmp_path / "networks.csv"
    networks.write_text("network,region\n192.0.2.0/24,eu\n")
    log.write_text(json.dumps({"client": "192.0.2.1", "handle": f"20.500.1/a{IN_LINE}"}) + "\n")
    plan = at_terminal("plan", hostile)
    table = at_terminal("demand", log, "--regions", networks)
    assert f"title{SHOWN}" in plan and f"20.500.1/a{IN_LINE_SHOWN}" in table
    for text in (plan, table):
        bare = COLOUR.sub("", text).replace("\r\n", "\n").replace("\r", "").replace("\x1b[K", "")
        assert unseen(bare) == set(), repr(bare)
    assert COLOUR.search(plan)


def test_no_colour_of_a_file_reaches_a_terminal(folder: Path) -> None:
    """One could hide what follows, or show a fault in green. Those of hsp's own stay."""
    (folder / "hsp.toml").write_text('title = "a\\u001b[8mb\\u001b[32m"\n')
    plan = at_terminal("plan", folder)
    assert plan.startswith("\x1b[1ma\\x1b[8mb\\x1b[32m\x1b[0m")
    assert set(COLOUR.findall(plan)) == {"\x1b[0m", "\x1b[1m", "\x1b[2m", "\x1b[32m", "\x1b[33m"}


def test_only_one_module_prints() -> None:
    """So that no line goes by the way that shows signs as escapes."""
    top = TOP / "companion" / "hsp"
    texts = {str(it.relative_to(top)): it.read_text() for it in top.rglob("*.py")}
    ways = re.compile(r"\b(?:click\.s?echo|print|std(?:out|err)\.write)\(.*")
    found = {name: ways.findall(text) for name, text in texts.items() if name != "base/text.py"}
    assert {name: it for name, it in found.items() if it} == {"cli.py": ["click.echo(context.get_help())"]}
