"""A demand that an older hsp joined by kinds or counted in units: each command refuses it until it's counted again."""

import re
import shutil
import tomllib
from pathlib import Path

import pytest

from hsp.base.programs import Programs
from hsp.base.unfit import Unfit
from hsp.plans.titles import REMEDY, uncounted
from hsp.proxy.steer import read_anew

from conftest import TOP, Example, Hsp
from services import random_service
from test_sites import invoke

JOINED, IN_UNITS = '[demand]\nrows = "kinds"\nunit = 1\n', '[demand]\nrows = "handles"\nunit = 10\n'
SAID = {
    JOINED: "the demand was joined by kinds, and hsp plans rows of handles",
    IN_UNITS: "the demand counts in units, and hsp plans queries",
}
BLOCK = """[demand]  # written by hsp demand
rows = "kinds"  # a row stands for all handles of its region with the same servers
log = ["access.log"]
unit = 1000  # a count of 1 stands for so many queries
"""
# What hsp.toml holds with the table of an older demand, and what it holds without it.
TEXTS = {
    "nothing else": (BLOCK, ""),
    "titles": (f'# mine\ntitle = "T"  # so\n\n{BLOCK}', '# mine\ntitle = "T"  # so\n\n'),
    "a table before": (f"[other]\nunit = 5\n\n{BLOCK}", "[other]\nunit = 5\n\n"),
    "a table behind": (f"{BLOCK}\n# of it\n[other]\nx = 1\n", "\n# of it\n[other]\nx = 1\n"),
    "a head with blanks": ("[ demand ]  # x\nunit = 7\n[b]\n", "[b]\n"),
    "line ends of Windows": ('title = "T"\r\n[demand]\r\nunit = 7\r\n', 'title = "T"\r\n'),
}
# Commands that ask the doctor about an older folder first, and those that don't.
ASKING = """doctor OLD
plan OLD
view OLD
view NEW --before OLD
whatif OLD
grow OLD
survive OLD
where OLD eu 20.500.1234/film-5
export haproxy OLD --into OLD/p --regions OLD/networks"""
OTHERS = ["plan NEW --near OLD", "survive NEW --near OLD", "fleet dispatch OLD --fronts 1 0=LOG"]


@pytest.mark.parametrize("block", SAID)
def test_each_command_says_what_to_do(hsp: Hsp, example: Example, tmp_path: Path, block: str) -> None:
    """As a fault of the doctor, or in one line."""
    new = example("two-sites")
    hsp("plan", str(new))
    old = Path(shutil.copytree(new, tmp_path / "old"))
    (old / "hsp.toml").write_text(block)
    (old / "networks").write_text("network,region\n192.0.2.0/24,eu\n")

    def said(words: str) -> str:
        paths = {"OLD": str(old), "NEW": str(new), "LOG": str(new / "log.csv")}
        ended = hsp(*(re.sub("OLD|NEW|LOG", lambda it: paths[it[0]], word) for word in words.split()), status=1)
        return ended.stdout + ended.stderr

    for words in ASKING.splitlines():
        own = said(words)
        assert own.startswith(f"error: {SAID[block]}\n --> {old}/hsp.toml:") and f"\n  do   {REMEDY}\n" in own, words
    line = f"{old}/hsp.toml: {SAID[block]}; {REMEDY}"
    for words in OTHERS:
        assert said(words) == f"hsp: {line}\n", words
    with pytest.raises(Unfit, match=f"^{re.escape(line)}$"):
        read_anew(str(old), {}, Programs())
    assert SAID[block] in said("plan NEW --demand OLD/demand.csv")
    hsp("plan", str(old), "--demand", str(new / "demand.csv"), "--no-save")


def test_a_day_names_the_hour(hsp: Hsp, folder: Path) -> None:
    for hour in ("h00", "h01"):
        (folder / hour).mkdir()
        shutil.copy(folder / "demand.csv", folder / hour)
    (folder / "h01/hsp.toml").write_text(JOINED)
    assert hsp("day", str(folder), status=1).stderr == f"hsp: {folder}/h01/hsp.toml: {SAID[JOINED]}; {REMEDY}\n"
    (folder / "h00/hsp.toml").write_text(IN_UNITS)
    assert hsp("day", str(folder), status=1).stderr.startswith(f"error: {SAID[IN_UNITS]}\n --> {folder}/h00/hsp.toml:")


def test_a_demand_that_is_counted_again_is_planned(hsp: Hsp, tmp_path: Path) -> None:
    """Into the folder, and not elsewhere."""
    service = random_service(tmp_path, 3)
    words = ["demand", service.log, "--regions", tmp_path / "networks.csv", "--into", service.folder]
    invoke(*words)
    titles = service.folder / "hsp.toml"
    titles.write_text(f'title = "T"\n{JOINED}')
    invoke(*words, "-o", tmp_path / "other.csv")
    hsp("plan", str(service.folder), status=1)
    invoke(*words)
    assert titles.read_text() == 'title = "T"\n'
    assert hsp("plan", str(service.folder)).stdout.startswith("T  3 sites")


def test_a_table_that_cannot_be_taken_out_leaves_the_demand(tmp_path: Path) -> None:
    service = random_service(tmp_path, 3)
    words = ["--regions", tmp_path / "networks.csv", "--into", service.folder]
    invoke("demand", service.log, *words)
    before = (service.folder / "demand.csv").read_bytes()
    (service.folder / "hsp.toml").write_text("demand = {unit = 5}\n")
    for log in (service.log, tmp_path / "absent.csv"):  # that is said before a log is read
        said = invoke("demand", log, *words, status=1).stderr
        assert said == f"hsp: {service.folder}/hsp.toml: its table [demand] can't be taken out; take it out by hand\n"
        assert (service.folder / "demand.csv").read_bytes() == before


@pytest.mark.parametrize("name", TEXTS)
def test_all_else_in_the_file_stays_as_it_is(tmp_path: Path, name: str) -> None:
    before, after = TEXTS[name]
    path = tmp_path / "hsp.toml"
    path.write_bytes(before.encode())
    assert uncounted(str(tmp_path)) == {str(path): after.encode()}
    assert {key: it for key, it in tomllib.loads(before).items() if key != "demand"} == tomllib.loads(after)
    path.write_bytes(after.encode())
    assert uncounted(str(tmp_path)) == {}


@pytest.mark.parametrize(
    "text", ["demand = {unit = 5}\n", "demand.unit = 5\n", 'title = """\n[demand]\n"""\ndemand = 3\n', "x ="]
)
def test_what_cannot_be_taken_out_is_refused_in_one_line(tmp_path: Path, text: str) -> None:
    (tmp_path / "hsp.toml").write_text(text)
    with pytest.raises(Unfit, match="hsp.toml: (its table .demand. can't be taken out; take it out by hand|not TOML)"):
        uncounted(str(tmp_path))
    assert (tmp_path / "hsp.toml").read_text() == text


@pytest.mark.parametrize("text", ["x = " + "9" * 5000, "a = " + "[" * 1000 + "]" * 1000])
def test_what_no_reader_of_toml_takes_is_one_line(hsp: Hsp, tmp_path: Path, text: str) -> None:
    """A number may be too long, and lists nested too deep."""
    own = shutil.copytree(TOP / "examples/two-sites", tmp_path / "own")
    (own / "hsp.toml").write_text(text)
    for words in (["plan"], ["doctor"], ["view"]):
        ended = hsp(*words, str(own), status=1)
        assert "hsp.toml" in ended.stdout + ended.stderr and "Traceback" not in ended.stderr
