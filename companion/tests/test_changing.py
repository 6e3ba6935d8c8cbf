"""hsp sites --update, --remove and --host: what a change does is said, and all else in the files stays as it is."""

import random
import subprocess
from pathlib import Path

import pytest

from lib import examples
from hsp.base.programs import program

from conftest import Hsp
from services import rows

PARIS = examples.TWO_SITES["paris"]


def record(folder: Path, serial: int, addresses: list[str], name: str = "paris") -> str:
    path = folder / f"{name}.bin"
    path.write_bytes(examples.site_octets(name, serial, addresses))
    return str(path)


def servers(folder: Path, handles: list[str]) -> dict[tuple[str, str], str]:
    """The server of each handle at each site, one by one by `hsplan locate`."""
    found = {}
    for handle in handles:
        words = [program("hsplan"), "locate", "--settings", str(folder / "settings.toml"), handle]
        for line in subprocess.run(words, capture_output=True, text=True, check=True).stdout.splitlines():
            site, _, own = line.split()
            found[handle, site] = own
    return found


@pytest.mark.parametrize("addresses", [[*PARIS, "192.0.2.13"], PARIS[:1], PARIS, [PARIS[0], "192.0.2.99"]])
def test_the_share_that_changes_is_that_of_the_hash(addresses: list[str], folder: Path, hsp: Hsp) -> None:
    demand = [(handle, int(count)) for _, handle, count in rows(folder / "demand.csv")]
    handles = sorted({handle for handle, _ in demand})
    before = servers(folder, handles)
    texts = {path.name: path.read_bytes() for path in folder.iterdir() if path.is_file()}
    words = ["sites", record(folder.parent, 9, addresses), "--update", "--into", str(folder), "--capacity", "1400"]
    shown = hsp(*words, "--no-save").stdout
    assert shown.endswith("nothing is written\n")
    assert {path.name: path.read_bytes() for path in folder.iterdir() if path.is_file()} == texts
    said = hsp(*words).stdout
    assert said.rpartition("\n\n")[0] in shown or said.splitlines()[:-1] == shown.splitlines()[:-1]
    after = servers(folder, handles)
    moved = [handle for handle in handles if before[handle, "paris"] != after[handle, "paris"]]
    queries = sum(count for handle, count in demand if handle in moved)
    if moved:
        shares = f"{100 * len(moved) / 12:.0f}% of 12 handles have another server there, {100 * queries / 6282:.0f}%"
        assert f"paris  {shares} of 6,282 queries\n" in said
    else:
        assert "none of 12 handles has another server at a site that stays\n" in said
    assert said.startswith("paris  serial 7 to 9, ") and "plan  cost 307,216 before, " in said
    kept = {(site, own): room for site, own, room in rows(folder / "capacity.csv")}
    assert [own for site, own in kept if site == "paris"] == [str(at + 1) for at in range(len(addresses))]
    assert kept["paris", "1"] == "1500" and kept.get(("paris", "3"), "1400") == "1400"
    assert hsp("doctor", str(folder)).stdout.splitlines()[-1].startswith("no fault")


def test_comments_and_other_sites_stay(folder: Path, hsp: Hsp) -> None:
    settings = folder / "settings.toml"
    lines = settings.read_text().splitlines()
    text = "\r\n".join(["# mine", lines[0], "# of paris", *lines[1:3], "# of reston", *lines[3:]])
    settings.write_text(text, newline="")
    hsp("sites", record(folder.parent, 8, PARIS), "--update", "--into", str(folder))
    own = settings.read_bytes().decode()
    octets = examples.site_octets("paris", 8, PARIS).hex()
    assert own == text.replace(f"{lines[2]}\r\n", f'record = "{octets}"\n') + "\n"
    hsp("sites", "--remove", "paris", "--host", "198.51.100.22=2000", "--into", str(folder))
    assert settings.read_text().startswith("# mine\n# of reston\n[[site]]\n")
    assert settings.read_text().endswith('# 198.51.100.22\naddress = "' + "0" * 24 + 'c6336416"\nlimit = 2000\n')
    assert {site for site, *_ in rows(folder / "capacity.csv")} == {site for _, site, _ in rows(folder / "costs.csv")}
    hsp("sites", "--host", "198.51.100.22=2500", "--into", str(folder))
    assert settings.read_text().count("[[host]]") == 1 and "limit = 2500\n" in settings.read_text()
    settings.write_text(settings.read_text().replace("[[site]]", "site = [\n{").replace('reston"\nrec', 'reston", rec'))
    assert "\n" not in hsp("sites", "--remove", "reston", "--into", str(folder), status=1).stderr.rstrip("\n")


def test_of_a_long_demand_a_sample_is_looked_at(folder: Path, hsp: Hsp) -> None:
    draw = random.Random(4)
    lines = "".join(f'eu,"20.500.1234/it,{draw.randrange(10**9)}",2\n' for _ in range(20_000))
    (folder / "demand.csv").write_text(f"region,handle,count\n{lines}")
    said = hsp(
        "sites", record(folder.parent, 8, [*PARIS, "192.0.2.13"]), "--update", "--into", str(folder), "--no-save"
    ).stdout
    share = int(said.partition("paris  ")[2].partition("paris  ")[2].partition("%")[0])
    assert 62 <= share <= 71  # of the places by 2 and by 3 two thirds differ
    assert "(by 8,192 of 20,000 rows, \u00b11%)" in said


def test_what_cannot_be_changed_is_refused(folder: Path, hsp: Hsp) -> None:
    octets = record(folder.parent, 8, PARIS, "pariss")
    into = ["--into", str(folder)]
    assert "did you mean --name paris?" in hsp("sites", octets, "--update", *into, status=1).stderr
    assert "did you mean reston?" in hsp("sites", "--remove", "restom", *into, status=1).stderr
    for words in (["--host", "a=1"], ["--host", "192.0.2.1"], ["--host", "192.0.2.1=99999999999999999999"]):
        assert hsp("sites", *words, *into, status=5).stderr.count("\n") == 1
    for words in ([], ["--update"], [octets, "--remove", "paris"], [octets, "--no-save"]):
        hsp("sites", *words, *into, status=2)
    hsp("sites", octets, "--update", status=2)
    (folder / "demand.csv").write_text("region,handle,count\neu,a,x\n")
    said = hsp("sites", octets, "--update", "--name", "paris", *into, "--no-save").stdout
    assert "the demand can't be read" in said and "plan  none (demand: " in said
    (folder / "settings.toml").write_text("[[site]\n")
    for words in (["--host", "192.0.2.1=5"], ["--remove", "paris"], [octets, "--update"]):
        done = hsp("sites", *words, *into, status=1)
        assert done.stderr.count("\n") == 1 and "settings" in done.stderr
