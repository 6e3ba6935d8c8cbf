"""hsp new and hsp sites: files that are written, records of every form, and what is left out."""

import base64
import hashlib
import json
import os
import random
import subprocess
from concurrent.futures import ThreadPoolExecutor
from pathlib import Path
from typing import Any

import pytest
from click.testing import Result

from lib import examples
from hsp.base import files
from hsp.base.programs import Programs
from hsp.plans.service import read_service

from conftest import Hsp, run_here

ADDRESSES = examples.TWO_SITES
PARIS = examples.site_octets("paris", 7, ADDRESSES["paris"])
RESTON = examples.site_octets("reston", 8, ADDRESSES["reston"])


def site_json(name: str, serial: int, **more: Any) -> dict[str, Any]:
    """The JSON of an example's site, as handle.net documents it."""
    attributes = [{"name": "desc", "value": f"mirror {name}"}]
    return {**examples.site_json(name, serial, ADDRESSES[name]), "attributes": attributes, **more}


def value_json(index: int, site: Any) -> dict[str, Any]:
    data = {"format": "site", "value": site}
    return {"index": index, "type": "HS_SITE", "data": data, "ttl": 86400, "timestamp": "2026-01-01T00:00:00Z"}


ADMIN = {"index": 100, "type": "HS_ADMIN", "data": {"format": "admin", "value": {"handle": "0.NA/1", "index": 1}}}
BELOW = {"index": 7, "type": "HS_SITE.PREFIX", "data": {"format": "site", "value": {}}}


def answer(*values: dict[str, Any]) -> bytes:
    return json.dumps({"responseCode": 1, "handle": "0.NA/20.500.1234", "values": list(values)}).encode()


def invoke(*words: str | Path, status: int = 0) -> Result:
    result = run_here(words)
    assert result.exit_code == status, result.stdout + result.stderr
    return result


def records(settings: str) -> list[bytes]:
    return [bytes.fromhex(it.split('"')[1]) for it in settings.splitlines() if it.startswith("record = ")]


FORMS = {
    "answer.json": answer(value_json(3, site_json("paris", 7)), ADMIN),
    "all.json": answer(ADMIN, value_json(3, site_json("paris", 7)), BELOW),
    "value.json": json.dumps(value_json(3, site_json("paris", 7))).encode(),
    "siteinfo.json": b"\xef\xbb\xbf" + json.dumps(site_json("paris", 7), indent=2).encode(),
    "option.json": answer(value_json(3, site_json("paris", 7, hashOption=2))),
    "named.json": answer(value_json(3, site_json("paris", 7, hashOption="HASH_TYPE_BY_ALL"))),
    "data.json": answer(
        {"index": 3, "type": "HS_SITE", "data": {"format": "base64", "value": base64.b64encode(PARIS).decode()}}
    ),
    "digits.json": answer({"index": 3, "type": "HS_SITE", "data": {"format": "hex", "value": PARIS.hex()}}),
    "siteinfo.bin": PARIS,
    "lower.hex": PARIS.hex().encode() + b"\n",
    "upper.hex": PARIS.hex(" ").upper().encode(),
    "prefixed.hex": b"0x" + PARIS.hex().encode(),
    "wrapped.base64": base64.encodebytes(PARIS),
    "urlsafe.base64": base64.urlsafe_b64encode(PARIS).rstrip(b"="),
    "list.values": examples.values_octets([(3, PARIS)]),
    "list.hex": examples.values_octets([(3, PARIS)]).hex().encode(),
}


@pytest.mark.parametrize("name", FORMS)
def test_every_form_gives_the_record_that_a_script_wrote(tmp_path: Path, name: str) -> None:
    path = tmp_path / name
    path.write_bytes(FORMS[name])
    assert records(invoke("sites", path).stdout) == [PARIS]


def test_all_sites_of_a_handle_and_several_files(tmp_path: Path) -> None:
    (tmp_path / "two.json").write_bytes(
        answer(value_json(3, site_json("paris", 7)), value_json(4, site_json("reston", 8)))
    )
    (tmp_path / "paris.bin").write_bytes(PARIS)
    listed = examples.values_octets([(3, PARIS), (9, b"\0\0\0\x07HS_SITE"), (4, RESTON)])
    (tmp_path / "list.values").write_bytes(listed)
    assert records(invoke("sites", tmp_path / "two.json").stdout) == [PARIS, RESTON]
    assert records(invoke("sites", tmp_path / "list.values").stdout) == [PARIS, RESTON]
    result = invoke("sites", tmp_path / "paris.bin", tmp_path / "two.json")
    assert records(result.stdout) == [PARIS, RESTON]
    assert "the record of paris once more" in result.stderr


def test_broken_files_end_well(tmp_path: Path) -> None:
    draw = random.Random(51)
    found = set()
    for number in range(150):
        octets = bytearray(FORMS[draw.choice(list(FORMS))])
        for _ in range(draw.randint(1, 4)):
            at = draw.randrange(len(octets))
            octets[at : at + draw.choice((0, 1, 1, 9))] = draw.choice(
                (b"", b"\xff", b'"', b"}", b"[", b"\0", b"null", b"-1", b"9e9")
            )
        path = tmp_path / "broken"
        path.write_bytes(octets)
        result = run_here(["sites", path])
        assert result.exit_code in (0, 1), (number, result.stderr)
        assert result.exit_code == 0 or result.stderr.count("\n") == 1
        found.add(result.exit_code)
    assert found == {0, 1}


def place(handle: str, servers: int) -> int:
    """The place of a handle by RFC 3652, section 3.1.3, in a site that hashes the whole handle."""
    digest = hashlib.md5(handle.upper().encode()).digest()
    return abs(int.from_bytes(digest[-4:], "big", signed=True)) % servers


def located_by(settings: Path, handle: str) -> str:
    words = [os.environ["HSPLAN"], "locate", "--settings", str(settings), handle]
    return subprocess.run(words, capture_output=True, text=True, check=True).stdout


def test_places_of_what_is_written(tmp_path: Path) -> None:
    path = tmp_path / "two.json"
    path.write_bytes(answer(value_json(3, site_json("paris", 7)), value_json(4, site_json("reston", 8))))
    invoke("sites", path, "--into", tmp_path, "--name", "paris", "--name", "reston")
    handles = [f"20.500.1234/item-{number}" for number in range(2000)]
    (tmp_path / "handles.csv").write_text("".join(f"{it}\n" for it in ["handle", *handles]))
    words = [
        os.environ["HSPLAN_STREAM"],
        "places",
        "--settings",
        f"{tmp_path}/settings.toml",
        "--log",
        f"{tmp_path}/handles.csv",
    ]
    printed = subprocess.run(words, capture_output=True, text=True, check=True).stdout.splitlines()[1:]
    sizes = {"paris": 2, "reston": 3}
    wanted = [
        f"{handle},{site},{place(handle, servers)},{place(handle, servers) + 1}"
        for handle in handles
        for site, servers in sizes.items()
    ]
    assert printed == wanted
    with ThreadPoolExecutor(4) as several:
        located = several.map(lambda it: located_by(tmp_path / "settings.toml", it), handles)
        for handle, lines in zip(handles, located, strict=True):
            assert lines == "".join(f"{it} {place(handle, n)} {place(handle, n) + 1}\n" for it, n in sizes.items())


def test_the_example_plans_at_once(hsp: Hsp, tmp_path: Path) -> None:
    folder = tmp_path / "example"
    hsp("new", str(folder), "--example")
    says = (folder / "README.txt").read_text()
    assert says.startswith("An example ") and "have to be filled in" not in says and "\n\nsettings.toml  " in says
    lines = hsp("plan", str(folder)).stdout.splitlines()
    assert lines[0] == "An example  2 sites, 3 servers, 3 regions, 4 handles, 1,900 queries in the busiest hour"
    service = read_service(str(folder), Programs(), {})
    assert [(it.site, it.id, it.address[-8:]) for it in service.servers] == [
        ("north", 1, "c0000201"),
        ("north", 2, "c0000202"),
        ("south", 1, "c6336401"),
    ]


def test_files_are_written_together_or_not_at_all(tmp_path: Path) -> None:
    (tmp_path / "a").write_bytes(b"old")
    with pytest.raises(OSError):
        files.replace_all({f"{tmp_path}/a": b"new", f"{tmp_path}/absent/b": b"new"})
    with pytest.raises(OSError):
        files.create(str(tmp_path), {"c": "new", "absent/d": "new"})
    with pytest.raises(ZeroDivisionError), files.growing(f"{tmp_path}/a") as file:
        file.write(b"new" if file else b"")
        raise ZeroDivisionError
    assert [(it.name, it.read_bytes()) for it in tmp_path.iterdir()] == [("a", b"old")]


def test_a_pipe_is_written_and_stays_a_pipe(tmp_path: Path) -> None:
    """So is a device such as /dev/null, which a superuser could replace by a file."""
    path = tmp_path / "pipe"
    os.mkfifo(path)
    reader = os.open(path, os.O_RDONLY | os.O_NONBLOCK)
    files.replace_all({str(path): b"whole"})
    with files.growing(str(path)) as file:
        file.write(b" grown")
    assert (path.is_fifo(), os.read(reader, 99)) == (True, b"whole grown")
    os.close(reader)
    assert os.listdir(tmp_path) == ["pipe"]


def test_a_link_stays_a_link_and_rights_stay_as_they_are(tmp_path: Path) -> None:
    (tmp_path / "own").write_bytes(b"old")
    os.chmod(tmp_path / "own", 0o640)
    (tmp_path / "link").symlink_to("own")
    files.replace_all({f"{tmp_path}/link": b"new"})
    assert ((tmp_path / "link").is_symlink(), (tmp_path / "own").read_bytes()) == (True, b"new")
    with files.growing(f"{tmp_path}/link") as file:
        file.write(b"newer")
    assert ((tmp_path / "own").read_bytes(), (tmp_path / "own").stat().st_mode & 0o777) == (b"newer", 0o640)
    assert sorted(os.listdir(tmp_path)) == ["link", "own"]
