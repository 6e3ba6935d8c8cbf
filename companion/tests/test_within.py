"""hsp plan --within and hsp within: a bound of what a query may cost, with a certificate for each side of it."""

import re
import shutil
from pathlib import Path

import pytest

from hsp.base.programs import Inputs, Programs

from conftest import Example, Hsp
from services import rows


def verdict(folder: Path, costs: Path, certificate: Path) -> tuple[str, bool]:
    """What the checker says of a certificate for these costs, and whether it is one of a plan."""
    inputs = Inputs(
        *(str(folder / name) for name in ("settings.toml", "demand.csv")), str(costs), f"{folder}/capacity.csv"
    )
    return Programs().verdict(inputs, str(certificate)), "\nPLAN\n" in certificate.read_text()[:99]


@pytest.mark.parametrize("name, bound", [("two-sites", 143), ("twelve-sites", 100)])
def test_the_least_bound_has_a_plan_and_the_one_below_has_none(
    name: str, bound: int, example: Example, twelve: Path, tmp_path: Path, hsp: Hsp
) -> None:
    folder = example(name) if name == "two-sites" else Path(shutil.copytree(twelve, tmp_path / name))
    said = hsp("within", str(folder)).stdout
    assert re.search(rf"^within {bound}( ms)? all are served: cost ", said, re.M)
    assert re.search(rf"^within {bound - 1}( ms)? not all are:\nshort ", said, re.M)
    own = folder / "within"
    assert verdict(folder, own / "costs.csv", own / "plan.txt") == ("yes", True)
    assert verdict(folder, own / "short-costs.csv", own / "short.txt") == ("yes", False)
    all_costs = rows(folder / "costs.csv")
    assert rows(own / "costs.csv") == [row for row in all_costs if int(row[2]) <= bound]
    assert rows(own / "short-costs.csv") == [row for row in all_costs if int(row[2]) < bound]
    before = sorted(path.name for path in folder.iterdir())
    hsp("plan", str(folder), "--within", str(bound - 1), status=3)
    assert hsp("within", str(folder), "--no-save").stdout.count("kept") == 0
    assert sorted(path.name for path in folder.iterdir()) == before
    hsp("plan", str(folder), "--within", str(bound))
    assert verdict(folder, folder / "costs-within.csv", folder / "plan.txt") == ("yes", True)


def test_a_plan_within_a_bound_is_kept_with_its_costs_until_the_next_one(folder: Path, hsp: Hsp) -> None:
    said = hsp("plan", str(folder), "--within", "150", "--reserve", "2").stdout
    assert ", 2% of each capacity kept back, no query costs more than 150\n" in said.replace(" ms", "")
    costs, room = folder / "costs-within.csv", folder / "capacity-less-reserve.csv"
    assert f"less {costs}: the costs of at most 150\n" in said and room.exists()
    assert f"--costs {costs} --capacity {room} --plan" in said
    assert "isn't one of these" not in hsp("doctor", str(folder)).stdout
    hsp("plan", str(folder), "--within", "150")
    assert costs.exists() and not room.exists() and "isn't one of these" not in hsp("doctor", str(folder)).stdout
    hsp("plan", str(folder))
    assert not costs.exists()
    for words in (["--near", str(folder)], ["--reserve", "100"]):
        hsp("plan", str(folder), "--within", "150", *words, status=2)
    hsp("plan", str(folder), "--within", "-1", status=2)


def test_who_is_short_is_named(folder: Path, hsp: Hsp) -> None:
    said = hsp("plan", str(folder), "--within", "142", "--no-save", status=3).stdout
    assert "why   asia has no site within 142" in said and "from  asia (1,455)\n" in said
    assert "give costs" not in said
    said = hsp("plan", str(folder), "--within", "16", "--no-save", status=3).stdout
    assert "short " in said and "give costs" not in said


def test_a_bound_of_a_log_is_found_by_prices(folder: Path, hsp: Hsp) -> None:
    rows_ = "".join(f"eu,20.500.1234/item-{number},1\n" for number in range(8200)) + "asia,20.500.1234/a,1\n"
    (folder / "demand.csv").write_text(f"region,handle,count\n{rows_}")
    (folder / "capacity.csv").write_text(
        "site,server_id,capacity\n"
        + "".join(
            f"{site},{own},9000\n"
            for site, own in (("paris", 1), ("paris", 2), ("reston", 1), ("reston", 2), ("reston", 3))
        )
    )
    said = hsp("within", str(folder)).stdout
    assert re.search(r"^within 143( ms)? all are served", said, re.M)
    assert "rows of 1 region: asia (1)" in said
    assert (folder / "within" / "short.txt").read_text().startswith("HSPLAN PRICES 1\nSHORT\n")


def test_bounds_that_cannot_be_found_are_refused(folder: Path, hsp: Hsp) -> None:
    for costs in ("eu,paris,0\nus,paris,0\nasia,paris,0\n", "eu,paris,5\nus,paris,5\nasia,paris,5\n"):
        (folder / "costs.csv").write_text(f"region,site,cost\n{costs}")
        (folder / "capacity.csv").write_text(
            (folder / "capacity.csv").read_text().replace("paris,1,1500", "paris,1,9000")
        )
        (folder / "capacity.csv").write_text(
            (folder / "capacity.csv").read_text().replace("paris,2,1510", "paris,2,9000")
        )
        said = hsp("within", str(folder), "--no-save").stdout
        assert f"within {costs[9]}" in said and ("not all are" in said) == (costs[9] != "0")
    (folder / "within").symlink_to(folder)
    assert "no folder of its own" in hsp("within", str(folder), status=1).stderr
    (folder / "capacity.csv").write_text((folder / "capacity.csv").read_text().replace("9000", "1"))
    assert hsp("within", str(folder), "--no-save", status=3).stdout.count("short ") == 1
    hsp("within", str(folder), "--no-save", "--into", "x", status=2)
