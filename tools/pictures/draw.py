#!/usr/bin/env python3
"""Draws the pictures of docs/pictures/ from files of the repository.

    flow.svg, ways.svg    tools/pictures/flow.dot and ways.dot
    floors.svg            crates.txt: a storey for each of its comments, and in it its crates
    network.svg           the numbers of the transcript of examples/two-sites, which tools/gate/check_examples.py compares
                          with the program
    loads.svg             a drawing made by hand, into which numbers of that transcript are filled
    record.svg            a drawing made by hand, into which the octets of examples/two-sites/paris.site are filled

Graphviz (Debian's graphviz) lays graphs out. Where another version of it runs than drew a picture, the words of the
picture are compared, and not their places.

    tools/pictures/draw.py            writes the pictures
    tools/pictures/draw.py --check    writes nothing, and compares the pictures that are there
"""

import argparse
import hashlib
import re
import subprocess
import sys
import tomllib
from collections import defaultdict
from collections.abc import Callable
from pathlib import Path
from typing import NamedTuple

sys.path.insert(0, str(Path(__file__).resolve().parents[1]))

from lib import programs, transcripts

HERE, TOP = Path(__file__).resolve().parent, Path(programs.TOP)
FOLDER, EXAMPLE = TOP / "docs" / "pictures", TOP / "examples" / "two-sites"
STYLE = """fontname="DejaVu Sans"; bgcolor=white;
    node [shape=box, style=filled, fontname="DejaVu Sans", fontsize=11, fillcolor="#dbeafb", color="#2f6fab"];
    edge [color="#6e7781", fontname="DejaVu Sans", fontsize=10, arrowsize=0.7];"""


class Server(NamedTuple):
    place: int
    number: int
    load: int
    capacity: int
    price: int
    site: str

    @property
    def name(self) -> str:
        return f"{self.site} {self.number}"


def printed_by(words: str) -> list[str]:
    """What the example's command with these words prints."""
    steps = transcripts.steps_of((EXAMPLE / "transcript.txt").read_text("utf-8").splitlines())
    found = [step.wanted for step in steps if words in step.command()]
    if len(found) != 1:
        raise SystemExit(f"tools/pictures/draw.py: the transcript has not exactly one command with {words}")
    return found[0]


def load_report(words: str) -> list[Server]:
    lines = [line.split() for line in printed_by(words)]
    found = [(list(map(int, words[:5])), words[5]) for words in lines if len(words) == 6 and words[0].isdigit()]
    return [Server(number[0], number[1], number[2], number[3], number[4], site) for number, site in found]


def rows_of(name: str) -> list[list[str]]:
    return [line.split(",") for line in (EXAMPLE / name).read_text("utf-8").splitlines()[1:]]


# ---- drawings made by hand


def filled(name: str, values: dict[str, dict[str, object]]) -> str:
    """A drawing with other attributes and texts in the elements of these ids."""
    text = (FOLDER / name).read_text("utf-8")
    for own, changes in values.items():
        found = re.search(rf'<\w+ id="{own}"[^>]*>(?:[^<]*</text>)?', text)
        if not found:
            raise SystemExit(f"tools/pictures/draw.py: {name} has no {own}")
        element = found[0]
        for key, value in changes.items():
            pattern = r">[^<]*</text>" if key == "text" else rf' {key}="[^"]*"'
            to = f">{value}</text>" if key == "text" else f' {key}="{value}"'
            element = re.sub(pattern, lambda _: to, element)
        text = text.replace(found[0], element)
    return text


def loads() -> str:
    values: dict[str, dict[str, object]] = {}
    left, scale = 100, 0.27
    nearest = load_report("--plan nearest.txt --kind load")
    for was, server in zip(nearest, load_report("$inputs --plan plan.txt --kind load")):
        own, within, above = server.name.replace(" ", "-"), min(was.load, server.capacity), was.load - server.capacity
        edge, more = left + scale * server.capacity, f" ({above:,} above)" if above > 0 else ""
        values[f"{own}-within"] = {"width": round(scale * within, 1)}
        values[f"{own}-above"] = {"x": round(left + scale * within, 1), "width": round(scale * max(0, above), 1)}
        values[f"{own}-nearest"] = {"x": round(left + scale * was.load + 8, 1), "text": f"{was.load:,}{more}"}
        values[f"{own}-plan"] = {"width": round(scale * server.load, 1)}
        values[f"{own}-planned"] = {"x": round(left + scale * server.load + 8, 1), "text": f"{server.load:,}"}
        values[f"{own}-edge"] = {"x1": round(edge, 1), "x2": round(edge, 1)}
        values[f"{own}-capacity"] = {"text": f"{server.capacity:,}"}
    return filled("loads.svg", values)


def record() -> str:
    octets = (EXAMPLE / "paris.site").read_bytes()
    shown = re.findall(r'id="octet-(\d+)"', (FOLDER / "record.svg").read_text("utf-8"))
    return filled("record.svg", {f"octet-{at}": {"text": f"{octets[int(at)]:02x}"} for at in shown})


# ---- graphs


def floors() -> str:
    """Each storey with its crates. Arrows go from a storey to those right below it that it stands on."""
    below, of = (
        programs.dependencies(),
        {name: at for at, (_, names) in enumerate(programs.storeys()) for name in names},
    )
    lines = ['digraph floors { nodesep=0.25; tooltip="The storeys of the house"; ' + STYLE]
    for at, (title, names) in enumerate(programs.storeys()):
        style = ', fillcolor="#fcefd0", color="#a5700a"' if title.startswith("Beside") else ""
        rows = [", ".join(names[first : first + 6]) for first in range(0, len(names), 6)]
        label = "\\n".join([title.split(":")[0], *rows])
        lines.append(f'    s{at} [label="{label}"{style}];')
    arrows = {(of[name], of[it]) for name, its in below.items() for it in its if of[it] != of[name]}
    inner = {(one, end) for one, other in arrows for begin, end in arrows if begin == other}
    lines += [f"    s{one} -> s{other};" for one, other in sorted(arrows - inner)]
    return "\n".join([*lines, "}"])


def place_of(handle: str, servers: int) -> int:
    """The place of the responsible server by the whole handle (RFC 3652, section 3.1.3)."""
    last = int.from_bytes(hashlib.md5(handle.upper().encode()).digest()[12:], "big", signed=True)
    return abs(last) % servers


def flows(servers: list[Server], plan: list[str]) -> dict[tuple[str, int], int]:
    """How much of each region's demand a plan sends to each server."""
    rows, sites = rows_of("demand.csv"), list(dict.fromkeys(server.site for server in servers))
    found: defaultdict[tuple[str, int], int] = defaultdict(int)
    for row, place, number in (map(int, line.split()[1:]) for line in plan if line.startswith("use ")):
        region, handle, _ = rows[row]
        beside = [at for at, server in enumerate(servers) if server.site == sites[place]]
        found[region, beside[place_of(handle, len(beside))]] += number
    for at, server in enumerate(servers):
        if server.load != sum(number for (_, to), number in found.items() if to == at):
            raise SystemExit(f"tools/pictures/draw.py: the plan does not give {server.name} the load of the report")
    return found


def box(own: str, name: str, load: int, most: int, price: int) -> str:
    style = ', fillcolor="#f6d5d2", color="#c0392b"' if load == most else ""
    return f'    {own} [label="{name}\\n{load:,} of {most:,}\\nprice {price}"{style}];'


def network() -> str:
    """The flow of the plan with a host: from regions to servers, to their hosts, and to the sink."""
    servers, plan = load_report("--plan hosts.txt --kind load"), printed_by("cat hosts.txt")
    demand: defaultdict[str, int] = defaultdict(int)
    for region, _, count in rows_of("demand.csv"):
        demand[region] += int(count)
    prices = [int(line.split()[2]) for line in plan if line.startswith("host ")]
    settings = tomllib.loads((EXAMPLE / "hosts.toml").read_text("utf-8"))
    host, records = settings["host"][0], {site["name"]: site["record"] for site in settings["site"]}
    # In a record an address stands behind the identifier of its server.
    housed = [at for at, it in enumerate(servers) if f"{it.number:08x}{host['address']}" in records[it.site]]
    lines = ['digraph network { rankdir=LR; nodesep=0.2; ranksep=0.9; tooltip="A cheapest flow"; ' + STYLE]
    for region, asked in demand.items():
        costs = [f"cost at {site} {cost}" for own, site, cost in rows_of("costs.csv") if own == region]
        words = "\\n".join([region, f"demand {asked:,}", *costs])
        lines.append(f'    {region} [label="{words}", fillcolor="#f3f5f7", color="#8c959f"];')
    lines += [box(f"s{at}", it.name, it.load, it.capacity, it.price) for at, it in enumerate(servers)]
    lines.append(box("host", "host 0", sum(servers[at].load for at in housed), host["limit"], prices[0]))
    lines.append(f'    sink [label="sink\\n{sum(server.load for server in servers):,}", fillcolor=white];')
    arrows = [(region, f"s{at}", number) for (region, at), number in flows(servers, plan).items()]
    arrows += [(f"s{at}", "host" if at in housed else "sink", it.load) for at, it in enumerate(servers)]
    arrows.append(("host", "sink", sum(servers[at].load for at in housed)))
    lines += [f'    {a} -> {b} [label="{n:,}", penwidth={1 + n / 400:.1f}];' for a, b, n in arrows]
    return "\n".join([*lines, "}"])


def laid_out(dot: str) -> str:
    done = subprocess.run(["dot", "-Tsvg"], input=dot, stdout=subprocess.PIPE, text=True, check=True)
    return done.stdout


PICTURES: dict[str, Callable[[], str]] = {
    "loads.svg": loads,
    "record.svg": record,
    "flow.svg": lambda: laid_out((HERE / "flow.dot").read_text("utf-8")),
    "ways.svg": lambda: laid_out((HERE / "ways.dot").read_text("utf-8")),
    "floors.svg": lambda: laid_out(floors()),
    "network.svg": lambda: laid_out(network()),
}


def is_same(one: str, other: str) -> bool:
    """Whether two pictures are the same, or have the same words where other versions of Graphviz laid them out."""
    made = [re.search(r"Generated by graphviz version (\S+)", it) for it in (one, other)]
    if made[0] and made[1] and made[0][1] != made[1][1]:
        words = [sorted(re.findall(r"<text[^>]*>([^<]*)</text>|<title>([^<]*)</title>", it)) for it in (one, other)]
        return words[0] == words[1]
    return one == other


def main() -> int:
    arguments = argparse.ArgumentParser(description="Draws the pictures of docs/pictures/.")
    arguments.add_argument("--check", action="store_true", help="write nothing, and compare the pictures")
    check = arguments.parse_args().check
    faults = [f"docs/pictures/{it.name} is drawn by nothing" for it in FOLDER.glob("*.svg") if it.name not in PICTURES]
    for name, draw in PICTURES.items():
        path, text = FOLDER / name, draw()
        if not check:
            path.write_text(text, "utf-8")
        elif not path.exists() or not is_same(path.read_text("utf-8"), text):
            faults.append(f"docs/pictures/{name} is not what tools/pictures/draw.py draws")
    print("\n".join([*faults, f"pictures: {len(PICTURES)}, {len(faults)} faults"]))
    return 1 if faults else 0


if __name__ == "__main__":
    sys.exit(main())
