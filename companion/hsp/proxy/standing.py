"""How servers stand in a period: loads against plan and capacity, as JSON, as Prometheus' figures, as a table."""

from __future__ import annotations

import datetime
import json
import os
from collections.abc import Iterator
from dataclasses import asdict, dataclass, replace

from hsp.base.bounds import whole
from hsp.base.numbers import percent, queries_of, some
from hsp.base.paths import path_in
from hsp.base.programs import Missing
from hsp.base.text import bold, colored
from hsp.proxy.counts import Counts

# The file of the last state, beside the files of the proxy.
STATE = "steer.json"
GREATEST = 10**15
METRICS = {
    "load": "Queries that a server was given in this period.",
    "planned": "Queries that a server is to have at the end of this period.",
    "capacity": "Queries that a server takes in a period.",
    "down": "1 where a server takes no queries now.",
}


@dataclass(frozen=True)
class Standing:
    """A server in a period: what it was given, is to have at the end, and takes, and whether it is down."""

    load: int
    planned: int
    capacity: int
    down: bool


@dataclass(frozen=True)
class State:
    """A plan in force, and what was counted before it."""

    # When it was made, in seconds since 1970, and the share of the period that was left.
    made: float
    left: float
    # Of the rest: the queries, those without room, and what the others cost.
    asked: int
    left_out: int
    cost: int
    # The folders of all proxies that are steered together, and whether each has this plan.
    proxies: dict[str, bool]
    servers: dict[str, Standing]
    # After how many seconds the next plan is due, if ever, and why none came.
    every: float = 0.0
    fault: str = ""

    def given(self, counts: Counts, down: frozenset[str]) -> State:
        """The same plan with the counts of now."""
        servers = {
            name: replace(own, load=counts.taken.get(name, 0), down=name in down) for name, own in self.servers.items()
        }
        return replace(self, servers=servers)


def line_of(state: State) -> str:
    """A state as one line of JSON."""
    made = datetime.datetime.fromtimestamp(state.made, datetime.UTC)
    said = {"time": f"{made:%Y-%m-%dT%H:%M:%SZ}", **asdict(state), "left": round(state.left, 4)}
    for key in ("made", "every", "fault"):
        del said[key]
    return f"{json.dumps(said)}\n"


def kept(state: State, counts: Counts) -> bytes:
    """The text of the file of a state."""
    return f"{json.dumps({'state': asdict(state), 'counts': asdict(counts)}, indent=1)}\n".encode()


def _is_number(value: object) -> bool:
    """Whether it is a number that a time or a count can be. No other is in a file that hsp has written."""
    return isinstance(value, (int, float)) and -GREATEST <= value <= GREATEST


def _are_numbers(state: State, counts: Counts) -> bool:
    """Whether all is a number that has to be one, and all counts are whole."""
    numbers = [state.made, state.left, state.asked, state.left_out, state.cost, counts.length]
    wholes = [counts.period, *counts.seen.values(), *counts.taken.values()]
    numbers += [
        *wholes,
        *(number for own in state.servers.values() for number in (own.load, own.planned, own.capacity)),
    ]
    numbers += [counts.at, state.every, *state.proxies.values()]
    are_counts = all(isinstance(number, int) and number >= 0 for number in wholes)
    return all(map(_is_number, numbers)) and are_counts and counts.length >= 1 and isinstance(state.fault, str)


def kept_in(folder: str) -> tuple[State, Counts] | None:
    """The last state of a proxy, or none where its file isn't there or isn't whole."""
    path = path_in(folder, STATE)
    if not os.path.isfile(path):
        return None
    try:
        said = json.loads(whole(path))
        servers = {name: Standing(**own) for name, own in said["state"].pop("servers").items()}
        found = State(**said["state"], servers=servers), Counts(**said["counts"])
        return found if _are_numbers(*found) else None
    except (ValueError, KeyError, TypeError, AttributeError, RecursionError):
        return None


def state_in(folder: str) -> tuple[State, Counts]:
    """The last state of a proxy, which has to be there."""
    found = kept_in(folder)
    if not found:
        raise Missing(f"{path_in(folder, STATE)}: no state is there, so hsp steer has planned nothing here yet")
    return found


def _figure(name: str, meaning: str, values: dict[str, float]) -> str:
    head = f"# HELP hsp_steer_{name} {meaning}\n# TYPE hsp_steer_{name} gauge\n"
    return head + "".join(f"hsp_steer_{name}{labels} {value:.15g}\n" for labels, value in values.items())


def _labels(name: str) -> str:
    site, _, identifier = name.rpartition(":")
    return f'{{site="{site}",server_id="{identifier}"}}'


def _proxy_label(folder: str) -> str:
    """A folder as the value of a label."""
    return '{proxy="' + folder.replace("\\", r"\\").replace('"', r"\"").replace("\n", r"\n") + '"}'


def metrics_text(state: State, now: float) -> str:
    """The figures as Prometheus' textfile collector reads them."""
    servers = {_labels(name): asdict(own) for name, own in state.servers.items()}
    texts = [
        _figure(name, meaning, {labels: float(own[name]) for labels, own in servers.items()})
        for name, meaning in METRICS.items()
    ]
    steered = {_proxy_label(folder): float(has) for folder, has in state.proxies.items()}
    texts.append(_figure("proxy", "1 where a proxy answers by the plan in force.", steered))
    plan = {
        "asked": ("Queries of the rest of this period.", state.asked),
        "left_out": ("Queries of the rest that no server has room for.", state.left_out),
        "cost": ("What the rest of this period costs.", state.cost),
        "plan_age_seconds": ("How old the plan in force was when this was written.", round(now - state.made, 3)),
        "plan_timestamp_seconds": ("When the plan in force was made.", round(state.made, 3)),
    }
    return "".join([*texts, *(_figure(name, meaning, {"": value}) for name, (meaning, value) in plan.items())])


def _row(name: str, own: Standing, wide: int) -> str:
    numbers = "".join(f"{number:>13,}" for number in (own.load, own.planned, own.capacity))
    line = f"{name:<{wide}}{numbers}{percent(own.load, own.capacity):>7}"
    return line + (f"  {colored('down', 'red')}" if own.down else "")


def table_lines(state: State, counts: Counts, now: float) -> Iterator[str]:
    """Loads against plan and capacity now."""
    wide = max(map(len, ["server", *state.servers]))
    yield bold(f"{'server':<{wide}}{'load':>13}{'planned':>13}{'capacity':>13}{'full':>7}")
    yield from (_row(name, own, wide) for name, own in state.servers.items())
    left, age = max(0, counts.ends - now), some(round(now - state.made), "second")
    yield f"{left:,.0f} of {counts.length:,.0f} seconds are left; planned {age} ago"
    if state.left_out:
        yield f"{queries_of(state.left_out)} of the rest had no room"
