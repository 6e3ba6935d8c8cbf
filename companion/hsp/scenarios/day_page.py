"""One page of a day: columns of hours, a grid of servers by hours, and the plan of the hour that is clicked."""

import os
from collections.abc import Mapping, Sequence
from dataclasses import dataclass

from hsp.base.numbers import part, some
from hsp.base.paths import path_in
from hsp.base.programs import Inputs, Load
from hsp.plans.answering import answer_command
from hsp.plans.page import Source, environment, now, sources_of, sum_of
from hsp.plans.service import NAMES, Service
from hsp.scenarios.blocks import Block
from hsp.scenarios.day_lines import Day
from hsp.scenarios.hours import HourPlan
from hsp.scenarios.in_force import PLAN

# At most so many servers are rows of the grid.
ROWS_SHOWN = 60
# Heights of the columns, in pixels.
COST_HEIGHT, ASKED_HEIGHT = 92, 38


@dataclass(frozen=True)
class Column:
    """An hour as a column: heights in pixels."""

    label: str
    title: str
    cost: int
    asked: int
    is_short: bool
    is_worst: bool


@dataclass(frozen=True)
class Cell:
    kind: str
    text: str


@dataclass(frozen=True)
class GridRow:
    label: str
    cells: list[Cell]


@dataclass(frozen=True)
class BlockView:
    """A block: its certificate, and the command that answers by it."""

    label: str
    path: str
    command: str


def command_of(inputs: Inputs, folder: str) -> str:
    """The command that answers by the plan of an hour or a block, which is kept in a folder with its demand."""
    return answer_command(inputs.but(demand=path_in(folder, NAMES["demand"])), path_in(folder, PLAN))


def block_view(inputs: Inputs, block: Block, folder: str) -> BlockView:
    """A block whose demand and plan are kept in a folder."""
    return BlockView(block.label, path_in(folder, PLAN), command_of(inputs, folder))


def _shares(service: Service, plan: HourPlan) -> dict[str, list[int]]:
    """How many queries of each region go to each site."""
    shares = {region: [0] * len(service.sites) for region in sorted(service.regions)}
    if not service.log and plan.is_plan:
        regions = [row.region for row in service.rows]
        for row, site, queries in zip(*plan.certificate.use_columns):
            shares[regions[row]][site] += queries
    return shares


def _hour(service: Service, plan: HourPlan, command: str) -> dict[str, object]:
    return {
        "label": plan.hour.clock,
        "asked": plan.hour.asked,
        "cost": plan.certificate.cost,
        "each": f"{plan.each:.1f}",
        "lack": None if plan.is_plan else plan.lack,
        "full": len(plan.full),
        "moved": plan.moved,
        "is_nearest": plan.is_nearest,
        "loads": [own.load for own in plan.loads],
        "prices": [own.price for own in plan.loads],
        "shares": _shares(service, plan),
        "command": command if plan.is_plan else "No plan serves this hour.",
    }


def _columns(day: Day) -> list[Column]:
    most = max(plan.each for plan in day.plans) or 1.0
    asked = max(plan.hour.asked for plan in day.plans) or 1
    found = []
    for plan in day.plans:
        then = f"{plan.each:.1f} a query" if plan.is_plan else f"short by {plan.lack:,}"
        title = f"{plan.hour.clock}: {plan.hour.asked:,} queries, {then}"
        height = round(COST_HEIGHT * plan.each / most) if plan.is_plan else COST_HEIGHT
        low = round(ASKED_HEIGHT * plan.hour.asked / asked)
        found.append(Column(plan.hour.label, title, height, low, not plan.is_plan, plan is day.worst))
    return found


def _cell(plan: HourPlan, at: int) -> Cell:
    if not plan.is_plan:
        return Cell("is-short", "–")
    own = plan.loads[at]
    if own.price:
        return Cell("is-dear", f"{own.price:,}")
    return Cell("is-full", "") if 0 < own.capacity <= own.load else Cell("", "")


def _grid(day: Day) -> tuple[list[GridRow], str]:
    """The servers that are full at some hour, those first at which room has a price in most, and what is left out."""
    service = day.service
    priced = {at: len([price for price in prices if price]) for at, prices in day.priced()}
    full = {at for plan in day.plans for at in plan.full} | set(priced)
    order = sorted(full, key=lambda at: (-priced.get(at, 0), at))
    rows = [GridRow(service.servers[at].label, [_cell(plan, at) for plan in day.plans]) for at in order[:ROWS_SHOWN]]
    others = len(service.servers) - len(full)
    note = f"{some(others, 'server is', 'servers are')} never full." if others else "Each server is full at some hour."
    if len(order) > len(rows):
        note += f" {some(len(order) - len(rows), 'more server is', 'more servers are')} full at some hour."
    return rows, note


def _sources(day: Day, folder: str) -> list[Source]:
    inputs = day.service.own_inputs
    own = [it for it in sources_of(folder, inputs) if it.name != os.path.basename(inputs.demand)]
    return [*own, *(Source(f"{plan.hour.name}/demand.csv", sum_of(plan.hour.demand)) for plan in day.plans)]


def _starts(day: Day) -> list[bool]:
    """Whether a block begins at each hour, but for the first."""
    firsts = {block.hours[0].name for block in day.blocks}
    return [bool(at) and plan.hour.name in firsts for at, plan in enumerate(day.plans)]


def _worst_rows(day: Day) -> list[list[str]]:
    worst = day.worst
    loads = worst.loads or [Load(0, day.service.capacity(server), 0) for server in day.service.servers]
    return [
        [server.label, f"{own.load:,} / {own.capacity:,}", f"{own.price:,}" if own.price else ""]
        for server, own in zip(day.service.servers, loads)
    ]


def render_day(day: Day, folder: str, commands: Mapping[str, str], blocks: Sequence[BlockView], judged: int) -> str:
    """The text of the page. The commands are those of hours, by their names."""
    service, worst = day.service, day.worst
    grid, note = _grid(day)
    several = (
        "1 plan for a block of hours costs"
        if len(day.blocks) == 1
        else f"{len(day.blocks):,} plans for blocks of hours cost"
    )
    fewest = f"{several} {part(float(day.price))} more"
    shown: dict[str, object] = {
        "service": service,
        "span": "week" if "-" in day.plans[0].hour.name else "day",
        "time": now(),
        "names": [site.name for site in service.sites],
        "unit": service.unit,
        "plans": day.plans,
        "worst": worst,
        "busiest": day.busiest,
        "short": [plan.hour.label for plan in day.plans if not plan.is_plan],
        "columns": _columns(day),
        "grid": grid,
        "grid_note": note,
        "starts": _starts(day),
        "blocks": blocks,
        "blocks_line": fewest,
        "worst_rows": _worst_rows(day),
        "worst_command": commands[worst.hour.name],
        "sources": _sources(day, folder),
        "judged": judged,
        "data": {
            "unit": service.unit,
            "sites": [site.name for site in service.sites],
            "servers": [[server.label, service.capacity(server)] for server in service.servers],
            "worst": list(day.plans).index(worst),
            "hours": [_hour(service, plan, commands[plan.hour.name]) for plan in day.plans],
        },
    }
    return environment().get_template("day.html").render(**shown)
