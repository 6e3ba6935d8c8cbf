"""Pictures of what-if cases, as SVG that reads in light and dark."""

from html import escape

from hsp.base.numbers import queries_of, signed
from hsp.base.programs import Missing
from hsp.plans.page import step_of
from hsp.plans.service import Service
from hsp.plans.whatif import DEMAND, LOST, MORE, SIZE, TOGETHER, Case, greatest

WIDE = 680
STYLE = """<style>
text{fill:#1a1f26;font:13px system-ui,"DejaVu Sans",sans-serif}
.head{font-weight:600}.soft{fill:#59636e}.less{fill:#1a7f4b}.more{fill:#c2410c}.axis{stroke:#d5dbe1}
.line{fill:none;stroke:#2c6cb0;stroke-width:2.5}.dot{fill:#2c6cb0}.now{fill:#fff;stroke:#1a1f26;stroke-width:2}
.short{fill:#b3261e;opacity:.12}
@media (prefers-color-scheme:dark){text{fill:#e4e8ec}.soft{fill:#9ba6b2}.less{fill:#57c58a}.more{fill:#f08a4b}
.axis{stroke:#333c46}.line{stroke:#5a9fe0}.dot{fill:#5a9fe0}.now{fill:#12161b;stroke:#e4e8ec}}
</style>"""


def drawn(service: Service, cases: list[Case], step: float) -> str:
    """The cost by the size of a server as a curve, and other cases as bars."""
    of_sizes = [case for case in cases if case.variant == SIZE]
    return curve(service, of_sizes) if of_sizes else bars(cases, step)


def _svg(height: int, title: str, parts: list[str]) -> str:
    head = f'<svg xmlns="http://www.w3.org/2000/svg" viewBox="0 0 {WIDE} {height}" width="{WIDE}" role="img">'
    return "\n".join([head, f"<title>{escape(title, quote=False)}</title>{STYLE}", *parts, "</svg>\n"])


class Axes:
    """Where sizes and costs stand in the picture."""

    HIGH, LEFT, TOP, RIGHT, BOTTOM = 340, 90, 56, 24, 52

    def __init__(self, rooms: list[int], costs: list[int]) -> None:
        self.low, self.high = rooms[0], max(rooms[-1], rooms[0] + 1)
        self.along = step_of(max(1, self.high - self.low))
        self.up = step_of(max(1, max(costs) - min(costs)))
        self.least = min(costs) // self.up * self.up
        self.most = max(-(-max(costs) // self.up) * self.up, self.least + self.up)

    def x(self, room: int) -> float:
        part = (room - self.low) / (self.high - self.low)
        return round(self.LEFT + part * (WIDE - self.LEFT - self.RIGHT), 1)

    def y(self, cost: int) -> float:
        part = (cost - self.least) / (self.most - self.least)
        return round(self.HIGH - self.BOTTOM - part * (self.HIGH - self.TOP - self.BOTTOM), 1)

    def marks(self, what: str) -> list[str]:
        """The lines of the costs, and the numbers along both axes."""
        parts = []
        for value in range(self.least, self.most + 1, self.up):
            y = self.y(value)
            parts.append(f'<line class="axis" x1="{self.LEFT}" x2="{WIDE - self.RIGHT}" y1="{y}" y2="{y}"/>')
            parts.append(f'<text class="soft" x="{self.LEFT - 8}" y="{y + 4}" text-anchor="end">{value:,}</text>')
        for value in range(-(-self.low // self.along) * self.along, self.high + 1, self.along):
            x, y = self.x(value), self.HIGH - self.BOTTOM + 20
            parts.append(f'<text class="soft" x="{x}" y="{y}" text-anchor="middle">{value:,}</text>')
        x, y = WIDE - self.RIGHT, self.HIGH - 10
        return parts + [
            f'<text class="soft" x="{x}" y="{y}" text-anchor="end">capacity of {escape(what, quote=False)}</text>'
        ]


def curve(service: Service, cases: list[Case]) -> str:
    """The cost of the plan by the size of one server."""
    good = [(case.room, case.cost) for case in cases if case.cost is not None]
    if not good:
        raise Missing("short at each of these sizes, so there is nothing to draw: give more room by --to")
    what = cases[0].what
    axes = Axes([case.room for case in cases], [cost for _, cost in good])
    unit = f" ({service.titles.cost})" if service.titles.cost else ""
    parts = [
        f'<text class="head" x="12" y="22">{escape(f"Cost of the plan{unit} by room at {what}", quote=False)}</text>'
    ]
    if len(good) < len(cases):
        left, wide = axes.x(axes.low), round(axes.x(good[0][0]) - axes.x(axes.low), 1)
        height = axes.HIGH - axes.TOP - axes.BOTTOM
        parts.append(f'<rect class="short" x="{left}" y="{axes.TOP}" width="{wide}" height="{height}"/>')
        parts.append(f'<text class="soft" x="{left + 6}" y="{axes.TOP + 18}">short</text>')
    parts += axes.marks(what)
    points = [(axes.x(room), axes.y(cost)) for room, cost in good]
    parts.append('<path class="line" d="M' + "L".join(f"{x} {y}" for x, y in points) + '"/>')
    parts += [f'<circle class="dot" cx="{x}" cy="{y}" r="3"/>' for x, y in points]
    own = next(service.capacity(server) for server in service.servers if server.label == what)
    for (room, cost), (x, y) in zip(good, points):
        if room == own:
            parts.append(f'<circle class="now" cx="{x}" cy="{y}" r="6"/>')
            parts.append(f'<text x="{x + 12}" y="{y - 8}">now {room:,}: {cost:,}</text>')
    first, last = good[0], good[-1]
    title = f"Cost of the plan by room at {what}: {first[1]:,} at {first[0]:,}, {last[1]:,} at {last[0]:,}"
    return _svg(axes.HIGH, title, parts)


def _bar(case: Case, most: int, y: int) -> list[str]:
    name, room = 150, 330
    parts = [f'<text x="{name - 8}" y="{y + 14}" text-anchor="end">{escape(case.what, quote=False)}</text>']
    if case.cost is None:
        return parts + [f'<text class="more" x="{name}" y="{y + 14}">short by {queries_of(case.lack)}</text>']
    change = case.change if case.change is not None else case.cost
    long = max(1, round(room * abs(change) / max(1, most), 1))
    colour = "less" if change <= 0 else "more"
    parts.append(f'<rect class="{colour}" x="{name}" y="{y + 2}" width="{long}" height="15"/>')
    shown = signed(change) if case.change is not None else f"{change:,}"
    return parts + [f'<text x="{name + long + 8}" y="{y + 14}">{shown}</text>']


def bars(cases: list[Case], step: float) -> str:
    """What each change costs or saves."""
    heads = {
        MORE: f"{step:g}% more room at one server: what it saves",
        LOST: "One site lost: what it costs",
        DEMAND: "All regions together: what it costs",
        TOGETHER: "All changes in one plan: what they cost",
    }
    parts, y, most = [], 30, greatest(cases)
    for variant, head in heads.items():
        own = [case for case in cases if case.variant == variant]
        if not own:
            continue
        parts.append(f'<text class="head" x="12" y="{y}">{head}</text>')
        for at, case in enumerate(own):
            parts += _bar(case, most, y + 14 + 22 * at)
        y += 40 + 22 * len(own)
    return _svg(y, "What changes would cost or save", parts)
