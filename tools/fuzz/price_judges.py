"""Judges the verdicts of `hsplan-stream check` on certificates by prices, the reports by them, and what
`hsplan-stream plan` prints. Each verdict is that of tools/lib/price_verdicts.py, which says yes to each printed
certificate, and each report that of tools/lib/price_reports.py.

A certificate is of what `hsplan plan` prints of a table, or of prices or servers that are drawn. Then it is judged
again with something changed: its text, the rows, a bound or the service."""

from collections.abc import Mapping, Sequence
from typing import Any, NamedTuple

from draws import ANY_HANDLE, BLANK, BOOLEAN, END, FEW, MARK, OFTEN, REGION, REGIONS, TEN
from draws import Draw, Entry, Log, Where, at_random, changed, pick, services
from hypothesis import strategies as st
from runner import Answer, Kind, Runner, answered, same

from lib import cases, oracle, price_reports, price_verdicts, prices
from lib.oracle import Row, Service, csv_of
from lib.price_verdicts import Bounds

NAME = "hsplan-stream"
SERVICE = "--settings settings.toml --costs costs.csv --capacity capacity.csv --log log.csv"
INPUTS = f"{SERVICE} --prices plan.prices"
PLAN = f"plan {SERVICE}"
WORDS = f"check {INPUTS}"
REPORTS = {kind: f"report {INPUTS} --kind {kind}" for kind in price_reports.KINDS}
PAIRS = st.lists(st.tuples(REGION, ANY_HANDLE), min_size=1, max_size=40, unique=True)
MOST, PRICE, SLACK = pick([1, 3, 20, 1000]), pick([0, 0, 1, 2, 5]), pick([0, 0, 0, 1, 5, 100])
MORE = pick([1, 1, 1, 2, 30])
# Spellings at the ends of the ranges, and ones that spell no number.
EDGES = [
    1023,
    1024,
    10**12,
    10**12 + 1,
    10**16,
    10**16 + 1,
    2**32,
    2**64,
    2**64 + 1,
    10**19,
    10**20,
    10**30,
]
EDGE = pick([*(b"%d" % it for it in EDGES), b"", b"00", b"07", b"+1", b"-1", b"0x1"])
FORM = st.builds(Log, st.just([]), st.just(True), st.just(True), st.just(False), END, MARK, BLANK, OFTEN)


class Case(NamedTuple):
    """A service with its bounds, the rows of a log, and how the log is written."""

    service: Service
    bounds: Bounds
    rows: list[Row]
    form: Log

    def files(self) -> dict[str, bytes]:
        """The inputs of both programs. The rows are the demand and the log."""
        files = self.service.files(self.rows)
        servers = [(site.name, own) for site in self.service.sites for own in site.servers]
        capacities = [(*server, bound) for server, bound in zip(servers, self.bounds.capacities)]
        return {
            **files,
            "settings.toml": self.service.settings(self.bounds.limits),
            "capacity.csv": csv_of("site,server_id,capacity", capacities),
            "log.csv": self.form._replace(entries=[Entry(*row) for row in self.rows]).text,
        }

    def words(self, words: str) -> bytes:
        return (words + " --values values" * self.service.has_values).encode()


def wanted_of(case: Case, text: bytes) -> cases.Ended:
    claim = price_verdicts.read(text)
    if isinstance(claim, str):
        return b"", f"{NAME}: certificate: {claim}\n".encode(), 1
    said = price_verdicts.verdict(case.service, case.bounds, case.rows, claim)
    return f"{said}\n".encode(), b"", 0 if said == "yes" else 3


def reported_of(case: Case, text: bytes, kind: str) -> cases.Ended:
    """What has to be reported by a certificate: by one that is refused what its check prints, and by a valid one of a
    shortage nothing."""
    checked, claim = wanted_of(case, text), price_verdicts.read(text)
    if isinstance(claim, str) or checked[2]:
        return checked
    if claim.kind == b"SHORT":
        return b"", f"{NAME}: WrongKind\n".encode(), 3
    return price_reports.text_of(kind, case.service, case.bounds, case.rows, claim), b"", 0


def judge_reports(program: Runner, case: Case, text: bytes, where: Where) -> None:
    """Judges the reports by a certificate. The log in pieces has the same ones."""
    files = {**case.files(), "plan.prices": text}
    for kind, words in REPORTS.items():
        answer, wanted = answered(program, case.words(words), files), reported_of(case, text, kind)
        assert answer.said == wanted, f"report of {kind}: {answer.said}, wanted {wanted} of {text!r}"
        same(f"report of {kind} in pieces", answer, answered(program, case.words(words), files, piece=where.piece))


def judge(program: Runner, case: Case, text: bytes, where: Where) -> Answer:
    """Judges the answer to a certificate. The log in pieces, and its rows in another order, have the same one."""
    files = {**case.files(), "plan.prices": text}
    answer, wanted = answered(program, case.words(WORDS), files), wanted_of(case, text)
    assert answer.said == wanted, f"verdict: {answer.said}, wanted {wanted} of {text!r}"
    same("in pieces", answer, answered(program, case.words(WORDS), files, piece=where.piece))
    ordered = case._replace(rows=where.ordered(case.rows), form=case.form._replace(blank=0))
    log = {**files, "log.csv": ordered.files()["log.csv"]}
    same("in another order", answer, answered(program, case.words(WORDS), log))
    judge_reports(program, case, text, where)
    return answer


def judge_plan(program: Runner, case: Case, plan: Answer, where: Where) -> None:
    """Judges the certificate by prices that is printed of the log: it is right, and of the kind and the cost of what
    hsplan prints of the table. The log in pieces has the same one, and its rows in another order have a right one."""
    files = case.files()
    answer = answered(program, case.words(PLAN), files)
    same("plan in pieces", answer, answered(program, case.words(PLAN), files, piece=where.piece))
    ordered = case._replace(rows=where.ordered(case.rows), form=case.form._replace(blank=0))
    for own in (answer, answered(program, case.words(PLAN), {**files, "log.csv": ordered.files()["log.csv"]})):
        assert wanted_of(case, own.printed)[0] == b"yes\n", f"a wrong certificate: {own}"
        assert own.status == plan.status, f"the kind of {own}, and of {plan}"
        costs = [prices.numbers_of(text, "cost") for text in (own.printed, plan.printed)]
        assert plan.status or costs[0] == costs[1], f"the cost of {own}, and of {plan}"


def judge_planned(program: Runner, drawn: tuple[Case, st.DataObject], where: Where) -> None:
    """Judges what is printed of a log, the certificate of what hsplan prints, to which the answer is yes, and then
    something changed."""
    case, data = drawn
    plan = answered(program.beside["hsplan"], case.words(f"plan {oracle.INPUTS}"), case.files())
    judge_plan(program, case, plan, where)
    make = prices.of_shortage if plan.status else prices.of_plan
    text = make(case.service, case.rows, plan.printed)
    answer = judge(program, case, text, where)
    assert answer.printed == b"yes\n", f"of what was planned: {answer} to {text!r} of {plan}"
    judge_changed(program, data.draw(another(case, text)), where)


def judge_drawn(program: Runner, drawn: tuple[Case, bytes, st.DataObject], where: Where) -> None:
    """Judges a certificate of drawn prices or servers, and then something changed."""
    case, text, data = drawn
    judge(program, case, text, where)
    judge_changed(program, data.draw(another(case, text)), where)


def judge_changed(program: Runner, drawn: tuple[Case, bytes], where: Where) -> None:
    judge(program, *drawn, where)


# ---- what is drawn


@st.composite
def tables(draw: Draw, service: Service, most_of: st.SearchStrategy[int] = MOST) -> list[Row]:
    """Rows, of which nearly all that ask for something have a site."""
    most, pairs = draw(most_of), draw(PAIRS)
    has_sites = {region: bool(service.sites_of(region)) or draw(TEN) == 0 for region in REGIONS}
    return [(region, handle, at_random(draw, most) * has_sites[region]) for region, handle in pairs]


def loads_of(draw: Draw, service: Service, rows: Sequence[Row]) -> list[int]:
    """The loads where each row goes to one of its servers, or to two."""
    loads = [0] * len(prices.hosts_of(service))
    for row in rows:
        own, left = prices.ways(service, row), row[2]
        for sent in (at_random(draw, left), left) if own else ():
            loads[own[at_random(draw, len(own) - 1)].server] += min(sent, left)
            left -= min(sent, left)
    return loads


def bounds_of(
    draw: Draw, service: Service, loads: Sequence[int], is_short: bool = False, slack: st.SearchStrategy[int] = SLACK
) -> Bounds:
    """Bounds with some room beside the loads, or with less than them."""
    taken = [*loads, *price_verdicts.on_hosts(service, loads)]
    room = [load // 2 if is_short and draw(OFTEN) else load + draw(slack) for load in taken]
    return Bounds(room[: len(loads)], room[len(loads) :])


@st.composite
def planned(draw: Draw) -> tuple[Case, st.DataObject]:
    """A table to be planned, within bounds that are tight or too small."""
    service = draw(services())
    rows = draw(tables(service))
    bounds = bounds_of(draw, service, loads_of(draw, service, rows), draw(TEN) < 4)
    return Case(service, bounds, rows, draw(FORM)), draw(st.data())


@st.composite
def priced(
    draw: Draw, most_of: st.SearchStrategy[int] = MOST, slack: st.SearchStrategy[int] = SLACK
) -> tuple[Case, bytes, st.DataObject]:
    """A certificate of drawn prices that rows go by. Servers with a price are mostly full."""
    service = draw(services())
    rows, servers = draw(tables(service, most_of)), [draw(PRICE) for _ in prices.hosts_of(service)]
    hosts = [draw(PRICE) for _ in range(service.hosts)]
    sent = dealt(draw, service, rows, prices.extras(service, servers, hosts))
    claim = price_verdicts.read(prices.text_of(0, servers, hosts, sent))
    assert isinstance(claim, price_verdicts.Claim), claim
    found = price_verdicts.brought(service, rows, claim)
    cost = found.cost + price_verdicts.of_classes(service, claim, found.loads)
    bounds = bounds_of(draw, service, found.loads, slack=slack)
    if draw(OFTEN):
        full = [*found.loads, *price_verdicts.on_hosts(service, found.loads)]
        given = zip(full, [*bounds.capacities, *bounds.limits], servers + hosts)
        room = [load if price else bound for load, bound, price in given]
        bounds = Bounds(room[: len(servers)], room[len(servers) :])
    return Case(service, bounds, rows, draw(FORM)), prices.text_of(cost, servers, hosts, sent), draw(st.data())


@st.composite
def short(draw: Draw) -> tuple[Case, bytes, st.DataObject]:
    """A certificate of drawn servers, with the right sums, that are short or not."""
    case, data = draw(planned())
    servers = [at for at in range(len(case.bounds.capacities)) if draw(OFTEN)]
    demand = price_verdicts.caught_by(case.service, case.rows, servers)
    capacity = price_verdicts.taken_by(case.service, case.bounds, servers)
    lines = [f"server {server}" for server in servers] + [f"demand {demand}", f"capacity {capacity}"]
    return case, prices.written("SHORT", *lines), data


def dealt(draw: Draw, service: Service, rows: Sequence[Row], beside: Sequence[int]) -> Mapping[prices.Key, list[int]]:
    """What each class asks for, dealt over its servers."""
    sent: dict[prices.Key, list[int]] = {}
    for row in rows:
        least = prices.least(prices.ways(service, row), beside)
        if len(least) > 1:
            key = (row[0].encode(), tuple(way.server for way in least))
            sent.setdefault(key, [0] * len(least))[at_random(draw, len(least) - 1)] += row[2]
    return sent


# ---- what is changed


@st.composite
def another(draw: Draw, case: Case, text: bytes) -> tuple[Case, bytes]:
    """The case with another text, other rows, another service or another bound."""
    way = draw(TEN)
    if way < 2:
        return case, draw(changed(st.just(text)))
    if way < 5:
        return case, other_number(draw, text)
    if way < 6:
        return case, other_line(draw, text)
    if way < 7:
        return case._replace(rows=other_rows(draw, case.rows)), text
    return with_other_bound(draw, case) if way < 8 else with_other_service(draw, case), text


def other_number(draw: Draw, text: bytes) -> bytes:
    """A number behind the kind is greater by a few, smaller by 1, has a zero before it, or is at the end of a range."""
    words = text.split(b" ")
    places = [at for at, word in enumerate(words) if at > 2 and word.split(b"\n")[0].isdigit()]
    at = places[at_random(draw, len(places) - 1)]
    digits, *rest = words[at].split(b"\n")
    other = b"%d" % (int(digits) + (draw(MORE) if draw(BOOLEAN) or digits == b"0" else -1))
    way = draw(TEN)
    other = draw(EDGE) if way == 0 else b"0" + digits if way == 1 else other
    return b" ".join([*words[:at], b"\n".join([other, *rest]), *words[at + 1 :]])


def other_line(draw: Draw, text: bytes) -> bytes:
    """A line behind the kind is left out, doubled, or changes places with the next one."""
    lines = text.splitlines(keepends=True)
    at, way = 2 + at_random(draw, len(lines) - 3), draw(FEW)
    middle = lines[at : at + 1] * 2 if way == 1 else lines[at : at + 2][::-1] if way == 2 else []
    return b"".join([*lines[:at], *middle, *lines[at + (2 if way == 2 else 1) :]])


def other_rows(draw: Draw, rows: Sequence[Row]) -> list[Row]:
    """A row is left out, comes twice, or asks for one query more; or there is another one."""
    at, way = at_random(draw, len(rows) - 1), draw(FEW)
    region, handle, count = rows[at]
    if way == 3:
        return [*rows, (draw(REGION), draw(ANY_HANDLE), draw(FEW))]
    instead = [rows[at]] * 2 if way == 2 else [(region, handle, count + 1)] * way
    return [*rows[:at], *instead, *rows[at + 1 :]]


def with_other_bound(draw: Draw, case: Case) -> Case:
    """A bound is smaller or greater by 1."""
    room = [*case.bounds.capacities, *case.bounds.limits]
    at = at_random(draw, len(room) - 1)
    room[at] = max(0, room[at] + (1 if draw(BOOLEAN) else -1))
    count = len(case.bounds.capacities)
    return case._replace(bounds=Bounds(room[:count], room[count:]))


def with_other_service(draw: Draw, case: Case) -> Case:
    """A cost is greater by 1, or isn't there; or the last server isn't."""
    service, bounds = case.service, case.bounds
    costs: dict[Any, int] = dict(service.costs)
    *sites, last = service.sites
    way = draw(FEW)
    if way == 0 and len(last.servers) > 1:
        fewer = service._replace(sites=(*sites, last._replace(servers=last.servers[:-1])))
        return case._replace(service=fewer, bounds=bounds._replace(capacities=bounds.capacities[:-1]))
    if costs:
        pair = sorted(costs)[at_random(draw, len(costs) - 1)]
        costs[pair] += 1
        if way == 1:
            del costs[pair]
    return case._replace(service=service._replace(costs=costs))


KINDS: dict[str, Kind] = {
    "prices_planned": Kind(planned(), judge_planned, NAME),
    "prices_drawn": Kind(priced(), judge_drawn, NAME),
    "prices_short": Kind(short(), judge_drawn, NAME),
}
