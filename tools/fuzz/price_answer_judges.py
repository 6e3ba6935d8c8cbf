"""Judges the answers of `hsplan-stream answer` by a certificate by prices. Each line, and the sums, are those of
tools/lib/price_answers.py.

Prices and classes are drawn for a few queries, and the log asks for more: for the same pairs again and again, and for
others. So amounts are used up, queries are diverted, and servers are full. A log of what was planned has every query
assigned. No server and no host gets too much, by a few fronts together either."""

from collections import Counter
from collections.abc import Iterable, Mapping
from typing import NamedTuple

from draws import BOOLEAN, END, OFTEN, Draw, Entry, Log, Where, at_random, changed, logs, pick
from hypothesis import strategies as st
from price_judges import NAME, Case, another, priced, short
from runner import ALL, Answer, Kind, Runner, answered, ends_plainly, same

from lib import cases, price_answers, price_verdicts
from lib.oracle import Service
from lib.price_verdicts import Bounds

WORDS = "answer --settings settings.toml --costs costs.csv --capacity capacity.csv --prices plan.prices --log log.csv"
FEW_FRONTS = 4
FILES = pick(["settings.toml", "costs.csv", "capacity.csv", "plan.prices", "log.csv", "log.csv", "log.csv"])
FRONTS, REPEATS = pick([0, 0, 1, 2, 3, 4, 17, 64]), pick([1, 1, 2, 4, 9])
SMALL, ROOM = pick([3, 12, 12, 40]), pick([0, 1, 4, 30])
# What is printed where no front can begin with the plan, by the word of the reason, and by a shortage.
UNFIT, SHORTAGE = f"{NAME}: check: {{}}\n", f"{NAME}: WrongKind\n"


class Asked(NamedTuple):
    """A log that is answered by a certificate, as a front, or as one of several."""

    case: Case
    text: bytes
    log: Log
    fronts: int = 0
    front: int = 0

    def words(self) -> bytes:
        return self.case.words(WORDS + (f" --fronts {self.fronts} --front {self.front}" if self.fronts else ""))

    def files(self) -> dict[str, bytes]:
        files = {**self.case.files(), "plan.prices": self.text, "log.csv": self.log.text}
        del files["demand.csv"]
        return files

    def answer(self, program: Runner, texts: Mapping[str, bytes] = {}, piece: int = ALL, at: int = ALL) -> Answer:
        """The answer where these texts stand in place of files."""
        return answered(program, self.words(), {**self.files(), **texts}, piece=piece, noted=at)


def wanted_of(asked: Asked) -> cases.Ended:
    service, bounds = asked.case.service, asked.case.bounds
    claim = price_verdicts.read(asked.text)
    if isinstance(claim, str):
        return b"", f"{NAME}: certificate: {claim}\n".encode(), 1
    if claim.kind == b"SHORT":
        return b"", SHORTAGE.encode(), 3
    if unfit := price_answers.unfit(service, bounds, claim):
        return b"", UNFIT.format(unfit).encode(), 3
    front = price_answers.Front(price_answers.Plan(service, bounds, claim), asked.fronts or 1, asked.front)
    lines = [f"refused {it.refusal}" if it.refused else front.answer(it.region, it.handle) for it in asked.log.entries]
    return "".join(f"{line}\n" for line in lines).encode(), price_answers.sums_of(lines).encode(), 0


def judge(program: Runner, asked: Asked, where: Where) -> Answer:
    """Judges the answers to a log. Before a read all rows that had come are answered."""
    answer, wanted = asked.answer(program), wanted_of(asked)
    assert answer.said == wanted, f"answers: {answer.said}, wanted {wanted} of {asked}"
    log = asked.log.text
    pieces = asked.answer(program, piece=where.piece, at=where.part * (len(log) + 1) >> 16)
    same("in pieces", answer, pieces)
    if pieces.noted:
        given, printed = pieces.noted
        before = asked.answer(program, {"log.csv": log[: log[:given].rfind(b"\n") + 1]})
        assert pieces.printed[:printed] == before.printed, f"what had come: {pieces}"
    return answer


def loads_of(service: Service, answers: Iterable[Answer]) -> list[int]:
    """How many answers name each server. They name no other one."""
    lines = [line.split(" ", 1) for it in answers for line in it.printed.decode().splitlines()]
    named = Counter(rest[0] for word, *rest in lines if word in ("assigned", "diverted"))
    servers = [f"{site.name} {place} {own}" for site in service.sites for place, own in enumerate(site.servers)]
    assert set(named) <= set(servers), f"servers: {named}"
    return [named[name] for name in servers]


def judge_loads(asked: Asked, answers: Iterable[Answer]) -> None:
    """No server and no host gets more than it takes."""
    service, (capacities, limits) = asked.case.service, asked.case.bounds
    loads = loads_of(service, answers)
    taken = [*zip(loads, capacities), *zip(price_verdicts.on_hosts(service, loads), limits)]
    assert all(load <= bound for load, bound in taken), f"too much: {taken} of {asked}"


def judge_fronts(program: Runner, asked: Asked, where: Where) -> None:
    """Judges the answers of one front to a log, and of all of them, where they are few, to the log in parts."""
    answer = judge(program, asked, where)
    if answer.fault:
        return
    judge_loads(asked, [answer])
    if 1 < asked.fronts <= FEW_FRONTS:
        entries = asked.log.entries
        parts = [
            asked._replace(front=it, log=asked.log._replace(entries=entries[it :: asked.fronts], blank=0))
            for it in range(asked.fronts)
        ]
        judge_loads(asked, [judge(program, part, where) for part in parts])


def judge_asked(program: Runner, drawn: tuple[Asked, st.DataObject], where: Where) -> None:
    """Judges the answers to a log, and those by something changed."""
    asked, data = drawn
    judge_fronts(program, asked, where)
    if data.draw(OFTEN):
        case, text = data.draw(another(asked.case, asked.text))
    else:
        case, text = halved(asked.case), asked.text
    judge_fronts(program, asked._replace(case=case, text=text), where)


def halved(case: Case) -> Case:
    return case._replace(bounds=Bounds(*([bound // 2 for bound in own] for own in case.bounds)))


def judge_planned(program: Runner, asked: Asked, where: Where) -> None:
    """Judges the answers to what was planned, in any order. Each query that has a site is assigned, and the loads are
    those of the plan."""
    ordered = asked.log._replace(entries=where.ordered(asked.log.entries))
    answer = judge(program, asked._replace(log=ordered), where)
    rows, service = asked.case.rows, asked.case.service
    served = sum(row[2] for row in rows if service.sites_of(row[0]))
    unknown = sum(row[2] for row in rows) - served
    sums = f"assigned {served} diverted 0 full 0 unknown {unknown} refused 0\n"
    assert answer.reported.decode() == sums, f"what was planned: {answer} of {asked}"
    claim = price_verdicts.read(asked.text)
    assert isinstance(claim, price_verdicts.Claim)
    planned = price_verdicts.brought(service, rows, claim)
    price_verdicts.of_classes(service, claim, planned.loads)
    assert loads_of(service, [answer]) == planned.loads, f"loads: {answer}, wanted {planned.loads} of {asked}"


def judge_words(program: Runner, drawn: tuple[Asked, object], where: Where) -> None:
    """Options in another order are the same words, as arguments and on standard input."""
    asked, _ = drawn
    command, *options = asked.words().split(b" --")
    other = b" --".join([command, *where.ordered(options)])
    answer, wanted = asked.answer(program), wanted_of(asked)
    assert answer.said == wanted, f"answers: {answer.said}, wanted {wanted} of {asked}"
    same("options in another order", answer, answered(program, other, asked.files()))
    same("options as arguments", answer, answered(program, other, asked.files(), by_words=True))


def judge_changed(program: Runner, drawn: tuple[Asked, str, bytes], where: Where) -> None:
    """Judges the answers where one of the files has another text. The sums are those of the lines, and a log in pieces
    has the same answers. By another log too no server gets too much, and what stands behind a log changes no line."""
    asked, name, text = drawn
    answer = asked.answer(program, {name: text})
    same("in pieces", answer, asked.answer(program, {name: text}, where.piece))
    assert answer.fault != b"Usage", f"words: {answer}"
    if answer.fault:
        return
    sums = price_answers.sums_of(answer.printed.decode().splitlines())
    assert answer.reported.decode() == sums, f"sums: {answer}"
    if name == "log.csv":
        judge_loads(asked, [answer])
        if ends_plainly(text) and b"\xef" not in text:
            more = asked.answer(program, {name: where.continued(text)})
            assert more.printed.startswith(answer.printed), f"a longer log: {more}"


# ---- what is drawn


@st.composite
def asked_of(draw: Draw, certificates: st.SearchStrategy[tuple[Case, bytes, st.DataObject]]) -> tuple[Asked, object]:
    """A log that asks for the rows of a case and for others, by a certificate."""
    case, text, data = draw(certificates)
    log = draw(logs("answer", [row for row in case.rows if row[2]]))
    fronts = draw(FRONTS)
    front = at_random(draw, fronts - 1) if fronts else 0
    return Asked(case, text, log._replace(entries=log.entries * draw(REPEATS)), fronts, front), data


@st.composite
def planned(draw: Draw) -> Asked:
    """A log of what was planned. It has bodies, since a log of handles can't have line breaks in them."""
    case, text, _ = draw(priced(SMALL, ROOM))
    entries = [Entry(region, handle) for region, handle, count in case.rows for _ in range(count)]
    return Asked(case, text, Log(entries, has_bodies=True, end=draw(END), last=draw(BOOLEAN)))


@st.composite
def with_change(draw: Draw) -> tuple[Asked, str, bytes]:
    """A log that is answered, and another text of one of the files."""
    asked, _ = draw(asked_of(priced(SMALL, ROOM)))
    name = draw(FILES)
    return asked, name, draw(changed(st.just(asked.files()[name])))


KINDS: dict[str, Kind] = {
    "answers_asked": Kind(asked_of(priced(SMALL, ROOM)), judge_asked, NAME),
    "answers_planned": Kind(planned(), judge_planned, NAME),
    "answers_short": Kind(asked_of(short()), judge_asked, NAME),
    "answers_words": Kind(asked_of(priced(SMALL, ROOM)), judge_words, NAME),
    "answers_changed": Kind(with_change(), judge_changed, NAME),
}
