"""Judges the places that `hsplan-stream` states of logs. Those of logs that are written row by row are compared with the
oracle's."""

import csv
import io
import re
from collections.abc import Mapping
from typing import NamedTuple

from draws import BOOLEAN, FEW, Draw, Entry, Log, Where, changed, logs, pick, services
from hypothesis import strategies as st
from runner import ALL, Answer, Kind, Runner, answered, ends_plainly, same

from lib import cases
from lib.oracle import Service, csv_of

NAME = "hsplan-stream"
HEADER = "handle,site,place,server_id"
SHORT_LOG = Log([Entry("eu", "10/1"), Entry("us", "10.1/a"), Entry("mars", "10/2")])


class Case(NamedTuple):
    """What is asked of `hsplan-stream places`: of a service, and of a log. Of one of the files, or of the words, there
    may be another text."""

    service: Service
    log: Log
    name: str = ""
    text: bytes = b""

    def words(self) -> bytes:
        words = "places --settings settings.toml --log log.csv" + " --values values" * self.service.has_values
        return words.encode()

    def files(self) -> dict[str, bytes]:
        return {**self.service.files(), "log.csv": self.log.text}

    def answer(self, program: Runner, files: Mapping[str, bytes] = {}, piece: int = ALL, at: int = ALL) -> Answer:
        """The answer where these texts stand in place of files."""
        return answered(program, self.words(), {**self.files(), **files}, piece=piece, noted=at)


def judge_log(program: Runner, case: Case, where: Where) -> Answer:
    """Judges the answer to a log, whatever the log is. Read in pieces it has the same answer. Before a read all rows
    that had come are answered. Rows behind a fault change nothing, and those behind a log's end no line."""
    log = case.text if case.name else case.log.text
    whole = case.answer(program, {"log.csv": log})
    if not whole.fault:
        judge_places(case, whole)
    pieces = case.answer(program, {"log.csv": log}, where.piece, where.part * (len(log) + 1) >> 16)
    same("in pieces", whole, pieces)
    if pieces.noted:
        given, printed = pieces.noted
        had = log[: log[:given].rfind(b"\n") + 1]
        before = case.answer(program, {"log.csv": had}).printed
        assert pieces.printed[:printed] == before, f"what had come: {had!r}: {pieces}"
    if ends_plainly(log) and b"\xef" not in log:
        more = case.answer(program, {"log.csv": where.continued(log)})
        if whole.fault.startswith(b"log: "):
            same("behind a fault", whole, more)
        assert more.printed.startswith(whole.printed), f"a longer log: {more}"
    return whole


def judge_places(case: Case, answer: Answer) -> None:
    """Each handle has a line for each site, with the server that its hash names."""
    header, *rows = csv.reader(io.StringIO(answer.printed.decode(), newline=""))
    assert ",".join(header) == HEADER, f"header: {answer}"
    wanted = [line for row in rows[:: len(case.service.sites)] for line in case.service.places(row[0])]
    assert rows == [[str(field) for field in line] for line in wanted], f"lines: {answer}"


def judge_written(program: Runner, case: Case, where: Where) -> None:
    """Judges an answer by the oracle. Settings in another spelling have the same one."""
    answer = judge_log(program, case, where)
    wanted = csv_of(HEADER, (line for it in case.log.entries for line in case.service.places(it.handle))), b"", 0
    assert answer.said == wanted, f"what was written: {answer.said}, wanted {wanted}"
    same("another spelling", answer, case.answer(program, respelt(case, where)))


def judge_settings(program: Runner, case: Case, _: Where) -> None:
    """A comment behind settings changes nothing."""
    short = case._replace(log=SHORT_LOG)
    answer = short.answer(program, {"settings.toml": case.text})
    if answer.fault != b"settings: NotToml":
        same("a comment behind", answer, short.answer(program, {"settings.toml": case.text + b"\n# x\n"}))


def respelt(case: Case, where: Where) -> dict[str, bytes]:
    """The settings in other ways of TOML, and without the hosts."""
    quote, end = ['"', "'", '"""', "'''"][where.order % 4], ["\n", "\r\n", ' # "x"\n', "\n\n"][where.piece % 4]
    equals, head = [" = ", "=", "\t=  "][where.order % 3], ["[[site]]\n", ' [[ "site" ]] # x\n'][where.part % 2]
    text = case.service._replace(hosts=0).settings().decode()
    text = re.sub(r'^(\w+) = "(.*)"\n', rf"\1{equals}{quote}\2{quote}{end}", text, flags=re.M)
    return {"settings.toml": text.replace("[[site]]\n", head).encode()}


def judge_words(program: Runner, case: Case, where: Where) -> None:
    """Words are taken alike as arguments and from standard input, and with options in another order."""
    words = other = case.text.split(b"\n")[0] if case.name else case.words()
    answer = answered(program, words, case.files())
    if not case.name:
        command, *options = words.split(b" --")
        options = [option.replace(b" ", b"=", 1) if at % 2 else option for at, option in enumerate(options)]
        other = b" --".join([command, *where.ordered(options)])
    if all(32 <= octet < 127 for octet in words):
        same("the same words", answer, answered(program, other, case.files(), by_words=True))


WORKED = cases.cases_in(NAME)
# The words of worked cases, and their logs of `places`.
OWN = {
    "log.csv": pick([it.given for it in WORKED if it.command == "places" and len(it.given) < 10_000]),
    "words": pick([case.words[:-1] for case in WORKED if case.words]),
}


@st.composite
def drawn(draw: Draw, names: st.SearchStrategy[str] = st.just("")) -> Case:
    """A question with its log. The file of a name that is drawn, or the words, have another text: that of a worked
    case, or one with changes."""
    case = Case(draw(services()), draw(logs("places")), draw(names))
    if not case.name:
        return case
    is_own = case.name in OWN and draw(FEW) == 0
    text = draw(OWN[case.name]) if is_own else {"words": case.words(), **case.files()}[case.name]
    return case._replace(text=text if is_own and draw(BOOLEAN) else draw(changed(st.just(text))))


KINDS: dict[str, Kind] = {
    "stream_words": Kind(drawn(pick(["", "words"])), judge_words, NAME),
    "stream_settings": Kind(drawn(st.just("settings.toml")), judge_settings, NAME),
    "places": Kind(drawn(st.just("log.csv")), judge_log, NAME),
    "written_places": Kind(drawn(), judge_written, NAME),
}
