"""Judges the answers of `hsplan`, without a second implementation."""

import re
from functools import partial
from pathlib import Path

import draws
from draws import Where, Written, body_of, changed, pick
from hypothesis import strategies as st
from runner import Answer, Kind, Runner, answered, ends_plainly, same

from lib import cases, oracle, programs

PLANNED = oracle.INPUTS.encode() + b" --plan plan.txt"
PLAN, CHECK, DISPATCH = b"plan " + oracle.INPUTS.encode(), b"check " + PLANNED, b"dispatch " + PLANNED + b" --log "
LOCATE = b"locate --settings settings.toml --values list.values 10/3"
SITE = {"two_servers.site": "site", "list.values": "values"}
# The files that hsplan may open.
BASE = {it.name: it.read_bytes() for it in sorted(Path(programs.TOP, "examples", "base").iterdir())}
CASES = cases.cases_in("hsplan")


def over(program: Runner, words: bytes, name: str, text: bytes) -> Answer:
    """The answer where a file has this text."""
    return answered(program, words, {**BASE, name: text})


def judge_plan(name: str, program: Runner, text: bytes, where: Where) -> Answer:
    """Plans, has the text of the plan judged and reported, and plans tables in another order."""
    files = {**BASE, name: text}
    plan = answered(program, PLAN, files)
    if plan.reported:
        return plan
    made = {**files, "plan.txt": plan.printed}
    verdict = answered(program, CHECK, made)
    assert verdict.said == (b"yes\n", b"", 0), f"check of a plan: {verdict}"
    for kind in (b"load", b"region", b"shortage"):
        report = answered(program, b"report " + PLANNED + b" --kind " + kind, made)
        is_of_kind = (kind == b"shortage") == (plan.status == 3)
        assert report.status == (0 if is_of_kind else 3), f"report {kind!r}: {report}"
    if ends_plainly(files["costs.csv"], b"region,") and ends_plainly(files["capacity.csv"], b"site,"):
        tables = where.reordered(files, "costs.csv", "capacity.csv")
        again = answered(program, PLAN, {**files, **tables})
        # The lines of a certificate's version and kind, and of a plan's cost.
        one, other = (it.printed.split(b"\n")[: 2 if plan.status else 3] for it in (plan, again))
        assert not again.reported and one == other, f"another order: {tables}: {again}"
    return plan


def judge_settings(program: Runner, text: bytes, where: Where) -> None:
    judge_plan("settings.toml", program, text, where)
    places = over(program, LOCATE, "settings.toml", text)
    if places.fault != b"settings: NotToml":
        same("a comment behind", places, over(program, LOCATE, "settings.toml", text + b"\n# a comment\n"))


def judge_table(name: str, program: Runner, text: bytes, where: Where) -> None:
    plan = judge_plan(name, program, text, where)
    if plan.fault.startswith(name.encode()[:-4] + b": ") and ends_plainly(text):
        same("rows behind a fault", plan, over(program, PLAN, name, where.continued(text)))


def place_of(part: bytes, fault: bytes) -> tuple[bytes, int]:
    """The word of a fault of octets, and its place or -1."""
    found = re.fullmatch(part + rb": (\w+)(?: at ([0-9]+))?(?: .*)?", fault)
    return (found[1], int(found[2] or -1)) if found else (b"", -1)


def judge_octets(words: bytes, name: str, program: Runner, text: bytes, where: Where) -> None:
    """Judges the faults of a beginning and of a continuation of a text by the fault of the text."""
    part, end = SITE[name].encode(), len(where.cut(text))
    whole, begun = over(program, words, name, text), over(program, words, name, where.cut(text))
    (word, place), (cut, at) = place_of(part, whole.fault), place_of(rb"\w+", begun.fault)
    if end == len(text) or word and 0 <= place <= end - (word == b"Trailing"):
        same(f"a beginning of {end}", begun, whole)
    elif word == b"Trailing" and end == place:
        assert not begun.fault.startswith(part + b": "), f"a whole beginning: {begun}"
    elif cut != b"Truncated" or at > end:
        assert word and place < 0, f"cut at {end}: {begun} {whole}"
        same(f"cut at {end}", begun, whole)
    if word and word != b"Truncated":
        same("behind a fault", whole, over(program, words, name, where.continued(text)))


def judge_written(name: str, program: Runner, written: Written, where: Where) -> None:
    """Judges what is printed of written fields, and the faults of a beginning and of a continuation."""
    octets = b"".join(written.fields)
    words = f"site --index {written.sought} {name}" if name == "list.values" else f"site {name}"
    whole = over(program, words.encode(), name, octets).said
    wanted = (written.printed, written.reported, int(bool(written.reported)))
    assert whole == wanted, f"what was written: {whole}, wanted {wanted}"
    beginning = where.begun(octets)
    for text, fault in (
        (beginning, f"Truncated at {draws.field_at(written.fields, len(beginning))}"),
        (octets + where.more, f"Trailing at {len(octets)}"),
    ):
        said = over(program, words.encode(), name, text).said
        assert said == (b"", f"hsplan: {SITE[name]}: {fault}\n".encode(), 1), f"{fault}: {said}"


def judge_certificate(program: Runner, text: bytes, where: Where) -> None:
    """A dispatcher takes a text exactly where `check` says yes to it, and else refuses it for the same reason."""
    verdict = over(program, CHECK, "plan.txt", text)
    dispatched = over(program, DISPATCH + b"log.csv", "plan.txt", text)
    if verdict.printed.startswith(b"no "):
        reason = verdict.printed.split()[-1]
        assert dispatched.said == (b"", b"hsplan: check: " + reason + b"\n", 3), f"after no: {dispatched}"
    elif verdict.printed:
        assert dispatched.status == 0 or dispatched.fault == b"WrongKind", f"after yes: {dispatched}"
    else:
        same("dispatch after a fault", verdict, dispatched)
    if verdict.printed and text:
        begun = over(program, CHECK, "plan.txt", where.begun(text))
        assert begun.fault == b"certificate: Ended", f"a beginning: {begun}"
    elif verdict.fault != b"certificate: Ended" and text.endswith(b"\n"):
        same("behind a bad line", verdict, over(program, CHECK, "plan.txt", where.continued(text)))


def judge_lines(answer: Answer, is_of_fronts: bool) -> None:
    """The lines have their forms, and the sums are those of the lines. No more are assigned than the plan has."""
    lines = answer.printed.decode().splitlines()
    form = re.compile("assigned [EW] [0-9] [0-9]|spent|unknown" + ("|nofront" if is_of_fronts else ""))
    assert all(map(form.fullmatch, lines)), f"a line: {answer}"
    assert sum(line.startswith("assigned") for line in lines) <= 12, f"more than the plan: {answer}"
    if not is_of_fronts and not answer.status:
        assert answer.reported.decode() == oracle.sums_of(lines), f"sums: {answer}"


def judge_log(name: str, program: Runner, text: bytes, where: Where) -> None:
    is_of_fronts, words = name == "events.csv", DISPATCH + name.encode()
    if is_of_fronts:
        words += b" --fronts %d" % (1, 2, 3, 64)[where.order % 4]
    answer = over(program, words, name, text)
    judge_lines(answer, is_of_fronts)
    if ends_plainly(text):
        more = over(program, words, name, where.continued(text))
        assert more.printed.startswith(answer.printed), f"a longer log: {answer} {more}"
        if answer.status:
            same("behind a fault", answer, more)


def of_log(program: Runner, *rows: bytes) -> Answer:
    return over(program, DISPATCH + b"log.csv", "log.csv", b"".join(row + b"\n" for row in rows))


def judge_body(program: Runner, row: tuple[bytes, bytes, list[int]], where: Where) -> None:
    """The row of a body is answered as that of its handle, and a beginning of a body is not a body."""
    region, handle, indices = row[0], row[1][:5000], row[2]
    digits = body_of(handle, indices, [b"HS_SITE"] * (where.order % 3)).hex().encode()
    quoted = b'"' + handle.replace(b'"', b'""') + b'"'
    by_body = of_log(program, b"region,body", region + b"," + digits)
    same("the row of the handle", by_body, of_log(program, b"region,handle", region + b"," + quoted))
    begun = of_log(program, b"region,body", region + b"," + where.begun(digits))
    assert begun.said == (b"", b"hsplan: log: BadBody row 0\n", 1), f"a beginning of a body: {begun}"


def judge_written_log(program: Runner, rows: list[tuple[bytes, bytes]], _: Where) -> None:
    """Rows are answered alike as handles, as bodies, and as events at the only front."""
    handled = of_log(program, b"region,handle", *map(b",".join, rows))
    judge_lines(handled, False)
    bodies = (b"%s,%s" % (region, body_of(handle).hex().encode()) for region, handle in rows)
    same("a log of bodies", handled, of_log(program, b"region,body", *bodies))
    events = b"front,region,handle\n" + b"".join(b"0,%s,%s\n" % row for row in rows)
    fronted = over(program, DISPATCH + b"events.csv --fronts 1", "events.csv", events)
    assert fronted.printed == handled.printed, f"a log at one front: {fronted} {handled}"


def texts(*names: str) -> st.SearchStrategy[bytes]:
    """Changed texts of a file: the example's, of which there may be others, and those of the cases."""
    own = [text for case in CASES for text in [case.files.get(names[0], b"")] if 0 < len(text) < 20_000]
    return changed(pick([*(BASE[it] for it in names), *own]))


RECORD, LIST = SITE
RECORDS = texts(RECORD, "one_server.site", "one_octet_more.site")
REGIONS = pick([b"r1", b"r1", b"r2", b"r2", b"r9"])
ROW = st.tuples(REGIONS, pick([b"10/1", b"10/2", b"10/3", b"10/3", b"10/4", b"10.1/x"]))
HANDLES, INDICES = pick([b"10/3", b"10/1", b"10.1/a/b", b"10/"]), st.lists(st.integers(0, 2**32 - 1), max_size=3)
WORDS = pick([case.words[:-1] for case in CASES if case.words])
KINDS = {
    "settings": Kind(texts("settings.toml", "by_index.toml"), judge_settings),
    "values": Kind(texts(LIST, "other_type.values"), partial(judge_octets, b"site --index 1 list.values", LIST)),
    "record": Kind(RECORDS, partial(judge_octets, b"site two_servers.site", RECORD)),
    "body": Kind(st.tuples(REGIONS, changed(HANDLES), INDICES), judge_body),
    "demand": Kind(texts("demand.csv", "short.csv"), partial(judge_table, "demand.csv")),
    "costs": Kind(texts("costs.csv"), partial(judge_table, "costs.csv")),
    "capacity": Kind(texts("capacity.csv"), partial(judge_table, "capacity.csv")),
    "plan": Kind(texts("plan.txt", "shortage.txt", "idle_price.txt"), judge_certificate),
    "log": Kind(texts("log.csv"), partial(judge_log, "log.csv")),
    "events": Kind(texts("events.csv"), partial(judge_log, "events.csv")),
    "words": Kind(changed(WORDS), lambda program, text, _: answered(program, text.split(b"\n")[0], BASE)),
    "written_record": Kind(draws.RECORD, partial(judge_written, RECORD)),
    "written_values": Kind(draws.VALUES, partial(judge_written, LIST)),
    "written_log": Kind(st.lists(ROW, max_size=30), judge_written_log),
}
