"""All faults of a command and its files. Each is hsplan's: a mended copy of the files is asked again and again."""

import re
import subprocess
from collections.abc import Callable
from dataclasses import replace

from hsp.base.grammar import FILES, HEADERS
from hsp.base.programs import Programs, program, run
from hsp.base.text import is_utf8
from hsp.doctor import (
    answer_faults,
    build_faults,
    header_faults,
    record_faults,
    settings_faults,
    toml_faults,
    word_faults,
)
from hsp.doctor.commands import Line, line_of, split
from hsp.doctor.file_faults import file_finding
from hsp.doctor.findings import Finding, Place, Words, found
from hsp.doctor.question import ORDER, Diagnosis, Draft, Mend, Question, Said, Show, draft_of, said_of, unheard
from hsp.doctor.rows import columns_of
from hsp.doctor.table_faults import Explained, faulty_rows, mend_of, numbered_row, said_of_row, with_reasons
from hsp.doctor.word_doubts import word_doubts

# How often hsplan is asked about copies that were mended, and how many octets these may have together.
TURNS, OCTETS = 120, 100_000_000
# How many faults a row may have, one behind the other.
MOST_OF_ROW = 8
# So many findings of rows wait for those of lines above them.
AT_ONCE = 200
# What hsplan-stream lists faulty rows of.
LISTED = (*HEADERS, "log")
USAGE_STATUS = 2

Way = Callable[[Question, Said], "Explained | None"]
OF_SETTINGS: dict[str, Way] = {
    "NotToml": toml_faults.not_toml,
    "UnknownKey": settings_faults.unknown_key,
    "BadSite": settings_faults.bad_site,
    "SiteTwice": settings_faults.site_twice,
    "BadHost": settings_faults.bad_host,
    "HostTwice": settings_faults.host_twice,
    "TooManySites": settings_faults.too_many_blocks,
    "TooManyHosts": settings_faults.too_many_blocks,
}
OF_BUILD: dict[str, Way] = {
    "UnknownSite": build_faults.unknown_site,
    "UnknownServer": build_faults.unknown_server,
    "NoCapacity": build_faults.no_capacity,
    "BadRecord": record_faults.bad_record,
    "NoValue": record_faults.no_value,
    "NotSiteValue": record_faults.no_value,
    "BadHashOption": record_faults.site_record,
    "NoServer": record_faults.site_record,
    "ServerIdTwice": record_faults.site_record,
    "TooManyServers": record_faults.site_record,
}


def _of_table(question: Question, said: Said) -> Explained | None:
    """What is refused of a table or a log that has no faulty row of its own."""
    table = said.where
    if table not in question.files:
        return None
    if said.word == "Header":
        return header_faults.header_fault(question, table, said)
    if said.word in ("TooManyRows", "TooManyRegions") and "row" not in said.numbers:
        return header_faults.too_many(question, table, said)
    if table == "log":
        return _of_log(question, said)
    return None


def _of_log(question: Question, said: Said) -> Explained | None:
    if said.word in ("ReadFailed", "WriteFailed"):
        return answer_faults.streams(question, said)
    if said.word == "LogTooLong":
        return Explained(header_faults.log_too_long(question, said))
    if "row" not in said.numbers:
        return None
    faulty = numbered_row(question, "log", said)
    if not faulty:
        return answer_faults.far_row(question, said)
    (faulty,) = with_reasons(question, [faulty])
    about = said_of_row(faulty, columns_of(question.text("log"))[0], ())
    if not about:
        return None
    mended = question.with_mends("log", [mend_of(faulty, about)])
    finding = found(faulty.path, about[1], about[0], faulty.words())
    return Explained(finding, [mended, question.without_rows("log", [faulty.row])])


def explained(question: Question, said: Said, line: Line | None) -> Explained:
    """What a line of hsplan means."""
    ways = {"settings": OF_SETTINGS, "build": OF_BUILD}.get(said.where, {})
    one: Explained | None = None
    if said.word in ways:
        one = ways[said.word](question, said)
    elif said.where in ("demand", "costs", "capacity", "log"):
        one = _of_table(question, said)
    elif said.where in ("site", "values"):
        one = record_faults.bad_file(question, said, "file" if "file" in question.files else "values")
    elif said.where == "certificate":
        one = answer_faults.certificate(question, said)
    elif said.where == "check":
        one = answer_faults.verdict(question, said)
    elif said.word == "WrongKind":
        one = answer_faults.wrong_kind(question, said)
    elif said.word in ("NoValue", "NotSiteValue") and "file" in question.files:
        one = record_faults.value_of_list(question, said)
    elif said.word == "TooLarge":
        one = answer_faults.too_large(question, said)
    elif said.word == "OutOfMemory" or said.detail == "OutOfMemory":
        one = next(answer_faults.memory(question, said))
    elif line and said.where == "handle":
        one = Explained(word_faults.bad_handle_word(line, said))
    elif line and said.word.startswith("Bad") and not said.where:
        one = Explained(word_faults.value_fault(line, said.word))
    if one:
        return _numbered(question, said, one)
    words = Words(
        f"hsplan says {said.line or 'nothing'}", "look the word up in FAULTS, which is installed with hsplan"
    )
    return Explained(found("", Place(), words, said.line))


def _numbered(question: Question, said: Said, one: Explained) -> Explained:
    """The same with hsplan's words as they are for the files as they were, where a copy lacks a block."""
    for block in ("site", "host"):
        if one.finding and "settings" in question.files and block in said.numbers:
            number = settings_faults.Entry(question, block, said.numbers[block]).number_then()
            line = re.sub(rf"\b{block} \d+", f"{block} {number}", one.finding.said, count=1)
            one = one._replace(finding=replace(one.finding, said=line))
    return one


def _with_readable(question: Question, line: str, result: Diagnosis) -> Question:
    """Adds a finding for each file that can't be read. Returns the question with others in their place."""
    for role in [role for role in ORDER if role in question.files]:
        text = question.files[role].original
        if finding := file_finding(text.path, role, line, len(text.octets)):
            result.add(finding)
            question = question.with_stand_in(role)
    if not question.absent:
        remedy, why = (
            "look at the files one by one: cat FILE > /dev/null",
            "a file that changes, or a disk that fails",
        )
        result.add(found("", Place(), Words("a file can't be read", remedy, why), line))
    return without_answers(question) if question.absent & {"plan", "log", "file", "values"} else question


def _is_another(explained: Explained, then: Explained) -> bool:
    """Whether two explanations of one line of hsplan speak of different things."""
    return explained.finding and then.finding and explained.finding.message != then.finding.message or False


def _next(question: Question, said: Said, one: Explained, line: Line | None) -> tuple[Question, Said] | None:
    """The first mended question whose answer is another one."""
    for mended in one.mended:
        then = mended.ask()
        if then.line == said.line:
            # The next row or block may have the same number and fault, and a block may have two faults.
            if (
                said.word == "NotToml"
                or mended.size() < question.size()
                or _is_another(one, explained(mended, then, line))
            ):
                return mended, then
        elif not (one.is_whole_row and _is_same_row(said, then)):
            return mended, then
    return None


def _is_same_row(said: Said, then: Said) -> bool:
    row = said.numbers.get("row")
    return then.where == said.where and then.word != said.word and row is not None and then.numbers.get("row") == row


def _is_consequence(question: Question, said: Said) -> bool:
    """Whether a fault may come only of a file that stands in for another."""
    if said.where == "build":
        needs_all = "settings" in question.absent or "values" in question.absent
        return needs_all or "capacity" in question.absent and said.word == "NoCapacity"
    return said.where in ("certificate", "check") and bool(question.absent) or said.where in question.absent


def _is_known(findings: list[Finding], new: Finding) -> bool:
    """Whether a finding is there already, or is of a line of the settings that has to be written anew anyhow."""
    lines = {(finding.file, finding.line) for finding in findings if finding.said == "settings: NotToml"}
    return new in findings or new.said.startswith("settings: ") and (new.file, new.line) in lines


def diagnosed(question: Question, line: Line | None = None, show: Show = unheard) -> Diagnosis:
    """Asks, explains, mends a copy, and asks again until hsplan has no fault. Shows each finding at once."""
    said = question.ask()
    result = Diagnosis([], said.status, show=show)
    if said.word == "read failed":
        question = _with_readable(question, said.line, result)
        said = question.ask() if question.absent else Said(0, "")
    octets = sum(len(draft.original.octets) for draft in question.files.values())
    listed: dict[str, Draft] = {}
    for _ in range(max(3, min(TURNS, OCTETS // max(1, octets)))):
        if not said.line or _is_consequence(question, said):
            return result
        table = said.where
        if table in LISTED and said.word != "Header" and question.files.get(table) is not listed.get(table):
            question = _without_faulty(question, table, result)
            listed[table] = question.files[table]
            said = question.ask()
            continue
        one = explained(question, said, line)
        for finding in filter(None, [one.finding, *one.more]):
            if not _is_known(result.findings, finding):
                result.add(finding)
        then = _next(question, said, one, line)
        if not then:
            return result
        question, said = then
    result.is_cut_short = bool(said.line)
    return result


def _without_faulty(question: Question, table: str, result: Diagnosis) -> Question:
    """Adds a finding for each faulty row of a table or a log. Returns the question with a copy that has none of them.

    In a copy a faulty field is mended, since a row may have several. All rows are mended at once.
    """
    waiting: list[Finding] = []
    whole: set[int] = set()  # rows whose next fault is one of a wrong mend
    for _ in range(MOST_OF_ROW):
        names, mends = columns_of(question.text(table)), dict[int, Mend]()
        for faulty in faulty_rows(question, table):
            first = faulty.row.first
            about = None if first in whole else said_of_row(faulty, names[min(1, faulty.field or 0)], mends)
            mends[first] = mend_of(faulty, about)
            waiting += [found(faulty.path, about[1], about[0], faulty.words())] if about else []
            whole |= {first} if faulty.said.word == "Fields" and mends[first].last == faulty.row.last else set()
            if len(waiting) >= AT_ONCE:
                result.add_all(waiting)
        if not mends:
            break
        question = question.with_mends(table, mends.values())
    result.add_all(waiting)
    return question


def without_answers(question: Question) -> Question:
    """Only the planning of a question: of a command whose plan or log can't be read, the inputs still can.

    A check by prices has no demand, and reads its other inputs first.
    """
    if question.command not in ("check", "dispatch", "report", "plan") or "demand" not in question.files:
        return question
    files = {role: draft for role, draft in question.files.items() if role not in ("plan", "log", "file")}
    if "values" in question.absent:
        files.pop("values", None)
    return replace(question, program="hsplan", command="plan", files=files, options=(), words=())


def question_of(programs: Programs, line: Line) -> Question:
    options, others = split(line)
    values: dict[str, str] = {}
    for option in options:
        if option.name in FILES and option.value is not None:
            values.setdefault(option.name, option.value)
    files = {name: draft_of(programs, value) for name, value in values.items()}
    rest = tuple(f"--{option.name}={option.value}" for option in options if option.name not in FILES)
    if line.takes.last == "file" and others:
        files["file"] = draft_of(programs, others[0].text)
    return Question(programs, line.command, files, rest, tuple(word.text for word in others), line.program)


def of_words(programs: Programs, words: list[str], show: Show = unheard) -> Diagnosis:
    """All faults of the words of a command, and of its files; or what is doubtful where nothing is wrong."""
    line = line_of(words)
    if word_faults.command_fault(line):
        status = run(line.program, *[word.text for word in line.words]).status
        return Diagnosis(word_faults.usage(line) if status else [], status)  # --version of hsplan-stream is no fault
    odd = [word for word in line.words if not is_utf8(word.text)]
    if odd:
        return Diagnosis([word_faults.not_utf8(line, word) for word in odd], USAGE_STATUS)
    question = question_of(programs, line)
    status = _status(line, question)
    if status == USAGE_STATUS:
        return Diagnosis(word_faults.usage(line) + _of_files(question), status)
    result = diagnosed(question, line, show)
    return result if result.findings else Diagnosis(word_doubts(question, line), 0)


def said_of_words(words: list[str]) -> Said:
    line = line_of(words)
    printed = run(line.program, *[word.text for word in line.words])
    return said_of(printed.status, printed.line.removeprefix(f"{line.program}: "))


def _status(line: Line, question: Question) -> int:
    """The status of the words as they are given, with copies of pipes."""
    copies = {draft.original.path: draft.copy for draft in question.files.values() if draft.copy}
    words = []
    for word in line.words:
        name, equals, value = word.text.partition("=")
        words.append(copies.get(word.text) or (f"{name}={copies[value]}" if equals and value in copies else word.text))
    quiet = subprocess.DEVNULL
    return subprocess.run([program(line.program), *words], stdin=quiet, stdout=quiet, stderr=quiet).returncode


def _of_files(question: Question) -> list[Finding]:
    """Beside words that are no command: files that aren't there, and the faults of inputs where all are given."""
    findings = [file_finding(draft.original.path, role, "") for role, draft in question.files.items()]
    found_ones = [replace(finding, said="read failed") for finding in findings if finding]
    kinds = {"settings", "demand", "costs", "capacity"}
    if found_ones or not kinds <= set(question.files):
        return found_ones
    files = {role: draft for role, draft in question.files.items() if role in kinds | {"values"}}
    return diagnosed(Question(question.programs, "plan", files)).findings
