"""The doctor: faults of a folder, or of the words of a command; and doubts where there is no fault."""

import contextlib
import os
import re
import tomllib
from collections.abc import Iterable
from dataclasses import dataclass

from hsp.base.numbers import listed
from hsp.base.paths import path_in, shell_word
from hsp.base.programs import Missing, Programs, Refused
from hsp.base.unfit import Unfit
from hsp.doctor.doubts import doubts
from hsp.doctor.findings import ERROR, Finding, Place, Words, found, read_text
from hsp.doctor.guard import SECONDS, guarded
from hsp.doctor.question import Diagnosis, Draft, Question, Said, Show, draft_of
from hsp.doctor.toml_places import value_of
from hsp.plans.counted import is_log
from hsp.plans.service import NAMES, VALUES, Service, inputs_in, service_of, titles_in
from hsp.plans.titles import MOST_OF_TITLES, REMEDY, TABLE, TITLES, outdated


@dataclass(frozen=True)
class Examined:
    """What was found, hsplan's status, and the service where it has no fault."""

    findings: list[Finding]
    status: int
    is_cut_short: bool = False
    service: Service | None = None

    @property
    def errors(self) -> list[Finding]:
        return [finding for finding in self.findings if finding.severity == ERROR]

    @property
    def warnings(self) -> list[Finding]:
        return [finding for finding in self.findings if finding.severity != ERROR]


def status_of(result: Diagnosis) -> int:
    """hsplan's status for faults; 1 in place of a verdict on a certificate."""
    if not [finding for finding in result.findings if finding.severity == ERROR]:
        return 0
    return result.status if result.status in (1, 2, 4, 5) else 1


def examined(
    folder: str, programs: Programs, given: dict[str, str | None], title: str | None = None, cost: str | None = None
) -> Examined:
    """What is wrong with a folder, or what is doubtful where nothing is wrong."""
    paths = {role: given.get(role) or path_in(folder, name) for role, name in NAMES.items()}
    beside = path_in(folder, VALUES)
    values = given.get("values") or (beside if os.path.isfile(beside) else None)
    if values:
        paths["values"] = values
    if not any(os.path.exists(paths[role]) for role in NAMES):
        return Examined([_no_service(folder)], 5)
    drafts = {role: draft_of(programs, path) for role, path in paths.items()}
    copies = {role: draft.copy for role, draft in drafts.items() if draft.copy}
    question = question_of_plan(programs, drafts)
    try:
        service = service_of(folder, programs, inputs_in(folder, {**given, **copies}), titles_in(folder, title, cost))
    except (Refused, Missing, Unfit, OSError) as fault:
        return _refused(question, folder, fault)
    work = guarded(lambda show: _all(doubts(service, programs), show))
    return Examined(work.findings, 0, work.is_ended, service)


def question_of_plan(programs: Programs, drafts: dict[str, Draft]) -> Question:
    """What plans the files of a folder: hsplan, or hsplan-stream where no table holds the demand."""
    demand = drafts["demand"]
    if not is_log(demand.copy or demand.original.path):
        return Question(programs, "plan", drafts)
    files = {"log" if role == "demand" else role: draft for role, draft in drafts.items()}
    return Question(programs, "plan", files, program="hsplan-stream")


def _all(findings: Iterable[Finding], show: Show) -> None:
    for finding in findings:
        show(finding)


def _refused(question: Question, folder: str, fault: Exception) -> Examined:
    """All faults of a folder. What explains them is loaded only where there are some."""
    from hsp.doctor.faults import diagnosed

    said = question.ask()

    def explain(show: Show) -> bool:
        result = diagnosed(question, None, show)
        _all([*titles_faults(folder), *_outdated(question)], show)
        return result.is_cut_short

    work = guarded(explain)
    if not work.findings and not work.is_ended:
        raise fault
    own = question.files[said.where].original.path if said.where in question.files else folder
    findings = work.findings or [_unexplained(own, said)]
    return Examined(findings, status_of(Diagnosis(findings, said.status)) or 1, work.is_ended or work.end)


def _unexplained(path: str, said: Said) -> Finding:
    """What is said where time or memory ran out before the first fault was explained."""
    message = f"hsplan says {said.line or 'nothing'}"
    remedy = "look at the files there; FAULTS, which is installed with hsplan, has the word"
    words = Words(message, remedy, f"they are too large or too odd to be explained within {SECONDS:.0f} seconds")
    return found(path, Place(), words, said.line)


def _no_service(folder: str) -> Finding:
    """A folder with none of the files, and a folder in it that has them."""
    inside = sorted(entry.name for entry in os.scandir(folder) if entry.is_dir() and not entry.name.startswith("."))
    there = [inner for inner in inside if os.path.exists(os.path.join(folder, inner, NAMES["settings"]))]
    message = f"none of {listed(NAMES.values())} is here"
    if there:
        near = path_in(folder, there[0])
        remedy = f"hsp doctor {shell_word(near)}"
        words = Words(message, remedy, f"{listed(there)} in it {'has' if len(there) == 1 else 'have'} settings")
    else:
        words = Words(message, "give the folder that has them; hsp new makes such a folder", "another folder?")
    return found(folder, Place(), words, "read failed")


def titles_faults(folder: str) -> list[Finding]:
    """What is wrong with hsp.toml, which hsplan doesn't read."""
    path = path_in(folder, TITLES)
    if not os.path.isfile(path):
        return []
    if os.stat(path).st_size > MOST_OF_TITLES:
        message = f"{TITLES} has more than {MOST_OF_TITLES:,} octets"
        words = Words(message, "keep only title, cost, time, accept and [proxy]", "another file?")
        return [found(path, Place(), words)]
    text = read_text(path)
    try:
        tomllib.loads(text.octets.decode("utf-8"))
    except UnicodeDecodeError:
        remedy = f"iconv -f windows-1252 -t utf-8 {shell_word(path)} > utf8.toml"
        words = Words(f"{TITLES} isn't UTF-8", remedy, "a letter of Latin-1")
        return [found(path, Place(), words)]
    except (ValueError, RecursionError) as fault:
        advised = re.search(r"line (\d+)", str(fault))
        number = (
            int(advised[1])
            if advised
            else next((at for at, line in enumerate(text.lines, 1) if line.count('"') % 2), 1)
        )
        why = re.sub(r" \(at .*\)", "", str(fault)).lower()
        words = Words(f"{TITLES} isn't TOML", 'write lines as title = "Films", cost = "ms", time = "an hour"', why)
        return [found(path, text.whole(number), words)]
    return []


def _outdated(question: Question) -> list[Finding]:
    """A demand that an older hsp joined by kinds, or counted in units."""
    demand = question.files["log" if "log" in question.files else "demand"].original.path
    with contextlib.suppress(Unfit):  # of a broken hsp.toml
        if old := outdated(demand):
            return [found(old.path, value_of(read_text(old.path), TABLE, 0, old.key), Words(old.message, REMEDY))]
    return []


def examined_words(words: list[str], programs: Programs) -> Examined:
    """What is wrong with the words of a command, and with its files, or what is doubtful where nothing is wrong."""
    from hsp.doctor.faults import of_words, said_of_words

    def explain(show: Show) -> Diagnosis:
        streamed: list[Finding] = []

        def once(finding: Finding) -> None:
            streamed.append(finding)
            show(finding)

        result = of_words(programs, words, once)
        _all((finding for finding in result.findings if finding not in streamed), show)
        return Diagnosis([], status_of(result), result.is_cut_short)

    work = guarded(explain)
    if not work.is_ended:
        return Examined(work.findings, work.end.status, work.end.is_cut_short)
    said = said_of_words(words)
    findings = work.findings or ([_unexplained("", said)] if said.line else [])
    return Examined(findings, status_of(Diagnosis(findings, said.status)), True)
