"""Faults of plans and of logs: what stands there in place of them, and what to do."""

import os
import re
from collections.abc import Iterator, Mapping
from typing import NamedTuple

from hsp.base.grammar import GREATEST_PRICE, GREATEST_SUM, MOST_CLASSES
from hsp.base.numbers import listed, some
from hsp.base.paths import shell_word
from hsp.doctor.findings import Place, Text, Words, found, quoted
from hsp.doctor.question import ORDER, Question, Said
from hsp.doctor.table_faults import Explained
from hsp.plans.service import newer_than

AGAIN = "print it again: hsplan plan .. > plan.txt"
# The reasons of a no, and the file that they speak of.
Reasons = Mapping[str, tuple[str, tuple[str, ...]]]
REASONS: Reasons = {
    "Shape": ("it has other rows, servers or hosts than these inputs", ("demand", "settings")),
    "NoSuchUse": ("it sends queries where no cost stands", ("costs",)),
    "RowSum": ("its queries of a row don't add up to the count", ("demand",)),
    "Load": ("it brings a server above its capacity, or a host above its limit", ("capacity", "settings")),
    "Cost": ("its cost isn't what its queries cost", ("costs",)),
    "ArcPrice": ("a row's price is above that of a cheaper way", ("costs",)),
    "UsedArcPrice": ("a row's price isn't that of the way it goes", ("costs",)),
    "IdlePrice": ("a server with room left has a price", ("capacity",)),
    "DemandSum": ("it is a shortage of another demand", ("demand",)),
    "CapacitySum": ("it is a shortage of other capacities", ("capacity", "costs")),
    "NotShort": ("it is a shortage that is over", ("capacity", "demand")),
}
# The same of a certificate by prices.
PRICE_REASONS: Reasons = {
    "Shape": ("it has other servers or hosts than the settings", ("settings",)),
    "NoSuchServer": ("it names a server that isn't there", ("settings",)),
    "NotLeast": ("the servers of a class aren't the least servers of any row", ("log", "costs")),
    "NoClass": ("a row with several least servers has no class, or a row has no server", ("log", "costs")),
    "ClassSum": ("the numbers of a class don't add up to what its rows ask for", ("log",)),
    "Load": ("it brings a server above its capacity, or a host above its limit", ("log", "capacity")),
    "Cost": ("its cost isn't what the rows cost", ("costs", "log")),
    "IdlePrice": ("a server or a host with room left has a price", ("capacity", "log")),
    "DemandSum": ("it is a shortage of another log", ("log",)),
    "CapacitySum": ("it is a shortage of other capacities", ("capacity", "settings")),
    "NotShort": ("it is a shortage that is over", ("capacity", "log")),
}
# The same of one by which a log is answered: it is held against the service, and not against the log.
FIT_REASONS: Reasons = {
    "Shape": PRICE_REASONS["Shape"],
    "NoSuchServer": PRICE_REASONS["NoSuchServer"],
    "Load": ("its classes bring a server above its capacity, or a host above its limit", ("capacity", "settings")),
}


class Form(NamedTuple):
    """A form of certificates: the option with its file, its name, its first words, and what to do about a bad one."""

    role: str
    name: str
    reasons: Reasons
    again: str


PLAN = Form("plan", "plan", REASONS, AGAIN)
PRICES = Form("prices", "certificate", PRICE_REASONS, "make the certificate again, for these files")
FIT = PRICES._replace(reasons=FIT_REASONS)


def form_of(question: Question) -> Form:
    """The form of the certificate that a command reads."""
    if "prices" not in question.files:
        return PLAN
    return FIT if question.command == "answer" else PRICES


def _other_text(text: Text, form: Form) -> tuple[str, str]:
    """What a text is that isn't a certificate of this form."""
    first = text.line(1)
    if not text.octets:
        return f"the file is empty: the {form.name} was refused, or its disk was full", form.again
    if first == "HSPLAN PRICES 1" and form is PLAN:
        return "this is a certificate by prices", f"hsplan-stream check judges it; for a plan {AGAIN}"
    if re.fullmatch("HSPLAN [12]", first) and form.role == "prices":
        return "this is what hsplan plan prints", "hsplan check judges it; give a certificate by prices"
    if re.match(r"(place|\s+row|\s+demand)\s|short \d", first):
        return "this is what hsplan report prints", form.again
    if re.match(r"(region|site),", first):
        return "this is a table", f"give the {form.name}; {form.again}"
    if first.startswith(("fits", "cost ", "hsp ")) or re.search(r"\d+ sites?, \d+ servers?", first):
        return "this is what hsp plan shows; it keeps the certificate in plan.txt", "give DIR/plan.txt"
    if first.startswith(("<", "{", "[")):
        return "this is a page, JSON or settings", f"give the {form.name}; {form.again}"
    if first.startswith("hsplan: "):
        return "this is what hsplan printed of a fault", f"mend the fault; then {form.again}"
    return "a line can't stand here: an edited text, or lines in another order", form.again


def certificate(question: Question, said: Said) -> Explained:
    """A text that isn't that of a plan or of a shortage."""
    form = form_of(question)
    text = question.files[form.role].original
    number = said.numbers.get("line", max(1, len(text.lines)))
    place = text.whole(number)
    if said.word == "Ended":
        last = max(1, len([line for line in text.lines if line]))
        place = text.whole(last)
        lacks_end = text.line(last) == "END"
        why = "the line end behind END is lost" if lacks_end else "the file was cut: END is its last line"
        remedy = form.again + ("; or add a line end" if lacks_end else "")
        if not text.octets:
            why, remedy = _other_text(text, form)
        message = f"the {form.name} ends too early"
    elif said.word == "AfterEnd":
        message, why, remedy = (
            "something stands behind END",
            f"an empty line, or two {form.name}s in one file",
            "cut it off: END and its line end are the last",
        )
    elif b"\r\n" in text.octets[:200]:
        message, why = f"the {form.name} has line ends of Windows", "a program that changed the text"
        remedy = rf"tr -d '\r' < {shell_word(text.path)} > plain.txt"
    elif number == 1:
        why, remedy = _other_text(text, form)
        message = f"this isn't a {form.name}" + (" by prices" if form.role == "prices" else "")
    else:
        why, remedy = _bad_line(text.line(number)), form.again
        message = f"{quoted(text.line(number), 40)} can't stand in line {number} of a {form.name}"
    words = Words(message, remedy, why)
    return Explained(found(text.path, place, words, said.line), [])


def _bad_line(line: str) -> str:
    if line != line.strip() or "  " in line:
        return "a blank too much: words stand between single blanks"
    if re.search(r"\b0\d|[+.,-]\d", re.sub(r"^class \S+", "", line)):
        return "a number that isn't whole and plain"
    if re.fullmatch(r"(use|row|server|host|cost|class \S+)( \d+)*", line):
        return "a line in another order, twice, or with numbers too many or too few"
    return "an edited text"


def verdict(question: Question, said: Said) -> Explained:
    """A certificate to which the checker says no."""
    form = form_of(question)
    means, kinds = form.reasons.get(said.word, ("the checker says no", ("demand",)))
    text = question.files[form.role].original
    others = [role for role in ORDER if role in question.files and role not in ("plan", "prices")]
    inputs = [question.files[role].original.path for role in others if form is PRICES or role != "log"]
    changed = newer_than(inputs, text.path)
    why = f"{means}; likely {listed(changed)} changed since" if changed else f"{means}; look at {listed(kinds)}"
    message = f"the {form.name} isn't one of {'this log' if form is PRICES else 'these inputs'}"
    words = Words(message, form.again, why)
    return Explained(found(text.path, Place(), words, said.line), [])


def wrong_kind(question: Question, said: Said) -> Explained:
    """A shortage where a plan is wanted, or a plan where a shortage is."""
    form = form_of(question)
    text = question.files[form.role].original
    is_shortage = text.line(2) in ("SHORTAGE", "SHORT")
    if form is FIT:
        remedy = "plan with more capacity, and make the certificate of that plan"
    elif form is PRICES:
        remedy = "read its servers and sums in the file: hsplan-stream report shows plans only"
    elif question.command == "report":
        remedy = "report it by --kind shortage" if is_shortage else "report it by --kind load or --kind region"
    else:
        remedy = "plan again with more capacity: hsp plan shows the least purchase"
    what, wanted = ("a shortage", "a plan") if is_shortage else ("a plan", "a shortage")
    message = f"this is {what}, and {question.command} wants {wanted}"
    words = Words(message, remedy, "the demand can't be met" if is_shortage else "the demand can be met")
    return Explained(found(text.path, text.whole(2), words, said.line), [])


def far_row(question: Question, said: Said) -> Explained:
    """A row of a log beyond the octets that are read of it."""
    path, line = question.files["log"].original.path, said.numbers["row"] + 2
    message = f"row {line - 2:,} of the log has a fault: {said.word} {said.detail}".rstrip()
    remedy = f"look at the line: sed -n {line}p {shell_word(path)}; hsp doctor on a short log with it says more"
    words = Words(message, remedy, "the log is long, and the row is far behind")
    return Explained(found(path, Place(line, 0, 0, ""), words, said.line))


def streams(question: Question, said: Said) -> Explained:
    """A log that can't be read to its end, or an answer that can't be written."""
    log = question.files["log"].original.path if "log" in question.files else ""
    if said.word == "ReadFailed":
        why = (
            "a folder, not a file"
            if os.path.isdir(log)
            else "the disk, or the program that writes the log, ended early"
        )
        remedy = (
            "give the file in it"
            if os.path.isdir(log)
            else f"look whether all of it can be read: cat {log} > /dev/null"
        )
        words = Words("the log can't be read to its end", remedy, why)
    else:
        message = "an answer can't be written"
        words = Words(
            message, "make room on the disk, or keep the reader of the pipe open", "a full disk, or a closed pipe"
        )
    return Explained(found(log, Place(), words, said.line), [])


def too_large(question: Question, said: Said) -> Explained:
    """A plan that no certificate by prices may say."""
    log = question.files["log"].original.path if "log" in question.files else ""
    why = f"sums go up to {GREATEST_SUM:,}, prices up to {GREATEST_PRICE:,}, and classes are {MOST_CLASSES:,} at most"
    remedy = "give smaller costs, or counts and capacities in a larger unit"
    return Explained(found(log, Place(), Words("no certificate has room for the plan", remedy, why), said.line))


def memory(question: Question, said: Said) -> Iterator[Explained]:
    size = sum(len(draft.original.octets) for draft in question.files.values())
    remedy = "give the process more memory (ulimit -v), or close other programs"
    words = Words("memory ran out", remedy, f"the files have {some(size, 'octet')}")
    yield Explained(found("", Place(), words, said.line), [])
