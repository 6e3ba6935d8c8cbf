"""Why settings aren't TOML: the line, what it likely should be, and the same settings without the fault."""

import json
import re
import tomllib
from collections.abc import Iterator
from dataclasses import replace
from typing import NamedTuple

from hsp.base.grammar import HEADERS
from hsp.base.paths import shell_word
from hsp.base.spelling import near
from hsp.doctor.findings import Place, Text, Words, encoded, found
from hsp.doctor.question import Question, Said
from hsp.doctor.table_faults import Explained
from hsp.doctor.toml_places import KEYS

# How many lines are looked at as likely ones, and in settings of how many octets.
MOST_LINES, MOST_OCTETS = 12, 1_000_000
TWICE = "the key stands twice in its block"
HEX = re.compile(r"[0-9A-Fa-f]+")


class Slip(NamedTuple):
    """What a line likely should be."""

    why: str
    remedy: str
    line: str
    place: Place
    # The last line of those that it stands for.
    last: int = 0


def _sign_slip(text: Text, number: int) -> Slip | None:
    """A sign that can't be seen, or a quote of a text program."""
    line = text.line(number)
    curly = re.search("[\u201c\u201d\u201e\u2018\u2019\u00ab\u00bb]", line)
    if curly:
        mended = re.sub("[\u201c\u201d\u201e\u2018\u2019\u00ab\u00bb]", '"', line)
        return Slip(
            "quotes of a text program", f"write {shorter(mended)}", mended, text.part(number, curly.start(), 1)
        )
    odd = re.search(r"[\x00-\x08\x0b-\x1f\x7f\ufeff\u00a0\u200b]", line)
    if odd:
        mended = line[: odd.start()] + line[odd.end() :]
        return Slip("a sign that isn't seen", "take it out", mended, text.part(number, odd.start(), 1))
    return None


def _head_slip(text: Text, number: int) -> Slip | None:
    """A head of a block that isn't one."""
    line = text.line(number)
    match = re.match(r"\s*[\[({]+\s*(\w+)\s*[\])}]*\s*$", line)
    if match:
        block = near(match[1], KEYS, 0.7) or "site"
        if line.strip() == f"[{block}]":
            why = "one bracket makes one table; sites and hosts are lists"
            return Slip(why, f"write [[{block}]] for each", f"[[{block}]]", text.whole(number))
        why = "a head of a block has two brackets on each side"
        return Slip(why, f"write [[{block}]]", f"[[{block}]]", text.whole(number))
    return None


def _open_quote(text: Text, number: int, place: Place, mended: str) -> Slip:
    """A quote that isn't closed, or a record that goes on in the lines below."""
    last = number
    while HEX.fullmatch(text.line(last + 1).strip().rstrip("\"'")) and not text.line(last).rstrip().endswith(
        ("'", '"')
    ):
        last += 1
    if last == number:
        return Slip("a quote that isn't closed", f"write {shorter(mended)}", mended, place)
    whole = "".join(text.line(at).strip() for at in range(number, last + 1))
    remedy = "join the lines, so that the digits stand in one line between two quotes"
    return Slip(f"a record in {last - number + 1} lines", remedy, whole, place, last)


def _value_slip(text: Text, number: int) -> Slip | None:
    """A key whose value isn't written as TOML has it."""
    line = text.line(number)
    match = re.match(r"(\s*)([\w-]+)(\s*)([=:]|)(\s*)(.*)$", line)
    if not match or match[2] not in KEYS["site"] + KEYS["host"] + ["Name", "Record", "title"]:
        return None
    value = match[6].strip()
    inner = value.strip("\"'").strip()
    number_like = re.fullmatch(r"[0-9_]+", value) and match[2] in ("limit", "index")
    mended = f"{match[2]} = {value}" if number_like else f'{match[2]} = "{inner}"'
    place = text.part(number, match.start(6), len(match[6])) if value else text.whole(number)
    if match[2] == "record" and re.fullmatch(r"[\w./-]+\.[a-z]\w{1,5}", inner):
        why = "a record is octets in hexadecimal digits, not the name of a file"
        return Slip(why, f"hsp sites {inner} prints the block", mended, place)
    if not value:
        return Slip("a key without a value", f"write the value behind {match[2]} =", f'{match[2]} = ""', place)
    if value.count('"') % 2 or value.count("'") % 2:
        return _open_quote(text, number, place, mended)
    if match[4] != "=":
        why = "a colon in place of '='" if match[4] else "no '=' between key and value"
        return Slip(why, f"write {shorter(mended)}", mended, text.part(number, match.start(4), 1))
    if match[2] in ("limit", "index") and re.search(r"[0-9]", value):
        digits = re.sub(r"[^0-9]", "", value.split(".")[0]).lstrip("0") or "0"
        why = "a whole number has only digits, and none is 0 in front"
        return Slip(why, f"write {match[2]} = {digits}", f"{match[2]} = {digits}", place)
    if not value.startswith(('"', "'")):
        return Slip("a text without quotes", f"write {shorter(mended)}", mended, place)
    if re.search(r"[\"'][,;]$", value):
        why = "a comma at the end"
        return Slip(why, "take it out", line.rstrip().rstrip(",;"), text.part(number, len(line.rstrip()) - 1, 1))
    if "\\" in value:
        mended = line.replace("\\", "/")
        return Slip("a backslash begins an escape in a text", "take it out", mended, place)
    return None


def shorter(text: str) -> str:
    bare = text.strip()
    return bare if len(bare) <= 60 else bare[:44] + " .. " + bare[-8:]


def slip_of(text: Text, number: int, reason: str) -> Slip:
    """What is likely wrong with a line that a reader of TOML refuses."""
    if "overwrite" in reason or "twice" in reason or "already" in reason:
        last = number
        while last < len(text.lines) and not text.line(last + 1).lstrip().startswith("["):
            last += 1
        remedy = "put [[site]] above it, if a second site begins here; otherwise keep one of the two"
        return _head_slip(text, number) or Slip(TWICE, remedy, "", text.whole(number), last)
    return (
        _sign_slip(text, number) or _head_slip(text, number) or _value_slip(text, number) or _line_slip(text, number)
    )


def _line_slip(text: Text, number: int) -> Slip:
    """A line that is no key and no head of a block."""
    bare, whole = text.line(number).strip(), text.whole(number)
    if bare.startswith(("{", "}", '"')) and number <= 2:
        return Slip("this is JSON, not TOML", "hsp sites makes the blocks from a proxy's JSON", "", whole)
    if bare in HEADERS.values():
        return Slip("this is a table, not settings", "give the right file for --settings", "", whole)
    if bare.startswith(("//", ";", "--", "%")):
        remedy = f"write # {bare.lstrip('/;-% ')}"[:60]
        return Slip("a note; TOML has them behind '#'", remedy, "# " + bare, whole)
    why = "a line that is neither 'key = value' nor [[site]]"
    if re.match(r"[\w .,-]+$", bare) and not HEX.fullmatch(bare):
        return Slip(why, f"write # {bare}"[:60] + ", or take it out", "# " + bare, whole)
    if re.fullmatch(r"[0-9A-Fa-f\s]+\"?", bare):
        return Slip("a line of a record that was cut in two", "join it with the line above", "", whole)
    return Slip(why, "put # in front of a note, or mend the line", "", whole)


def _candidates(text: Text) -> Iterator[tuple[int, str]]:
    """Lines that may be what a reader of TOML refuses, with its reason, the likeliest first."""
    try:
        tomllib.loads(text.octets.decode("utf-8-sig"))
    except UnicodeDecodeError as fault:
        yield decoded_lines(text, fault.start), "utf-8"
    except ValueError as fault:
        place = re.search(r"line (\d+), column", str(fault))
        if place:
            yield int(place[1]), str(fault)
        for number, line in enumerate(text.lines, 1):
            if line.count('"') % 2:
                yield number, str(fault)
        yield int(place[1]) if place else len([own for own in text.lines if own.strip()]) or 1, str(fault)
    except RecursionError:
        yield 1, "too deep"
    else:
        odd = re.search(rb"\r(?!\n)|[\x00-\x08\x0b\x0c\x0e-\x1f\x7f]", text.octets)
        yield decoded_lines(text, odd.start()) if odd else 1, "odd"


def decoded_lines(text: Text, octet: int) -> int:
    """The number of the line that an octet stands in."""
    return len(re.split(rb"\r\n|\n|\r", text.octets[:octet]))


def _is_json(octets: bytes) -> bool:
    """Whether the whole file is an object or a list of JSON."""
    try:
        return octets.lstrip()[:1] in (b"{", b"[") and isinstance(json.loads(octets), (dict, list))
    except (ValueError, RecursionError):
        return False


def _other_form(question: Question, said: Said) -> Explained | None:
    """Settings in UTF-16, or with the line ends of an old Mac."""
    draft = question.files["settings"]
    octets, path = draft.text.octets, draft.text.path
    if octets[:2] in (b"\xff\xfe", b"\xfe\xff"):
        remedy = f"iconv -f utf-16 -t utf-8 {shell_word(path)} > utf8.toml"
        words = Words("the settings aren't UTF-8", remedy, "a file in UTF-16")
        text = octets.decode("utf-16", "replace")
    elif b"\r" in octets and b"\n" not in octets:
        remedy = rf"tr '\r' '\n' < {shell_word(path)} > plain.toml"
        words = Words("the settings have line ends of an old Mac", remedy, "lone carriage returns")
        text = "\n".join(draft.text.lines)
    elif _is_json(octets):
        message = "the settings are JSON, not TOML"
        words = Words(message, f"hsp sites {shell_word(path)} makes the blocks, if it is a proxy's answer")
        finding = found(path, Place(1, 1, 1, draft.text.line(1)), words, said.line)
        return Explained(finding, [replace(question.with_stand_in("settings"), lacks_site=True)])
    else:
        return None
    mended = question.with_file("settings", draft.with_text(text))
    finding = found(path, Place(1, 1, 1, ""), words, said.line)
    return Explained(finding, [mended, question.with_stand_in("settings")])


def _latin(text: Text, number: int) -> tuple[Slip, Words]:
    """A line with octets that aren't UTF-8."""
    line = text.line(number)
    at = next((column for column, sign in enumerate(line) if "\udc80" <= sign <= "\udcff"), 0)
    mended = encoded(line).decode("cp1252", "replace")
    remedy = f"iconv -f windows-1252 -t utf-8 {text.path} > utf8.toml"
    slip = Slip("a letter of Latin-1 or Windows-1252", remedy, mended, text.part(number, at, 1))
    return slip, Words("the settings aren't UTF-8", slip.remedy, slip.why)


def not_toml(question: Question, said: Said) -> Explained:
    """Settings that aren't TOML: the line, and the same with this line mended or left out."""
    other = _other_form(question, said)
    if other:
        return other
    draft = question.files["settings"]
    text = draft.text
    number, reason = next(_candidates(text))
    if reason == "utf-8":
        slip, words = _latin(text, number)
    else:
        number = _best(text, list(dict.fromkeys(line for line, _ in _candidates(text))))
        slip = slip_of(text, number, reason)
        words = Words(f"the settings aren't TOML: {slip.why}", slip.remedy, "", group=f"NotToml {slip.why}")
    if draft.original.line(draft.number(number)) != text.line(number):
        blank = [question.with_line("settings", number, "")] if text.line(number).strip() else []
        return Explained(None, [*blank, question.with_stand_in("settings")])
    ways = [text_then for text_then in dict.fromkeys((slip.line, "")) if text_then != text.line(number)]
    if slip.why == TWICE:
        question = replace(question, lacks_site=True)
    mended = [question.with_line("settings", number, way, slip.last) for way in ways]
    return Explained(found(text.path, slip.place, words, said.line), [*mended, question.with_stand_in("settings")])


def _best(text: Text, numbers: list[int]) -> int:
    """The line whose mend takes a reader of TOML furthest."""

    def reached(number: int) -> int:
        slip = slip_of(text, number, "")
        lines = [*text.lines]
        lines[number - 1 : max(number, slip.last)] = [slip.line] + [""] * max(0, slip.last - number)
        try:
            tomllib.loads("\n".join(lines))
        except tomllib.TOMLDecodeError as fault:
            place = re.search(r"line (\d+)", str(fault))
            return int(place[1]) if place else len(lines)
        except (ValueError, RecursionError):
            return 0
        return len(lines) + 1

    likely = numbers[:MOST_LINES]
    return max(likely, key=reached) if len(likely) > 1 and len(text.octets) < MOST_OCTETS else numbers[0]
