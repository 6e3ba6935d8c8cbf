"""Faults of site records and value lists. Which mend helps, hsplan says."""

import os
import re
from collections.abc import Iterable, Iterator
from dataclasses import replace

from hsp.base.grammar import MOST_SERVERS
from hsp.base.numbers import some
from hsp.base.paths import shell_word
from hsp.base.programs import Programs, run
from hsp.doctor.findings import Place, Words, found, quoted
from hsp.doctor.question import Question, Said
from hsp.doctor.settings_faults import Entry
from hsp.doctor.table_faults import Explained


# No server has fewer octets: its identifier, its address, and two numbers.
LEAST_SERVER = 28


def servers_in(programs: Programs, octets: bytes) -> int:
    """How many servers hsplan finds in a record; 0 where it is none."""
    printed = run("hsplan", "site", programs.put(octets, ".site"))
    advised = re.search(r"^servers (\d+)", printed.out, re.M)
    return int(advised[1]) if advised and not printed.status else 0


def with_number(programs: Programs, octets: bytes, at: int) -> tuple[int, int, bytes] | None:
    """The record with another number of servers, if hsplan reads it then: the number, the right one, and the octets.

    Octets after a record may be servers that its number leaves out. A record that ends where a server would begin may
    count too many.
    """
    before = servers_in(programs, octets[:at]) if at < len(octets) else 0
    if 0 < len(octets) - at < LEAST_SERVER or at < len(octets) and not before:
        return None
    for old, position in _numbers_in(octets, before):
        for new in range(old + 1, old + 9) if before else range(old - 1, max(0, old - 9), -1):
            changed = octets[:position] + new.to_bytes(4, "big") + octets[position + 4 :]
            if servers_in(programs, changed) == new:
                return old, new, changed
    return None


def _numbers_in(octets: bytes, wanted: int) -> Iterator[tuple[int, int]]:
    """Places of small numbers of four octets: of a wanted one, or of any from 2 to 64."""
    tried = 0
    for position in range(8, min(len(octets) - 4, 4096)):
        value = int.from_bytes(octets[position : position + 4], "big")
        if value == wanted if wanted else 2 <= value <= 64:
            tried += 1
            yield value, position
        if tried >= 24:
            return


def octets_words(octets: bytes, path: str, programs: Programs) -> Words | None:
    """What octets are that aren't a record."""
    stripped = octets.strip()
    if not stripped:
        remedy = "hsp sites prints the fields of a site from JSON, hexadecimal digits or base64"
        return Words("", remedy, f"the {'file' if path else 'record'} is empty")
    if stripped[:1] in (b"{", b"["):
        head = b"TOML" if stripped[:2] == b"[[" else b"JSON"
        if head == b"TOML":
            return Words("", "give the file of a record, not the settings", "these are settings")
        return Words("", f"hsp sites {shell_word(path or 'FILE')} makes a record of it", "JSON in place of octets")
    bare = re.sub(rb"^0[xX]|\s", b"", stripped)
    if not path and re.fullmatch(rb"[0-9A-Fa-f]+", bare):
        return Words("", f"write {bare[:16].decode()}.. in place of them", "these are the digits of digits")
    if re.fullmatch(rb"[0-9A-Fa-f]+", bare):
        return Words("", f"xxd -r -p {shell_word(path)} > octets.site", "hexadecimal digits in place of octets")
    if re.fullmatch(rb"[A-Za-z0-9+/\s]+=*", stripped) and len(stripped) > 20:
        return Words("", f"base64 -d {shell_word(path or 'FILE')} > octets.site", "base64 in place of octets")
    if stripped.isascii() and re.fullmatch(rb"[\x20-\x7e\r\n\t]+", stripped):
        return Words("", "give the octets of the record, as siteinfo.bin has them", "a text in place of octets")
    values = run("hsplan", "site", "--index=1", programs.put(octets, ".values"))
    if not values.status or "Value" in values.line:
        remedy = f"hsplan site --index N {shell_word(path)}, with the index of the site's value"
        return Words("", remedy, "a value list in place of a record")
    return None


def record_words(octets: bytes, said: Said, path: str, programs: Programs) -> tuple[Words, bytes]:
    """Why octets are no record, what to do, and octets that are one."""
    at = said.numbers.get("at", len(octets))
    advised = octets_words(octets, path, programs)
    if advised:
        return advised, b""
    if said.detail == "TooManyServers" or said.word == "TooManyServers":
        remedy = "give the octets of the record, as siteinfo.bin has them"
        return (Words("", remedy, "octets that aren't a record, or a very large service"), b"")
    counted = with_number(programs, octets, at)
    if counted:
        old, new, changed = counted
        verb = "raise" if new > old else "lower"
        follows = "follow" if new > 1 else "follows"
        why = f"the number of servers in the head is {old}, and {some(new, 'server')} {follows}"
        return Words("", f"{verb} the number of servers in the record to {new}; hsplan reads it then", why), changed
    left = len(octets) - at
    if said.detail == "Trailing" or said.word == "Trailing":
        ending = octets[at:].strip(b"\r\n") == b""
        why = "a line end behind the record" if ending else f"{some(left, 'octet')} behind the last server"
        why = "the record stands twice" if octets[at:] == octets[:at] else why
        remedy = f"cut {'it' if ending else 'them'} off: head -c {at} {shell_word(path)} > record.site"
        return Words("", remedy if path else f"cut them off: keep the first {2 * at:,} digits", why), octets[:at]
    verb = "is" if left == 1 else "are"
    why = f"{some(left, 'octet')} from octet {at} on {verb} too few for the field that begins there"
    return Words("", "copy the whole record again: it was cut, or an octet is lost; or another layout", why), b""


def bad_record(question: Question, said: Said) -> Explained:
    """A record of the settings that can't be read, or a value of a list that isn't a site's record."""
    entry = Entry(question, "site", said.numbers.get("site", 0))
    name, record, group = entry.values.get("name", ""), entry.values.get("record"), f"BadRecord {entry.number}"
    if not isinstance(record, str):
        message = f"the value of '{name}' isn't a record that can be read"
        remedy = "give the index of the site's value: hsplan site --index N FILE prints a good one"
        why = f"the value list has other octets there ({said.detail or said.word})"
        return entry.said(said, entry.place("index"), Words(message, remedy, why, group=group))
    place = entry.place("record")
    advised, octets_then = record_words(bytes.fromhex(record), said, "", question.programs)
    start = place.text.find(record)
    if start >= 0 and "at" in said.numbers:
        column = min(start + 2 * said.numbers["at"], max(start, start + len(record) - 2))
        place = Place(place.line, column + 1, 2, place.text)
    words = replace(advised, message=f"the record of '{name}' can't be read", group=group)
    mended = entry.with_value("record", f'"{octets_then.hex()}"') if octets_then else None
    return entry.said(said, place, words, mended)


def no_value(question: Question, said: Said) -> Explained:
    """An index without a value, or with a value of another type."""
    entry = Entry(question, "site", said.numbers.get("site", 0))
    index, name = entry.values.get("index"), entry.values.get("name")
    beside = os.path.join(os.path.dirname(entry.text.path), "sites.values")
    usual = [*range(1, 33), 100, 101, 200, 300, 301] if "values" in question.files else []
    good = " or ".join(_indices(question.path("values"), usual)[:4]) if usual else ""
    if "values" not in question.files:
        there = "put the value list in sites.values beside the settings"
        there = f"{beside} is there" if os.path.exists(beside) else there
        message = f"site '{name}' has an index, and there is no value list"
        words = Words(message, f"give --values FILE; {there}", "an index counts in a value list")
    elif said.word == "NotSiteValue":
        other = f"; HS_SITE stands at {good}" if good else ""
        why = "another value of the handle, as a key or an address"
        message = f"the value with index {index} isn't an HS_SITE"
        words = Words(message, f"write the index of the site's value{other}", why)
    else:
        other = f"write index = {good}" if good else "write an index that the list has"
        message, remedy = f"no value has the index {index}", f"{other}; or give the right list"
        words = Words(message, remedy, "another value list, or a slip")
    group = f"{said.word} {entry.number}" if "values" in question.files else ""
    return entry.said(said, entry.place("index"), replace(words, group=group))


def _indices(path: str, indices: Iterable[int]) -> list[str]:
    """Those of some indices at which hsplan finds a site in a value list."""
    return [str(index) for index in indices if not run("hsplan", "site", f"--index={index}", path).status]


# What is wrong with a record that a reader accepts, by hsplan's word: message, remedy and reason.
OF_RECORDS = {
    "BadHashOption": (
        "the hash option in the record of '{}' isn't 0, 1 or 2",
        "copy the record again, or make the block by hsp sites",
        "octets in another layout, or a digit that was changed",
    ),
    "NoServer": (
        "the record of '{}' has no server",
        "add its servers: hsp sites makes the block from a proxy's JSON",
        "a record that isn't filled in",
    ),
    "ServerIdTwice": (
        "two servers in the record of '{}' have one identifier",
        "give each server its own identifier in the record",
        "a server that was copied",
    ),
    "TooManyServers": (
        "all sites together have more servers than hsplan takes",
        f"plan in parts; {MOST_SERVERS:,} servers are the limit",
        "a very large service",
    ),
}


def site_record(question: Question, said: Said) -> Explained:
    """What is wrong with a record in two ways that a reader accepts: its hash option, or its servers."""
    entry = Entry(question, "site", said.numbers.get("site", 0))
    message, remedy, why = OF_RECORDS[said.word]
    words = Words(message.format(entry.values.get("name", "")), remedy, why)
    place = entry.place("record") if "site" in said.numbers else Place()
    if isinstance(entry.values.get("index"), int):
        place = entry.place("index")
    return entry.said(said, place, words)


def bad_file(question: Question, said: Said, role: str) -> Explained:
    draft = question.files[role]
    octets = draft.original.octets
    if role == "values" or any(option.startswith("--index") for option in question.options):
        return _bad_list(question, said, role)
    advised, _ = record_words(octets, said, draft.original.path, question.programs)
    place = Place()
    words = Words(
        f"{quoted(os.path.basename(draft.original.path))} isn't the record of a site", advised.remedy, advised.why
    )
    return Explained(found(draft.original.path, place, words, said.line), [])


def _bad_list(question: Question, said: Said, role: str) -> Explained:
    draft = question.files[role]
    path, octets = draft.original.path, draft.original.octets
    remedy, why = (
        "give the value list, octet for octet",
        f"it can't be read from octet {said.numbers.get('at', 0):,} on",
    )
    if not run("hsplan", "site", question.programs.put(octets, ".site")).status:
        remedy, why = (
            "write its digits as record in the settings; or give the value list",
            "this is one site's record",
        )
        if role == "file":
            remedy = f"hsplan site {shell_word(path)}, without --index"
    elif said.word == "IndexTwice":
        why = f"two values have the index {said.numbers.get('index', 0)}"
        remedy = "keep one value for each index"
    elif octets.strip()[:2] == b"[[":
        why = "these are settings"
    elif octets.strip()[:1] in (b"{", b"["):
        remedy, why = f"hsp sites {shell_word(path)} makes the blocks of it", "JSON in place of octets"
    elif re.fullmatch(rb"[0-9A-Fa-f\s]+", octets):
        remedy, why = f"xxd -r -p {shell_word(path)} > octets.values", "hexadecimal digits in place of octets"
    words = Words(f"{quoted(os.path.basename(path))} isn't a value list", remedy, why)
    return Explained(
        found(path, Place(), words, said.line),
        [question.with_stand_in("settings")] if "settings" in question.files else [],
    )


def value_of_list(question: Question, said: Said) -> Explained:
    """`hsplan site --index`: the list has no value there, or another one."""
    draft = question.files["file"]
    path = draft.original.path
    index = next((option.partition("=")[2] for option in question.options if option.startswith("--index")), "")
    good = _indices(path, range(1, 33))
    why = "no value has this index" if said.word == "NoValue" else "the value with this index is no HS_SITE"
    remedy = f"write --index {good[0]}" if good else "look up the index of the site's value"
    return Explained(found(path, Place(), Words(f"no site at index {index}", remedy, why), said.line), [])
