"""Faults of the settings: keys, sites and hosts."""

import functools
import ipaddress
import os
import re
from dataclasses import dataclass, replace
from typing import Any

from hsp.base.grammar import GREATEST_ID, GREATEST_LIMIT, MOST_HOSTS, MOST_SITES, NAME_RULE
from hsp.base.paths import shell_word
from hsp.base.spelling import near
from hsp.doctor.findings import Place, Text, Words, first_of, found, quoted
from hsp.doctor.question import Draft, Question, Said, sites_used
from hsp.doctor.rows import table_of
from hsp.doctor.table_faults import Explained, slug
from hsp.doctor.toml_places import KEYS, Block, blocks, data_of, head_of, listed_in, value_of

# What is no hexadecimal digit.
OTHER = re.compile(r"[^0-9A-Fa-f]")


@dataclass(frozen=True)
class Entry:
    """A site or a host of the settings by its number in their mended copy."""

    question: Question
    kind: str
    number: int

    @property
    def text(self) -> Text:
        return self.question.text("settings")

    @property
    def draft(self) -> Draft:
        return self.question.files["settings"]

    @functools.cached_property
    def values(self) -> dict[str, Any]:
        """Its keys with what stands behind them; nothing where it isn't there."""
        return dict(enumerate(listed_in(self.text, self.kind))).get(self.number, {})

    @functools.cached_property
    def lines(self) -> Block | None:
        return dict(enumerate(blocks(self.text, self.kind))).get(self.number)

    def place(self, key: str) -> Place:
        """Where the value of a key stands in the settings as they were."""
        place = value_of(self.text, self.kind, self.number, key)
        line = self.draft.number(place.line)
        if self.draft.original.line(line) != place.text:
            return self.draft.original.whole(line)
        return replace(place, line=line)

    def number_then(self) -> int:
        """The number that it has in the settings as they were."""
        firsts = [own.first for own in blocks(self.draft.original, self.kind)]
        line = self.draft.number(self.lines.first) if self.lines else 0
        return firsts.index(line) if line in firsts else self.number

    def with_value(self, key: str, value: str) -> Question:
        place, text = value_of(self.text, self.kind, self.number, key), self.text
        begin, fence = place.text[: place.column - 1] + value, place.text[place.column - 1 :][:3]
        if fence in ('"' * 3, "'" * 3) and fence not in place.text[place.column + 2 :]:
            below = range(place.line + 1, len(text.lines) + 1)
            last = next((line for line in below if fence in text.line(line)), place.line)
            return self.question.with_line("settings", place.line, begin, last)
        return self.question.with_line("settings", place.line, begin + place.text[place.end - 1 :])

    def without(self) -> Question | None:
        """The settings without it, and the tables without the rows of its site."""
        if not self.lines:
            return None
        name = self.values.get("name")
        question = self.question.with_line("settings", self.lines.first, "", self.lines.last)
        if self.kind == "site" and (not isinstance(name, str) or slug(name) != name):
            question = replace(question, lacks_site=True)
        for table in ("costs", "capacity") if self.kind == "site" else ():
            if table in question.files:
                question = without_site(question, table, str(name))
        return question

    def said(self, said: Said, place: Place, words: Words, *ways: Question | None) -> Explained:
        """What is said of it. The settings are mended one way or another, have it no more, or are empty."""
        return in_settings(self.question, said, place, words, *ways, self.without())


def in_settings(question: Question, said: Said, place: Place, words: Words, *ways: Question | None) -> Explained:
    """What is said of a place of the settings, which are mended one way or another, or are empty."""
    finding = found(question.text("settings").path, place, words, said.line)
    return Explained(finding, [*filter(None, ways), question.with_stand_in("settings")])


def without_site(question: Question, table: str, name: str) -> Question:
    read = table_of(question.text(table))
    at = read.header.index("site") if "site" in read.header else 0
    return question.without_rows(table, [row for row in read.rows if row.fields[at : at + 1] == [name]])


def unknown_key(question: Question, said: Said) -> Explained:
    """A key that means nothing where it stands."""
    text = question.text("settings")
    data = data_of(text) or {}
    parts: list[tuple[str, int, dict[str, Any]]] = [("", 0, data)]
    parts += [(block, at, table) for block in KEYS for at, table in enumerate(listed_in(text, block))]
    for block, at, table in parts:
        allowed = KEYS.get(block, list(KEYS))
        key = next((key for key in table if key not in allowed), "")
        if key or "" in table:
            return _unknown(question, said, (block, at), key)
    words = Words("a key means nothing where it stands", "keep only name, record, index, address and limit")
    return in_settings(question, said, question.files["settings"].original.whole(1), words)


def _unknown(question: Question, said: Said, where: tuple[str, int], key: str) -> Explained:
    block, number = where
    text = question.text("settings")
    allowed = KEYS.get(block, list(KEYS))
    pattern = rf"^[\s\[{{]*[\"']?({re.escape(key)})[\"']?\s*[\]=.]"
    own = blocks(text, block) if block else []
    place = text.match(pattern, *own[number]) if number < len(own) else None
    place = place or text.match(pattern) or text.match(rf"({re.escape(key)})") or text.whole(1)
    meant = near(key, allowed, 0.7)
    where_words = f"a {block} has only {', '.join(allowed)}" if block else "settings have only [[site]] and [[host]]"
    remedy = f"write {meant}" if meant else "take it out"
    if not block and key in ("name", "record", "index", "address", "limit"):
        of = "host" if key in KEYS["host"] else "site"
        where_words, remedy = f"{key} belongs into a block", f"put [[{of}]] above it"
    elif not meant and key.lower() in ("title", "unit", "units", "cost", "time"):
        remedy = "take it out; titles and units stand in hsp.toml"
    mark = f"did you mean {meant}?" if meant else ""
    words = Words(f"the key {quoted(key)} means nothing here", remedy, where_words, mark, f"UnknownKey {key}")
    line = place.text[: place.column - 1] + meant + place.text[place.end - 1 :]
    ways = [question.with_line("settings", place.line, line)] if meant else []
    if "above" in remedy:
        head = f"[[{'host' if key in KEYS['host'] else 'site'}]]"
        above = question.files["settings"].with_text("\n".join([head, *text.lines]), 1)
        ways.append(question.with_file("settings", above))
    ways.append(question.with_line("settings", place.line, ""))
    draft = question.files["settings"]
    line_then = draft.number(place.line)
    if draft.original.line(line_then) != place.text or line_then != place.line:
        place = draft.original.whole(line_then)
    return in_settings(question, said, place, words, *ways)


def record_words(record: str, folder: str) -> Words:
    """What is wrong with a record that isn't octets in hexadecimal digits."""
    bare, others, path = re.sub(r"[\s:]", "", record), list(OTHER.finditer(record)), shell_word(record[:40])
    again, save = "copy it again, or print the block by hsp sites", "save it in a file; hsp sites prints the block"
    is_file = re.search(r"\.\w{1,6}$", record) or os.path.exists(os.path.join(folder, record))
    slip = others[0] if others and len(others) <= 3 and len(record) > 20 else None
    where = f"{quoted(slip[0])} among the digits, at digit {slip.start() + 1:,}" if slip else ""
    lost = f"{len(record):,} digits, so half an octet is lost or too much"
    return first_of(
        ("\n" in record, "line ends between the digits", "write the digits in one line, between two quotes"),
        (record[:2] in ("0x", "0X"), "0x before the digits", "take out 0x"),
        (not others and record, lost, again),
        (bare and not OTHER.search(bare), "blanks or colons between the digits", "take the blanks or colons out"),
        (
            is_file,
            "the name of a file in place of its octets",
            f"hsp sites {path} prints the block; or xxd -p {path} | tr -d '\\n'",
        ),
        (record.lstrip()[:1] in ("{", "["), "JSON in place of hexadecimal digits", save),
        (slip, where, again),
        (
            re.fullmatch(r"[A-Za-z0-9+/_-]+=*", record),
            "letters beyond f, as base64 has them",
            f"{save} in hexadecimal digits",
        ),
        (True, "other signs than digits", "write the octets as hexadecimal digits, as hsp sites prints them"),
    )


def _source_words(name: str, site: dict[str, Any], folder: str) -> Words:
    """What is wrong with the record or the index of a site."""
    record, index = site.get("record"), site.get("index")
    if (record is None) == (index is None):
        what = "both record and index" if record is not None else "neither record nor index"
        remedy = "keep one of the two"
        if record is None:
            remedy = "write record = and the digits; hsp sites prints the block"
        return Words(f"site '{name}' has {what}", remedy, "a site has a record, or the index of one in a value list")
    if isinstance(record, str):
        advised = record_words(record, folder)
        return Words(f"the record of '{name}' isn't hexadecimal digits", advised.remedy, advised.why)
    if record is not None:
        return Words(f"the record of '{name}' isn't a text", "put quotes about the digits", "a record is a text")
    why = f"an index is a whole number up to {GREATEST_ID:,}, without quotes"
    message = f"the index of '{name}' isn't a whole number from 0 on"
    return Words(message, "write the index of the site's value, as index = 3", why)


def bad_site(question: Question, said: Said) -> Explained:
    entry = Entry(question, "site", said.numbers.get("site", 0))
    if not isinstance((data_of(entry.text) or {}).get("site"), list):
        return _one_table(question, said, "site")
    name, record = entry.values.get("name"), entry.values.get("record")
    if not isinstance(name, str) or slug(name) != name or not name:
        return _bad_site_name(entry, said, name)
    words = _source_words(name, entry.values, os.path.dirname(entry.text.path))
    place = entry.place("record" if record is not None else "index")
    if not isinstance(record, str):
        return entry.said(said, place, words)
    wrong = OTHER.search(record)
    if wrong and "among the digits" in words.why and record in place.text:
        place = Place(place.line, place.text.find(record) + wrong.start() + 1, 1, place.text)
    bare = re.sub(r"^0[xX]|[\s:]", "", record)
    return entry.said(said, place, words, entry.with_value("record", f'"{bare}"') if bare else None)


def _one_table(question: Question, said: Said, block: str) -> Explained:
    """A single table, or another value, where a list of blocks stands."""
    text = question.text("settings")
    place = text.match(rf"^\s*(\[\s*{block}\s*\])") or head_of(text, block, 0)
    message = f"{place.text.strip()[:20]} is one table; {block}s are a list"
    words = Words(message, f"write [[{block}]] for each", "two brackets on each side")
    return in_settings(question, said, place, words, question.with_line("settings", place.line, f"[[{block}]]"))


def _bad_site_name(entry: Entry, said: Said, name: object) -> Explained:
    question, lines = entry.question, entry.lines
    taken = {site.get("name") for site in listed_in(entry.text, "site")}
    free = [other for other in sites_used(question) if other not in taken and slug(other) == other and other]
    plain = slug(name) if isinstance(name, str) else ""
    meant = near(plain, free) if plain else (free[0] if len(free) == 1 else "")
    as_used = f'write name = "{meant}", as the tables have it' if meant else ""
    ways: list[Question | None] = []
    if name is None:
        message = f"site {entry.number + 1} has no name"
        words = Words(message, as_used or 'write a line name = ".." in its block', "each site has a name")
        if meant and lines:
            ways = [question.with_line("settings", lines.first, f'[[site]]\nname = "{meant}"')]
    elif not isinstance(name, str):
        words = Words("the name of a site isn't a text", f'write name = "{name}"', "a name stands in quotes")
    else:
        remedy = as_used or (f'write name = "{plain}"' if plain else 'write a name, as name = "paris"')
        words = Words(f"{quoted(name)} isn't the name of a site", remedy, NAME_RULE)
    if name is not None:
        ways = [entry.with_value("name", f'"{value}"') for value in (meant, plain) if value]
    return entry.said(said, entry.place("name"), words, *ways)


def site_twice(question: Question, said: Said) -> Explained:
    entry = Entry(question, "site", said.numbers["site"])
    names, name = [site.get("name") for site in listed_in(entry.text, "site")], str(entry.values.get("name", ""))
    first = Entry(question, "site", names.index(name) if name in names[: entry.number] else 0)
    free = [other for other in sites_used(question) if other not in names and other]
    remedy = "give it another name, or take the block out"
    if free:
        remedy = f'write name = "{free[0]}", which the tables have and the settings lack'
    words = Words(f"a second site '{name}'", remedy, "a copied block", f"first in line {first.place('name').line}")
    ways = [entry.with_value("name", f'"{other}"') for other in free[:1]]
    ways += [question.with_line("settings", entry.lines.first, "", entry.lines.last)] if entry.lines else []
    return in_settings(question, said, entry.place("name"), words, *ways)


def _address_words(address: str) -> tuple[Words, str]:
    """What is wrong with the address of a host, and what it likely is."""
    try:
        octets = ipaddress.ip_address(address.strip()).packed.rjust(16, bytes(1)).hex()
        remedy = f'write address = "{octets}"'
        return (Words("", remedy, "an address is written as 16 octets in hexadecimal digits"), octets)
    except ValueError:
        pass
    bare = re.sub(r"^0[xX]|[^0-9A-Fa-f]", "", address)
    if len(bare) in (8, 32) and len(address) - len(bare) < 20:
        octets = bare.rjust(32, "0")
        remedy = f'write address = "{octets}"'
        return (Words("", remedy, "16 octets are 32 digits; an IPv4 address has 24 zeros in front"), octets)
    why = f"{len(address)} signs in place of 32 hexadecimal digits"
    return Words("", "copy the address of a server as hsplan site prints it", why), ""


def _host_words(host: dict[str, Any]) -> tuple[str, Words, str]:
    """The key of a host that isn't as it should be, what is said of it, and a value in its place."""
    address, limit = host.get("address"), host.get("limit")
    has = "a host has address and limit"
    if not isinstance(address, str):
        remedy = 'write address = "..", as hsplan site prints it of its servers'
        return "address", Words("a host without an address", remedy, has), ""
    if not re.fullmatch(r"[0-9A-Fa-f]{32}", address):
        advised, octets = _address_words(address)
        message = f"the address {quoted(address)} isn't 32 hexadecimal digits"
        return "address", Words(message, advised.remedy, advised.why), f'"{octets}"' if octets else ""
    if limit is None:
        remedy = "write limit = and how many queries the machine takes"
        return "limit", Words("a host without a limit", remedy, has), ""
    digits = re.sub(r"[^0-9]", "", str(limit).split(".")[0])
    is_plain = digits and len(digits) < 12 and not str(limit).startswith("-")
    remedy = f"write limit = {digits}" if is_plain else f"write a whole number from 0 to {GREATEST_LIMIT}"
    message = f"the limit {quoted(str(limit))} isn't a whole number within its bounds"
    why = f"a limit has only digits, without quotes, up to 10^{len(str(GREATEST_LIMIT)) - 1}"
    return ("limit", Words(message, remedy, why), "1000000")


def bad_host(question: Question, said: Said) -> Explained:
    entry = Entry(question, "host", said.numbers.get("host", 0))
    if not isinstance((data_of(entry.text) or {}).get("host"), list):
        return _one_table(question, said, "host")
    key, words, value = _host_words(entry.values)
    return entry.said(said, entry.place(key), words, entry.with_value(key, value) if value else None)


def host_twice(question: Question, said: Said) -> Explained:
    entry = Entry(question, "host", said.numbers["host"])
    addresses = [str(host.get("address", "")).lower() for host in listed_in(entry.text, "host")]
    address = str(entry.values.get("address", "")).lower()
    first = Entry(question, "host", addresses.index(address) if address in addresses[: entry.number] else 0)
    remedy, mark = "keep one block with one limit for each machine", f"first in line {first.place('address').line}"
    words = Words("a second host with this address", remedy, "a copied block", mark)
    return entry.said(said, entry.place("address"), words)


def too_many_blocks(question: Question, said: Said) -> Explained:
    block, most, remedy = {
        "TooManySites": ("site", MOST_SITES, "plan in parts, each with the regions that use its sites"),
        "TooManyHosts": ("host", MOST_HOSTS, "keep hosts with several servers only"),
    }[said.word]
    text = question.text("settings")
    number = len(blocks(text, block))
    words = Words(f"{number:,} {block}s; hsplan takes {most:,}", remedy, "every block counts")
    return in_settings(question, said, head_of(text, block, min(most, number - 1) if number else 0), words)
