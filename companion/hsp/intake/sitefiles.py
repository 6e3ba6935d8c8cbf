"""The sites in a file of any form that operators have: JSON, octets, digits, base64, or a value list.

hsplan judges every record. A record that was made of JSON has to come back from it as it was.
"""

import binascii
import itertools
import json
import os
import re
from collections.abc import Iterator
from dataclasses import dataclass
from typing import Any

from hsp.base.grammar import NAME_SIGNS
from hsp.base.programs import Programs, Refused
from hsp.base.unfit import Unfit, shown
from hsp.intake.records import counted
from hsp.intake.sitejson import Notes, Part, from_base64, record_of
from hsp.plans.service import Site, site_of

KINDS = ("HS_SITE", "HS_SITE.6")
MARKER = counted(b"HS_SITE")
NO_SUCH_HANDLE = 100
# So many values of a list are looked at; a service has at most 32 sites.
MOST_VALUES = 1000
# Octets that look like records are tried up to so many times the length of their file.
MOST_TRIED = 4


@dataclass(frozen=True)
class Found:
    """A site that a file holds: the file, a name, its octets, and its fields as hsplan prints them.

    Of a site in JSON, `servers` is the path of the list of its servers.
    """

    file: str
    name: str
    octets: bytes
    fields: str
    servers: str = ""

    def site(self) -> Site:
        return site_of(self.name, self.fields, 0)


class Files:
    """Reads files. Remembers what was left out, and gives each site a name of its own."""

    def __init__(self, programs: Programs) -> None:
        self.programs = programs
        self.left: list[str] = []
        self.taken: list[str] = []
        self._names: set[str] = set()

    def read(self, path: str, octets: bytes) -> list[Found]:
        notes = Notes(path)
        try:
            found = list(self._sites(notes, octets))
        except RecursionError:
            raise Unfit(f"{path}: its JSON is nested too deep") from None
        if not found:
            raise Unfit(f"{path}: no site is in it")
        self.left += notes.left
        self.taken += notes.taken
        return found

    def _sites(self, notes: Notes, octets: bytes) -> Iterator[Found]:
        text = octets.removeprefix(b"\xef\xbb\xbf").strip()
        if text[:1] in (b"{", b"["):
            yield from self._of_json(notes, Part(_loaded(notes.file, text), "", notes))
            return
        if text[:1] == b"<":
            raise Unfit(f"{notes.file}: a page, not JSON; ask the proxy for /api/handles/HANDLE?type=HS_SITE")
        held = [octets, *_unwritten(text)]
        for item in held:
            sites = self._of_octets(notes.file, item)
            if sites:
                yield from sites
                return
        raise Unfit(
            f"{notes.file}: neither JSON nor the octets, the digits or the base64 of a site: {self._why(held[-1])}"
        )

    def _fields(self, octets: bytes) -> str | None:
        try:
            return self.programs.site(octets)
        except Refused:
            return None

    def _why(self, octets: bytes) -> str:
        """What hsplan says of octets that are no record."""
        try:
            return self.programs.site(octets)
        except Refused as fault:
            return f"hsplan says {fault.line.removeprefix('site: ')}"

    def _of_octets(self, file: str, octets: bytes) -> list[Found]:
        """The site whose record these are, or the sites of a value list."""
        fields = self._fields(octets)
        if fields is not None:
            return [Found(file, self.named(stem(file)), octets, fields)]
        return list(self._of_list(file, octets))

    def _of_list(self, file: str, octets: bytes) -> Iterator[Found]:
        """The sites of a value list. Octets that look like a site are one where hsplan finds it by its index."""
        path = self.programs.put(octets, ".values") if MARKER in octets else ""
        room = MOST_TRIED * len(octets)
        for match in itertools.islice(re.finditer(re.escape(MARKER), octets), MOST_VALUES):
            index = int.from_bytes(octets[max(0, match.start() - 4) : match.start()], "big")
            begin = match.end() + 4
            length = int.from_bytes(octets[match.end() : begin], "big")
            if length > len(octets) - begin:
                continue
            record = octets[begin : begin + length]
            room -= length
            if room < 0:  # records of a list don't overlap, so most of these are none
                return
            fields = self._fields(record)
            try:
                same = fields is not None and self.programs.site_of_value(path, index) == fields
            except Refused:
                continue
            if same and fields:
                yield Found(file, self.named(f"{stem(file)}-{index}"), record, fields)

    def _of_json(self, notes: Notes, part: Part) -> Iterator[Found]:
        """The sites of a handle's values, of one value, or of a server's own file; or those of a list of these."""
        if isinstance(part.value, list):
            for inner in part.items():
                yield from self._of_json(notes, inner)
            return
        said = part.fields()
        if "servers" in said:
            yield self._made(notes, part, None)
        elif "data" in said and "type" in said:
            yield from self._of_value(notes, part)
        elif "values" in said or "responseCode" in said:
            yield from self._of_answer(notes, part, said)
        else:
            keys = ", ".join(list(said)[:5]) or "nothing"
            raise part.unfit(f"neither values of a handle nor servers of a site; it has {ascii(keys)}")

    def _of_answer(self, notes: Notes, part: Part, said: dict[str, Part]) -> Iterator[Found]:
        code = said["responseCode"].value if "responseCode" in said else 1
        if code != 1:
            why = " (no such handle)" if code == NO_SUCH_HANDLE else ""
            raise part.unfit(f"the proxy answered with the code {shown(code)}{why}, so no site is in it")
        values = list(said["values"].items()) if "values" in said else []
        kinds = sorted({str(value.fields()["type"].value) for value in values if "type" in value.fields()})
        if not set(kinds) & set(KINDS):
            has = f"its values are of the types {', '.join(map(ascii, kinds))}" if kinds else "it has no values"
            raise part.unfit(
                f"no value of the type HS_SITE: {has}. Ask for the prefix (0.NA/..), or for the handle in its HS_SERV"
            )
        for own in values:
            yield from self._of_value(notes, own)

    def _of_value(self, notes: Notes, part: Part) -> Iterator[Found]:
        """The site of a value. A value of another type is left out."""
        said = part.fields()
        value_type = said["type"].value if "type" in said else None
        if value_type not in KINDS:
            notes.leave(part.path, f"a value of the type {shown(value_type)}")
            return
        if "data" not in said:
            raise part.unfit("no data")
        data = said["data"].fields()
        form, value = (data.get(name) for name in ("format", "value"))
        index = said["index"].value if "index" in said else None
        if value and isinstance(value.value, dict):
            yield self._made(notes, value, index)
        elif value and form and form.value in ("hex", "base64") and isinstance(value.value, str):
            yield self._written(notes, value, form.value == "hex", f"{stem(notes.file)}-{index}")
        else:
            raise said["data"].unfit(
                f"data of the format {shown(form.value if form else None)}; wanted: site, hex or base64"
            )

    def _written(self, notes: Notes, value: Part, is_hex: bool, name: str) -> Found:
        """The site of a value whose data stand there as digits or base64."""
        try:
            octets = bytes.fromhex(value.value) if is_hex else from_base64(value.value)
        except (ValueError, binascii.Error):
            raise value.unfit("not what its format says") from None
        fields = self._fields(octets)
        if fields is None:
            raise value.unfit(self._why(octets))
        return Found(notes.file, self.named(name), octets, fields)

    def _made(self, notes: Notes, part: Part, index: Any) -> Found:
        """The site of a record that is made of JSON."""
        record = record_of(part)
        try:
            fields = self.programs.site(record.octets())
        except Refused as fault:
            raise part.unfit(f"hsplan refuses its record: {fault.line}") from None
        if fields != record.fields():
            raise part.unfit("hsplan reads other fields from its record: please report this with the file")
        names = [
            value.decode() for wanted in (b"name", b"desc") for name, value in record.attributes if name == wanted
        ]
        fallback = stem(notes.file) if index is None else f"{stem(notes.file)}-{index}"
        name = self.named(next(filter(tidy, names), fallback))
        return Found(notes.file, name, record.octets(), fields, part.below("servers"))

    def named(self, name: str) -> str:
        """The name with the signs that hsplan takes, and a number behind it where another site has it."""
        plain = tidy(name) or "site"
        fresh, count = plain, 2
        while fresh in self._names:
            fresh, count = f"{plain}-{count}", count + 1
        self._names.add(fresh)
        return fresh


def tidy(name: str) -> str:
    return re.sub(f"[^{NAME_SIGNS}]+", "-", name).strip("-.").lower()[:56].rstrip("-.")


def stem(path: str) -> str:
    """The name of a file without its folder and its ending."""
    return "site" if path == "-" else os.path.splitext(os.path.basename(path))[0]


class _Twice(Exception):
    """A key that stands twice in an object of JSON, so that nobody knows which value is meant."""


def _object(pairs: list[tuple[str, Any]]) -> dict[str, Any]:
    found = dict(pairs)
    if len(found) < len(pairs):
        keys = [key for key, _ in pairs]
        raise _Twice(next(name for name in keys if keys.count(name) > 1))
    return found


def _loaded(file: str, text: bytes) -> Any:
    try:
        return json.loads(text.decode("utf-8"), parse_float=str, object_pairs_hook=_object)
    except _Twice as twice:
        raise Unfit(f"{file}: the key {shown(str(twice))} stands twice in an object; take one out") from None
    except (ValueError, RecursionError) as error:
        raise Unfit(f"{file}: not whole JSON: {error}") from None


def _unwritten(text: bytes) -> Iterator[bytes]:
    """The octets that a text of digits or of base64 stands for."""
    if re.fullmatch(rb"(0x)?[0-9A-Fa-f\s:]+", text):
        digits = re.sub(rb"^0x|[\s:]", b"", text)
        if len(digits) % 2 == 0:
            yield bytes.fromhex(digits.decode())
    elif re.fullmatch(rb"[A-Za-z0-9+/_\s-]+=*", text):
        try:
            yield from_base64(text.decode())
        except binascii.Error:
            return
