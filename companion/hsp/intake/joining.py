"""Sites that join a service, change or leave: the texts of a folder then, and what that does to handles, capacities
and the plan."""

import csv
import io
import ipaddress
import json
import math
import os
import random
import re
import tomllib
from collections import Counter
from collections.abc import Callable, Sequence
from dataclasses import dataclass, field
from typing import Any

from hsp.base.bounds import whole
from hsp.base.grammar import GREATEST_LIMIT, HEADERS
from hsp.base.numbers import listed, percent, queries_of, some
from hsp.base.paths import path_in
from hsp.base.programs import Inputs, Missing, Programs, Refused, table_text
from hsp.base.spelling import near
from hsp.base.unfit import Unfit
from hsp.intake.records import OPTIONS
from hsp.intake.sitefiles import Found, tidy
from hsp.plans.counted import Asked, is_log, rows_of
from hsp.plans.service import NAMES, Site, VALUES, dotted, sites_of
from hsp.plans.titles import as_meant, block_of


CAPACITY_HEAD = HEADERS["capacity"]


def block(found: Found) -> str:
    """The block of a site. Its comment says what its record holds."""
    site = found.site()
    servers = ", ".join(f"{server.id} at {dotted(server.address)}" for server in site.servers)
    option = OPTIONS[site.option] if site.option < len(OPTIONS) else f"option {site.option}"
    name = json.dumps(found.name)
    return f'[[site]]\n# by {option}; servers: {servers}\nname = {name}\nrecord = "{found.octets.hex()}"\n'


def capacity_rows(found: Found, capacity: int) -> list[tuple[str, int, int]]:
    return [(found.name, server.id, capacity) for server in found.site().servers]


def lines_of(found: Found) -> list[str]:
    """What a site is called, what it hashes, and its servers with their addresses."""
    site = found.site()
    option = f"by {OPTIONS[site.option]}" if site.option < len(OPTIONS) else f"by the unknown option {site.option}"
    wide = max((len(str(server.id)) for server in site.servers), default=0)
    lines = [f"{server.id:>{wide}} at {dotted(server.address)}" for server in site.servers]
    return [
        f"{found.name}  {some(len(lines), 'server')} {option}, from {found.file}",
        *(f"    {line}" for line in lines),
    ]


def _octets(path: str) -> bytes:
    if not os.path.exists(path):
        return b""
    octets = whole(path)
    return octets if not octets or octets.endswith(b"\n") else octets + b"\n"


@dataclass
class Joined:
    """The files of a folder with some more sites, and the sites that were there already."""

    contents: dict[str, bytes]
    added: list[Found] = field(default_factory=list)
    known: list[Found] = field(default_factory=list)


def _settings_in(path: str, octets: bytes) -> list[tuple[str, str | None]]:
    """The name of each site of the settings, and its record in lower case."""
    try:
        said = tomllib.loads(octets.decode("utf-8-sig"))
    except (tomllib.TOMLDecodeError, UnicodeDecodeError, RecursionError) as error:
        raise Unfit(f"{path}: not TOML: {error}") from None
    sites = said.get("site", [])
    if not isinstance(sites, list) or not all(isinstance(site, dict) for site in sites):
        raise Unfit(f"{path}: site isn't a list of tables; each site begins with [[site]]")
    return [(str(site.get("name")), str(site["record"]).lower() if "record" in site else None) for site in sites]


def _servers_in(path: str, octets: bytes) -> set[tuple[str, str]]:
    """The servers that have a capacity."""
    try:
        rows = list(csv.reader(io.StringIO(octets.decode("utf-8-sig"), newline="")))
    except (csv.Error, UnicodeDecodeError) as error:
        raise Unfit(f"{path}: not a table: {error}") from None
    if rows and rows[0] != CAPACITY_HEAD.split(","):
        raise Unfit(f"{path}: line 1: the header isn't {CAPACITY_HEAD}")
    return {(row[0], row[1]) for row in rows[1:] if len(row) == 3}


def joined(folder: str, sites: list[Found], capacity: int, programs: Programs) -> Joined:
    """Adds sites to the texts of a folder's settings and capacities. hsplan reads back what comes out."""
    settings, capacities = (path_in(folder, NAMES[role]) for role in ("settings", "capacity"))
    texts = {path: _octets(path) for path in (settings, capacities)}
    before = _settings_in(settings, texts[settings])
    there = dict(before)
    result = Joined(texts)
    for site in sites:
        if site.octets.hex() in there.values():
            result.known.append(site)
        elif site.name in there:
            raise Unfit(
                f"{settings}: {site.name} is there with another record; take it out, or name this one by --name"
            )
        else:
            there[site.name] = site.octets.hex()
            result.added.append(site)
    taken = _servers_in(capacities, texts[capacities])
    rows = [row for site in result.added for row in capacity_rows(site, capacity)]
    fresh = table_text(CAPACITY_HEAD, (fields for fields in rows if (fields[0], str(fields[1])) not in taken)).encode()
    texts[capacities] += fresh.partition(b"\n")[2] if texts[capacities] else fresh
    gap = b"\n" if texts[settings] else b""
    texts[settings] += gap + "\n".join(block(site) for site in result.added).encode() if result.added else b""
    values = os.path.join(folder, VALUES)
    read_back(texts[settings], len(before), result.added, programs, values if os.path.isfile(values) else None)
    return result


def refusal(own: Found, fault: Refused) -> str:
    """Why hsplan refuses a site that is added, and what to do."""
    says = f"hsplan refuses {ascii(own.name)}: {fault.line}"
    ids = [server.id for server in own.site().servers]
    twins = [identifier for identifier in ids if ids.count(identifier) > 1]
    if "ServerIdTwice" in fault.line and twins:
        places = [at for at, identifier in enumerate(ids) if identifier == twins[0]]
        entries, remedy = [f"server {at + 1} of its record" for at in places], "ask for the site's record anew"
        if own.servers:
            entries = [f"{own.servers}[{at}].serverId" for at in places]
            remedy = "give each server its own identifier"
        return f"{own.file}: {listed(entries)} are {twins[0]}; {says}; {remedy}"
    fresh = tidy(own.name)
    remedy = f"; write --name {fresh}" if fresh and fresh != own.name and "BadSite" in fault.line else ""
    return f"{own.file}: {says}{remedy}"


def read_back(settings: bytes, before: int, added: list[Found], programs: Programs, values: str | None = None) -> None:
    """Compares the sites that were added behind others with what hsplan reads from the settings."""
    inputs = Inputs(programs.put(settings, ".toml"), "", "", "", values)
    try:
        programs.places(inputs, ["0.NA/0"])
    except Refused as fault:
        match = re.search(r" site ([0-9]+)", fault.line)
        number = int(match[1]) - before if match else -1
        if not 0 <= number < len(added):
            raise
        raise Unfit(refusal(added[number], fault)) from None
    read = {site.name: site for site in sites_of(programs, inputs, tomllib.loads(settings.decode("utf-8-sig")))}
    for own in added:
        wanted, found = own.site(), read[own.name]
        same = [(a.id, a.address) for a in wanted.servers] == [(a.id, a.address) for a in found.servers]
        if not same or wanted.option != found.option:
            raise Unfit(
                f"{own.file}: hsplan reads {own.name} otherwise from the settings: please report this with the file"
            )


HEADS = {kind: re.compile(rf"\s*\[\[\s*{kind}\s*\]\]\s*(#.*)?") for kind in ("site", "host")}
SOURCE, COMMENT = re.compile(r"\s*(record|index)\s*="), re.compile(r"# by .*; servers: .*")
LIMIT = re.compile(r"\s*limit\s*=")
# So many rows of a demand are looked at; of more, a sample.
SAMPLE = 8192


@dataclass
class Changed:
    """The texts of a folder's files, to be written together, and what is said of them."""

    folder: str
    programs: Programs
    capacity: int = 0
    texts: dict[str, bytes] = field(default_factory=dict)
    lines: list[str] = field(default_factory=list)

    def path(self, role: str) -> str:
        return path_in(self.folder, NAMES[role])

    def text(self, role: str) -> str:
        """The text of a file as it is so far. Its last line has an end."""
        path = self.path(role)
        octets = self.texts.get(path) or (whole(path) if os.path.exists(path) else b"")
        try:
            text = octets.decode("utf-8-sig")
        except UnicodeDecodeError:
            raise Unfit(f"{path}: not UTF-8") from None
        return text if text.endswith("\n") or not text else f"{text}\n"

    def inputs(self, is_changed: bool) -> Inputs:
        """The files as they were, or as they are now."""
        files = {role: self.path(role) for role in NAMES}
        for role, path in files.items():
            if is_changed and path in self.texts:
                files[role] = self.programs.put(self.texts[path], os.path.splitext(path)[1])
        values = path_in(self.folder, VALUES)
        return Inputs(**files, values=values if os.path.isfile(values) else None, is_log=is_log(files["demand"]))

    def sites(self, is_changed: bool) -> list[Site]:
        """The sites, of settings that hsplan takes."""
        inputs = self.inputs(is_changed)
        self.programs.places(inputs, ["0.NA/0"])
        with open(inputs.settings, "rb") as file:
            return sites_of(self.programs, inputs, tomllib.loads(file.read().decode("utf-8-sig")))

    def blocks(self, kind: str) -> list[dict[str, Any]]:
        found: list[dict[str, Any]] = tomllib.loads(self.text("settings")).get(kind, [])
        return found

    def edit(self, kind: str, at: int, own: dict[str, Any], edit: Callable[[list[str]], list[str]]) -> None:
        """Changes the lines of a block of a kind, or adds those of a new one. As TOML they have to be what is meant,
        which is nothing where the block goes, or nothing is changed."""
        text = self.text("settings")
        wanted = tomllib.loads(text)
        wanted.setdefault(kind, [])[at : at + 1] = [own] if own else []
        if not wanted[kind]:
            del wanted[kind]
        lines = text.splitlines(keepends=True)
        begin, end = block_of(lines, HEADS[kind], at)
        written = "".join([*lines[:begin], *edit(lines[begin:end]), *lines[end:]])
        path = self.path("settings")
        refusal = f"{path}: its lines can't be changed as they stand; change them by hand"
        self.texts[path] = as_meant(written, wanted, refusal)

    def without(self, role: str, is_gone: Callable[[list[str]], bool]) -> int:
        """Takes rows out of a table, whose others stay as they stand. Returns how many these are."""
        path, lines = self.path(role), self.text(role).splitlines(keepends=True)
        try:
            kept = [line for line in lines if not is_gone(next(csv.reader([line]), [""]))]
        except csv.Error as error:
            raise Unfit(f"{path}: not a table: {error}") from None
        self.texts[path] = "".join(kept).encode()
        return len(lines) - len(kept)

    def refuse_no_site(self, name: str, names: Sequence[str], place: str, option: str = "") -> None:
        """Refuses a site that isn't there, and names the one that is likely meant."""
        if name not in names:
            meant, other = near(name, names), f"name it by {option.strip()}; " if option else ""
            remedy = f"did you mean {option}{meant}?" if meant else f"{other}sites are {listed(names, 9)}"
            raise Unfit(f"{place}no site {ascii(name)} is in {self.path('settings')}; {remedy}")


def _serial(fields: str) -> str:
    return next(line.partition(" ")[2] for line in fields.splitlines() if line.startswith("serial "))


def update(changed: Changed, found: Sequence[Found]) -> None:
    """Gives sites that are there the records that were found."""
    before = changed.sites(False)
    names = [site.name for site in before]
    for own in found:
        changed.refuse_no_site(own.name, names, f"{own.file}: ", "--name ")
        at = names.index(own.name)
        said = changed.blocks("site")[at]
        if "record" in said:
            was = _serial(changed.programs.site(bytes.fromhex(said["record"])))
        else:
            was = _serial(changed.programs.site_of_value(path_in(changed.folder, VALUES), said.pop("index")))
        _with_record(changed, at, own, said)
        try:
            new = changed.sites(True)[at]
        except Refused as fault:
            raise Unfit(refusal(own, fault)) from None
        serials = " to ".join(dict.fromkeys([was, _serial(own.fields)]))
        changed.lines += [f"{own.name}  serial {serials}, {_what(before[at], new)}, from {own.file}"]
        changed.lines += _servers_differ(before[at], new)
        _with_rows(changed, before[at], new)


def _with_record(changed: Changed, at: int, own: Found, said: dict[str, Any]) -> None:
    comment, record = block(own).splitlines(keepends=True)[1], f'record = "{own.octets.hex()}"\n'

    def edit(lines: list[str]) -> list[str]:
        inner = [record if SOURCE.match(line) else line for line in lines]
        return [comment if COMMENT.match(line) else line for line in inner]

    changed.edit("site", at, {**said, "record": own.octets.hex()}, edit)


def _what(old: Site, new: Site) -> str:
    """What of a site differs in short."""
    before = "as before" if len(old.servers) == len(new.servers) else f"in place of {len(old.servers)}"
    option = f"; hashed by option {new.option} in place of {old.option}" if new.option != old.option else ""
    return f"{some(len(new.servers), 'server')} {before}{option}"


def _servers_differ(old: Site, new: Site) -> list[str]:
    """The servers that come, go, or stand elsewhere."""
    before, after = ({it.id: dotted(it.address) for it in site.servers} for site in (old, new))
    gone = [f"    {own} at {address} is gone" for own, address in before.items() if own not in after]
    fresh = [f"    {own} at {address} is new" for own, address in after.items() if own not in before]
    both = [own for own in after if own in before and before[own] != after[own]]
    return gone + fresh + [f"    {own} at {after[own]}, before at {before[own]}" for own in both]


def _with_rows(changed: Changed, old: Site, new: Site) -> None:
    """Takes the rows of servers away that are gone, and adds rows of new ones."""
    before, after = ([str(it.id) for it in site.servers] for site in (old, new))
    gone, fresh = sorted({*before} - {*after}), [own for own in after if own not in before]
    changed.without("capacity", lambda row: row[0] == old.name and len(row) > 1 and row[1] in gone)
    rows = table_text("", ([new.name, own, changed.capacity] for own in fresh))[1:]
    changed.texts[changed.path("capacity")] += rows.encode()
    room = f"{changed.capacity:,}" + ("" if changed.capacity else ": put in what each takes")
    words = ([f"without {listed(gone)}"] if gone else []) + ([f"{listed(fresh)} with {room}"] if fresh else [])
    if words:
        changed.lines.append(f"    capacity.csv {' and '.join(words)}")


def remove(changed: Changed, names: Sequence[str]) -> None:
    """Takes sites away with their rows of capacities and costs."""
    for name in names:
        sites = [site.name for site in changed.sites(True)]
        changed.refuse_no_site(name, sites, "")
        changed.edit("site", sites.index(name), {}, lambda _: [])
        for role, column in (("capacity", 0), ("costs", 1)):
            lost = changed.without(role, lambda row: row[column : column + 1] == [name])
            verb = "is" if lost == 1 else "are"
            changed.lines.append(f"{name}  {some(lost, 'row')} of {NAMES[role]} {verb} gone with it")


def limit(changed: Changed, words: Sequence[str]) -> None:
    """Gives machines a limit, by options `ADDRESS=N`."""
    hosts = [_limit_of(word) for word in words]
    changed.sites(True)  # what hsplan refuses isn't read
    for address, most in hosts:
        octets = ipaddress.ip_address(address).packed.rjust(16, b"\0").hex()
        said = changed.blocks("host")
        at = next((at for at, own in enumerate(said) if str(own.get("address")).lower() == octets), len(said))
        line = f"limit = {most}\n"
        fresh = [f'\n[[host]]\n# {address}\naddress = "{octets}"\n{line}'] if at == len(said) else []
        own: dict[str, Any] = {**(said[at] if at < len(said) else {"address": octets}), "limit": most}
        changed.edit("host", at, own, lambda lines: fresh or [line if LIMIT.match(it) else it for it in lines])
        servers = [it.label for site in changed.sites(True) for it in site.servers if it.address == octets]
        changed.lines.append(f"host {address} takes {most:,}: {listed(servers, 6) or 'no server is there'}")


def _limit_of(word: str) -> tuple[str, int]:
    address, _, number = word.rpartition("=")
    try:
        ipaddress.ip_address(address)
    except ValueError:
        raise Missing(f"'{word}' is no address with a limit, such as 192.0.2.11=2000") from None
    if not re.fullmatch(r"[0-9]{1,20}", number) or int(number) > GREATEST_LIMIT:
        raise Missing(f"'{word}': a limit is a whole number up to {GREATEST_LIMIT:,}")
    return address, int(number)


def _sampled(path: str) -> tuple[list[Asked], int]:
    """Rows of a demand: all of them, or each with the same chance; and how many there are."""
    draw, found, number = random.Random(0), list[Asked](), 0
    for row in (row for rows in rows_of(path) for row in rows) if os.path.isfile(path) else ():
        number += 1
        at = len(found) if len(found) < SAMPLE else draw.randrange(number)
        found[at : at + 1] = [row] if at < SAMPLE else []
    return found, number


def moved_lines(changed: Changed) -> list[str]:
    """Which share of the handles and of the queries has another server at each site that is there before and after."""
    try:
        rows, number = _sampled(changed.path("demand"))
    except (ValueError, csv.Error, Unfit) as error:
        return [f"the demand can't be read, so no handle was looked at: {error}"]
    if not rows:
        return ["the demand has no row, so no handle was looked at"]
    asked = Counter[bytes]()
    for row in rows:
        asked[row.handle] += row.queries
    one, other = (_servers(changed, is_changed, list(asked)) for is_changed in (False, True))
    of = f" (by {len(rows):,} of {some(number, 'row')}, \u00b1{100 / math.sqrt(len(rows)):.0f}%)"
    sampled = of if number > len(rows) else ""
    lines = []
    for name in [name for name in other if name in one]:
        moved = [handle for handle in asked if one[name][handle] != other[name][handle]]
        shares = f"{percent(len(moved), len(asked))} of {some(len(asked), 'handle')}"
        queries = f"{percent(sum(asked[it] for it in moved), asked.total())} of {queries_of(asked.total())}"
        lines += [f"{name}  {shares} have another server there, {queries}{sampled}"] if moved else []
    return lines or [f"none of {some(len(asked), 'handle')} has another server at a site that stays{sampled}"]


def _servers(changed: Changed, is_changed: bool, handles: list[bytes]) -> dict[str, dict[bytes, int]]:
    """The identifier of the server of each handle at each site. hsplan-stream names its place."""
    sites = changed.sites(is_changed)
    places = changed.programs.places_by_site(changed.inputs(is_changed), handles, len(sites)) if sites else {}
    return {
        site.name: {handle: site.servers[int(own[at])].id for handle, own in places.items()}
        for at, site in enumerate(sites)
    }


def planned(changed: Changed, is_changed: bool) -> str:
    """What a plan costs, or why there is none."""
    try:
        certificate, _ = changed.programs.plan(changed.inputs(is_changed))
    except Refused as fault:
        return f"none ({fault.line})"
    if not certificate.is_plan:
        return f"short by {queries_of(certificate.demand - certificate.capacity)}"
    return f"cost {certificate.cost:,}"
