"""From a client's address to its region: by a table of networks, of which the longest prefix counts, or by a MaxMind
database."""

import csv
import importlib
import io
import ipaddress
import os
import re
import socket
from bisect import bisect_right
from collections.abc import Callable, Iterable
from typing import Any

from hsp.base.bounds import whole
from hsp.base.grammar import HEADERS, NAME_RULE
from hsp.base.numbers import some
from hsp.base.programs import Missing, Programs, Refused, table_text
from hsp.base.unfit import Unfit, shown

# The region of an address, or the reason why it has none.
Seek = Callable[[bytes], "bytes | str"]

# So many regions are asked for at once: a demand has few.
AT_ONCE = 32
NO_ADDRESS, NO_REGION = "the client isn't an IP address", "no region for the client's address"
MAPPED = b"\0" * 10 + b"\xff\xff"
DATABASE_MARK = b"\xab\xcd\xefMaxMind.com"
BITS = {4: 32, 6: 128}
TAIL = 1 << 17


def packed(address: bytes) -> bytes | None:
    """The octets of an address, 4 also for IPv4 within IPv6, or none where it is no address."""
    try:
        if b":" not in address:
            return socket.inet_pton(socket.AF_INET, address.decode("ascii"))
        plain = address.strip(b"[]").partition(b"%")[0]
        octets = socket.inet_pton(socket.AF_INET6, plain.decode("ascii"))
    except (OSError, ValueError):
        return None
    return octets[12:] if octets.startswith(MAPPED) else octets


def tag_of(octets: bytes) -> tuple[bytes, bytes]:
    """The tag that stands before a region, and the region."""
    tag, _, region = octets.partition(b" ")
    return tag, region


Network = tuple[int, int, bytes]


def ranges(networks: Iterable[Network], bits: int) -> tuple[list[int], list[bytes | None]]:
    """Where ranges without overlap begin, and their regions, of networks by first address, prefix and region."""
    starts: list[int] = [0]
    regions: list[bytes | None] = [None]
    inside: list[tuple[int, bytes]] = []

    def begin(at: int, region: bytes | None) -> None:
        if starts[-1] == at:
            regions[-1] = region
        elif regions[-1] != region:
            starts.append(at)
            regions.append(region)

    def close(before: int) -> None:
        while inside and inside[-1][0] <= before:
            end = inside.pop()[0]
            while inside and inside[-1][0] == end:
                inside.pop()
            begin(end, inside[-1][1] if inside else None)

    for first, prefix, region in sorted(networks):
        close(first)
        begin(first, region)
        inside.append((first + (1 << (bits - prefix)), region))
    close(1 << bits)
    return starts, regions


class Networks:
    def __init__(self, path: str, octets: bytes, elsewhere: bytes | None) -> None:
        self.elsewhere = elsewhere
        # The regions, each with the line of its first network.
        self.names: dict[str, int] = {}
        found: dict[int, dict[tuple[int, int], bytes]] = {4: {}, 6: {}}
        for line, network, region in self._rows(path, octets):
            family, first, prefix = _network(path, line, network)
            self.names.setdefault(region.decode(), line)
            other = found[family].setdefault((first, prefix), region)
            if other != region:
                rows = self._rows(path, octets)
                above = next(at for at, begin, _ in rows if _network(path, at, begin) == (family, first, prefix))
                both = f"{shown(region.decode())} here and {shown(other.decode())} in line {above}"
                raise Unfit(f"{path}: line {line}: {network} has two regions, {both}; take one of the lines out")
        # The regions by family, first address and prefix, as the table has them.
        self.found = found
        # Where ranges begin, and what is said of their addresses, by the octets that an address has.
        self._ranges: dict[int, tuple[list[int], list[bytes | str]]] = {}
        for family, networks in found.items():
            starts, regions = ranges(((*key, region) for key, region in networks.items()), BITS[family])
            self._ranges[BITS[family] // 8] = starts, [region or elsewhere or NO_REGION for region in regions]

    @staticmethod
    def _rows(path: str, octets: bytes) -> Iterable[tuple[int, str, bytes]]:
        reader = csv.reader(io.StringIO(_text(path, octets), newline=""), strict=True)
        try:
            header = next(reader, None)
            if header != ["network", "region"]:
                raise Unfit(f"{path}: line 1: the header isn't network,region")
            for row in reader:
                if row and len(row) != 2:
                    raise Unfit(
                        f"{path}: line {reader.line_num}: {some(len(row), 'field')} in place of network,region"
                    )
                if row and not row[1]:
                    raise Unfit(f"{path}: line {reader.line_num}: no region")
                if row:
                    yield reader.line_num, row[0].strip(), row[1].encode()
        except csv.Error as error:
            raise Unfit(f"{path}: line {reader.line_num}: {error}") from None

    def seek(self, address: bytes) -> bytes | str:
        octets = packed(address)
        if octets is None:
            return NO_ADDRESS
        starts, regions = self._ranges[len(octets)]
        return regions[bisect_right(starts, int.from_bytes(octets, "big")) - 1]


def _text(path: str, octets: bytes) -> str:
    try:
        return octets.decode("utf-8-sig")
    except UnicodeDecodeError as error:
        raise Unfit(f"{path}: line {octets.count(10, 0, error.start) + 1}: not UTF-8") from None


def _meant(text: str) -> str:
    """What to write for a network with a netmask, or for one that begins at an address within it."""
    try:
        return f"; write {ipaddress.ip_network(text, strict=False)}"
    except ValueError:
        return ""


def _network(path: str, line: int, text: str) -> tuple[int, int, int]:
    """The family, the first address and the prefix of a network. An address is a network of its own."""
    address, slash, length = text.partition("/")
    family, first, own = 4, None, None
    try:
        octets = socket.inet_pton(socket.AF_INET6 if ":" in address else socket.AF_INET, address)
        own = 8 * len(octets)
        prefix = int(length) if slash and length.isdecimal() and length.isascii() else -1 if slash else own
        if octets.startswith(MAPPED) and len(octets) == 16 and prefix >= 96:
            octets, prefix, own = octets[12:], prefix - 96, 32
        family, first = (4, octets) if own == 32 else (6, octets)
    except (OSError, ValueError):
        prefix = -1
    number = int.from_bytes(first or b"", "big")
    if own is None or not 0 <= prefix <= own:
        raise Unfit(f"{path}: line {line}: {shown(text)} isn't a network such as 192.0.2.0/24{_meant(text)}")
    if number & ((1 << (own - prefix)) - 1):
        why = "begins in the middle of a network of this length"
        raise Unfit(f"{path}: line {line}: {shown(text)} {why}{_meant(text)}")
    return family, number, prefix


class Database:
    """A MaxMind database. `by` is the path of the field that is the region, such as `country.iso_code`."""

    def __init__(self, path: str, by: str, elsewhere: bytes | None) -> None:
        self.path, self.by, self.elsewhere = path, by.split("."), elsewhere
        try:
            module: Any = importlib.import_module("maxminddb")
        except ImportError:
            raise Missing(
                f"{path}: Python has no maxminddb to read it: install it (Debian: python3-maxminddb)"
            ) from None
        self._damaged: Any = (module.InvalidDatabaseError, UnicodeDecodeError, IndexError)
        try:
            self._reader: Any = module.open_database(path)
        except self._damaged as error:
            raise Unfit(f"{path}: not a MaxMind database: {error}") from None

    def seek(self, address: bytes) -> bytes | str:
        octets = packed(address)
        if octets is None:
            return NO_ADDRESS
        family = socket.AF_INET if len(octets) == 4 else socket.AF_INET6
        try:
            said = self._reader.get(socket.inet_ntop(family, octets))
        except self._damaged as error:
            raise Unfit(f"{self.path}: damaged: {error}") from None
        except ValueError:
            said = None  # an address of IPv6 in a database of IPv4
        for name in self.by:
            said = said.get(name) if isinstance(said, dict) else None
        found = said.encode() if isinstance(said, str) else self.elsewhere
        return NO_REGION if found is None else found


def is_table(path: str) -> bool:
    """Whether a file begins as a table of networks does."""
    with open(path, "rb") as file:
        return file.read(32).removeprefix(b"\xef\xbb\xbf").splitlines()[:1] == [b"network,region"]


def named(places: dict[str, str], programs: Programs) -> None:
    """Refuses a region whose name hsplan refuses. Each has the place where it stands."""
    names = list(places)
    for at in range(0, len(names), AT_ONCE):
        rows = ([own, "10/1", 1] for own in names[at : at + AT_ONCE])
        try:
            programs.plan(programs.without_sites(os.fsencode(table_text(HEADERS["demand"], rows))))
        except Refused as fault:
            said = re.fullmatch(r"demand: (.*) row ([0-9]+)", fault.line)
            if not said:
                raise
            name = names[at + int(said[2])]
            raise Unfit(f"{places[name]}: hsplan refuses the region {shown(name)}: {said[1]}; {NAME_RULE}") from None


def _base(path: str, by: str, own: bytes | None) -> Database | Networks:
    """The database or the table of a file."""
    if DATABASE_MARK in _tail(path):
        return Database(path, by, own)
    octets = whole(path)
    return Database(path, by, own) if DATABASE_MARK in octets[-TAIL:] else Networks(path, octets, own)


def _judged(found: Database | Networks, path: str, elsewhere: str | None, programs: Programs) -> None:
    """Asks hsplan for the names of regions, where they are known."""
    places = {elsewhere: "--elsewhere"} if elsewhere else {}
    if isinstance(found, Networks):
        places |= {name: f"{path}: line {line}" for name, line in found.names.items()}
    named(places, programs)


def regions_in(path: str, by: str, elsewhere: str | None, programs: Programs | None = None) -> Seek:
    """How regions are found by a file: a table of networks or a database. hsplan is asked for their names."""
    found = _base(path, by, os.fsencode(elsewhere) if elsewhere else None)
    if programs:
        _judged(found, path, elsewhere, programs)
    return found.seek


def networks_in(path: str, elsewhere: str | None, programs: Programs) -> Networks:
    """A table of networks, of whose regions hsplan is asked for the names."""
    octets = whole(path)
    if DATABASE_MARK in octets[-TAIL:]:
        raise Unfit(f"{path}: HAProxy reads no MaxMind database; give a table network,region")
    found = Networks(path, octets, os.fsencode(elsewhere) if elsewhere else None)
    _judged(found, path, elsewhere, programs)
    return found


def _tail(path: str) -> bytes:
    """The last octets of a file, in which a database has its mark. It may be larger than what is read whole."""
    with open(path, "rb") as file:
        if not file.seekable():
            return b""
        file.seek(max(0, os.fstat(file.fileno()).st_size - TAIL))
        return file.read(TAIL)
