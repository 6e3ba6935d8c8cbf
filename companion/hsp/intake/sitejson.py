"""The JSON of a site, as a handle proxy answers it and as a handle server keeps it, turned into the site's record.

A plan doesn't read keys and interfaces. One that a record can't hold is left out, and named by its path in the JSON.
"""

from __future__ import annotations

import base64
import binascii
import ipaddress
import re
from collections.abc import Iterator
from typing import Any

from hsp.base.unfit import Unfit, shown
from hsp.intake.records import Interface, ServerRecord, SiteRecord, counted, whole

PROTOCOLS = {"UDP": 0, "TCP": 1, "HTTP": 2, "HTTPS": 3}
# What an absent hash option is taken for: servers that keep a site as JSON leave it out where it is this one.
WHOLE_HANDLE = 2
OPTION_WORDS = {"PREFIX": 0, "NA": 0, "SUFFIX": 1, "LOCAL": 1, "ALL": 2, "HANDLE": 2}
PRIMARY, MULTI_PRIMARY = 0x80, 0x40
ADMINISTRATION, RESOLUTION = 1, 2
SITE_FIELDS = (
    "version protocolVersion serialNumber primarySite multiPrimary hashOption hashFilter attributes servers".split()
)


class Notes:
    """What was left out of a record, by paths, and what absent fields were taken for."""

    def __init__(self, file: str) -> None:
        self.file = file
        self.left: list[str] = []
        self.taken: list[str] = []

    def at(self, path: str) -> str:
        """A place in the file, as it is reported."""
        return f"{self.file}: {path}" if path else self.file

    def leave(self, path: str, why: str) -> None:
        self.left.append(f"{self.at(path)}: {why}")


class Part:
    """A value in JSON with its path from the top."""

    def __init__(self, value: Any, path: str, notes: Notes) -> None:
        self.value, self.path, self.notes = value, path, notes

    def unfit(self, why: str) -> Unfit:
        return Unfit(f"{self.notes.at(self.path)}: {why}")

    def fields(self, *known: str) -> dict[str, Part]:
        """The fields of an object but those that are null. Fields that aren't known are left out."""
        if not isinstance(self.value, dict):
            raise self.unfit(f"{shown(self.value)} isn't an object")
        for key in self.value:
            if known and key not in known:
                self.notes.leave(self.below(key), "not a field of a record")
        return {
            key: Part(value, self.below(key), self.notes) for key, value in self.value.items() if value is not None
        }

    def below(self, key: str) -> str:
        return f"{self.path}.{key}".lstrip(".")

    def items(self) -> Iterator[Part]:
        if not isinstance(self.value, list):
            raise self.unfit(f"{shown(self.value)} isn't a list")
        for at, value in enumerate(self.value):
            yield Part(value, f"{self.path}[{at}]", self.notes)

    def number(self, octets: int) -> int:
        """A whole number that so many octets hold."""
        text = str(self.value)
        most = (1 << 8 * octets) - 1
        if isinstance(self.value, bool) or not re.fullmatch(r"[0-9]{1,10}", text) or int(text) > most:
            raise self.unfit(f"{shown(self.value)} isn't a whole number up to {most:,}")
        return int(text)

    def flag(self) -> bool:
        if not isinstance(self.value, bool):
            raise self.unfit(f"{shown(self.value)} is neither true nor false")
        return self.value

    def text(self) -> bytes:
        if isinstance(self.value, (dict, list, bool)):
            raise self.unfit(f"{shown(self.value)} isn't text")
        try:
            return str(self.value).encode()
        except UnicodeEncodeError:
            raise self.unfit("this text has half a character") from None


def from_base64(text: str) -> bytes:
    """The octets of base64 in either alphabet, with or without its last signs, over any number of lines."""
    plain = "".join(text.split()).replace("-", "+").replace("_", "/").rstrip("=")
    return base64.b64decode(plain + "=" * (-len(plain) % 4), validate=True)


def _number_of(text: Any) -> bytes:
    """A positive number of a JSON Web Key, with a first bit of 0 as servers write it."""
    octets = from_base64(text if isinstance(text, str) else "?").lstrip(b"\0")
    return bytes(not octets or octets[0] > 127) + octets


def key_of_web_key(key: dict[str, Any]) -> bytes:
    """The public key record of a JSON Web Key. `ValueError` says why there is none."""
    key_type = key.get("kty")
    names = {"RSA": ("e", "n"), "DSA": ("q", "p", "g", "y")}.get(key_type if isinstance(key_type, str) else "")
    if not names:
        raise ValueError(f"a key of the kind {shown(key_type)} has no known record")
    numbers = b"".join(counted(_number_of(key.get(name))) for name in names)
    return counted(f"{key_type}_PUB_KEY".encode()) + whole(0, 2) + numbers


def key_of(part: Part) -> bytes:
    """The octets of a public key record, or none where they can't be carried over."""
    said = part.value if isinstance(part.value, dict) else {"value": part.value}
    form, value = said.get("format"), said.get("value", said)
    try:
        if isinstance(value, dict):
            return key_of_web_key(value)
        if not isinstance(value, str) or form not in (None, "base64", "hex", "key"):
            raise ValueError(f"neither base64 nor hexadecimal digits nor a web key: {shown(value)}")
        if form == "hex" or form is None and len(value) % 2 == 0 and re.fullmatch(r"[0-9A-Fa-f]+", value):
            return bytes.fromhex(value)
        return from_base64(value)
    except (ValueError, binascii.Error) as error:
        part.notes.leave(part.path, f"the key is left empty: {error}")
        return b""


def address_of(part: Part) -> bytes:
    """The 16 octets of an address."""
    text = str(part.value)
    address, percent, zone = (text[1:-1] if text[:1] + text[-1:] == "[]" else text).partition("%")
    try:
        found = ipaddress.ip_address(address)
    except ValueError:
        raise part.unfit(f"{shown(part.value)} isn't an IP address; look a name up first") from None
    if percent:
        part.notes.leave(part.path, f"the zone {zone}, which a record can't hold")
    if isinstance(found, ipaddress.IPv6Address) and found.ipv4_mapped:
        found = found.ipv4_mapped
    return found.packed.rjust(16, b"\0")


def interface_of(part: Part) -> Interface | None:
    """An interface, or none where its protocol has no number."""
    said = part.fields("query", "admin", "protocol", "port")
    protocol = said.get("protocol", Part("TCP", part.path, part.notes))
    name = str(protocol.value).upper()
    if name not in PROTOCOLS and not isinstance(protocol.value, int):
        part.notes.leave(part.path, f"the protocol {shown(protocol.value)} has no known number")
        return None
    number = PROTOCOLS[name] if name in PROTOCOLS else protocol.number(1)
    admin, query = (word in said and said[word].flag() for word in ("admin", "query"))
    return Interface(
        admin * ADMINISTRATION + query * RESOLUTION, number, said["port"].number(4) if "port" in said else 0
    )


def server_of(part: Part) -> ServerRecord:
    said = part.fields("serverId", "address", "publicKey", "interfaces")
    for name in ("serverId", "address"):
        if name not in said:
            raise part.unfit(f"no {name}")
    interfaces = [interface_of(interface) for interface in said["interfaces"].items()] if "interfaces" in said else []
    key = key_of(said["publicKey"]) if "publicKey" in said else b""
    held = tuple(interface for interface in interfaces if interface)
    return ServerRecord(said["serverId"].number(4), address_of(said["address"]), key, held)


def option_of(part: Part) -> int:
    """The hash option: its number, or its name as handle servers and RFC 3651 write it."""
    name = re.sub(r"^(HASH_TYPE_|HASH_)?(BY_)?", "", re.sub(r"[- ]", "_", str(part.value).upper()))
    if name in OPTION_WORDS:
        return OPTION_WORDS[name]
    number = part.number(1)
    if number > WHOLE_HANDLE:
        raise part.unfit(f"the hash option {number} isn't 0, 1 or 2")
    return number


def protocol_of(part: Part) -> tuple[int, int]:
    match = re.fullmatch(r"([0-9]{1,3})\.([0-9]{1,3})", str(part.value))
    if not match or max(map(int, match.groups())) > 255:
        raise part.unfit(f"{shown(part.value)} isn't a version such as 2.11")
    return int(match[1]), int(match[2])


def attribute_of(part: Part) -> tuple[bytes, bytes]:
    said = part.fields("name", "value")
    name, value = (said[word].text() if word in said else b"" for word in ("name", "value"))
    return name, value


def record_of(part: Part) -> SiteRecord:
    said = part.fields(*SITE_FIELDS)
    if "servers" not in said or said["servers"].value == []:
        raise part.unfit("no servers")
    if "hashOption" not in said:
        part.notes.taken.append(f"{part.notes.at(part.path)}: no hashOption, taken for the whole handle")
    primary, multi = (word in said and said[word].flag() for word in ("primarySite", "multiPrimary"))
    return SiteRecord(
        version=said["version"].number(2) if "version" in said else 1,
        protocol=protocol_of(said["protocolVersion"]) if "protocolVersion" in said else (2, 10),
        serial=said["serialNumber"].number(2) if "serialNumber" in said else 1,
        mask=primary * PRIMARY + multi * MULTI_PRIMARY,
        option=option_of(said["hashOption"]) if "hashOption" in said else WHOLE_HANDLE,
        filter=said["hashFilter"].text() if "hashFilter" in said else b"",
        attributes=tuple(attribute_of(attribute) for attribute in said["attributes"].items())
        if "attributes" in said
        else (),
        servers=tuple(server_of(server) for server in said["servers"].items()),
    )
