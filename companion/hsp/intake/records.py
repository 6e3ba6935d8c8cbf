"""The record of a site (HS_SITE data) from its fields, in the order and the widths in which hsplan reads it."""

from dataclasses import dataclass

OPTIONS = ("naming authority", "local name", "whole handle")


def whole(number: int, octets: int) -> bytes:
    return number.to_bytes(octets, "big")


def counted(octets: bytes) -> bytes:
    """The number of the octets, then the octets."""
    return whole(len(octets), 4) + octets


@dataclass(frozen=True)
class Interface:
    """What is served (1 administration, 2 resolution), by which protocol, at which port."""

    service: int
    protocol: int
    port: int

    def octets(self) -> bytes:
        return whole(self.service, 1) + whole(self.protocol, 1) + whole(self.port, 4)


@dataclass(frozen=True)
class ServerRecord:
    """A server. Its address has 16 octets; that of IPv4 has 12 octets 00 and its own 4."""

    id: int
    address: bytes
    key: bytes
    interfaces: tuple[Interface, ...]

    def octets(self) -> bytes:
        interfaces = b"".join(interface.octets() for interface in self.interfaces)
        return whole(self.id, 4) + self.address + counted(self.key) + whole(len(self.interfaces), 4) + interfaces


@dataclass(frozen=True)
class SiteRecord:
    """A site. The option is what it hashes: 0, 1 and 2 are those of `OPTIONS`."""

    version: int
    protocol: tuple[int, int]
    serial: int
    mask: int
    option: int
    filter: bytes
    attributes: tuple[tuple[bytes, bytes], ...]
    servers: tuple[ServerRecord, ...]

    def octets(self) -> bytes:
        head = whole(self.version, 2) + bytes(self.protocol) + whole(self.serial, 2) + bytes([self.mask, self.option])
        attributes = b"".join(counted(name) + counted(value) for name, value in self.attributes)
        servers = b"".join(server.octets() for server in self.servers)
        counts = [counted(self.filter), whole(len(self.attributes), 4) + attributes]
        return b"".join([head, *counts, whole(len(self.servers), 4), servers])

    def fields(self) -> str:
        """What `hsplan site` has to print of this record."""
        lines = [f"version {self.version}", f"protocol {self.protocol[0]} {self.protocol[1]}"]
        lines += [f"serial {self.serial}", f"mask {self.mask}", f"option {self.option}", f"filter {len(self.filter)}"]
        lines += [f"attributes {len(self.attributes)}", f"servers {len(self.servers)}"]
        for place, own in enumerate(self.servers):
            lines.append(f"server {place} {own.id} {own.address.hex()} {len(own.key)} {len(own.interfaces)}")
        return "".join(f"{line}\n" for line in lines)
