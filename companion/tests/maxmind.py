"""A writer of small MaxMind databases (MaxMind DB file format, version 2.0), only for the tests."""

import ipaddress
from typing import Any

MARK = b"\xab\xcd\xefMaxMind.com"


def _head(kind: int, size: int) -> bytes:
    """The control octets of a value: kinds above 7 have an octet of their own."""
    assert size < 285
    first = size if size < 29 else 29
    more = b"" if size < 29 else bytes([size - 29])
    return bytes([(kind << 5 | first) if kind < 8 else first]) + (b"" if kind < 8 else bytes([kind - 7])) + more


def _value(value: Any) -> bytes:
    if isinstance(value, str):
        return _head(2, len(value.encode())) + value.encode()
    if isinstance(value, dict):
        return _head(7, len(value)) + b"".join(_value(key) + _value(it) for key, it in value.items())
    if isinstance(value, list):
        return _head(11, len(value)) + b"".join(map(_value, value))
    kind, number = value
    octets = number.to_bytes((number.bit_length() + 7) // 8, "big")
    return _head(kind, len(octets)) + octets


class _Node:
    def __init__(self, below: Any) -> None:
        self.below = [below, below]


def _put(root: _Node, bits: str, leaf: bytes) -> None:
    node = root
    for bit in bits[:-1]:
        if not isinstance(node.below[int(bit)], _Node):
            node.below[int(bit)] = _Node(node.below[int(bit)])
        node = node.below[int(bit)]
    node.below[int(bits[-1])] = leaf


def database(networks: dict[str, Any]) -> bytes:
    """The octets of a database of networks of IPv4 and IPv6 with what is said of each."""
    root = _Node(None)
    parsed = [(ipaddress.ip_network(it), said) for it, said in networks.items()]
    for network, said in sorted(parsed, key=lambda it: it[0].prefixlen + 96 * (it[0].version == 4)):
        whole = f"{int(network.network_address):0128b}"
        length = network.prefixlen + 96 * (network.version == 4)
        _put(root, whole[:length], _value(said))
    nodes, leaves = [root], {}
    for node in nodes:
        nodes += [it for it in node.below if isinstance(it, _Node)]
    numbers = {id(node): at for at, node in enumerate(nodes)}
    data = b""
    for it in (it for node in nodes for it in node.below if isinstance(it, bytes)):
        if it not in leaves:
            leaves[it] = len(nodes) + 16 + len(data)
            data += it
    said = {id(None): len(nodes)}
    records = [
        numbers[id(it)] if isinstance(it, _Node) else leaves.get(it, said[id(None)]) for n in nodes for it in n.below
    ]
    metadata = {"node_count": (6, len(nodes)), "record_size": (5, 24), "ip_version": (5, 6), "database_type": "Test"}
    metadata |= {"languages": ["en"], "binary_format_major_version": (5, 2), "binary_format_minor_version": (5, 0)}
    metadata |= {"build_epoch": (9, 1774000000), "description": {"en": "test"}}
    return b"".join(it.to_bytes(3, "big") for it in records) + bytes(16) + data + MARK + _value(metadata)
