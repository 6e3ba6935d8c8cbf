"""LEMON's network simplex, which tools/measure/lemon_peer.cpp runs beside hsplan, and the networks that both solve."""

from collections.abc import Iterable

from lib import instances, preload

# Its pivot rules, as lemon_peer.cpp names them. The first is LEMON's own choice.
RULES = ("block", "list")


def peer_in(folder: str) -> str:
    return preload.compiled("measure/lemon_peer.cpp", folder, "g++ -O3", "-llemon")


def record(option: int, addresses: Iterable[int]) -> str:
    """A site record of servers at these addresses, without keys and interfaces."""
    servers = [at.to_bytes(4, "big") + own.to_bytes(16, "big") + bytes(8) for at, own in enumerate(addresses)]
    head = bytes.fromhex(f"00010200000100{option:02x}") + bytes(8) + len(servers).to_bytes(4, "big")
    return (head + b"".join(servers)).hex()


def network(folder: str, counts: list[int], capacities: list[int], arcs: Iterable[str], many: int) -> str:
    """A file of a network in numbers, which has so many arcs."""
    head = f"{len(counts)} {len(capacities)} {many}"
    lines = (head, " ".join(map(str, counts)), " ".join(map(str, capacities)))
    return instances.write(folder, "network.txt", (line for part in (lines, arcs) for line in part))


def cost_in(path: str) -> str:
    with open(path, encoding="utf-8") as file:
        return next((line.split()[1] for line in file if line.startswith("cost ")), "-")
