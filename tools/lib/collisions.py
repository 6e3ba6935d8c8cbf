"""Handles whose hashes are the same: those of `hsp_pair_map` in all 64 bits, and those of a table's rows, if it hashed
without a key, in all bits that show.

The hash of `hsp_pair_map` adds a word of eight octets and multiplies, word after word. So of two words, the second
undoes what the first changes. Of such pairs of words that come to the same, one follows another: sixteen of them, four
times, are 65,536 handles.
"""

import itertools
import random
import subprocess
from collections.abc import Iterator

from lib import preload

ALL = 2**64 - 1
MULTIPLIER = 0x9E37_79B9_7F4A_7C15
# The octets of the words: letters, digits and signs that stand in a row of a table as they are.
OCTETS = bytes(octet for octet in range(0x21, 0x7F) if octet not in b'",')
CHOICES, BLOCKS = 16, 4
# The beginning of each handle, and its end, which the hash takes twice.
BEGIN, END = b"20.1/abc", b"--------"


def mixed(state: int, word: int) -> int:
    product = ((state + word) & ALL) * MULTIPLIER
    return ((product & ALL) + (product >> 64)) & ALL


def number(octets: bytes) -> int:
    return int.from_bytes(octets, "little")


def name_mixed(state: int, name: bytes) -> int:
    if len(name) < 8:
        for octet in name:
            state = mixed(state, octet)
        return state
    for at in range(0, len(name) - 7, 8):
        state = mixed(state, number(name[at : at + 8]))
    return mixed(state, number(name[-8:]))


def hash_of(region: bytes, handle: bytes) -> int:
    """The hash of a region and a handle, as `hsp_pair_map` has it."""
    return name_mixed(name_mixed(len(region), region), handle)


def words(state: int, drawn: random.Random) -> Iterator[tuple[bytes, int]]:
    """Blocks of sixteen octets that lead from a state to one state, and that state."""
    aim = 0
    for _ in itertools.count():
        first = bytes(drawn.choices(OCTETS, k=8))
        between = mixed(state, number(first))
        if not aim:
            aim = between + number(bytes(drawn.choices(OCTETS, k=8))) & ALL
        second = (aim - between & ALL).to_bytes(8, "little")
        if second.isascii() and not second.translate(None, OCTETS):
            yield first + second, mixed(between, number(second))


def of_one_hash(region: bytes, count: int, drawn: random.Random) -> list[bytes]:
    """As many different handles of 80 octets, at most 65,536, whose pairs with the region have one hash."""
    state = mixed(name_mixed(len(region), region), number(BEGIN))
    blocks: list[list[bytes]] = []
    for _ in range(BLOCKS):
        found = list(itertools.islice(words(state, drawn), CHOICES))
        blocks.append([octets for octets, _ in found])
        state = found[0][1]
    made = (BEGIN + b"".join(chosen) + END for chosen in itertools.product(*blocks))
    return list(itertools.islice(made, count))


def random_handles(count: int, drawn: random.Random) -> list[bytes]:
    """As many handles of the same length and octets, of which the hash is not chosen."""
    length = 16 * BLOCKS
    return [BEGIN + bytes(drawn.choices(OCTETS, k=length)) + END for _ in range(count)]


def of_one_place(count: int, folder: str) -> list[bytes]:
    """As many handles of one place in a table, which tools/lib/place_collisions.c finds, compiled into a folder."""
    made = preload.compiled("lib/place_collisions.c", folder, "cc -O2")
    return subprocess.run([made, str(count)], stdout=subprocess.PIPE, check=True).stdout.split()
