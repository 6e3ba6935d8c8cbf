"""How much is held in memory: files that are read whole by their octets, and queries by theirs."""

import sys
from collections.abc import Iterable, Iterator

from hsp.base.grammar import LARGEST_FILE
from hsp.base.unfit import Unfit

# hsplan's limit of a file that is read whole.
LARGEST = LARGEST_FILE
# So many octets queries have together that are held at once, and what each takes beside its own octets.
MOST_HELD, BESIDE = 1 << 28, 200
# So many queries, and octets of them, are passed on at once.
MOST_AT_ONCE, OCTETS_AT_ONCE = 1 << 16, 1 << 22

Query = tuple[bytes, bytes]


def whole(path: str) -> bytes:
    """The octets of a file, or of standard input where the path is `-`."""
    with sys.stdin.buffer if path == "-" else open(path, "rb") as file:
        octets = file.read(LARGEST + 1)
    if len(octets) > LARGEST:
        raise Unfit(f"{path}: more than {LARGEST:,} octets; a file that is read whole has at most so many")
    return octets


def octets_of(path: str) -> bytes:
    """The octets of a file that hsp or hsplan has made, however many they are."""
    with open(path, "rb") as file:
        return file.read()


def weight(queries: Iterable[Query]) -> int:
    """What queries take in memory."""
    return sum(BESIDE + len(handle) for _, handle in queries)


def pieces(queries: Iterable[Query]) -> Iterator[list[Query]]:
    """Queries in pieces that take little memory."""
    piece: list[Query] = []
    octets = 0
    for query in queries:
        piece.append(query)
        octets += len(query[1])
        if len(piece) == MOST_AT_ONCE or octets > OCTETS_AT_ONCE:
            yield piece
            piece, octets = [], 0
    if piece:
        yield piece
