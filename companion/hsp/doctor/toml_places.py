"""Where the blocks and the keys of settings stand."""

import re
import tomllib
from typing import Any, NamedTuple

from hsp.doctor.findings import Place, Text

KEYS = {"site": ["name", "record", "index"], "host": ["address", "limit"]}


class Block(NamedTuple):
    """A block as `[[site]]`: its first and its last line."""

    first: int
    last: int


def data_of(text: Text) -> dict[str, Any] | None:
    """The settings, or None where they aren't TOML."""
    try:
        return tomllib.loads(text.octets.decode("utf-8-sig"))
    except (tomllib.TOMLDecodeError, UnicodeDecodeError, RecursionError):
        return None


def listed_in(text: Text, block: str) -> list[dict[str, Any]]:
    """The sites or hosts of settings, as far as they are tables."""
    values = (data_of(text) or {}).get(block, [])
    values = values if isinstance(values, list) else [values]
    return [value if isinstance(value, dict) else {} for value in values]


def blocks(text: Text, block: str) -> list[Block]:
    heads = [(number, line) for number, line in enumerate(text.lines, 1) if re.match(r"\s*\[", line)]
    ends = [number - 1 for number, _ in heads[1:]] + [len(text.lines)]
    own = re.compile(rf"\s*\[\[?\s*[\"']?{block}[\"']?\s*\]\]?")
    return [Block(number, end) for (number, line), end in zip(heads, ends) if own.match(line)]


def head_of(text: Text, block: str, number: int) -> Place:
    """The head of a block, or the first place where blocks of its name are spoken of."""
    own = blocks(text, block)
    if number < len(own):
        return text.whole(own[number].first)
    return text.match(rf"\b{block}\b") or text.whole(1)


def value_of(text: Text, block: str, number: int, key: str) -> Place:
    """The value of a key in a block, or the head of the block."""
    own = blocks(text, block)
    pattern = rf"^\s*[\"']?{key}[\"']?\s*=\s*([^#\s][^#]*?|\"[^\"]*\"?|'[^']*'?)\s*(?:#.*)?$"
    if number < len(own):
        return text.match(pattern, own[number].first, own[number].last) or text.whole(own[number].first)
    places = inline(text, key)
    return places[min(number, len(places) - 1)] if places else head_of(text, block, number)


def inline(text: Text, key: str) -> list[Place]:
    """The values of a key of tables that stand within lines."""
    pattern = re.compile(rf"\b{key}\b\s*=\s*(\"[^\"]*\"|'[^']*'|[^,}}\s]+)")
    return [
        text.part(number, match.start(1), match.end(1) - match.start(1))
        for number, line in enumerate(text.lines, 1)
        for match in pattern.finditer(line)
    ]
