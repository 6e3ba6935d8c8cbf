"""The file hsp.toml: what a service is called, and a demand that hsp once joined or counted in units."""

import json
import os
import re
import tomllib
from collections.abc import Mapping, Sequence
from typing import Any, NamedTuple

from hsp.base.bounds import whole
from hsp.base.numbers import duration
from hsp.base.paths import path_in
from hsp.base.unfit import Unfit

TITLES, TABLE, DEMAND = "hsp.toml", "demand", "demand.csv"
# How many seconds long the time is that the demand counts.
SECONDS, MOST_SECONDS = "seconds", 366 * 86_400
HEAD = re.compile(r"\s*\[\s*[\"']?demand[\"']?\s*\]\s*(#.*)?")
# A text between quotes; and no more points stand beside such texts in a line, since long keys take long to be read.
QUOTED = re.compile(r"\"(?:\\.|[^\"\\])*\"|'[^']*'")
MOST_OF_TITLES, MOST_POINTS = 1 << 18, 100
REMEDY = "count the logs again by hsp demand, which writes the demand as it is counted"


def titles_of(folder: str) -> dict[str, Any]:
    """What hsp.toml holds; nothing where there is none."""
    path = os.path.join(folder, TITLES)
    if not os.path.isfile(path):
        return {}
    if os.stat(path).st_size > MOST_OF_TITLES:
        raise Unfit(f"{path}: more than {MOST_OF_TITLES:,} octets")
    try:
        text = whole(path).decode()
        if any(QUOTED.sub("", line).count(".") > MOST_POINTS for line in text.splitlines()):
            raise Unfit(f"{path}: a key of more than {MOST_POINTS} parts")
        return tomllib.loads(text)
    except (ValueError, RecursionError) as error:  # a number may be too long, and lists nested too deep
        raise Unfit(f"{path}: not TOML: {error}") from error


class Outdated(NamedTuple):
    """A hsp.toml that says of the demand beside it what hsp plans no longer, the key that says it, and what it says."""

    path: str
    key: str
    message: str


def outdated(demand: str) -> Outdated | None:
    """What says that a demand is outdated; nothing of any other demand."""
    folder, name = os.path.split(demand)
    table = titles_of(folder).get(TABLE) if name == DEMAND else None
    own, path = table if isinstance(table, dict) else {}, path_in(folder, TITLES)
    if own.get("rows") == "kinds":
        return Outdated(path, "rows", "the demand was joined by kinds, and hsp plans rows of handles")
    if own.get("unit", 1) != 1:
        return Outdated(path, "unit", "the demand counts in units, and hsp plans queries")
    return None


def insist_counted(demand: str) -> None:
    """Refuses a demand that is outdated."""
    old = outdated(demand)
    if old:
        raise Unfit(f"{old.path}: {old.message}; {REMEDY}")


def block_of(lines: Sequence[str], head: re.Pattern[str], at: int = 0) -> tuple[int, int]:
    """The lines of a block with such a head, without the comments above the next one, which are its."""
    begins = [number for number, line in enumerate(lines) if head.fullmatch(line.rstrip("\r\n"))]
    begin = begins[at] if at < len(begins) else len(lines)
    end = next(
        (number for number in range(begin + 1, len(lines)) if lines[number].lstrip().startswith("[")), len(lines)
    )
    while end > begin + 1 and not lines[end - 1].partition("#")[0].strip():
        end -= 1
    return begin, end


def as_meant(written: str, wanted: dict[str, Any], refusal: str) -> bytes:
    """The octets of TOML whose lines were changed. It has to hold what is meant, or nothing is written."""
    try:
        found = tomllib.loads(written)
    except tomllib.TOMLDecodeError:
        raise Unfit(refusal) from None
    if found != wanted:
        raise Unfit(refusal)
    return written.encode()


def uncounted(folder: str) -> dict[str, bytes]:
    """hsp.toml without its table of an outdated demand, for which another one is written; nothing where it has none."""
    path, before = path_in(folder, TITLES), titles_of(folder)
    if TABLE not in before:
        return {}
    with open(path, encoding="utf-8", newline="") as file:
        lines = file.read().splitlines(keepends=True)
    first, end = block_of(lines, HEAD)
    wanted = {key: value for key, value in before.items() if key != TABLE}
    refusal = f"{path}: its table [{TABLE}] can't be taken out; take it out by hand"
    return {path: as_meant("".join(lines[:first] + lines[end:]), wanted, refusal)}


def seconds_of(folder: str) -> int | None:
    """How many seconds the time is long that the demand of a folder counts, where that is noted."""
    found = titles_of(folder).get(SECONDS)
    if found is not None and not (isinstance(found, int) and 0 < found <= MOST_SECONDS):
        raise Unfit(f"{path_in(folder, TITLES)}: {SECONDS} isn't a whole number from 1 to {MOST_SECONDS:,}")
    return found


def noted_time(folder: str, seconds: int, texts: Mapping[str, bytes] = {}) -> dict[str, bytes]:
    """hsp.toml with the length of the time that the demand counts. Words for it stay that somebody wrote."""
    before = titles_of(folder)
    is_own = "time" in before and before.get(SECONDS) in (None, seconds)
    words: dict[str, str | int] = {SECONDS: seconds, **({} if is_own else {"time": duration(seconds)})}
    return noted(folder, words, texts)


def noted(folder: str, words: Mapping[str, str | int], texts: Mapping[str, bytes] = {}) -> dict[str, bytes]:
    """hsp.toml with these words under their keys; nothing where it has them already. `texts` may have a newer one."""
    path = path_in(folder, TITLES)
    before = tomllib.loads(texts[path].decode()) if path in texts else titles_of(folder)
    if all(before.get(key) == word for key, word in words.items()):
        return {}
    octets = texts.get(path) or (whole(path) if os.path.isfile(path) else b"")
    lines = octets.decode().splitlines(keepends=True)
    end = next((at for at, line in enumerate(lines) if line.lstrip().startswith("[")), len(lines))
    own = re.compile(rf"\s*[\"']?({'|'.join(words)})[\"']?\s*=")
    kept = [line if line.endswith("\n") else f"{line}\n" for line in lines[:end] if not own.match(line)]
    said = [f"{key} = {json.dumps(word)}\n" for key, word in words.items()]
    refusal = f"{path}: what hsp notes can't be put in; write {' and '.join(own.strip() for own in said)}"
    return {path: as_meant("".join([*kept, *said, *lines[end:]]), {**before, **words}, refusal)}
