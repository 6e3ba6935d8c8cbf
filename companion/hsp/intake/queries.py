"""What the reading of logs needs: the form of each, and hsplan, which judges every handle."""

import itertools
import re
from collections.abc import Callable, Iterable
from dataclasses import dataclass, field, replace

from hsp.base.grammar import LOG_HEAD
from hsp.base.programs import Programs
from hsp.base.unfit import Unfit
from hsp.intake import forms
from hsp.intake.forms import LONGEST_REMEMBERED, NAMES, Clock, Form, Odd, Remembered, Tag, Take, likeliest
from hsp.intake.logs import Skipped, numbered
from hsp.intake.regions import Seek
from hsp.intake.times import Time

NAME_IT = "name one by --format, its fields by --client and --handle or --path, or give --regex"
# What a handle takes beside its octets while it is remembered.
BESIDE = 120
SEEN_FIRST = 100
REFUSED = "refused "
BAD_HANDLE = "BadHandle "

_is_odd = re.compile(rb'[",\r\n]').search


def field_of(octets: bytes) -> bytes:
    """A field of comma-separated values."""
    return b'"%b"' % octets.replace(b'"', b'""') if _is_odd(octets) else octets


class Judge:
    """What hsplan says of handles. It is asked once for each while that is remembered."""

    def __init__(self, programs: Programs, most: int | None = None) -> None:
        self._programs, self._most, self._octets = programs, most, 0
        self._known: set[bytes] = set()
        self._faults: dict[bytes, str] = {}

    def faults(self, handles: Iterable[bytes]) -> dict[bytes, str]:
        """Of these handles those that are none, with the reason."""
        asked = set(handles)
        if self._octets > (forms.MOST_REMEMBERED if self._most is None else self._most):
            self._known.clear()
            self._faults.clear()
            self._octets = 0
        fresh = list(asked - self._known)
        if fresh:
            log = LOG_HEAD + b"".join(b"any,%b\n" % field_of(field) for field in fresh)
            for handle, answer in zip(fresh, self._programs.answers_without_sites(log, len(fresh))):
                if answer.startswith(REFUSED):
                    why = answer.removeprefix(REFUSED).removeprefix(BAD_HANDLE)
                    self._faults[handle] = f"not a handle ({why})"
            self._known.update(fresh)
            self._octets += sum(map(len, fresh)) + BESIDE * len(fresh)
        return {own: self._faults[own] for own in asked & self._faults.keys()} if self._faults else {}


class Handles(Remembered):
    """What a function gives for octets: handles, or why there is none. Those that come anew wait to be judged."""

    def __init__(self, function: Callable[[bytes], bytes | str], judge: Judge) -> None:
        super().__init__(function)
        self._judge, self._is_cleared = judge, False
        self.fresh: set[bytes] = set()
        # Of those that were judged and are remembered, the ones that are none, with the reason.
        self._faults: dict[bytes, str] = {}

    def __missing__(self, key: bytes | str) -> bytes | str:
        found = super().__missing__(key)
        if isinstance(found, bytes):
            self.fresh.add(found)
        return found

    def clear(self) -> None:
        super().clear()
        self._is_cleared = True

    def faults(self) -> dict[bytes, str]:
        """Of all handles that were given since this was last asked, those that are none, with the reason."""
        fresh = self._judge.faults(self.fresh) if self.fresh else {}
        found = {**self._faults, **fresh} if fresh else self._faults
        if fresh or self._is_cleared:
            kept = fresh if self._is_cleared else found
            self._faults = {own: why for own, why in kept.items() if len(own) <= LONGEST_REMEMBERED}
            self._octets += sum(len(own) + len(why) + BESIDE for own, why in fresh.items())
        self.fresh, self._is_cleared = set(), False
        return found


@dataclass
class Reading:
    """What the reading of logs needs, and what it counts."""

    form: Form
    seek: Seek
    judge: Judge
    skipped: Skipped = field(default_factory=Skipped)
    # What the time of a line makes of it; None where times don't matter. A tag stands before the region.
    tag: Tag | None = None
    # Whether only tags are counted, in place of regions and handles.
    are_tags: bool = False
    # Whether a region stands behind these tags.
    with_regions: bool = False
    lines: int = 0
    octets: int = 0
    # Times of lines of each log, among them those of its first and its last one.
    times: dict[str, list[Time]] = field(default_factory=dict)
    # So many processes read side by side.
    jobs: int = 1
    # What was found for octets before, in any log.
    remembered: dict[str, Remembered] = field(default_factory=dict)
    progress: Callable[[str, int, int], None] = lambda path, lines, octets: None


def form_of(path: str, form: Form, first: list[tuple[int, bytes]]) -> Form:
    """The form of a log, by its first lines where none is named."""
    if form.name != "auto" or form.pattern:
        return form
    lines = [line for _, line in first]
    chosen = likeliest((replace(form, name=name) for name in NAMES), lines)
    if not chosen:
        raise Unfit(f"{path}: line {first[0][0]}: a log of no known form; {NAME_IT}")
    return chosen


def take_of(path: str, form: Form, number: int, line: bytes) -> Take:
    """How the lines of a log are taken. The given line is its first one."""
    try:
        return form.take(line)
    except Odd:
        wanted = f"{form.client} and {form.path or form.handle}"
        raise Unfit(f"{path}: line {number}: no header with {wanted}") from None


def clock_of(path: str, form: Form, line: bytes) -> Clock:
    """How the time of a line is read, where the log has times. The given line is its first one."""
    try:
        return form.clock(line)
    except Odd:
        remedy = "give the pattern a group (?P<time>..)" if form.pattern else "name the field of the time by --time"
        raise Unfit(f"{path}: line 1: no field {form.time}; {remedy}") from None


def first_time(path: str, reading: Reading) -> Time | None:
    lines = numbered(path, Skipped())
    first = list(itertools.islice(lines, SEEN_FIRST))
    if not first:
        return None
    clock = clock_of(path, form_of(path, reading.form, first), first[0][1])
    return next((time for _, line in itertools.chain(first, lines) if (time := clock(line))), None)
