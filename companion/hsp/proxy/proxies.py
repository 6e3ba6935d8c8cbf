"""The proxies of a service that are steered together. Each is a HAProxy with a folder and counts of its own."""

import os
from collections.abc import Collection, Mapping, Sequence
from dataclasses import dataclass

from hsp.base.bounds import whole
from hsp.base.files import replace_all
from hsp.base.paths import path_in
from hsp.base.programs import Missing
from hsp.base.unfit import Unfit
from hsp.proxy.config import CONFIG, PLAN, refuse_others, sealed, socket_in, text_of
from hsp.proxy.counts import Counts, counted, sum_of
from hsp.proxy.runtime import PATIENCE, Reading, Runtime
from hsp.proxy.standing import STATE, State, kept, kept_in

# A proxy that didn't answer is waited for so many seconds, so that the others aren't kept waiting.
SHORT_PATIENCE = 1.0


@dataclass(frozen=True)
class Look:
    """What all proxies say at one time."""

    at: float
    # The run of each HAProxy, and an empty word where it doesn't answer.
    runs: tuple[str, ...]
    # The servers that take no queries.
    down: frozenset[str]


class Unwritten(Missing):
    """HAProxy has a new plan, and a file of it isn't written."""


class Proxy:
    def __init__(self, folder: str) -> None:
        self.folder, self.name = folder, os.path.abspath(folder)
        self.runtime = Runtime(socket_in(folder))
        before = kept_in(folder)
        self.counts: Counts | None = before[1] if before else None
        # What HAProxy said last, or why it says nothing, or why it has an older map.
        self.now: Reading | None = None
        self.fault: Exception | None = None
        # The maps that this run of HAProxy has from here, and its configuration as it was then.
        self._run, self._maps, self._config = "", dict[str, Sequence[str]](), b""
        # The maps that it has, and whose files aren't written yet.
        self._unwritten: dict[str, bytes] = {}

    def read(self, length: float) -> None:
        """Reads what HAProxy says now. Where it says nothing, the last counts stay."""
        try:
            self.now = self.runtime.reading(PATIENCE if self.now else SHORT_PATIENCE)
            self.counts = counted(self.counts, self.now, length)
        except Missing as fault:
            self.now, self.fault = None, fault

    def is_exported_anew(self) -> bool:
        """Whether a new run of HAProxy has another configuration than the last one that was steered."""
        is_new = self.now is not None and self._run not in ("", self.now.run)
        return is_new and whole(path_in(self.folder, CONFIG)) != self._config

    def refuse_older(self) -> None:
        """Refuses a HAProxy that began before its configuration was written: a new map may name what it hasn't."""
        path = path_in(self.folder, CONFIG)
        assert self.now
        is_steered = self._run == self.now.run
        is_older = whole(path) != self._config if is_steered else os.stat(path).st_mtime > self.now.began
        if is_older:
            raise Unfit(f"{self.folder}: it was exported again; reload HAProxy")

    def swap(self, maps: Mapping[str, Sequence[str]]) -> None:
        """Swaps the plan, and other maps where this HAProxy has other ones."""
        assert self.now
        before = self._maps if self._run == self.now.run else {}
        fresh = {name: lines for name, lines in maps.items() if name == PLAN or before.get(name) != lines}
        refuse_others(self.folder, {name: b"" for name in fresh})
        self._maps = {}
        self.runtime.swap(fresh)
        self._unwritten |= {path_in(self.folder, name): sealed(text_of(lines)) for name, lines in fresh.items()}
        self._run, self._maps, self._config = self.now.run, dict(maps), whole(path_in(self.folder, CONFIG))

    def keep(self, state: State) -> None:
        """Writes the maps, and the plan and the counts, from which the next run goes on."""
        own = {path_in(self.folder, STATE): kept(state, self.counts)} if self.counts else {}
        replace_all({**self._unwritten, **own})
        self._unwritten = {}


class Proxies:
    """All proxies that are steered by one plan."""

    def __init__(self, folders: Collection[str]) -> None:
        self.all = [Proxy(folder) for folder in folders]
        sockets: dict[str, str] = {}
        for own in self.all:
            path = os.path.realpath(own.runtime.path)
            if path in sockets:
                raise Unfit(f"{sockets[path]} and {own.folder} have one socket: {path}; export one of them again")
            sockets[path] = own.folder

    @property
    def answering(self) -> list[Proxy]:
        return [own for own in self.all if own.now]

    def read(self, length: float, servers: int) -> Look:
        """What they say now of so many servers. One of them has to answer. One that finds all servers down is
        likelier cut off itself, so its word counts only where all say so."""
        for own in self.all:
            own.read(length)
        readings = [own.now for own in self.all if own.now]
        if not readings:
            raise self.all[0].fault or Missing("no proxy answers")
        said = [own.down for own in readings if len(own.down) < servers] or [own.down for own in readings]
        runs = tuple(own.now.run if own.now else "" for own in self.all)
        return Look(max(own.at for own in readings), runs, frozenset[str]().union(*said))

    def counts(self, at: float, length: float) -> Counts:
        """What all of them gave each server in the period of a time."""
        return sum_of((own.counts for own in self.all if own.counts), int(at // length), length)

    def keep(self, state: State) -> None:
        """Writes the files of all. Where one can't be written, the others are."""
        faults = []
        for own in self.all:
            try:
                own.keep(state)
            except OSError as fault:
                faults.append(f"{fault.filename}: {fault.strerror}")
        if faults:
            raise Unwritten(
                f"{'; '.join(faults)}; HAProxy has the new plan, and begins by an older one if it restarts"
            )
