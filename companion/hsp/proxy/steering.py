"""A plan kept in step: what each server was given is read, the rest is planned, and HAProxy's map is swapped."""

from collections.abc import Collection
from contextlib import closing
from dataclasses import replace

from hsp.base.bounds import whole
from hsp.base.programs import Missing, Programs, Refused
from hsp.base.unfit import Unfit
from hsp.intake.addresses import name_of, targets_of
from hsp.plans.proxied import proxied_in
from hsp.plans.service import Service
from hsp.proxy.config import COSTS, SITES, maps_of, refuse_other_sites
from hsp.proxy.counts import Counts
from hsp.proxy.kinds import kinds_of
from hsp.proxy.proxies import Look, Proxies, Proxy
from hsp.proxy.rest import Rest, priced_rest, rest_of, room_of
from hsp.proxy.standing import Standing, State

# What isn't as it has to be: a program or a proxy that doesn't answer, files, or the system.
FAULTS = (Missing, Refused, Unfit, OSError)


class Held:
    """A service as its folder was when it was read. No file of the folder is read again."""

    def __init__(self, service: Service) -> None:
        self._own, self.kinds = Programs(), kinds_of(service)
        self.targets = targets_of(service, proxied_in(service.folder).urls, self._own)
        maps, inputs = maps_of(service), service.inputs
        self.maps = {name: maps[name] for name in (SITES, COSTS)}
        values = self._own.put(whole(inputs.values), ".values") if inputs.values else None
        log = self._copied(inputs.demand) if inputs.is_log else inputs.demand
        self.service = replace(service, inputs=replace(inputs, values=values, demand=log))

    def _copied(self, log: str) -> str:
        """A copy of a log, which may be longer than the memory."""
        path = self._own.put(b"", ".csv")
        with open(log, "rb") as file:
            self._own.add(path, iter(lambda: file.read(1 << 20), b""))
        return path

    def rest(self, counts: Counts, at: float, down: Collection[str]) -> Rest:
        room = room_of(self.service, counts.taken, down)
        with closing(Programs()) as own:
            if self.service.log:
                return priced_rest(self.service, counts.left(at), room, own)
            return rest_of(self.service, self.kinds, counts.left(at), room, own)

    def close(self) -> None:
        self._own.close()


def state_of(service: Service, rest: Rest, counts: Counts, now: Look, proxies: dict[str, bool]) -> State:
    """The state after a plan. A server's plan is what it was given, and its part of the rest."""
    servers = {}
    for server in service.servers:
        name = name_of(server)
        load = counts.taken.get(name, 0)
        room = service.capacity(server)
        planned = min(load + rest.loads[name], max(load, room))  # a rounded rest is no more than its room
        servers[name] = Standing(load, planned, room, name in now.down)
    return State(now.at, counts.left(now.at), rest.asked, rest.left_out, rest.cost, proxies, servers)


class Steering:
    def __init__(self, folders: Collection[str], service: Service, length: float, every: float = 0.0) -> None:
        self._length, self._every, self._proxies = length, every, Proxies(folders)
        self._held = self._fit(service)
        self.state: State | None = None
        self._signs: tuple[object, ...] = ()

    def _fit(self, service: Service) -> Held:
        """A service that fits all proxies."""
        held = Held(service)
        try:
            for proxy in self._proxies.all:
                refuse_other_sites(proxy.folder, service, held.targets)
        except BaseException:
            held.close()
            raise
        return held

    def take(self, service: Service) -> None:
        """Plans by a service that was read anew. One that doesn't fit a proxy is refused, and the old one stays."""
        held, old = self._fit(service), self._held
        self._held, self._signs = held, ()
        old.close()

    def read(self) -> Look:
        """What the proxies say now. The counts follow it."""
        return self._proxies.read(self._length, len(self._held.service.servers))

    def until_turn(self, at: float) -> float:
        """The seconds until the next period has begun."""
        return self._length - at % self._length + 0.001

    def has_turned(self, now: Look) -> bool:
        """Whether a period, a run of a HAProxy, a server or the service is another one than at the last step."""
        return self._signs != self._signs_of(now)

    def is_exported_anew(self) -> bool:
        """Whether a HAProxy has begun by another export than that of the service."""
        return any(proxy.is_exported_anew() for proxy in self._proxies.all)

    def _signs_of(self, now: Look) -> tuple[object, ...]:
        return int(now.at // self._length), now.runs, now.down

    def faults(self) -> dict[str, Exception]:
        """Why some proxies don't have the last plan."""
        return {own.folder: own.fault for own in self._proxies.all if own.fault}

    def _swap(self, proxy: Proxy, rest: Rest) -> None:
        """Has one proxy answer by a plan. Where it can't, it goes on by its last map, and the others don't wait."""
        try:
            proxy.refuse_older()
            refuse_other_sites(proxy.folder, self._held.service, self._held.targets)
            proxy.swap({**rest.maps, **self._held.maps})
            proxy.fault = None
        except FAULTS as fault:
            proxy.fault = fault

    def step(self, now: Look) -> State:
        """Plans the rest, and swaps the maps. Where all servers are down, they count as up, as HAProxy has it."""
        self._signs = self._signs_of(now)
        service, counts = self._held.service, self._proxies.counts(now.at, self._length)
        is_lost = len(now.down) >= len(service.servers)
        rest = self._held.rest(counts, now.at, () if is_lost else now.down)
        for proxy in self._proxies.answering:
            self._swap(proxy, rest)
        faults = self.faults()
        if len(faults) == len(self._proxies.all):
            raise next(iter(faults.values()))
        steered = {own.name: own.folder not in faults for own in self._proxies.all}
        self.state = replace(state_of(service, rest, counts, now, steered), every=self._every)
        return self.state

    def keep(self, fault: str = "") -> None:
        """Writes the state, and why no newer plan came."""
        if self.state:
            self.state = replace(self.state, fault=fault)
            self._proxies.keep(self.state)
