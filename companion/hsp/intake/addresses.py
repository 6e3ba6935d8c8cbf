"""Where each server of a service is asked over HTTP."""

from dataclasses import dataclass

from hsp.base.paths import path_in
from hsp.base.programs import Interface, Programs
from hsp.base.unfit import Unfit
from hsp.intake.sitejson import PROTOCOLS, RESOLUTION
from hsp.plans.titles import TITLES
from hsp.plans.proxied import GREATEST_PORT, PROXY, URLS, Url
from hsp.plans.service import Server, Service, dotted

# The schemes by their protocols, the wanted one first.
SCHEMES = {PROTOCOLS["HTTP"]: "http", PROTOCOLS["HTTPS"]: "https"}


@dataclass(frozen=True)
class Target:
    """A server by its place at its site, and where it is asked."""

    server: Server
    place: int
    url: Url

    @property
    def name(self) -> str:
        return name_of(self.server)


def name_of(server: Server) -> str:
    """What a server is called in the files of the proxy."""
    return f"{server.site}:{server.id}"


def _urls_of(interfaces: list[Interface]) -> dict[tuple[str, int], Url]:
    """Of each server its first interface for resolution by HTTP, or else by HTTPS, where it has one."""
    usable = [own for own in interfaces if own.service & RESOLUTION and 0 < own.port <= GREATEST_PORT]
    found: dict[tuple[str, int], Url] = {}
    for protocol, scheme in SCHEMES.items():
        for own in (it for it in usable if it.protocol == protocol):
            address = dotted(own.address)
            host = f"[{address}]" if ":" in address else address
            found.setdefault((own.site, own.server), Url(scheme, host, own.port))
    return found


def targets_of(service: Service, named: dict[str, Url], programs: Programs) -> list[Target]:
    """Where each server is asked: at the URL that the settings name, or at that of its record."""
    place = path_in(service.folder, TITLES)
    servers = service.servers
    unknown = sorted(set(named) - {name_of(server) for server in servers})
    if unknown:
        raise Unfit(f"{place}: [{PROXY}.{URLS}] has '{unknown[0]}', and no server is called so; names are as site:1")
    found, own = [], _urls_of(programs.interfaces(service.inputs))
    places = (at for site in service.sites for at in range(len(site.servers)))
    for server, at in zip(servers, places, strict=True):
        url = named.get(name_of(server), own.get((server.site, server.id)))
        if url is None:
            line = f'"{name_of(server)}" = "https://mirror.example"'
            raise Unfit(
                f"{name_of(server)}: its record has no interface for resolution by HTTP; "
                f"write {line} below [{PROXY}.{URLS}] in {place}"
            )
        found.append(Target(server, at, url))
    return found


def twins(targets: list[Target]) -> list[list[str]]:
    """Servers that have one URL. No redirect tells them apart."""
    named: dict[str, list[str]] = {}
    for target in targets:
        named.setdefault(target.url.text, []).append(target.name)
    return [names for names in named.values() if len(names) > 1]
