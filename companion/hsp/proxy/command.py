"""The commands of `hsp export`: a plan as files of another program, which answers by it."""

import itertools
import os
from dataclasses import dataclass
from fractions import Fraction
from typing import Any

import click

from hsp.base.files import locked, refuse_clashes, replace_all
from hsp.base.groups import Group
from hsp.base.numbers import listed, some
from hsp.base.options import ANY_FILE, PathName
from hsp.base.paths import path_in, shell_word
from hsp.base.programs import Missing, Prices, Programs
from hsp.base.text import say
from hsp.base.unfit import Unfit, shown
from hsp.doctor.service_folder import read_in, refuse_shortage, sound, with_files
from hsp.intake.addresses import Target, targets_of, twins
from hsp.plans.proxied import CHECK, PROXY, Proxied, is_address, leads_to, network_of, overlap, proxied_in
from hsp.plans.service import Service
from hsp.plans.titles import TITLES, titles_of
from hsp.proxy.config import CONFIG, LONGEST_SOCKET, SOCKET, Frame, files_of, quoted, refuse_others
from hsp.proxy.kinds import shares_of
from hsp.proxy.networks import Map, map_of
from hsp.scenarios.reserve import RESERVE, forgotten, reserved

LISTEN, WATCH = "127.0.0.1:8080", "127.0.0.1:8405"


@click.group(cls=Group)
def export() -> None:
    """Writes a plan as files of a program that answers by it."""


@dataclass(frozen=True)
class Words:
    """The options of `hsp export haproxy`, without the files of the service."""

    into: str
    regions: str | None
    elsewhere: str | None
    listen: tuple[str, ...]
    trusted: tuple[str, ...]
    watch: str
    socket: str | None
    certificate: str | None
    is_proxy: bool

    def over(self, said: Proxied, folder: str) -> Proxied:
        """What the folder says, where these words don't say otherwise."""
        regions = self.regions or said.regions
        if not regions:
            remedy = f'give --regions, or write regions = "networks.csv" below [{PROXY}] in {path_in(folder, TITLES)}'
            raise Unfit(f"no networks: {remedy}")
        if not os.path.isfile(regions):
            raise Missing(f"{regions}: no such file")
        return Proxied(
            regions,
            self.elsewhere or said.elsewhere,
            said.check,
            said.authority,
            self.listen or said.listen or (LISTEN,),
            self.trusted or said.trusted,
            said.urls,
        )


def _networks(texts: tuple[str, ...]) -> tuple[str, ...]:
    found = [network_of(text) for text in texts]
    for text, network in zip(texts, found):
        if network is None:
            raise Unfit(f"trusted: {shown(text)} isn't a network such as 192.0.2.0/24")
    return tuple(filter(None, found))


def frame_of(words: Words, said: Proxied) -> Frame:
    """How the proxy stands in its network, where each word can stand in a configuration."""
    for address in (*said.listen, words.watch):
        if not is_address(address):
            raise Unfit(f"{shown(address)} is no address to listen at, such as 127.0.0.1:8080, *:80 or [::1]:8080")
    for one, other in itertools.combinations((*said.listen, words.watch), 2):
        if overlap(one, other):
            raise Unfit(f"{shown(one)} and {shown(other)} overlap: give --listen and --watch places of their own")
    if said.check and not CHECK.fullmatch(said.check):
        raise Unfit(f"check: {shown(said.check)} is no path such as /api/handles/0.NA/20.500.1234")
    socket = os.path.abspath(words.socket or os.path.join(words.into, SOCKET))
    quoted(socket)  # Refuses what no configuration can hold.
    if len(os.fsencode(socket)) > LONGEST_SOCKET:
        raise Unfit(f"{socket}: a socket has a path of at most {LONGEST_SOCKET} octets; give --socket")
    certificate = os.path.abspath(words.certificate) if words.certificate else ""
    authority = os.path.abspath(said.authority) if said.authority else ""
    trusted = _networks(said.trusted)
    return Frame(said.listen, words.watch, socket, certificate, authority, trusted, said.check, words.is_proxy)


def refuse_itself(targets: list[Target], frame: Frame) -> None:
    """Refuses a server whose URL leads back to the proxy."""
    for target, address in itertools.product(targets, (*frame.listen, frame.watch)):
        if leads_to(target.url, address):
            raise Unfit(f"{target.name}: {target.url.text} is {address}, where HAProxy itself listens: a loop")


def checked(folder: str, programs: Programs, given: dict[str, str | None], part: Fraction) -> Service:
    """A folder with its plan less a reserve, which hsplan has checked. Ends with status 3 where it is a shortage."""
    service = reserved(sound(folder, programs, given), part, programs)
    if not service.sites:
        raise Unfit(f"{service.inputs.settings}: no site, so nobody can answer")
    refuse_shortage(folder, service)
    programs.insist(service.inputs, service.plan_file)
    return service


def warnings(service: Service, networks: Map, same: list[list[str]]) -> list[str]:
    """What is accepted and seldom meant: regions that nobody asks from or that no site serves, and servers of one
    URL."""
    lines = []
    served = {region for region, _ in service.costs}
    costless = [region for region in networks.regions if region not in served]
    if costless:
        lines.append(f"{listed(costless)}: no cost at any site, so clients there are answered 503")
    unseen = [region for region in service.regions if region not in networks.regions]
    if unseen:
        lines.append(f"{listed(unseen)}: no network, so no client is of there, and the plan has queries of it")
    return lines + [f"{listed(names)} have one URL, so nothing tells them apart" for names in same]


def _answers(service: Service) -> str:
    """By what HAProxy answers: kinds of a table, or prices and classes of a log."""
    certificate = service.certificate
    if isinstance(certificate, Prices):
        return f"prices and {some(len(certificate.classes), 'class', 'classes')}"
    return some(len(shares_of(service)), "kind")


@export.command()
@with_files
@click.option(
    "--into", metavar="PROXY", required=True, type=PathName(file_okay=False), help="the folder that is written"
)
@click.option("--regions", metavar="FILE", type=ANY_FILE, help="a table network,region")
@click.option("--elsewhere", metavar="REGION", help="of clients that have no region")
@click.option("--listen", metavar="ADDRESS", multiple=True, help=f"where clients ask; {LISTEN} if it isn't given")
@click.option("--certificate", metavar="FILE", type=ANY_FILE, help="and its key, in PEM: clients ask by TLS")
@click.option("--trusted", metavar="NETWORK", multiple=True, help="of proxies whose X-Forwarded-For counts")
@click.option("--watch", metavar="ADDRESS", default=WATCH, show_default=True, help="of statistics and /metrics")
@click.option("--socket", metavar="FILE", type=ANY_FILE, help=f"of HAProxy's runtime, in place of PROXY/{SOCKET}")
@click.option("--proxy", "is_proxy", is_flag=True, help="fetch answers from the servers, in place of redirects")
@RESERVE
def haproxy(folder: str, reserve: Fraction, **given: Any) -> None:
    """Writes files by which HAProxy answers by the plan.

    The plan is made and checked anew. HAProxy (2.6 or later) redirects each query to the server that the plan names
    for the client's region and the handle. Networks and URLs may stand below [proxy] in hsp.toml.
    """
    own = {key: given.pop(key) for key in Words.__annotations__}
    words = Words(**own)
    said = words.over(proxied_in(folder), folder)
    inputs = [*read_in(folder, given), said.regions]
    programs = Programs()
    frame = frame_of(words, said)
    programs.hold([said.regions])
    networks = map_of(said.regions, said.elsewhere, programs)
    service = checked(folder, programs, given, reserve)
    targets = targets_of(service, said.urls, programs)
    refuse_itself(targets, frame)
    contents = files_of(service, targets, networks.lines, frame)
    refuse_clashes(inputs, [path_in(words.into, name) for name in contents])
    programs.insist_held()
    os.makedirs(words.into, exist_ok=True)
    with locked([words.into]):
        refuse_others(words.into, contents)
        replace_all({path_in(words.into, name): octets for name, octets in contents.items()})
    is_doctored = PROXY in titles_of(folder)  # then the doctor has named servers of one URL
    lines = [*warnings(service, networks, [] if is_doctored else twins(targets)), forgotten(service, programs)]
    for line in filter(None, lines):
        say(f"hsp: {line}", err=True)
    config = path_in(words.into, CONFIG)
    sizes = [
        _answers(service),
        some(len(targets), "server"),
        some(networks.number, "network"),
        *filter(None, [service.kept_back]),
    ]
    say(f"{config}  {', '.join(sizes)}; check yes")
    say(f"next: haproxy -c -f {shell_word(config)}")
