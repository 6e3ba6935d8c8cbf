"""The files by which HAProxy answers by a plan: a configuration, and maps that may be swapped while it runs."""

from __future__ import annotations

import functools
import hashlib
import os
import re
import shlex
from collections.abc import Iterable, Mapping
from dataclasses import dataclass
from typing import TYPE_CHECKING

from hsp.base.bounds import whole
from hsp.base.grammar import GREATEST_PRICE
from hsp.base.paths import path_in, shell_word
from hsp.base.programs import Missing
from hsp.base.unfit import Unfit
from hsp.intake.addresses import Target
from hsp.plans.service import Service, Site
from hsp.proxy.kinds import LOTS, class_lines, cost_lines, plan_lines, price_lines, server_lines, shares_of, site_lines
from hsp.proxy.networks import trusted_lines

if TYPE_CHECKING:
    import jinja2

CONFIG, SOCKET, PLAN, PRICES = "haproxy.cfg", "admin.sock", "plan.map", "prices.map"
SITES, COSTS, SERVERS = "sites.map", "costs.map", "servers.map"
# What each hash option takes of a handle, by converters of HAProxy.
PARTS = {0: "var(txn.handle),field(1,/)", 1: "var(txn.handle),field(2,/,0)", 2: "var(txn.handle)"}
# What being down adds to what a query pays, and an amount above all others. It may pay two prices beside the cost.
DOWN = 10 * GREATEST_PRICE
MOST = 100 * GREATEST_PRICE
# The longest path of a socket, less what HAProxy adds to it while it starts: its process behind a point, and `.tmp`.
LONGEST_SOCKET = 95
RUNTIME = re.compile(r"^  stats socket (.+) mode 600 level admin$", re.MULTILINE)
SEAL = re.compile(rb"# Written by hsp export haproxy; SHA-256 of what stands below: ([0-9a-f]{64})\n")


@dataclass(frozen=True)
class Frame:
    """How the proxy stands in its network."""

    # Where clients ask, where the proxy is watched, and the socket of its runtime.
    listen: tuple[str, ...]
    watch: str
    socket: str
    # Files: the proxy's certificate for TLS, and who certifies servers.
    certificate: str
    authority: str
    # Networks of proxies whose word of a client counts.
    trusted: tuple[str, ...]
    # The path of a check by HTTP.
    check: str
    # Whether answers are fetched, in place of redirects.
    is_proxy: bool


def quoted(text: str) -> str:
    """A text as one word of a configuration."""
    if not text.isprintable():
        raise Unfit(f"{text}: a sign of it isn't printable, and no configuration can hold it")
    return "'" + text.replace("'", r"'\''") + "'"


def _secured(target: Target, frame: Frame) -> str:
    """How a server is asked by TLS. Behind a proxy it has to prove its name; where a redirect leads to it, the client
    looks at that, and a check asks only whether it answers."""
    url = target.url
    if url.scheme == "http" or not (frame.is_proxy or frame.check):
        return ""
    if not frame.is_proxy:
        return " check-ssl verify none" + (f" check-sni {url.host}" if url.is_name else "")
    if not url.is_name:
        raise Unfit(
            f"{target.name}: {url.text} is an address, and a certificate has a name; "
            f'write "{target.name}" = "https://mirror.example" below [proxy.urls], or leave out --proxy'
        )
    authority = quoted(frame.authority) if frame.authority else "@system-ca"
    name = f"sni str({url.host}) verifyhost {url.host} check-sni {url.host}"
    return f" ssl verify required ca-file {authority} {name}"


@functools.cache
def _environment() -> jinja2.Environment:
    """What reads the template. It is loaded only where files are written."""
    import jinja2

    loader = jinja2.PackageLoader("hsp", "templates")
    return jinja2.Environment(
        loader=loader,
        autoescape=False,
        trim_blocks=True,
        lstrip_blocks=True,
        keep_trailing_newline=True,
        undefined=jinja2.StrictUndefined,
    )


def place_of(at: int, site: Site) -> str:
    """How HAProxy finds the place of a handle's server at a site, by the site's number."""
    return f"set-var(txn.place{at}) var(txn.hash{site.option}),mod({len(site.servers)})"


def line_of_server(target: Target) -> str:
    """The line of a server in its backend, up to how it is asked by TLS."""
    return f"  server {target.name} {target.url.host}:{target.url.port} check"


def config_of(service: Service, targets: list[Target], frame: Frame) -> str:
    options = sorted({site.option for site in service.sites})
    return (
        _environment()
        .get_template(CONFIG)
        .render(
            sites=service.sites,
            targets=targets,
            hashes={option: PARTS[option] for option in options},
            names=any(target.url.is_name for target in targets),
            secured=_secured,
            line_of_server=line_of_server,
            place_of=place_of,
            frame=frame,
            socket=quoted(frame.socket),
            tls=f" ssl crt {quoted(frame.certificate)} alpn h2,http/1.1" if frame.certificate else "",
            lots=LOTS,
            by_prices=service.log is not None,
            down=DOWN,
            most=MOST,
        )
    )


def sealed(text: str) -> bytes:
    """A file with a first line by which hsp knows it again. HAProxy takes the line for a comment."""
    digest = hashlib.sha256(text.encode()).hexdigest()
    return f"# Written by hsp export haproxy; SHA-256 of what stands below: {digest}\n{text}".encode()


def text_of(lines: Iterable[str]) -> str:
    return "".join(f"{line}\n" for line in lines)


def maps_of(service: Service) -> dict[str, list[str]]:
    """The maps that say which servers a kind may have, and which of them is the cheapest."""
    regions = dict.fromkeys(region for region, _ in service.costs)
    return {SITES: site_lines(service, regions), COSTS: cost_lines(service), SERVERS: server_lines(service)}


def answers_of(service: Service) -> dict[str, list[str]]:
    """The maps of the plan: the servers of each kind; or prices and classes, where no table holds the demand."""
    if service.log:
        return {PLAN: class_lines(service), PRICES: price_lines(service)}
    return {PLAN: plan_lines(shares_of(service))}


def files_of(service: Service, targets: list[Target], networks: list[str], frame: Frame) -> dict[str, bytes]:
    lines = {
        **answers_of(service),
        "regions.map": networks,
        **maps_of(service),
        "trusted.map": trusted_lines(frame.trusted),
    }
    texts = {CONFIG: config_of(service, targets, frame)}
    texts |= {name: text_of(own) for name, own in lines.items()}
    return {name: sealed(text) for name, text in texts.items()}


def socket_in(folder: str) -> str:
    """The socket of HAProxy's runtime, as the configuration of a folder has it."""
    path = path_in(folder, CONFIG)
    if not os.path.isfile(path):
        raise Missing(f"{path}: no such file; hsp export haproxy writes it")
    match = RUNTIME.search(whole(path).decode("utf-8", "replace"))
    try:
        words = shlex.split(match[1]) if match else []
    except ValueError:
        words = []
    if len(words) != 1:
        raise Unfit(f"{path}: hsp export hasn't written it so: it has no socket of HAProxy's runtime")
    return words[0]


def _is_of(config: str, target: Target) -> bool:
    """Whether a configuration has a server at the same URL."""
    begin = config.find(f"\nbackend {target.name}\n")
    backend = config[begin : config.find("\n\n", begin + 1)] if begin >= 0 else ""
    ways = (f" location {target.url.text}%[pathq]\n", f" set-header host {target.url.authority}\n")
    return line_of_server(target) in backend and any(way in backend for way in ways)


def refuse_other_sites(folder: str, service: Service, targets: Iterable[Target]) -> None:
    """Refuses a service whose handles have other kinds, or whose servers stand elsewhere, than the files of a folder
    have it. Other costs and capacities need no other files."""
    config = whole(path_in(folder, CONFIG)).decode("utf-8", "replace")
    is_same = whole(path_in(folder, SERVERS)) == sealed(text_of(server_lines(service)))
    places = (place_of(at, site) in config for at, site in enumerate(service.sites))
    remedy = f"export it again: hsp export haproxy {shell_word(service.folder)} --into {shell_word(folder)}"
    if not is_same or not all(places) or not all(_is_of(config, target) for target in targets):
        raise Unfit(f"{folder}: it was written from other sites or servers; {remedy}; then reload HAProxy")
    if (f"({PRICES}" in config) != (service.log is not None):
        other = "a table, and the demand is a log" if service.log else "a log, and the demand is a table"
        raise Unfit(f"{folder}: it was written from {other}; {remedy}; then reload HAProxy")


def refuse_others(folder: str, names: Mapping[str, bytes]) -> None:
    """Refuses to replace a file that isn't as hsp wrote it."""
    for name in names:
        path = path_in(folder, name)
        if not os.path.lexists(path):
            continue
        if not os.path.isfile(path):
            raise Unfit(f"{path}: it is there, and isn't a file; give another folder to --into")
        with open(path, "rb") as file:
            octets = file.read()
        match = SEAL.match(octets)
        if not match:
            raise Unfit(f"{path}: hsp hasn't written it, and doesn't replace it; give another folder to --into")
        if hashlib.sha256(octets[match.end() :]).hexdigest() != match[1].decode():
            raise Unfit(f"{path}: it was edited; take it away, or keep your lines in a file of their own (-f)")
