"""How a service is proxied: the table `[proxy]` of hsp.toml."""

import ipaddress
import re
from dataclasses import dataclass, field, replace
from typing import Any

from hsp.base.paths import path_in
from hsp.base.unfit import Unfit, shown
from hsp.plans.titles import TITLES, titles_of

PROXY = "proxy"
TEXTS, LISTS, URLS = ("regions", "elsewhere", "check", "authority"), ("listen", "trusted"), "urls"
# The keys that name files.
FILES = ("regions", "authority")
PROXY_KEYS = (*TEXTS, *LISTS, URLS)
HOST = r"[A-Za-z0-9](?:[A-Za-z0-9._-]{0,251}[A-Za-z0-9])?|\[[0-9A-Fa-f:.]+\]"
URL = re.compile(rf"(https?)://({HOST})(?::([0-9]{{1,5}}))?/?")
ADDRESS = re.compile(rf"(\*|{HOST})?:([0-9]{{1,5}})")
CHECK = re.compile(r"/[A-Za-z0-9/._~:@+,=&?%-]*")
PORTS = {"http": 80, "https": 443}
GREATEST_PORT = 65_535


@dataclass(frozen=True)
class Url:
    """Where a server is asked. Its host is an address, or a name that a certificate can have."""

    scheme: str
    host: str
    port: int

    @property
    def text(self) -> str:
        """The URL as it stands before a path."""
        return f"{self.scheme}://{self.authority}"

    @property
    def authority(self) -> str:
        """The host, and the port where the scheme has another one."""
        return self.host if self.port == PORTS[self.scheme] else f"{self.host}:{self.port}"

    @property
    def is_name(self) -> bool:
        """Whether the host is a name, not an address."""
        try:
            ipaddress.ip_address(self.host.strip("[]"))
        except ValueError:
            return True
        return False


@dataclass(frozen=True)
class Proxied:
    """What the table says. A key that isn't there is empty."""

    # The file of networks, and the region of all other addresses.
    regions: str = ""
    elsewhere: str = ""
    # The path of a check by HTTP.
    check: str = ""
    # The file of who certifies servers.
    authority: str = ""
    # Where clients ask, and the networks of trusted proxies.
    listen: tuple[str, ...] = ()
    trusted: tuple[str, ...] = ()
    # The URLs of servers, by their names.
    urls: dict[str, Url] = field(default_factory=dict)


def is_port(text: str) -> bool:
    return 0 < int(text) <= GREATEST_PORT


def url_of(text: str) -> Url | None:
    """The URL of a server without a path, or none where it isn't one."""
    match = URL.fullmatch(text)
    if not match or not is_port(match[3] or "1"):
        return None
    url = Url(match[1], match[2], int(match[3] or PORTS[match[1]]))
    return url if is_host(url.host) else None


def is_host(text: str) -> bool:
    """Whether a host that looks as an address is one. A name has a letter, and whether somebody has it isn't known."""
    is_long = text.startswith("[")
    if not is_long and re.search("[A-Za-z]", text):
        return True
    try:
        ipaddress.IPv6Address(text.strip("[]")) if is_long else ipaddress.IPv4Address(text)
    except ValueError:
        return False
    return True


def is_address(text: str) -> bool:
    """Whether HAProxy can listen there: a host and a port."""
    match = ADDRESS.fullmatch(text)
    return bool(match and is_port(match[2]) and (match[1] in (None, "*") or is_host(match[1])))


def _place(text: str) -> tuple[str, int]:
    match = ADDRESS.fullmatch(text)
    assert match
    host = (match[1] or "*").strip("[]").lower()
    host = {"*": "0.0.0.0", "localhost": "127.0.0.1"}.get(host, host)
    return (str(ipaddress.ip_address(host)) if ":" in host else host), int(match[2])


def overlap(one: str, other: str) -> bool:
    """Whether two addresses to listen at are one, or one of them is that port of every host of IPv4, or of IPv6."""
    (host, port), (second, its) = _place(one), _place(other)
    is_alike = port == its and (":" in host) == (":" in second)
    return is_alike and (host == second or not {"0.0.0.0", "::"}.isdisjoint((host, second)))


def leads_to(url: Url, address: str) -> bool:
    """Whether a URL is an address to listen at. One of every host is surely asked by a loopback address."""
    (host, port), own = _place(address), _place(f"{url.host}:{url.port}")
    return own[1] == port and (own[0] == host or host in ("0.0.0.0", "::") and own[0] in ("127.0.0.1", "::1"))


def network_of(text: str) -> str | None:
    """A network as HAProxy reads it, or none where it isn't one."""
    try:
        return str(ipaddress.ip_network(text))
    except ValueError:
        return None


def _odd_key(said: dict[str, Any]) -> str:
    """What is wrong with the kinds of values; nothing where nothing is."""
    for key, value in said.items():
        is_list = isinstance(value, list) and all(isinstance(own, str) for own in value)
        if key in TEXTS and not isinstance(value, str):
            return f"{key} is no text"
        if key in LISTS and not is_list:
            return f'{key} is no list of texts; write {key} = ["..", ".."]'
        if key == URLS and not isinstance(value, dict):
            return f"{key} is no table; write [{PROXY}.{URLS}], and its keys below"
    return ""


def _urls_of(said: dict[str, Any]) -> dict[str, Url]:
    """The URLs of servers by their names `SITE:ID`."""
    found = {}
    for name, value in said.items():
        url = url_of(value) if isinstance(value, str) else None
        if url is None:
            raise Unfit(
                f"[{PROXY}.{URLS}]: {shown(name)} has {shown(value)}, which is no URL of a host, "
                "such as https://mirror.example or http://192.0.2.11:8000"
            )
        found[name] = url
    return found


def proxied_of(said: Any) -> Proxied:
    """What a table says, or `Unfit` and why it isn't one. The paths of files are as they stand there."""
    if not isinstance(said, dict):
        raise Unfit(f"{PROXY} is no table; write [{PROXY}], and its keys below")
    odd = _odd_key(said)
    if odd:
        raise Unfit(f"[{PROXY}]: {odd}")
    regions, elsewhere, check, authority = (said.get(key, "") for key in TEXTS)
    listen, trusted = (tuple(said.get(key, [])) for key in LISTS)
    return Proxied(regions, elsewhere, check, authority, listen, trusted, _urls_of(said.get(URLS, {})))


def proxied_in(folder: str) -> Proxied:
    """The table of a folder. The paths of files are taken from the folder."""
    table = titles_of(folder).get(PROXY, {})
    try:
        said = proxied_of(table)
    except Unfit as fault:
        raise Unfit(f"{path_in(folder, TITLES)}: {fault.message}") from None
    files = {key: path_in(folder, getattr(said, key)) for key in FILES if getattr(said, key)}
    return replace(said, **files)
