"""Which region and which servers the words of a source mean."""

import functools
import re
from collections import defaultdict
from collections.abc import Mapping, Sequence

import click

from hsp.base.grammar import LONGEST_NAME, NAME_SIGNS
from hsp.base.numbers import listed
from hsp.base.unfit import shown
from hsp.intake.forms import Remembered
from hsp.intake.regions import Seek, packed
from hsp.measures.timed import Timed
from hsp.plans.service import Server, Site, dotted

# What stands between a site and the identifier of its server in the names of servers.
BETWEEN = ":-_./"
WITH_PORT = re.compile(r"(\[[0-9a-fA-F:.]+\]|[0-9.]+):[0-9]{1,5}", re.ASCII)
NAME = re.compile(f"[{NAME_SIGNS}]{{1,{LONGEST_NAME}}}")
# So many servers of no known site are named each, and so many words are remembered.
MOST_UNKNOWN, MOST_WORDS = 8, 1 << 16
SITE = click.option(
    "--site", "words", metavar="WORD=SITE", multiple=True, help="the site of a server, a host or an address"
)


class Unknown(Exception):
    """Words that mean no region or no server, and why."""


def words_of(given: Sequence[str], sites: Sequence[str]) -> dict[str, str]:
    """Which site each word means, by options `WORD=SITE`."""
    found = {}
    for own in given:
        word, sign, site = own.rpartition("=")
        if not word or site not in sites:
            known = f"; sites are {listed(sites, 9)}" if sign else ""
            raise click.BadParameter(f"'{own}' isn't WORD=SITE{known}", param_hint="--site")
        found[word] = site
    return found


def address_of(word: str) -> bytes | None:
    """The octets of an address with or without a port."""
    match = WITH_PORT.fullmatch(word)
    return packed((match[1] if match else word).encode())


class Ends:
    """The regions and the servers of a service, by the words of sources."""

    def __init__(self, sites: Sequence[Site], more: Mapping[str, str], seek: Seek | None) -> None:
        # All servers that a name or an address may mean.
        self._servers: defaultdict[str | bytes | None, list[Server]] = defaultdict(list)
        for site in sites:
            self._servers[site.name] = site.servers
            for own in site.servers:
                self._servers[address_of(dotted(own.address))].append(own)
                self._servers |= {f"{site.name}{sign}{own.id}": [own] for sign in BETWEEN}
        for word, name in more.items():
            self._servers[word] = self._servers[address_of(word) or word] = self._servers[name]
        self._seek = Remembered(seek) if seek else None
        self._unknown: set[str] = set()
        self._found = functools.lru_cache(MOST_WORDS)(self._meant)

    def servers(self, word: str) -> list[Server]:
        """The servers of one site that a word means."""
        found = self._found(word)
        if len({own.site for own in found}) != 1:
            raise Unknown(self._reason(word))
        return found

    def _meant(self, word: str) -> list[Server]:
        """By the word itself; or of HAProxy's `backend/server` by the server, and then by the backend."""
        none: list[Server] = []
        ways = [word, word.rpartition("/")[2], word.partition("/")[0]]
        found = [self._servers.get(own, self._servers.get(address_of(own), none)) for own in ways]
        return next((own for own in found if len({it.site for it in own}) == 1), found[0])

    def _reason(self, word: str) -> str:
        if not word:
            return "the line names no server; give :SITE=FILE"
        if len(self._unknown) < MOST_UNKNOWN:
            self._unknown.add(word)
        if word not in self._unknown:
            return "more servers of no known site"
        if self._found(word):
            return f"several sites have the address {shown(word)}; name one by --site {word}=SITE"
        return f"no site has the server {shown(word)}; name it by --site WORD=SITE"

    def region(self, timed: Timed) -> str:
        """The region of who asked."""
        if timed.is_region:
            if not NAME.fullmatch(timed.client):
                raise Unknown("the region is no name that hsplan takes")
            return timed.client
        if not timed.client or self._seek is None:
            raise Unknown("the region isn't known; give --regions, or REGION=FILE")
        found = self._seek[timed.client.encode()]
        if isinstance(found, str):
            raise Unknown(found)
        return found.decode()
