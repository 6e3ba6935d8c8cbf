"""What is installed of each file: a page has its links to where the other files are installed.

A link to what is not installed is left as its words. So no installed page has a link that leads to nothing, whichever
files an archive, a package or an installation has.
"""
from __future__ import annotations

import os
import re
from collections.abc import Iterable, Mapping

from lib import programs

IMAGE = r"!\[[^][]*\]\([^()\s]*\)"
LINK = re.compile(rf"(!?)\[((?:{IMAGE}|[^][])*)\]\(([^()\s]*)\)")
# A block whose text is no Markdown.
BLOCK = re.compile(r"(^```.*?^```$)", re.M | re.S)


def installed(source: str, places: Mapping[str, str]) -> bytes:
    """What is installed of a file. The places are the installed paths of all files by their paths from the top."""
    octets = programs.octets_of(source)
    return page_of(octets.decode(), source, places).encode() if source.endswith(".md") else octets


def page_of(text: str, source: str, places: Mapping[str, str]) -> str:
    """A page as it is installed."""

    def link(found: re.Match[str]) -> str:
        mark, words, target = found.groups()
        within, aim = LINK.sub(link, words), aim_of(target, source, places)
        return f"{mark}[{within}]({aim})" if aim else within

    parts = BLOCK.split(text)
    return "".join(it if at % 2 else LINK.sub(link, it) for at, it in enumerate(parts))


def aim_of(target: str, source: str, places: Mapping[str, str]) -> str:
    """Where a link of an installed page leads; empty where nothing is installed there."""
    path, mark, heading = target.partition("#")
    if not path or ":" in path:
        return target
    aim = places.get(os.path.normpath(os.path.join(os.path.dirname(source), path)))
    return os.path.relpath(aim, os.path.dirname(places[source])) + mark + heading if aim else ""


def links_of(text: str) -> list[str]:
    """The links of a page to files and headings."""
    inline, named = r"\]\(([^)#:]*(?:#[^)]*)?)\)", r"^\[\w+\]: ([^#:\s]*(?:#\S*)?)$"
    return [it for kind in (inline, named) for it in re.findall(kind, text, re.M)]


def leads_somewhere(top: str, path: str, target: str) -> bool:
    """Whether a link of a page below a folder leads to a file and a heading that are there."""
    file, _, heading = target.partition("#")
    aim = os.path.join(top, os.path.dirname(path), file) if file else os.path.join(top, path)
    if not os.path.exists(aim):
        return False
    return not heading or heading in headings_of(aim)


def headings_of(path: str) -> list[str]:
    """The headings of a page as links name them; none where a file is no page."""
    if not path.endswith(".md"):
        return []
    titles = re.findall(r"^#+ (.*)$", programs.text_of(path), re.M)
    return [re.sub(r"[^a-z0-9 -]", "", it.lower()).replace(" ", "-") for it in titles]


def below(top: str) -> list[str]:
    paths = (os.path.join(at, it) for at, _, names in os.walk(top) for it in names if it.endswith(".md"))
    return sorted(os.path.relpath(it, top) for it in paths)


def dead_links(top: str, paths: Iterable[str]) -> tuple[list[str], int]:
    """The links of pages below a folder to files and headings that are not there, and how many links there are."""
    links = [(path, it) for path in paths for it in links_of(programs.text_of(top, path))]
    return [f"{path} links to nothing: {it}" for path, it in links if not leads_somewhere(top, path, it)], len(links)
