"""Faults of the inputs together: names and identifiers that only one of the files has."""

import re
from typing import NamedTuple

from hsp.base.grammar import HEADERS
from hsp.base.numbers import listed
from hsp.base.programs import run
from hsp.base.spelling import near
from hsp.doctor.findings import Finding, Place, Text, Words, found, quoted
from hsp.doctor.question import Mend, Question, Said, sites_used
from hsp.doctor.rows import joined, table_of
from hsp.doctor.table_faults import Explained, Faulty, alike, numbered_row
from hsp.doctor.toml_places import data_of, listed_in


class Known(NamedTuple):
    """A site of the settings, and the identifiers of its servers, as hsplan reads them."""

    name: str
    servers: list[int]


def _names(settings: Text) -> list[str]:
    return [str(site.get("name", "")) for site in listed_in(settings, "site")]


def names_in(question: Question) -> list[str]:
    return _names(question.text("settings"))


def site_at(question: Question, number: int) -> Known:
    """A site by its number in the settings."""
    sites = listed_in(question.text("settings"), "site")
    site = sites[number] if number < len(sites) else {}
    if isinstance(site.get("record"), str):
        path = question.programs.put(bytes.fromhex(site["record"]), ".site")
        printed = run("hsplan", "site", path)
    elif "values" in question.files:
        printed = run("hsplan", "site", f"--index={site.get('index')}", question.path("values"))
    else:
        return Known(str(site.get("name", "")), [])
    lines = (line.split() for line in printed.out.splitlines())
    return Known(str(site.get("name", "")), [int(line[2]) for line in lines if line[:1] == ["server"]])


def unknown_site(question: Question, said: Said) -> Explained | None:
    """A row with a site that the settings lack."""
    faulty = numbered_row(question, said.table, said)
    if not faulty:
        return None
    if data_of(question.files["settings"].original) == {}:
        return Explained(_without_sites(question, said))
    at = faulty.header.index("site")
    name, names = faulty.fields[at], names_in(question)
    rows = alike(faulty, at)
    without = question.without_rows(said.table, [other.row for other in rows])
    if name in _left_out_sites(question) or question.lacks_site:
        return Explained(None, [without])
    findings, mends = [], []
    for other in rows:
        meant, words = _site_words(question, other, name, names)
        findings.append(found(other.path, other.place(at), words, other.words()))
        fields = [*other.fields[:at], meant, *other.fields[at + 1 :]]
        mends += [Mend(other.row, other.row.last, joined(fields))] if meant else []
    mended = [question.with_mends(said.table, mends)] if mends else []
    return Explained(findings[0], [*mended, without], True, findings[1:])


def _without_sites(question: Question, said: Said) -> Finding:
    """The one cause of many unknown names: settings without any block."""
    remedy = "add a block [[site]] for each: hsp sites makes it"
    words = Words(
        "the settings have no site", remedy, f"the tables name {listed(map(quoted, sites_used(question)), 6)}"
    )
    text = question.files["settings"].original
    return found(text.path, text.whole(1), words, said.line)


def short_of(name: str, names: list[str]) -> str:
    """The only one of some names of which this is the beginning, or a word."""
    words = {known: re.split(r"[-_.]", known.casefold()) for known in names}
    found = [
        known
        for known in names
        if len(name) > 1 and (name.casefold() in words[known] or known.casefold().startswith(name.casefold()))
    ]
    return found[0] if len(found) == 1 else ""


def _site_words(question: Question, faulty: Faulty, name: str, names: list[str]) -> tuple[str, Words]:
    """The site that was likely meant, and what is said of a name that no site has."""
    meant = near(name, names) or short_of(name, names)
    used = sites_used(question)
    lone = [other for other in names if other not in used]
    if len(lone) == 1 and (not meant or meant == lone[0]):
        meant = lone[0]
        remedy = f"write one spelling in all files: {meant} as in the settings, or {name} there too"
        why = f"the settings call a site {quoted(meant)}, and no table has this name"
    elif meant:
        remedy, why = f"write {meant}", f"the settings have {listed(names, 6)}"
        why = f"another case of letters; {why}" if meant.casefold() == name.casefold() else why
    elif faulty.fields[0] in names and name.isdigit() and faulty.table == "costs":
        remedy, why = (
            "move the row to the capacities",
            f"{faulty.fields[0]} is a site, and {name} one of its servers",
        )
    elif "demand" in question.files and name in table_of(question.text("demand")).column("region"):
        remedy, why = "put the columns in the order " + ",".join(faulty.header), f"{quoted(name)} is a region"
    else:
        remedy = f'add a block [[site]] with name = "{name}" to the settings, or take its rows out'
        known = list(filter(None, names or _names(question.files["settings"].original)))
        why = f"the settings have only {listed(known, 6)}" if known else "the settings have no site"
    mark = f"did you mean {meant}?" if meant else ""
    return meant, Words(f"the settings have no site {quoted(name)}", remedy, why, mark, f"UnknownSite {name}")


def _left_out_sites(question: Question) -> set[str]:
    """Names of sites whose blocks a copy no longer has."""
    original = {str(site.get("name")) for site in listed_in(question.files["settings"].original, "site")}
    return original - set(names_in(question))


def unknown_server(question: Question, said: Said) -> Explained | None:
    """A row of the capacities with an identifier that the site lacks."""
    faulty = numbered_row(question, "capacity", said)
    if not faulty:
        return None
    name, text, room = faulty.fields
    names = names_in(question)
    site = site_at(question, names.index(name)) if name in names else Known(name, [])
    rows = table_of(question.text("capacity")).rows
    taken = {row.fields[1] for row in rows if row.fields[0] == name}
    free = [identifier for identifier in map(str, site.servers) if identifier not in taken]
    ids = listed(map(str, site.servers), 12)
    why = f"{name} has the servers {ids}" if len(site.servers) > 1 else f"{name} has only the server {ids}"
    if text == "0":
        why += "; places count from 0, identifiers needn't"
    remedy = f"write {free[0]}" if len(free) == 1 else f"take the row out, or write one of {ids}"
    if len(free) > 1:
        remedy = f"write the identifier that it stands for: {listed(free, 8)} have no row"
    elif not free and text.isdecimal() and site.servers and int(text) > max(site.servers):
        remedy = "bring the site's new record in (hsp sites), or take the row out: each server has its row"
    elif not free:
        remedy = "take the row out: each server has its row"
    words = Words(f"site {name} has no server {text}", remedy, why, group=f"UnknownServer {name}")
    mended = [question.with_row("capacity", faulty.row, [name, free[0], room])] if free else []
    finding = found(faulty.path, faulty.place(1), words, faulty.words())
    return Explained(finding, [*mended, question.without_rows("capacity", [faulty.row])])


def no_capacity(question: Question, said: Said) -> Explained:
    """A server without a row in the capacities."""
    (site, servers), server = site_at(question, said.numbers["site"]), str(said.numbers["server_id"])
    draft = question.files["capacity"]
    lines = draft.text.lines
    number = next((at for at in range(len(lines), 1, -1) if lines[at - 1].strip()), 1)
    there = {row.fields[1] for row in table_of(draft.text).rows if row.fields[0] == site}
    rows = table_of(draft.original).rows
    absent = [own for own in map(str, servers) if own not in there | {server}]
    others = [own for own in absent if not rows or _follows(question, site, own)]
    text = "\n".join([lines[number - 1], *(joined([site, own, "0"]) for own in (server, *others))])
    mended = question.with_file("capacity", draft.with_text("\n".join([*lines[: number - 1], text, *lines[number:]])))
    if _follows(question, site, server):
        return Explained(None, [mended])
    if not rows:
        return Explained(_without_rows(draft.original, said))
    own = [other for other in rows if other.fields[0] == site]
    place = draft.original.whole((own or rows)[-1].last)
    place = Place(place.line, place.column + place.width, 1, place.text)
    like = [other for other in dict.fromkeys(row.fields[0] for row in rows) if other != site]
    why = (
        f"no row of {site}: a new site, or rows that were cut off"
        if not own
        else "a new server, or a row that was lost"
    )
    if near(site, like, 0.8) and not own:
        why = f"the rows may be those of {near(site, like, 0.8)}"
    message = f"server {server} of {site} has no capacity"
    remedy = f"add the row {site},{server},N with what it takes in place of N; 0 if it may get nothing"
    words = Words(message, remedy, why, "the row belongs below this line", f"NoCapacity {site}")
    return Explained(found(draft.original.path, place, words, said.line), [mended])


def _without_rows(text: Text, said: Said) -> Finding:
    """The one cause where each server lacks its row: capacities that are only a header."""
    remedy = f"add a row {HEADERS['capacity']} for each server, with what it takes; 0 if it may get nothing"
    words = Words("the capacities have no rows", remedy, "each server of the settings has one")
    return found(text.path, text.whole(1), words, said.line)


def _follows(question: Question, site: str, server: str) -> bool:
    """Whether a server lacks its row only because a copy no longer has it."""
    for role, fields in question.left_out:
        if role == "capacity" and (server in fields[1:2] or fields[:1] == (site,) or len(fields) != 3):
            return True
    return False
