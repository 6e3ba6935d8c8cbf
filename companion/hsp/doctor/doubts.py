"""What hsplan accepts and people seldom mean."""

import itertools
import os
import re
import tomllib
import unicodedata
from collections import Counter, defaultdict
from collections.abc import Iterable, Iterator, Set
from dataclasses import dataclass, field, replace
from typing import Any
from urllib.parse import unquote

from hsp.base.grammar import GREATEST_CAPACITY, HEADERS, MOST_DEMAND_ROWS
from hsp.base.numbers import listed, some
from hsp.base.paths import path_in, shell_word
from hsp.base.programs import Programs
from hsp.base.spelling import near
from hsp.base.unfit import Unfit
from hsp.doctor.findings import WARNING, Finding, Place, Text, Words, decoded, found, quoted, read_text
from hsp.doctor.rows import Row, Table, table_of
from hsp.doctor.toml_places import value_of
from hsp.intake.addresses import Target, targets_of, twins as url_twins
from hsp.plans.answering import less_reserve
from hsp.plans.proxied import PROXY, PROXY_KEYS, URLS, proxied_in, proxied_of
from hsp.plans.service import ACCEPT, NAMES, TITLE_KEYS, VALUES, Service, dotted, is_of_hour, newer_than
from hsp.plans.titles import SECONDS, TITLES, titles_of

# A demand beyond so many times all capacity, or a capacity beyond so many times the demand, has likely another unit.
FAR_ABOVE, FAR_BELOW = 10, 1000
# A capacity from here on stands for no limit, as in a what-if.
NO_LIMIT = GREATEST_CAPACITY
# The table of the titles that says how a service is proxied.
OF_PROXY = r"^\s*\[?\"?(proxy)\b"
# The group of the doubt about a plan that isn't one of its inputs.
OLD_PLAN = "old plan"
ADDRESS = re.compile(
    r"\s*(?:https?://(?:(?:dx\.)?doi\.org|(?:www\.)?hdl\.handle\.net)/(?:api/handles/)?|https?://[^/]+/"
    r"|hdl:(?://)?|doi:|info:hdl/)",
    re.I,
)
OTHER_OCTETS = "other octets are hashed, so another server may be planned"
UNKNOWN = f"{OTHER_OCTETS}; a log's queries are 'unknown'"


@dataclass
class Read:
    """A service with its tables, and the doubts that were found."""

    service: Service
    demand: Table
    costs: Table
    capacity: Table
    settings: Text
    findings: list[Finding] = field(default_factory=list)

    def doubt(self, text: Text, place: Place, words: Words) -> None:
        named = replace(words, name=words.name or words.group)
        self.findings.append(found(text.path, place, named, "", WARNING))

    def of_row(self, table: Table, row: Row, at: int, words: Words) -> None:
        self.doubt(table.text, table.place(row, at), words)


def bare(handle: str) -> str:
    """The handle that was likely meant."""
    text = unquote(ADDRESS.sub("", handle.strip()))
    return (
        "".join(sign for sign in text if unicodedata.category(sign) not in ("Cf", "Cc"))
        .strip()
        .removesuffix("?noredirect")
    )


def handle_words(handle: str) -> tuple[str, str]:
    """What is odd about a handle: the message, and its group."""
    if ADDRESS.match(handle):
        what = "a URL" if "://" in handle else f"written with {handle.strip().split(':')[0]}:"
        return f"{quoted(handle)} is {what}, not a bare handle", "address"
    if re.search(r"%[0-9A-Fa-f]{2}", handle):
        return f"{quoted(handle)} is percent-encoded", "percent"
    if handle != handle.strip():
        side = "before" if handle[:1].isspace() else "behind"
        return f"{quoted(handle)} has a blank {side} it", "blank"
    if any(unicodedata.category(sign) in ("Cf", "Cc") or sign in "\u00a0\u202f" for sign in handle):
        return f"{quoted(handle)} has a sign that isn't seen", "unseen"
    if re.match(r"[\"'<].*[\"'>]$", handle):
        return f"{quoted(handle)} has quotes or brackets that belong to it", "quotes"
    return "", ""


def handles(read: Read) -> None:
    for row in read.demand.rows:
        handle = row.fields[1]
        message, group = handle_words(handle)
        if message:
            meant = bare(handle).strip("\"'<>") if group == "quotes" else bare(handle)
            shown = f"write {meant}" + (
                f", {len(handle)} letters become {len(meant)}" if group in ("blank", "unseen") else ""
            )
            remedy = shown if meant and meant != handle else "write the bare handle: prefix, '/', suffix"
            why = OTHER_OCTETS if read.service.log else UNKNOWN
            read.of_row(read.demand, row, 1, Words(message, remedy, why, "", f"handle {group}"))


def twins(read: Read) -> None:
    """Handles of one region that differ only in the case of letters, or in how a letter is composed."""
    groups: dict[tuple[str, str], list[Row]] = defaultdict(list)
    for row in read.demand.rows:
        groups[row.fields[0], unicodedata.normalize("NFC", row.fields[1]).casefold()].append(row)
    for rows in groups.values():
        first, *others = rows
        for row in others:
            one, two = first.fields[1], row.fields[1]
            if one == two:
                continue
            is_ascii = one.upper() == two.upper() and one.isascii() and two.isascii()
            why = (
                "both have the same server"
                if is_ascii
                else "only ASCII letters are folded before the hash, so their servers may differ"
            )
            words = Words(
                f"{quoted(two)} and {quoted(one)} differ only in the case of letters"
                if one.casefold() == two.casefold()
                else f"{quoted(two)} and {quoted(one)} differ only in how letters are composed",
                "write the spelling of your log in one row, with the sum of the counts",
                f"{why}; to the tables and to a log they are two handles",
                f"the other is in line {first.first}",
                "twin handles",
            )
            read.of_row(read.demand, row, 1, words)


def firsts(table: Table) -> dict[str, Row]:
    """The first row of each region."""
    found_rows: dict[str, Row] = {}
    for row in table.rows:
        found_rows.setdefault(row.fields[0], row)
    return found_rows


def asking_of(read: Read) -> dict[str, Row]:
    """The first row of each region that asks. Of a log only the first rows are read: a region behind them has none."""
    nowhere = Row(0, 0, ["", "", ""])
    return {region: nowhere for region in read.service.regions} | firsts(read.demand)


def priceless(read: Read) -> None:
    """Regions that ask and have no cost."""
    asking, paying = asking_of(read), firsts(read.costs)
    costs = os.path.basename(read.costs.text.path)
    for region, row in asking.items():
        if region in paying or not paying:
            continue
        meant = namesake(region, asking, paying)
        number = sum(other.fields[0] == region for other in read.demand.rows)
        remedy = f"write {meant} here, or {region} in {costs}" if meant else f"add rows {region},SITE,COST to {costs}"
        if meant and meant not in asking:
            remedy = f"write {region} in {costs}, from line {paying[meant].first} on, or {meant} here"
        message = f"region {quoted(region)} has no cost for any site"
        rows = "rows" if read.service.log else some(number, "row")
        why = f"no site may serve its {rows}, so the plan is a shortage"
        words = Words(message, remedy, why, f"{costs} has {meant}" if meant else "", f"no cost {region}")
        read.of_row(read.demand, row, 0, words)


def namesake(region: str, asking: Iterable[str], paying: Iterable[str]) -> str:
    """The region of the costs that a region of the demand was likely meant to be."""
    return near(region, set(paying) - set(asking)) or near(region, paying, 0.8)


def idle(read: Read) -> None:
    """Regions that have costs and ask for nothing, but for those that another spelling explains."""
    asking, paying = asking_of(read), firsts(read.costs)
    explained = {namesake(region, asking, paying) for region in asking if region not in paying}
    for region, row in paying.items():
        if region in asking or region in explained or not asking:
            continue
        meant = near(region, asking, 0.75)
        remedy = f"write {meant}, if that is meant" if meant else "take its rows out, or leave them for a later demand"
        message = f"region {quoted(region)} has costs and asks for nothing"
        mark = f"did you mean {meant}?" if meant else ""
        words = Words(message, remedy, "its costs are never used", mark, "idle region", f"idle region {region}")
        read.of_row(read.costs, row, 0, words)


def pairs(read: Read) -> None:
    """Pairs of region and site without a cost, where a region has costs for half of the sites or more."""
    asking, paying = asking_of(read), firsts(read.costs)
    there = {(row.fields[0], row.fields[1]) for row in read.costs.rows}
    for region in (own for own in asking if own in paying):
        lacking = [site.name for site in read.service.sites if (region, site.name) not in there]
        if not lacking or len(lacking) * 2 > len(read.service.sites):
            continue
        rows = listed([f"{region},{site},COST" for site in lacking], 3)
        message = f"region {quoted(region)} has no cost for {listed(lacking, 6)}"
        remedy = f"add {rows}; or leave it so, if that is meant"
        why = f"{region} may never use {listed(lacking, 6)}"
        words = Words(message, remedy, why, group="missing cost", name=f"missing cost {region}")
        read.of_row(read.costs, paying[region], 0, words)


def hosts(read: Read) -> None:
    """Hosts whose address no server has."""
    addresses: dict[str, list[str]] = defaultdict(list)
    for site in read.service.sites:
        for server in site.servers:
            addresses[server.address.lower()].append(server.label)
    for number, host in enumerate(read.service.settings.get("host", [])):
        address = str(host["address"]).lower()
        if address not in addresses:
            meant = near(address, addresses, 0.9)
            many = [own for own, labels in addresses.items() if len(labels) > 1]
            other = meant or (many[0] if len(many) == 1 else "")
            remedy = (
                f'write address = "{other}", that of {listed(addresses[other])}'
                if other
                else "copy the address of its servers from hsplan site"
            )
            why = f"the limit binds nothing; the servers have {listed(map(dotted, sorted(addresses)), 4)}"
            place = value_of(read.settings, "host", number, "address")
            bare_one = dotted(address)
            words = Words(
                f"no server has the address {bare_one}", remedy, why, "", "unused host", f"unused host {bare_one}"
            )
            read.doubt(read.settings, place, words)


def zeros(read: Read) -> None:
    for row in read.demand.rows:
        if row.fields[2] == "0" and not is_of_hour(read.service.inputs.demand):
            message = f"{row.fields[0]} asks 0 times for {quoted(row.fields[1])}"
            remedy = "take the row out, or write its count"
            words = Words(message, remedy, "the row asks for nothing", "", "count 0", f"count 0 {row.fields[0]}")
            read.of_row(read.demand, row, 2, words)
    for row in read.capacity.rows:
        if row.fields[2] == "0" and any(read.service.capacities.values()):
            words = Words(
                f"server {row.fields[1]} of {row.fields[0]} has the capacity 0",
                "write what it takes, unless it is out of service",
                "it is planned to get nothing",
                "",
                "capacity 0",
                f"capacity 0 {row.fields[0]} {row.fields[1]}",
            )
            read.of_row(read.capacity, row, 2, words)


def rows(read: Read) -> None:
    """A demand without rows, or costs without rows where the demand and the settings have some."""
    if not read.demand.rows:
        remedy = f"add a row {HEADERS['demand']} for each region and handle"
        words = Words("the demand has no rows", remedy, "the plan is empty and costs 0", group="empty demand")
        read.doubt(read.demand.text, read.demand.text.whole(1), words)
    elif not read.costs.rows and read.service.sites:
        words = Words(
            "the costs have no rows",
            f"add a row {HEADERS['costs']} for each region and each site that it may use",
            "no site may serve any region, so the plan is a shortage",
            group="empty costs",
        )
        read.doubt(read.costs.text, read.costs.text.whole(1), words)


def units(read: Read) -> None:
    """A demand that is far from all capacity."""
    asked, room = read.service.asked, sum(read.service.capacities.values())
    remedy, place = "give counts and capacities for the same time: an hour, say", read.capacity.text.whole(2)
    bound = [own for own in read.service.capacities.values() if own < NO_LIMIT]
    if not asked:
        return
    if read.service.capacities and not room:
        why = "every query lacks a place, so the plan is a shortage"
        words = Words("all capacities are 0", "write what each server takes", why, group="no capacity")
    elif room and asked > FAR_ABOVE * room:
        why = f"{asked:,} queries, and room for {room:,}: counts of a day, and capacities of a second?"
        words = Words("the demand is far above all capacity", remedy, why, group="demand far above capacity")
    elif bound and sum(bound) > FAR_BELOW * asked:
        why = f"room for {sum(bound):,}, and {asked:,} queries: no limit will ever bind"
        words = Words("all capacity is far above the demand", remedy, why, group="capacity far above demand")
    else:
        return
    read.doubt(read.capacity.text, place, words)


def free(read: Read) -> None:
    """Costs that are all 0, where a region has a choice of sites."""
    sites = Counter(region for region, _ in read.service.costs)
    if any(read.service.costs.values()) or max(sites.values(), default=0) < 2:
        return
    remedy = "write costs in a smaller unit: milliseconds in place of seconds, say"
    why = "each plan costs 0, so a query may go to the farthest site; were the costs rounded?"
    words = Words("all costs are 0", remedy, why, group="costs of 0")
    read.of_row(read.costs, read.costs.rows[0], 2, words)


def unused(read: Read) -> None:
    """Servers that no row of the demand may use; of a log, only sites."""
    service = read.service
    if service.is_empty or not service.costs:
        return
    used = {
        (at, service.places[row.handle, service.sites[at].name])
        for row in service.rows
        if row.count
        for at in service.sites_for(row.region)
    }
    if service.log:
        used = {
            (at, place)
            for region in service.regions
            for at in service.sites_for(region)
            for place in range(len(service.sites[at].servers))
        }
    reached = {site for site, _ in used}
    for at, site in enumerate(service.sites):
        own = [row for row in read.capacity.rows if row.fields[0] == site.name]
        if at not in reached and own:
            message = f"no row may use site {quoted(site.name)}"
            remedy = f"add costs REGION,{site.name},COST; or leave it so, if it is out of service"
            name = f"unused site {site.name}"
            words = Words(message, remedy, "no region of the demand has a cost for it", "", "unused site", name)
            read.of_row(read.capacity, own[0], 0, words)
            continue
        for place, server in enumerate(site.servers):
            row = next((own_row for own_row in own if own_row.fields[1] == str(server.id)), None)
            if row and (at, place) not in used:
                why = "by the hash none of the demand's handles is its own; a demand of a few busy handles may be so"
                words = Words(
                    f"no handle of the demand leads to server {server.id} of {site.name}",
                    "look whether the demand has all handles; hsp demand counts those of a log",
                    why,
                    "",
                    "unused server",
                    f"unused server {server.label}",
                )
                read.of_row(read.capacity, row, 1, words)


def shared_records(service: Service) -> Iterator[tuple[str, str]]:
    """Sites whose record is that of a site before them, by both names."""
    seen: dict[str, str] = {}
    for site in service.settings.get("site", []):
        key = str(site.get("record", f"index {site.get('index')}")).lower()
        if key in seen:
            yield site["name"], seen[key]
        seen.setdefault(key, site["name"])


def sites(read: Read) -> None:
    """Settings without a site, and a record that two sites share."""
    if not read.service.sites:
        remedy, why = "add a block [[site]] for each: hsp sites makes it", "without a site no query is served"
        read.doubt(read.settings, Place(), Words("the settings have no site", remedy, why, group="no site"))
    blocks = {site["name"]: (number, site) for number, site in enumerate(read.service.settings.get("site", []))}
    for name, other in shared_records(read.service):
        number, site = blocks[name]
        place = value_of(read.settings, "site", number, "record" if "record" in site else "index")
        place = Place(place.line, place.column, min(place.width, 24), place.text)
        words = Words(
            f"site {quoted(name)} has the record of {quoted(other)}",
            "copy its own record: hsp sites makes the block",
            "both are the same servers, so their room counts twice",
            group="shared record",
            name=f"shared record {name}",
        )
        read.doubt(read.settings, place, words)


def one_place(read: Read, programs: Programs) -> None:
    """Servers that are asked at one address and port, but for those of sites that share a record."""
    shared = {site for site, _ in shared_records(read.service)}
    servers: dict[tuple[str, int, int], dict[str, None]] = defaultdict(dict)
    for own in programs.interfaces(read.service.inputs):
        if own.site not in shared:
            servers[own.address, own.port, own.protocol][f"{own.site} {own.server}"] = None
    places: dict[tuple[str, tuple[str, ...]], dict[int, None]] = defaultdict(dict)
    for (address, port, _), labels in servers.items():
        places[address, tuple(labels)][port] = None
    for (address, alike), ports in places.items():
        if len(alike) > 1:
            asked = f"{dotted(address)}, {'port' if len(ports) == 1 else 'ports'} {listed(map(str, ports))}"
            words = Words(
                f"{listed(alike)} are asked at one address and port: {asked}",
                "give each an address or a port of its own: hsp sites makes the block",
                "whoever asks one of them may reach the other, and what is planned for one goes to the other",
                group="one place",
                name=f"one place {alike[-1]}",
            )
            read.doubt(read.settings, Place(), words)


def stale_plan(service: Service, programs: Programs, path: str) -> list[str] | None:
    """The inputs that are newer than a plan which the checker refuses for them; None where the plan still holds.

    A plan of the folder isn't one of other files that were given.
    """
    inputs = service.inputs
    own = {path_in(service.folder, name) for name in (*NAMES.values(), VALUES)}
    if not {inputs.settings, inputs.demand, inputs.costs, inputs.capacity} <= own:
        return None
    for tried in filter(None, (inputs, less_reserve(path, inputs))):
        if programs.verdict(tried, path) == "yes":
            return None
    return newer_than(inputs.files(), path)


def old_plan(read: Read, programs: Programs) -> None:
    """A plan in the folder that isn't one of its inputs, or isn't one of them any more."""
    path = path_in(read.service.folder, "plan.txt")
    newer = stale_plan(read.service, programs, path) if os.path.isfile(path) else None
    if newer is None:
        return
    message, why = "the plan isn't one of these files", "it was cut, edited, or made of other files"
    if newer:
        message = f"the plan is older than {listed(newer)}"
        why = f"{listed(newer)} {'is' if len(newer) == 1 else 'are'} newer, and hsplan check says no to the plan"
    words = Words(message, f"hsp plan {shell_word(read.service.folder)}", why, group=OLD_PLAN, name=OLD_PLAN)
    read.findings.append(found(path, Place(), words, "", WARNING))


def titles(read: Read) -> None:
    """Words of hsp.toml that no page and no line shows."""
    path = path_in(read.service.folder, TITLES)
    if not os.path.isfile(path):
        return
    text = read_text(path)
    said = tomllib.loads(decoded(text.octets))
    whole = (*TITLE_KEYS, SECONDS, ACCEPT, PROXY)
    own_proxy = said.get(PROXY, {})
    proxied = own_proxy if isinstance(own_proxy, dict) else {}
    for own, known in ((said, whole), (proxied, PROXY_KEYS)):
        for key in [name for name in own if name not in known]:
            meant = near(key, known, 0.6)
            remedy = f"write {meant}" if meant else "take it out"
            remedy = f"write it above [{PROXY}]" if key in whole else remedy
            mark = f"did you mean {meant}?" if meant else ""
            place = text.match(rf"^\s*\[?\"?({re.escape(key)})\b") or Place()
            message, name = f"the key {quoted(key)} of {TITLES} is not read", f"unknown key {key}"
            read.doubt(text, place, Words(message, remedy, f"hsp reads {listed(known, 9)}", mark, name=name))
    odd_proxy(read, text, own_proxy)


def odd_proxy(read: Read, text: Text, table: Any) -> None:
    """A table of a proxy that `hsp export` refuses."""
    try:
        proxied_of(table)
    except Unfit as fault:
        place = text.match(OF_PROXY) or Place()
        words = Words("hsp export refuses the table of a proxy", "mend it", fault.message, name="table of a proxy")
        read.doubt(text, place, words)


def _one_url(targets: list[Target], named: Set[str]) -> Iterator[Words]:
    """Servers that have one URL, where the titles name one of them. Records that have it are doubted with or without a
    proxy."""
    urls = {target.name: target.url.text for target in targets}
    for names in (own for own in url_twins(targets) if not named.isdisjoint(own)):
        message = f"{listed(names)} have one URL, {urls[names[0]]}"
        remedy = f'write "{names[-1]}" = "https://mirror.example" below [{PROXY}.{URLS}]'
        why = "no redirect tells them apart, so one of them may get what is planned for the other"
        yield Words(message, remedy, why, group="one URL", name=f"one URL {names[0]}")


def proxy_doubts(service: Service, programs: Programs) -> Iterator[Finding]:
    """What `hsp export` refuses or warns of, where the folder has a table of a proxy."""
    if PROXY not in titles_of(service.folder):
        return
    text = read_text(path_in(service.folder, TITLES))
    place = text.match(OF_PROXY) or Place()
    try:
        said = proxied_in(service.folder)
    except Unfit:  # the table itself is a doubt
        return
    try:
        words = list(_one_url(targets_of(service, said.urls, programs), said.urls.keys()))
    except Unfit as fault:
        words = [Words("hsp export refuses the table of a proxy", "mend it", fault.message, name="URLs of a proxy")]
    yield from (found(text.path, place, own, "", WARNING) for own in words)


def is_named(finding: Finding, name: str) -> bool:
    """Whether a name is that of a warning, or its first words: `idle region` names each idle region."""
    return finding.name == name or finding.name.startswith(f"{name} ")


def needless(service: Service, findings: Iterable[Finding]) -> Iterator[Finding]:
    """Accepted names that no warning has."""
    names = list(dict.fromkeys(finding.name for finding in findings))
    for name in service.titles.accept:
        if any(is_named(finding, name) for finding in findings):
            continue
        text = read_text(path_in(service.folder, TITLES))
        meant = near(name, names, 0.8)
        message = f"{TITLES} accepts {quoted(name)}, and no warning has this name"
        remedy = f"write {meant}" if meant else "take it out, if what it names is mended"
        why = "hsp doctor --json has the name of each warning"
        words = Words(
            message, remedy, why, f"did you mean {meant}?" if meant else "", "needless name", f"needless name {name}"
        )
        yield found(text.path, text.match(re.escape(name)) or Place(), words, "", WARNING)


def first_rows(path: str) -> Text:
    """The beginning of a log, as long as a table may be: a log is longer than what can be looked through."""
    with open(path, "rb") as file:
        return Text(path, b"".join(itertools.islice(file, MOST_DEMAND_ROWS)))


# What makes the whole plan meaningless, what loses queries, and the rest.
WHOLE, LOST = (sites, rows, units, free), (priceless, handles, twins)
REST = (hosts, idle, pairs, zeros, unused)


def doubts(service: Service, programs: Programs, of_folder: bool = True) -> Iterator[Finding]:
    """All that is accepted and seldom meant, by its weight; of a folder, its titles and its plan too.

    What hsp.toml accepts is left out.
    """
    inputs = service.inputs
    demand = table_of(first_rows(inputs.demand) if inputs.is_log else read_text(inputs.demand))
    costs, capacity = (table_of(read_text(own)) for own in (inputs.costs, inputs.capacity))
    read = Read(service, demand, costs, capacity, read_text(inputs.settings))
    for look in (*WHOLE, *LOST, *REST):
        look(read)
    one_place(read, programs)
    if of_folder:
        titles(read)
        read.findings += proxy_doubts(service, programs)
        old_plan(read, programs)
    accept = service.titles.accept
    yield from (own for own in read.findings if not any(is_named(own, name) for name in accept))
    if of_folder:
        yield from needless(service, read.findings)
