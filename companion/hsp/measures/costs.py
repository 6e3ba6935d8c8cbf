"""The command `hsp costs`."""

from collections.abc import Sequence
from typing import Any

import click

from hsp.base.files import locked, refuse_clashes
from hsp.base.grammar import GREATEST_COST, MOST_REGIONS
from hsp.base.numbers import listed
from hsp.base.options import ANY_FILE, PERCENTILE, PathName
from hsp.base.paths import path_in
from hsp.base.programs import Programs
from hsp.base.text import say
from hsp.base.unfit import Unfit
from hsp.intake.bring import FOLDER, OF_DATABASE, refuse_field
from hsp.intake.regions import named, regions_in
from hsp.measures.cost_table import CostTable, Times, places_in
from hsp.measures.ends import SITE, Ends, Unknown, words_of
from hsp.measures.folder import Bare, folder_of
from hsp.measures.sources import DURATION, Reading, Source, SourceName, pattern_of
from hsp.measures.timed import Timed
from hsp.plans.titles import TITLES, titles_of

UNIT, COST = "ms", "cost"


def of_source(source: Source, timed: Timed) -> Timed:
    """A time with what is given for all of its source. Where the site is, pings are of clients."""
    if source.site:
        timed = timed._replace(client=timed.client or timed.server, server=source.site)
    return timed._replace(client=source.region, is_region=True) if source.region else timed


def gather(sources: Sequence[Source], reading: Reading, ends: Ends, found: CostTable) -> None:
    for source in sources:
        for timed in reading.times(source.path):
            own = of_source(source, timed)
            try:
                site = ends.servers(own.server)[0].site
                pair = ends.region(own), site
            except Unknown as why:
                reading.pass_over(str(why), source.path, own)
            else:
                found.times.setdefault(pair, Times()).add(own.milliseconds, f"{source.path}:{own.line}")


def refuse_unfit(found: CostTable, bare: Bare, reading: Reading) -> None:
    """Refuses a table that has nothing, or what hsplan can't take."""
    if not found.times and not found.places:
        reasons = [" ".join(line.split()) for line in reading.skipped.lines()[1:2]]
        raise Unfit(f"no time is taken: {(reasons or ['the sources have none'])[0]}")
    regions = {region: "a source" for region, _ in found.costs}
    named(regions, bare.programs)
    if len(regions) > MOST_REGIONS:
        raise Unfit(f"more than {MOST_REGIONS} regions; join networks to fewer")
    large = next((pair for pair, (cost, _) in found.costs.items() if (cost or 0) > GREATEST_COST), None)
    if large:
        raise Unfit(f"{' '.join(large)}: a cost above {GREATEST_COST:,}")
    unit = titles_of(bare.folder).get(COST, UNIT)
    if unit != UNIT and any(pair not in found.times for pair in found.before):
        remedy = f"take those rows out of {bare.path('costs')}, or measure all"
        raise Unfit(f"{path_in(bare.folder, TITLES)}: costs are in {unit!r} there, and these in {UNIT}; {remedy}")


def with_sites(sources: Sequence[Source], sites: Sequence[str]) -> list[Source]:
    """The sources, of which one whose only name is that of a site is of this site."""
    own = [it._replace(region="", site=it.region) if it.region in sites and not it.site else it for it in sources]
    unknown = next((it.site for it in own if it.site and it.site not in sites), "")
    if unknown:
        raise click.BadParameter(f"no site '{unknown}'; sites are {listed(sites, 9)}", param_hint="SOURCE")
    return own


@click.command()
@click.argument("sources", metavar="SOURCE..", nargs=-1, type=SourceName())
@click.option("--into", metavar="DIR", type=FOLDER, required=True, help="the folder whose costs.csv is written")
@click.option("--regions", metavar="FILE", type=ANY_FILE, help="a table network,region, or a MaxMind database")
@OF_DATABASE
@click.option("--elsewhere", metavar="REGION", help="of clients that have no region")
@SITE
@click.option("--percentile", metavar="P", type=PERCENTILE, default="50", show_default=True, help="the figure of many")
@click.option("--by-distance", "places", metavar="PLACES", type=PathName(), help="guess what isn't measured")
@click.option("--regex", metavar="PATTERN", help="of other lines: (?P<address>..), (?P<server>..), (?P<seconds>..)")
@DURATION
def costs(sources: tuple[Source, ...], into: str, regions: str | None, **given: Any) -> None:
    """Writes the costs of a service, as they were measured.

    Costs are in milliseconds. A SOURCE is a table of pings, what fping prints or rrdtool fetches from SmokePing,
    results of RIPE Atlas, or an access log with response times. REGION=SOURCE says where it was measured, and
    :SITE=SOURCE at which site; pings of such a site are of its clients. A table PLACES has name,latitude,longitude of
    regions and sites.
    """
    if not sources and not given["places"]:
        raise click.UsageError("nothing is measured: give a SOURCE, or --by-distance PLACES")
    if regions:
        refuse_field(regions, given["by"], "")
    programs = Programs()
    bare = folder_of(into, programs)
    inputs = [it.path for it in sources] + [path for path in (regions, given["places"]) if path]
    refuse_clashes(inputs, [bare.path("costs"), path_in(into, TITLES)])
    names = [site.name for site in bare.sites]
    own_sources = with_sites(sources, names)
    seek = regions_in(regions, given["by"], given["elsewhere"], programs) if regions else None
    ends = Ends(bare.sites, words_of(given["words"], names), seek)
    reading = Reading(pattern_of(given["regex"]), given["duration"] or "")
    with locked([into]):
        asking = list(dict.fromkeys(region for region, _, _ in bare.rows("demand")))
        before = {(region, site): cost for region, site, cost in bare.rows("costs")}
        places = places_in(given["places"]) if given["places"] else {}
        found = CostTable(asking, names, given["percentile"], before, places)
        gather(own_sources, reading, ends, found)
        refuse_unfit(found, bare, reading)
        last = bare.write("costs", found.text(), {COST: UNIT})
    say(*found.lines(), *reading.lines(), last)
