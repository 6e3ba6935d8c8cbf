"""The command `hsp where`."""

import sys

import click

from hsp.base.ends import ended
from hsp.base.programs import Programs
from hsp.base.text import give, is_utf8, json_text, say
from hsp.doctor.service_folder import Folder, refuse_shortage, sound
from hsp.intake.forms import Form
from hsp.plans.where import json_of as where_json
from hsp.plans.where import lines as where_lines
from hsp.plans.where import where as where_goes


@click.command()
@click.argument("folder", metavar="DIR", type=Folder())
@click.argument("region", metavar="REGION")
@click.argument("handle", metavar="HANDLE")
@click.option("--json", "as_json", is_flag=True, help="the same for other programs")
def where(folder: str, region: str, handle: str, as_json: bool) -> None:
    """Says where the queries for a handle go.

    HANDLE is what a proxy is asked for: hdl:, doi:, a URL and percent-encoding are read as hsp demand reads them.
    One query is answered by the plan; where the demand has no row of it, by a plan by prices of the same demand. Below
    it stands what the query pays at each server that it may use: the cost of the site, and the prices of the server and
    of its machine.
    """
    programs = Programs()
    service = sound(folder, programs, {})
    refuse_shortage(folder, service)
    if all(row.handle != handle for row in service.rows):
        asked = Form().handle_of_path(handle.encode("utf-8", "surrogateescape"))
        handle = asked.decode("utf-8", "surrogateescape") if isinstance(asked, bytes) else handle
    if not is_utf8(region) or not is_utf8(handle):
        ended(1, "a region and a handle are text")
    found = where_goes(service, programs, region, handle)
    programs.insist_held()
    if as_json:
        give(json_text(where_json(service, found, region, handle)))
    else:
        say(*where_lines(service, found, region, handle))
    sys.exit(0 if found.servers else 1)
