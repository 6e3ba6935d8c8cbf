"""The commands of `hsp fleet`."""

import click

from hsp.base.groups import Group


@click.group(cls=Group, elsewhere={"demand": "hsp.fleet.demand", "dispatch": "hsp.fleet.dispatch"})
def fleet() -> None:
    """Counts and answers the logs of many machines, on Dask's scheduler.

    On one machine take hsplan dispatch, and hsp demand, which counts by a process for each processor.
    """
