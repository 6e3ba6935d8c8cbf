"""`hsp fleet`: the logs of many machines, counted and answered on Dask's scheduler.

Counts add up, and a front answers by its own share and its own rows. So both run in parts.
"""
