"""Brings a service in: its sites, its logs, the regions of its clients, its demand."""
