"""hsp shows and explains the load plans of Handle System services. It asks hsplan for every rule."""

__version__ = "2.1.0"
