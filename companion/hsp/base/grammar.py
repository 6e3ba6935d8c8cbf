"""The commands, limits and headers of hsplan and hsplan-stream, written by tools/gate/write_grammar.py."""

from typing import NamedTuple


class Command(NamedTuple):
    """A command: its program, the options that it needs, those that it may have, and what its last word is."""

    program: str
    needed: tuple[str, ...]
    optional: tuple[str, ...]
    last: str = ""

    @property
    def options(self) -> tuple[str, ...]:
        return self.needed + self.optional


# The commands of each program, by their names.
COMMANDS: dict[str, dict[str, Command]] = {
    "hsplan": {
        "locate": Command("hsplan", (), ("option", "servers", "settings", "values"), "handle"),
        "site": Command("hsplan", (), ("index",), "file"),
        "plan": Command("hsplan", ("settings", "demand", "costs", "capacity"), ("values",)),
        "check": Command("hsplan", ("settings", "demand", "costs", "capacity", "plan"), ("values",)),
        "dispatch": Command(
            "hsplan",
            ("settings", "demand", "costs", "capacity", "plan", "log"),
            ("values", "fronts"),
        ),
        "report": Command("hsplan", ("settings", "demand", "costs", "capacity", "plan", "kind"), ("values",)),
    },
    "hsplan-stream": {
        "places": Command("hsplan-stream", ("settings", "log"), ("values",)),
        "plan": Command("hsplan-stream", ("settings", "costs", "capacity", "log"), ("values",)),
        "answer": Command(
            "hsplan-stream",
            ("settings", "costs", "capacity", "log", "prices"),
            ("values", "fronts", "front"),
        ),
        "check": Command("hsplan-stream", ("settings", "costs", "capacity", "log", "prices"), ("values",)),
        "report": Command(
            "hsplan-stream",
            ("settings", "costs", "capacity", "log", "prices", "kind"),
            ("values",),
        ),
        "interfaces": Command("hsplan-stream", ("settings",), ("values",)),
        "faults": Command("hsplan-stream", (), ("demand", "costs", "capacity", "log")),
    },
}


def program_of(command: str) -> str:
    """The program with a command of this name, hsplan before hsplan-stream; nothing where neither has it."""
    return next((program for program, own in COMMANDS.items() if command in own), "")


# What stands behind each option: a file, a number, or one of some words.
VALUES: dict[str, str] = {
    "settings": "FILE",
    "values": "FILE",
    "demand": "FILE",
    "costs": "FILE",
    "capacity": "FILE",
    "plan": "FILE",
    "prices": "FILE",
    "log": "FILE",
    "option": "na|local|handle",
    "servers": "N",
    "index": "N",
    "kind": "load|region|shortage",
    "fronts": "N",
    "front": "N",
}
# The same of a program, where it differs.
OWN_VALUES: dict[str, dict[str, str]] = {
    "hsplan-stream": {"kind": "load|region"},
}


def value_of(program: str, option: str) -> str:
    """What stands behind an option of a program."""
    return OWN_VALUES.get(program, {}).get(option, VALUES[option])


FILES = tuple(name for name, value in VALUES.items() if value == "FILE")

# The headers of the tables, and those of each command's log; `fronts` is a dispatch for several fronts.
HEADERS: dict[str, str] = {
    "demand": "region,handle,count",
    "costs": "region,site,cost",
    "capacity": "site,server_id,capacity",
}
LOG_HEADERS: dict[str, tuple[str, ...]] = {
    "dispatch": ("region,handle", "region,body"),
    "fronts": ("front,region,handle",),
    "places": ("handle", "region,handle"),
    "answer": ("region,handle", "region,body"),
    "check": ("region,handle", "region,handle,count"),
    "report": ("region,handle", "region,handle,count"),
    "faults": ("region,handle", "region,body", "front,region,handle", "handle", "region,handle,count"),
}
LOG_HEAD = LOG_HEADERS["dispatch"][0].encode() + b"\n"

# The signs of a name, as they stand between the brackets of a regular expression.
NAME_SIGNS = "A-Za-z0-9_.-"

# The greatest identifier of a server, index of a value and number of a front: these have four octets.
GREATEST_ID = 4_294_967_295
# The greatest number of sites.
MOST_SITES = 32
# The greatest number of servers of a site, and of all sites together.
MOST_SERVERS = 1_024
# The greatest number of hosts.
MOST_HOSTS = 1_024
# The greatest number of regions that the rows of one table may name.
MOST_REGIONS = 64
# The greatest number of regions that the rows of a log may name, and a table of costs beside a log.
MOST_LOG_REGIONS = 4_096
# The greatest number of rows in the table of demand.
MOST_DEMAND_ROWS = 8_192
# The greatest number of rows in the table of costs.
MOST_COST_ROWS = 2_048
# The greatest number of rows in a table of costs beside a log.
MOST_LOG_COST_ROWS = 131_072
# The greatest number of rows in the table of capacities.
MOST_CAPACITY_ROWS = 1_024
# The greatest number of rows in a log.
MOST_LOG_ROWS = 10_000_000
# The greatest number of fronts that may share one plan.
MOST_FRONTS = 64
# The greatest length of the name of a region or a site, in octets.
LONGEST_NAME = 64
# The greatest length of a handle, in octets.
LONGEST_HANDLE = 4_096
# The greatest count of a row of the demand, in queries.
GREATEST_COUNT = 1_000_000
# The greatest cost of a query.
GREATEST_COST = 1_000_000
# The greatest capacity of a server, in queries.
GREATEST_CAPACITY = 1_000_000_000
# The greatest limit of a host: the queries that its servers may take together.
GREATEST_LIMIT = 1_000_000_000_000
# The greatest price in a certificate.
GREATEST_PRICE = 1_000_000_000_000
# The greatest sum in a certificate: a cost, a demand or a capacity.
GREATEST_SUM = 10_000_000_000_000_000
# The greatest size of a file that is read whole, in octets.
LARGEST_FILE = 67_108_864
# The greatest length of the first line of an input, in octets.
LONGEST_FIRST_LINE = 65_536
# The greatest length of a row that reaches a responder whole, in octets.
LONGEST_ROW = 1_048_576
# The greatest count of a row of a log.
GREATEST_ROW_COUNT = 1_000_000_000_000
# The greatest number of queries of a class that go to a server.
GREATEST_AMOUNT = 1_000_000_000_000
# The greatest number of classes.
MOST_CLASSES = 1_048_576

NAME_RULE = f"a name has only ASCII letters, digits, '-', '_' and '.', and at most {LONGEST_NAME} of them"
