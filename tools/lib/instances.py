"""Drawn instances at the limits, drawn logs, and what a run over them takes."""

import hashlib
import os
import random
import subprocess
import sys
import tempfile
from collections.abc import Iterable, Mapping, Sequence
from typing import NamedTuple

SITES, SERVERS, REGIONS, ROWS = 32, 32, 64, 8192
# The rows of a demand, their counts, and the options that name the files of an instance.
Instance = tuple[list[str], list[int], list[str]]


def address(number: int) -> bytes:
    """The address of a machine, 16 octets."""
    return (number + 1).to_bytes(16, "big")


def record(site: int, hosts: int) -> str:
    """A site record that hashes the whole handle. Its servers have no key and no interface; the servers of all sites
    stand on as many machines as `hosts` says."""
    head = bytes.fromhex("0001" "0201" "0001" "00" "02") + bytes(4) + bytes(4) + SERVERS.to_bytes(4, "big")
    numbers = range(site * SERVERS, (site + 1) * SERVERS)
    return (head + b"".join(it.to_bytes(4, "big") + address(it % max(hosts, 1)) + bytes(8) for it in numbers)).hex()


def write(folder: str, name: str, lines: Iterable[str]) -> str:
    path = os.path.join(folder, name)
    with open(path, "w") as file:
        file.writelines(f"{line}\n" for line in lines)
    return path


def put(folder: str, files: Mapping[str, Iterable[str]]) -> list[str]:
    """Writes files by their lines. Returns the options that name them."""
    named = [(f"--{name.partition('.')[0]}", write(folder, name, lines)) for name, lines in files.items()]
    return [word for pair in named for word in pair]


def inputs(folder: str, draw: random.Random, factor: float = 1.5, hosts: int = 0, times: int = 1) -> Instance:
    """The rows, their counts, and the options with the files of an instance. Its capacity is the factor times its
    demand. The limits of its hosts together are three fifths of its capacity."""
    counts = [times * draw.randint(1, 3000) for _ in range(ROWS)]
    rows = [f"region-{draw.randrange(REGIONS)},20.500.12345/object-{row:06}" for row in range(ROWS)]
    capacity = int(factor * sum(counts)) // (SITES * SERVERS)
    sites = [f'[[site]]\nname = "site-{site}"\nrecord = "{record(site, hosts)}"' for site in range(SITES)]
    limits = [
        f'[[host]]\naddress = "{address(host).hex()}"\nlimit = {3 * SITES * SERVERS * capacity // (5 * hosts)}'
        for host in range(hosts)
    ]
    pairs = [(region, site) for region in range(REGIONS) for site in range(SITES)]
    costs = [f"region-{region},site-{site},{draw.randrange(1000)}" for region, site in pairs]
    servers = [(site, site * SERVERS + place) for site in range(SITES) for place in range(SERVERS)]
    files = {
        "settings.toml": sites + limits,
        "demand.csv": ["region,handle,count", *(f"{row},{count}" for row, count in zip(rows, counts))],
        "costs.csv": ["region,site,cost", *costs],
        "capacity.csv": ["site,server_id,capacity", *(f"site-{site},{own},{capacity}" for site, own in servers)],
    }
    return rows, counts, put(folder, files)


def log(folder: str, name: str, lines: Sequence[str], weights: Sequence[int], many: int, draw: random.Random) -> str:
    """A log of this many rows, with the first of the lines as its header. A block of a million rows is drawn, and written again and again in other orders."""
    path = os.path.join(folder, name)
    with open(path, "w") as file:
        file.write(lines[0] + "\n")
        block = draw.choices([line + "\n" for line in lines[1:]], weights, k=min(many, 1_000_000)) if many else []
        while many:
            draw.shuffle(block)
            file.write("".join(block[:many]))
            many -= min(many, len(block))
    return path


# A small process starts each run, since the peak of a run counts what its parent held when the run began.
BEGIN = """
import os, sys
os.chdir(sys.argv[1])
run = os.posix_spawn(sys.argv[2], sys.argv[2:], os.environ)
_, status, used = os.wait4(run, 0)
os.write(3, f"{os.waitstatus_to_exitcode(status)} {used.ru_utime + used.ru_stime} {used.ru_maxrss}".encode())
"""


class Spent(NamedTuple):
    """The status of a run, its processor seconds, its peak memory in megabytes, and its standard error."""

    status: int
    seconds: float
    megabytes: float
    reported: str


def spent_by(words: list[str], out: str = os.devnull, folder: str = ".") -> Spent:
    """What a run in a folder takes. What it prints goes to the file `out`."""
    reading, writing = os.pipe()
    begun = [sys.executable, "-S", "-E", "-c", BEGIN, folder, *words]
    with open(out, "wb") as printed, tempfile.TemporaryFile("w+") as reported:
        files = {1: printed.fileno(), 2: reported.fileno(), 3: writing}
        actions = [(os.POSIX_SPAWN_DUP2, file, number) for number, file in files.items()]
        started = os.posix_spawn(sys.executable, begun, os.environ, file_actions=actions)
        os.close(writing)
        with open(reading) as answer:
            status, seconds, memory = answer.read().split()
        os.waitpid(started, 0)
        reported.seek(0)
        return Spent(int(status), float(seconds), int(memory) / 1000, reported.read())


def digest_of(words: list[str], folder: str = ".") -> str:
    """The digest of what a run prints."""
    with subprocess.Popen(words, cwd=folder, stdout=subprocess.PIPE, stderr=subprocess.DEVNULL) as run:
        assert run.stdout
        return hashlib.file_digest(run.stdout, "sha256").hexdigest()  # type: ignore[arg-type]
