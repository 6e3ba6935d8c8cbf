"""Times in access logs: HAProxy's timers, Apache's %D, nginx's $request_time with $upstream_addr, and those of a
handle server; and times of pings: of fping, of SmokePing by rrdtool, and in the results of RIPE Atlas."""

import re
from collections.abc import Callable, Sequence
from typing import Any

from hsp.intake.forms import Form, ODD, Odd, QUOTED
from hsp.measures.timed import Found, NO_ANSWER, NO_NUMBER, Take, Timed, UNITS, milliseconds_of, times_of


FAILED, SEVERAL = "answered with a fault of the server", "asked of several servers in turn"
NO_TIME, MANY = "no time behind the request", "several whole numbers behind the request; give --regex"
# Behind the time in HAProxy's log: frontend, backend/server, the timers TR/Tw/Tc/Tr/Ta, and the status.
TIMERS = re.compile(rb"\] \S+ (\S+) -?\d+/-?\d+/(-?\d+)/(-?\d+)/\+?-?\d+ (-?\d{1,3}) ")
# The words behind a request: in quotes, behind the name of a field, or bare.
WORD = re.compile(r'(?:[A-Za-z_]+[=:])?(?:"((?:[^"\\]|\\.)*)"|([^\s,"]+(?:, [^\s,"]+)*))')
SECONDS, WHOLE = re.compile(r"[0-9]+\.[0-9]{3}"), re.compile(r"[0-9]+")
UPSTREAM = re.compile(r"(?:[0-9.]+|\[[0-9a-fA-F:]+\]):[0-9]{1,5}|unix:\S+", re.ASCII)
# What a line has behind what its form knows: the server, the time and the status; or the reason why it has none.
Behind = tuple[str, float, int] | str


def _of_httplog(line: bytes, unit: str) -> Behind:
    """By HAProxy's timers: until the server was connected, and until its answer began. What waited isn't counted."""
    match = TIMERS.search(line)
    if not match:
        return NO_NUMBER
    connect, answer, status = int(match[2]), int(match[3]), int(match[4])
    if answer < 0 or status < 100:
        return NO_ANSWER
    return match[1].decode("utf-8", "replace"), float(max(connect, 0) + answer), status


def _of_proxy(line: bytes, unit: str) -> Behind:
    """By what stands behind the usual fields: a number with three digits behind its point is one of seconds, as nginx
    has it, and the only whole one of microseconds, as Apache has it."""
    rest = line.partition(b'"')[2]
    request = QUOTED.match(rest)
    words = list(WORD.finditer(rest[request.end() if request else 0 :].decode("utf-8", "replace")))
    agents = next((at for at, own in enumerate(words[2:4]) if own[1] is None), 2)
    more = [own[2] if own[1] is None else own[1] for own in words[2 + agents :]]
    seconds, wholes = ([own for own in more if form.fullmatch(own)] for form in (SECONDS, WHOLE))
    if not seconds and len(wholes) != 1:
        return MANY if wholes else NO_TIME
    if not WHOLE.fullmatch(words[0][0]):
        return ODD
    servers = next((own.split(", ") for own in more if UPSTREAM.fullmatch(own.split(", ")[0])), [""])
    if len(servers) > 1:
        return SEVERAL
    time = milliseconds_of((seconds or wholes)[0], UNITS[unit or ("s" if seconds else "us")])
    return time if isinstance(time, str) else (servers[0], time, int(words[0][0][:3]))


def _of_server(line: bytes, unit: str) -> Behind:
    """By the duration that a handle server writes."""
    time = milliseconds_of(line.split(b" ", 7)[6].decode("utf-8", "replace").removesuffix("ms"))
    return time if isinstance(time, str) else ("", time, 200)


BEHIND: dict[str, Callable[[bytes, str], Behind]] = {"proxy": _of_proxy, "httplog": _of_httplog, "server": _of_server}


def of_log(name: str, unit: str) -> Take:
    """How the lines of a log of this form are read."""
    form = Form(name)
    query, clock = form.take(b""), form.clock(b"")

    def take(line: bytes) -> Found:
        try:
            client, handle = query(line)
        except Odd:
            return [ODD]
        found = handle if isinstance(handle, str) else BEHIND[name](line, unit)
        if isinstance(found, str) or found[2] >= 500:
            return [found if isinstance(found, str) else FAILED]
        moment = clock(line)
        second = moment.seconds if moment else None
        return [Timed(client.decode("utf-8", "replace"), *found[:2], second=second)]

    return take


OTHER_RESULT, NOT_REACHED = "neither a ping nor a traceroute", "a traceroute that didn't come to its end"
# `192.0.2.1 : [0], 64 bytes, 0.05 ms (..)`, `.. : 0.05 0.04 -`, and `192.0.2.1 is alive (0.05 ms)`.
TARGET = r"(?:\[[0-9.]+\] )?(\S+)(?: \((\S+)\))?"
EACH = [
    re.compile(TARGET + times)
    for times in (
        r"\s+: \[\d+\], (?:\d+ bytes, ([0-9.]+) ms.*|timed out.*)",
        r"\s+:((?: (?:[0-9.]+|-))+)\s*",
        r" is alive \(([0-9.]+) ms\)",
    )
]
SUM = re.compile(rf"{TARGET}\s+: xmt/rcv/%loss = [^,]*(?:, min/avg/max = [0-9.]+/([0-9.]+)/[0-9.]+)?\s*")
LOST = re.compile(rf"{TARGET} (?:is unreachable|address not found)|ICMP .*")
# A row of rrdtool, and the columns that SmokePing has in it.
ROW, PING = re.compile(r"[0-9]{6,12}: (.*)"), re.compile(r"ping[0-9]+")


def _match(line: bytes, *forms: re.Pattern[str]) -> re.Match[str] | None:
    text = line.decode("utf-8", "replace")
    return next(filter(None, (form.fullmatch(text) for form in forms)), None)


def is_fping(line: bytes) -> bool:
    return bool(_match(line, *EACH, SUM, LOST))


def of_fping(lines: Sequence[bytes]) -> Take:
    """How lines are read of fping's options -C and -c, and of none of them. Averages count where nothing else is."""
    has_each = any(_match(line, *EACH) for line in lines)

    def take(line: bytes) -> Found:
        match = _match(line, *EACH, SUM)
        if not match:
            return [] if _match(line, LOST) else ["not a line of fping"]
        name, address, times = match.groups()
        if match.re is SUM and (has_each or not times):
            return []
        return times_of((times or "-").split(), Timed(server=address or name))

    return take


def of_smokeping(header: bytes) -> Take | None:
    """How the rows of `rrdtool fetch` are read, which name neither who pinged nor whom; none of another header."""
    names = header.decode("utf-8", "replace").split()

    def take(line: bytes) -> Found:
        match = _match(line.strip(), ROW)
        row = match[1].split() if match else []
        if len(row) != len(names):
            return ["not a row of rrdtool"]
        pings = (word for name, word in zip(names, row) if PING.fullmatch(name))
        return [own for own in times_of(pings, Timed(), UNITS["s"]) if own != NO_ANSWER] or [NO_ANSWER]

    return take if {"loss", "median", "ping1"} <= {*names} else None


def _objects(said: Any) -> list[dict[str, Any]]:
    return [own for own in said if isinstance(own, dict)] if isinstance(said, list) else []


def of_atlas(said: Any) -> Found:
    """The pings of a result, or the answers of the last hop of a traceroute that came to its end."""
    kind = said.get("type") if isinstance(said, dict) else ""
    if kind not in ("ping", "traceroute"):
        return [OTHER_RESULT]
    answers, why = _objects(said.get("result")), NO_ANSWER
    if kind == "traceroute":
        hops, why = [_objects(hop.get("result")) for hop in answers], NOT_REACHED
        answers = [own for hop in hops[-1:] for own in hop if own.get("from") == said.get("dst_addr")]
    server = str(said.get("dst_addr") or said.get("dst_name") or "")
    known = Timed(str(said.get("from", "")), server)
    return list(times_of((str(own.get("rtt", "*")) for own in answers), known)) or [why]
