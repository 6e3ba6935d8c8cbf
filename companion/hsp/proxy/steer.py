"""`hsp steer`: keeps the plan by which HAProxy answers in step with what servers were given."""

import contextlib
import fcntl
import math
import os
import re
import signal
import time
from collections.abc import Callable, Collection, Iterable, Iterator
from dataclasses import dataclass, field, replace
from fractions import Fraction
from typing import Any

import click

from hsp.base.ends import ended
from hsp.base.files import refuse_clashes, refuse_no_file, replace_all
from hsp.base.held import Watched
from hsp.base.numbers import queries_of, some
from hsp.base.options import ANY_FILE, PathName, Run, idle, is_word
from hsp.base.paths import path_in, shell_word
from hsp.base.programs import Missing, Programs, Refused
from hsp.base.text import give, say
from hsp.base.unfit import Unfit
from hsp.doctor.service_folder import read_in, sound, with_files
from hsp.plans.service import NAMES, Service, read_service
from hsp.proxy.config import CONFIG, COSTS, PLAN, PRICES, SITES, socket_in
from hsp.proxy.proxies import Proxies, Unwritten
from hsp.proxy.standing import STATE, line_of, metrics_text, state_in, table_lines
from hsp.plans.titles import seconds_of
from hsp.proxy.steering import FAULTS, Steering
from hsp.scenarios.reserve import RESERVE, forgotten, reserved

LOCK, NOTHING = "steer.lock", Fraction(0)
# A plan is late after so many times the seconds from plan to plan, and so many seconds, which planning may take.
LATE, LEAST_LATE = 3, 10
# Why figures need a regular file.
FIGURES = "hsp steer writes its figures there anew, time and again"
# HAProxy is asked at least once in so many seconds whether a server is lost or has returned.
TICK = 1.0
# A day, and a year.
MOST_EVERY, MOST_PERIOD = 86_400, 31_622_400
UNITS = {"s": 1, "m": 60, "h": 3_600, "d": 86_400}


@contextlib.contextmanager
def _alone(folders: Iterable[str]) -> Iterator[None]:
    """Refuses a second run for a proxy. The kernel unlocks the files when a run ends, however it ends."""
    with contextlib.ExitStack() as stack:
        for path in (path_in(folder, LOCK) for folder in folders):
            descriptor = os.open(path, os.O_RDWR | os.O_CREAT | os.O_NOFOLLOW | os.O_CLOEXEC, 0o666)
            stack.callback(os.close, descriptor)
            try:
                fcntl.flock(descriptor, fcntl.LOCK_EX | fcntl.LOCK_NB)
            except BlockingIOError:
                raise Missing(f"{path}: another hsp steer keeps this proxy in step") from None
        yield


def _text(fault: BaseException) -> str:
    """A fault in one line."""
    if isinstance(fault, OSError):
        return f"{fault.filename}: {fault.strerror}" if fault.filename else str(fault.strerror or fault)
    if isinstance(fault, Refused):
        return f"hsplan refuses these files: {fault.line}" if fault.line else f"hsplan was ended ({fault.status})"
    return fault.message if isinstance(fault, Unfit) else str(fault)


def read_anew(folder: str, given: dict[str, str | None], programs: Programs, part: Fraction = NOTHING) -> Service:
    """A folder that is read anew. hsplan's line says what is wrong with it."""
    for path in read_in(folder, given):
        refuse_no_file(path, "hsp steer reads its files anew")
    return _with_sites(reserved(read_service(folder, programs, given), part, programs))


def _with_sites(service: Service) -> Service:
    if not service.sites:
        raise Unfit(f"{service.inputs.settings}: no site, so nobody can answer")
    return service


@dataclass
class _Loop:
    """Steps in turn, until a signal ends it."""

    steering: Steering
    folder: str
    given: dict[str, str | None]
    every: float
    metrics: str | None
    watched: Watched
    reserve: Fraction = NOTHING
    # What was said last of faults of each kind, and of each proxy; whether there is a shortage; whether SIGHUP came.
    _said: dict[str, str] = field(default_factory=dict)
    _lost: dict[str, str] = field(default_factory=dict)
    _refused: str = ""
    _is_short: bool = False
    _is_asked: bool = False
    _due: float = 0.0

    def ask(self, *_: Any) -> None:
        """Has the folder read anew."""
        self._is_asked = True

    def _try(self, kind: str, done: Callable[[], bool]) -> None:
        """Does something. A fault is said once until it is done again, and HAProxy goes on by its last map."""
        try:
            if done():
                self._said.pop(kind, None)
        except FAULTS as fault:
            if isinstance(fault, OSError) and fault.filename is None:  # standard output is gone
                raise
            line = _text(fault) + ("" if isinstance(fault, Unwritten) else f"; {kind}")
            if line != self._said.get(kind):
                say(f"hsp: {line}", err=True)
                with contextlib.suppress(Unwritten):
                    self.steering.keep(line)
            self._said[kind] = line

    def reload(self) -> None:
        """Reads the folder anew. Where it is broken, the old plan stays."""
        self._is_asked = False
        self.watched.are_read()
        programs = Programs()
        try:
            self.steering.take(read_anew(self.folder, self.given, programs, self.reserve))
            self._refused = ""
        except FAULTS as fault:
            is_refused = isinstance(fault, Refused) and fault.line
            doctor = f" (hsp doctor {shell_word(self.folder)})" if is_refused else ""
            line = f"hsp: {self.folder} isn't read anew: {_text(fault)}; the old plan stays{doctor}"
            if line != self._refused:
                say(line, err=True)
            self._refused = line
        finally:
            programs.close()

    def _say_lost(self) -> None:
        """Says which proxies don't have the plan that others have, once, and when they have it again."""
        lost = {folder: _text(fault) for folder, fault in self.steering.faults().items()}
        for folder, fault in lost.items():
            if self._lost.get(folder) != fault:
                say(f"hsp: {folder} keeps its last map, and its last counts: {fault}", err=True)
        for folder in self._lost:
            if folder not in lost:
                say(f"hsp: {folder} has the plan again", err=True)
        self._lost = lost

    def step(self) -> None:
        """Plans, swaps, and says how servers stand."""
        state = self.steering.step(self.steering.read())
        self._say_lost()
        if state.left_out and not self._is_short:
            why = "no room for them within capacities, so they go where the folder's own plan sends them"
            say(f"hsp: a shortage: {queries_of(state.left_out)} of the rest of this period: {why}", err=True)
        if self._is_short and not state.left_out:
            say("hsp: the shortage is over", err=True)
        self._is_short = bool(state.left_out)
        try:
            self.steering.keep()
        finally:
            give(line_of(state))

    def measure(self) -> bool:
        """Writes the figures of the plan in force."""
        if self.metrics and self.steering.state:
            refuse_no_file(self.metrics, FIGURES)
            replace_all({self.metrics: metrics_text(self.steering.state, time.time()).encode()})
        return True

    def _step_if_due(self) -> bool:
        """One look at HAProxy, and a step where it is time or something has changed."""
        if time.monotonic() < self._due and not self.steering.has_turned(self.steering.read()):
            return False
        if self.steering.is_exported_anew():
            self.reload()
        self._due = time.monotonic() + self.every
        self.step()
        return True

    def run(self) -> None:
        """Turns until a signal ends it. The figures say how old the plan is, so they are written each time."""
        before = signal.signal(signal.SIGHUP, self.ask)
        try:
            while True:
                if self.watched.have_changed() or self._is_asked:
                    self.reload()
                self._try("the last map stays", self._step_if_due)
                self._try("the figures aren't written", self.measure)
                time.sleep(min(TICK, self.every, self.steering.until_turn(time.time())))
        finally:
            signal.signal(signal.SIGHUP, before)


class Seconds(click.FloatRange):
    """A number of seconds, or of minutes, hours or days, as 90m, 1h or 1d."""

    def convert(self, value: Any, param: click.Parameter | None, context: click.Context | None) -> Any:
        match = re.fullmatch(r"([0-9]{1,8}(?:\.[0-9]{1,9})?)([smhd])", str(value))
        return super().convert(float(match[1]) * UNITS[match[2]] if match else value, param, context)


def _number(_: click.Context, option: click.Parameter, value: float) -> float:
    """A number, which nan isn't though it is in each range."""
    if math.isnan(value):
        raise click.BadParameter(f"{value} is no number of seconds", param=option)
    return value


def _files(folder: str, folders: Collection[str], given: dict[str, str | None], metrics: str | None) -> None:
    """Refuses a file of figures that is one of the others, and a proxy that is given twice."""
    real = [os.path.realpath(into) for into in folders]
    for at, into in enumerate(folders):
        if real[at] in real[:at]:
            raise Unfit(f"{into}: this proxy is given twice")
    written = [PLAN, PRICES, SITES, COSTS, STATE, LOCK]
    read, own = read_in(folder, given), list[str]()
    for into in folders:
        state = path_in(into, STATE)
        if os.path.islink(state) or os.path.lexists(state) and not os.path.isfile(state):
            raise Unfit(f"{state}: no file of its own; hsp steer writes its counts there")
        maps = [name for name in os.listdir(into) if name.endswith(".map") and name not in written]
        read += [path_in(into, name) for name in (CONFIG, *maps)]
        own += [path_in(into, name) for name in written]
    if metrics:
        refuse_no_file(metrics, FIGURES)
    refuse_clashes(read, own + ([metrics] if metrics else []))


def _show(folders: Collection[str]) -> None:
    """Prints how servers stand now, by all proxies that are steered together."""
    state, counts = max((state_in(folder) for folder in folders), key=lambda own: own[0].made)
    others = [folder for folder in state.proxies if os.path.isfile(path_in(folder, CONFIG))]
    proxies = Proxies(dict.fromkeys([os.path.abspath(folder) for folder in folders] + others))
    now = proxies.read(counts.length, len(state.servers))
    counts = proxies.counts(now.at, counts.length)
    say(*table_lines(state.given(counts, now.down), counts, now.at))
    for own in (own for own in proxies.all if not own.now):
        say(f"{own.folder} doesn't answer; its last counts are among these")
    age = now.at - state.made
    if state.every and age > max(LATE * state.every, LEAST_LATE):
        with contextlib.suppress(Missing, OSError), _alone(folders):
            state = replace(state, fault="hsp steer isn't running")
        ended(1, f"no plan came for {some(round(age), 'second')}: {state.fault or 'hsp steer is still planning'}")


def beside_status(run: Run) -> Run:
    """Refuses what is of plans where only loads are printed."""
    own = ("--once", "--every", "--period", "--metrics", "--reserve")
    for option in (*own, *(f"--{role}" for role in (*NAMES, "values"))):
        run = idle(option, "--status", why="nothing is planned")(run)
    return run


@click.command()
@with_files
@click.option(
    "--into",
    "folders",
    metavar="PROXY",
    required=True,
    multiple=True,
    type=PathName(file_okay=False),
    help="the folder that hsp export wrote; several for several proxies",
)
@click.option(
    "--every",
    default=10.0,
    show_default=True,
    type=click.FloatRange(0.1, MOST_EVERY),
    help="seconds from plan to plan",
    callback=_number,
)
@click.option(
    "--period",
    default=3600.0,
    show_default=True,
    type=Seconds(1, MOST_PERIOD),
    callback=_number,
    help="seconds in which the demand comes, and for which capacities are; or 90m, 1h, 1d; those of hsp.toml first",
)
@click.option("--metrics", metavar="FILE", type=ANY_FILE, help="figures for Prometheus' textfile collector")
@click.option("--once", is_flag=True, help="one plan, and the end")
@click.option("--status", is_flag=True, help="only prints the loads of now against plan and capacity")
@RESERVE
@idle("--every", "--once", why="there is one plan")
@beside_status
def steer(folder: str, folders: tuple[str, ...], every: float, period: float, **given: Any) -> None:
    """Keeps the plan in step by which HAProxy answers.

    Every --every seconds the rest of the period is planned from what each server was given, and HAProxy's map is
    swapped. If this command ends, HAProxy goes on by its last map. Of several proxies the counts are added up, and
    all have one plan.
    """
    metrics, is_once, is_status, reserve = (given.pop(key) for key in ("metrics", "once", "status", "reserve"))
    if is_status:
        _show(folders)
        return
    for into in folders:
        socket_in(into)
    _files(folder, folders, given, metrics)
    with _alone(folders), contextlib.closing(Programs()) as programs:
        watched = Watched(read_in(folder, given))
        service = _with_sites(reserved(sound(folder, programs, given), reserve, programs))
        if line := forgotten(service, programs):
            say(f"hsp: {line}", err=True)
        period = period if is_word(click.get_current_context(), "period") else seconds_of(folder) or period
        steering = Steering(folders, service, period, 0.0 if is_once else every)
        loop = _Loop(steering, folder, given, every, metrics, watched, reserve)
        if is_once:
            loop.step()
            loop.measure()
        else:
            loop.run()
