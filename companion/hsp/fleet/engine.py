"""A cluster whose workers hold a run's files, and parts that are waited for."""

import contextlib
import functools
import importlib
import logging
import os
import socket
import sys
import time
import uuid
from collections.abc import Callable, Mapping, Sequence
from dataclasses import dataclass
from typing import Any
from urllib.parse import urlsplit

from hsp.base.ends import BROKEN, OUT_OF_MEMORY
from hsp.base.files import locked
from hsp.base.programs import Missing
from hsp.base.text import say
from hsp.fleet.local import Gone, Local

Reply = dict[str, Any]
NO_WORKER = 3
# What stands for the reply of a part that isn't there.
NOT_YET: Reply = {"not": "yet"}


class Unfinished(Exception):
    """A run that ends with a status of its own, and one line."""

    def __init__(self, status: int, line: str) -> None:
        super().__init__(line)
        self.status = status


@dataclass(frozen=True)
class Place:
    """Where parts run: on so many processes of this machine, or on the workers of a scheduler."""

    scheduler: str | None = None
    workers: int | None = None
    keys: tuple[str | None, str | None, str | None] = (None, None, None)
    patience: float = 60
    retries: int = 2


class ByValue:
    """Something that is sent to workers with its code."""

    def __init__(self, what: Any) -> None:
        pickle: Any = importlib.import_module("cloudpickle")
        pickle.register_pickle_by_value(importlib.import_module("hsp.fleet.remote"))
        self._octets: bytes = pickle.dumps(what)
        self._loads = pickle.loads

    def __reduce__(self) -> tuple[Any, tuple[bytes]]:
        return self._loads, (self._octets,)

    def __call__(self) -> None:
        raise AssertionError("it is called at the workers only")


def refuses(address: str) -> bool:
    """Whether a machine is there and nothing listens at its port: then no waiting helps."""
    try:
        place = urlsplit(address)
        socket.create_connection((place.hostname or "", place.port or 0), timeout=5).close()
    except ConnectionRefusedError:
        return True
    except (OSError, ValueError):  # Dask says what is wrong, or waits for the machine
        return False
    return False


def reason_of(fault: Exception) -> str:
    """The first line of a fault, or its name where it has none."""
    return str(fault).splitlines()[0] if str(fault) else type(fault).__name__


def needed() -> Any:
    """Dask's scheduler, which only these commands need."""
    try:
        found = importlib.import_module("distributed")
    except ImportError:
        raise Missing("Python has no distributed: install it (Debian: python3-distributed)") from None
    # What Dask logs of lost workers is no fault of the run, nor what its connections raise when Python ends.
    logging.disable(logging.CRITICAL)
    sys.unraisablehook = lambda _: None
    return found


class Engine:
    """The client of a run."""

    def __init__(self, place: Place) -> None:
        self._dask = needed()
        self.remote = importlib.import_module("hsp.fleet.remote")
        self.run, self._place = uuid.uuid4().hex[:8], place
        self.seal: Any = None
        self._sent: dict[str, ByValue] = {}
        self._futures: list[Any] = []
        self._hosts: set[str] = set()
        self.is_publishing = False
        self._client: Any = None
        self.local = None if place.scheduler else Local(place.workers or len(os.sched_getaffinity(0)))
        try:
            self._connect()
        except BaseException:
            self.close()
            raise

    def _connect(self) -> None:
        patience, keys = self._place.patience, self._place.keys
        if self.local:
            keys = self.local.certificate, self.local.certificate, self.local.key
        secured: Any = None
        if any(keys):
            for file in filter(None, keys):  # Dask doesn't name the one that it can't read
                open(file, "rb").close()
            names = dict(zip(("tls_ca_file", "tls_client_cert", "tls_client_key"), keys))
            secured = self._dask.Security(require_encryption=True, **names)
        address = self.local.address(patience) if self.local else self._place.scheduler or ""
        if refuses(address):
            raise Gone(f"no scheduler answers at {address}: connection refused")
        try:
            self._client = self._dask.Client(address, security=secured, timeout=patience, set_as_default=False)
        except Exception as fault:  # Dask raises many kinds here, of which some name no file and no reason
            raise Gone(f"no scheduler answers at {address}: {reason_of(fault)}") from None

    def close(self) -> None:
        """Leaves the cluster as it was."""
        if self._client:
            with contextlib.suppress(Exception):
                if self.seal and not self.local and self._client.status == "running":
                    self._client.unregister_worker_plugin(self.seal.mark)
            with contextlib.suppress(Exception):
                self._client.close(timeout=2)
        if self.local:
            self.local.close()

    def workers(self) -> dict[str, Any]:
        self._alive()
        try:
            found: dict[str, Any] = self._client.scheduler_info()["workers"]
        except Exception:
            raise Gone("the scheduler has gone away") from None
        return found

    def _alive(self) -> None:
        if self.local:
            self.local.tend()
        if self._client.status not in ("running", "connecting"):
            raise Gone("the scheduler has gone away")

    def ship(self, files: Mapping[str, bytes], installed: bool = False) -> None:
        """Gives each worker the files, and names those that aren't fit. Installed programs have only their sums
        sent."""
        sums = {name: self.remote.sum_of(octets) for name, octets in files.items()}
        self.seal = self.remote.Seal(sums, installed)
        sent = {name: file for name, file in files.items() if not (installed and name in self.remote.PROGRAMS)}
        wanted, until = self.local.number if self.local else 1, time.monotonic() + self._place.patience
        while len(self.workers()) < wanted and time.monotonic() < until:
            time.sleep(0.05)
        refusals = self._refusals(self.remote.Mark(sent, self.seal))
        for name, reason in sorted(refusals.items()):
            if reason:
                say(f"hsp: worker {name} gets no part: {reason}", err=True)
        if all(refusals.values()):
            raise Unfinished(NO_WORKER, "no worker is fit" if refusals else "the scheduler has no worker")

    def _refusals(self, mark: Any) -> dict[str, str | None]:
        """Why a worker got no mark, or none, by its address. A worker that ends meanwhile is asked no more."""
        seek = ByValue(functools.partial(self.remote.refusal, mark.name))
        for last in (False, False, True):
            others = self._other_pythons()
            try:
                with self._asked():
                    self._client.register_worker_plugin(ByValue(mark), name=mark.name)
                    rest = [worker for worker in self.workers() if worker not in others]
                    return {**others, **(self._client.run(seek, workers=rest) if rest else {})}
            except Gone:
                if last:
                    raise
                time.sleep(0.5)
        raise AssertionError("the last try ends here")

    def _other_pythons(self) -> dict[str, str]:
        """The workers that can't read what this Python sends."""
        with self._asked():
            versions = self._client.get_versions()["workers"]
        own = ".".join(map(str, sys.version_info[:2]))
        pythons = {
            name: str(version["host"]["python"]) if version else "unknown" for name, version in versions.items()
        }
        return {
            name: f"its Python is {version}, not {own}"
            for name, version in pythons.items()
            if not version.startswith(f"{own}.")
        }

    @contextlib.contextmanager
    def _asked(self) -> Any:
        """Turns the faults of a cluster that goes away into one."""
        try:
            yield
        except (Gone, Unfinished):
            raise
        except Exception as fault:
            raise Gone(f"the scheduler has gone away: {reason_of(fault)}") from None

    def host(self, name: str) -> str:
        """The address of a host as Dask knows it."""
        names = {name}
        with contextlib.suppress(OSError):
            names |= {str(address[4][0]) for address in socket.getaddrinfo(name, None)}
        for worker in self.workers().values():
            if self._is_fit(worker) and (worker["host"] in names or worker.get("name") == name):
                self._hosts.add(str(worker["host"]))
                return str(worker["host"])
        raise Unfinished(NO_WORKER, f"no fit worker is at {name}")

    def _is_fit(self, worker: Reply) -> bool:
        return bool(worker.get("resources", {}).get(self.seal.mark))

    def submit(self, request: Reply, host: str | None = None) -> Any:
        """A part, whose request is plain."""
        return self._submit("part", {**request, "run": self.run, "at": os.getcwd()}, host=host)

    def head(self, part: Any) -> Any:
        """A part's reply without its table."""
        return self._submit("head", part, priority=100)

    def _submit(self, name: str, *arguments: Any, host: str | None = None, priority: int = 0) -> Any:
        if name not in self._sent:
            function = getattr(self.remote, name)
            self._sent[name] = ByValue(functools.partial(function, self.seal) if name == "part" else function)
        with self._asked():
            future = self._client.submit(
                self._sent[name],
                *arguments,
                key=f"{name}-{self.run}-{uuid.uuid4().hex[:12]}",
                pure=False,
                retries=self._place.retries,
                priority=priority,
                resources={self.seal.mark: 1},
                workers=[host] if host else None,
            )
        self._futures.append(future)
        return future

    def publish(self, files: Sequence[tuple[list[str], Reply, str | None]]) -> None:
        """Gives all files their names, at their hosts: paths, reply and host of each part. It isn't interrupted."""
        self.is_publishing = True
        futures = []
        with locked(os.path.dirname(path) for paths, _, host in files if host is None for path in paths):
            for paths, reply, host in files:
                words = self.run, paths, reply["attempt"], reply["inodes"]
                if host is None:
                    self.remote.publish(*words)
                else:
                    futures.append(self._submit("publish", *words, host=host))
            self.outcomes(futures)

    def end(self, targets: list[tuple[list[str], str | None]]) -> None:
        """Ends all parts, leaves the cluster, and takes away what isn't published: beside paths, at a host or here."""
        with contextlib.suppress(Exception):
            if not self.local and self.seal and self._client.status == "running":
                self._client.cancel(self._futures, force=True)
                self._sweep_hosts(targets)
        self.close()
        for paths, host in targets:
            if host is None:
                self.remote.sweep(paths, self.run)

    def _sweep_hosts(self, targets: list[tuple[list[str], str | None]]) -> None:
        """Takes away what isn't published at those hosts that can still be asked."""
        away = []
        for paths, name in targets:
            with contextlib.suppress(Unfinished):
                away += [self._submit("sweep", paths, self.run, host=self.host(name))] if name else []
        until = time.monotonic() + 10
        while any(worker.status == "pending" for worker in away) and time.monotonic() < until:
            time.sleep(0.02)

    def outcomes(
        self, futures: list[Any], show: Callable[[list[Reply]], None] = lambda done: None, every: bool = False
    ) -> list[Reply]:
        """The replies in the order of their parts.

        A fault ends the run, unless every reply is wanted. Parts behind it are let go, and those before it are waited
        for: so of several faults the first part's is reported, whatever came first.
        """
        replies: dict[int, Reply] = {}
        last, fit = len(futures), time.monotonic()
        while len(replies) < last:
            self._alive()
            for at in [
                number for number in range(last) if number not in replies and futures[number].status != "pending"
            ]:
                reply = self._reply(futures[at]) if at < last else NOT_YET
                if reply is not NOT_YET:
                    replies[at] = reply
                    if not every and reply and "fault" in reply:
                        self._client.cancel(futures[at + 1 :], force=True)
                        last = at + 1
                        replies = {key: own for key, own in replies.items() if key < last}
            show(list(replies.values()))
            fit = self._fit(fit)
            time.sleep(0.02)
        found = [replies[number] for number in range(last)]
        if not every and found and found[-1] and "fault" in found[-1]:
            raise Unfinished(found[-1]["status"], found[-1]["fault"])
        return found

    def _fit(self, last: float) -> float:
        """When fit workers were seen last, at each host that has a part. Without them a run ends after some time."""
        now = time.monotonic()
        if now - last < 2:
            return last
        hosts = {str(worker["host"]) for worker in self.workers().values() if self._is_fit(worker)}
        lacking = sorted(self._hosts - hosts)
        if hosts and not lacking:
            return now
        if now - last > self._place.patience:
            where = f" at {lacking[0]}" if lacking else ""
            raise Unfinished(NO_WORKER, f"no fit worker was there{where} for {self._place.patience:.0f} seconds")
        return last

    def _reply(self, future: Any) -> Reply:
        if future.status in ("cancelled", "lost"):
            self._alive()
            raise Gone("the scheduler has lost a part of the run")
        try:
            reply: Reply = future.result(timeout=5)
            return reply
        except TimeoutError:
            return NOT_YET  # its worker has gone meanwhile, and another one repeats it
        except MemoryError:
            raise Unfinished(OUT_OF_MEMORY, "out of memory") from None
        except OSError as fault:
            self._alive()  # the way to the scheduler may be what has ended
            raise Unfinished(BROKEN, str(fault)) from None
        except Exception as fault:
            self._alive()
            if type(fault).__name__ == "KilledWorker":
                raise Unfinished(BROKEN, "a part of the run has killed each worker that it ran on") from None
            raise Unfinished(BROKEN, f"a part of the run failed: {type(fault).__name__}: {fault}") from None
