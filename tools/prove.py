#!/usr/bin/env python3
"""Proves the crates of the programs from nothing, those that do not need each other side by side, and builds the
programs.

The kit's prover, `rattle build`, makes a library, or a program, only of a crate that it has proved. The crate with the
longest chain of others above it gets all processors, up to four; the others get one each, and give way to it. It
prints how far it is: crates, minutes gone, and about how many are left, by the times of docs/maintain/GATE.md. Nothing
that was proved before is taken. This is not the gate: `make test` proves all crates by `rt ci`, with their edits and
tests.
"""
from __future__ import annotations

import os
import re
import shutil
import subprocess
import sys
import tempfile
import time
from typing import Optional

from lib import lanes, programs


class Kit:
    """Where the kit's prover, libraries and linker stand."""

    def __init__(self) -> None:
        page = subprocess.run(["rt", "doc"], stdout=subprocess.PIPE, text=True, check=True).stdout.strip()
        self.top = os.path.dirname(page)

    def path(self, *parts: str) -> str:
        return os.path.join(self.top, *parts)

    def libraries(self, crate: str) -> list[str]:
        """The kit's libraries that a crate uses: std, and what crates.txt lists beside the crates of this
        repository."""
        listed = programs.lines_of([crate])[0].split("#")[0].split(":")[1].split()
        return ["std"] + [it for it in listed if it not in programs.dependencies()]

    def build(self, crate: str, room: str, jobs: int) -> list[str]:
        """The command that proves a crate, and builds its library or its object file in the folder `room`."""
        below = programs.dependencies()
        is_program = crate in map(programs.crate_of, programs.PROGRAMS)
        words = [self.path("bin", "rattle"), "build", "--crate-name", crate]
        words += ["src/main.rt" if is_program else "src/lib.rt"]
        for name in self.libraries(crate):
            words += ["--extern", f"{name}={self.path('rlibs', name + '.rlib')}"]
        words += ["-L", f"dependency={self.path('rlibs')}", "-L", f"dependency={room}"]
        for name in below[crate]:
            words += ["--extern", f"{name}={os.path.join(room, name + '.rlib')}"]
        words += ["--antt-project", self.path("rattle", "logic", "antt-project.json")]
        words += ["--logic-built", self.path("logic_built"), "--links", f"{crate}="]
        made = ["--toolchain", self.path("toolchain"), "--backend", "llvm", "-o", os.path.join(room, crate + ".o")]
        library = ["--statements", "-o", os.path.join(room, crate + ".rlib")]
        return [*words, "--jobs", str(jobs), *(made if is_program else library)]

    def link(self, program: str, room: str) -> list[str]:
        """The command that links a program's object file with the C library."""
        words = [self.path("bin", "rattle-link"), "--target", "x86_64-unknown-linux-gnu"]
        words += ["--toolchain", self.path("toolchain"), "-o", os.path.join(room, program)]
        return [*words, os.path.join(room, f"{program}.o"), *(self.path("c", f"lib{it}_c.a") for it in ("os", "libc"))]


def seconds() -> dict[str, float]:
    """How long the proof of each crate takes about, as the gate's page has it."""
    rows = re.findall(r"^\| `(\w+)` \| (\d+) \|", programs.text_of("docs", "maintain", "GATE.md"), re.M)
    return {crate: float(number) for crate, number in rows}


class Plan:
    """The crates that are left, with how long each takes about, by itself and with the longest chain above it."""

    def __init__(self) -> None:
        self.left = programs.crates_of()
        below, known = programs.dependencies(), seconds()
        self.weights = {it: known.get(it, 100.0) for it in self.left}
        self.chains = dict(self.weights)
        for _ in self.left:
            for name in self.left:
                above = [self.chains[it] for it in self.left if name in below[it]]
                self.chains[name] = self.weights[name] + max(above, default=0.0)

    def ready(self, done: set[str]) -> list[str]:
        """The crates whose libraries are built, the one with the longest chain above it first."""
        below = programs.dependencies()
        return sorted((it for it in self.left if set(below[it]) <= done), key=lambda it: -self.chains[it])


class Run:
    """The proofs that are running, those that are done, and since when."""

    def __init__(self, kit: Kit, room: str) -> None:
        self.kit, self.room, self.plan = kit, room, Plan()
        self.whole = set(self.plan.left)
        self.done: set[str] = set()
        self.running: dict[str, subprocess.Popen[bytes]] = {}
        self.since: dict[str, float] = {}
        self.begun = time.monotonic()

    def left(self, crate: str) -> float:
        """About how many seconds are left of a crate's proof and of the longest chain above it."""
        since = self.since.get(crate)
        return self.plan.chains[crate] - (time.monotonic() - since if since else 0)

    def begin(self, crate: str) -> None:
        """Begins a proof: by all processors, up to four, where no other crate has a much longer way to go, and
        otherwise by one, which gives way the more, the shorter its way is."""
        part = self.left(crate) / max(map(self.left, self.whole - self.done))
        jobs = min(lanes.processors(), 4) if part > 0.95 else 1
        words = ["nice", "-n", str(round(19 * (1 - part)))] + self.kit.build(crate, self.room, jobs)
        self.since[crate] = time.monotonic()
        with open(os.path.join(self.room, crate + ".log"), "wb") as log:
            folder = os.path.join(programs.TOP, "crates", crate)
            self.running[crate] = subprocess.Popen(
                words, cwd=folder, stdin=subprocess.DEVNULL, stdout=log, stderr=subprocess.STDOUT
            )
        self.plan.left.remove(crate)

    def show(self, crate: str) -> None:
        gone = (time.monotonic() - self.begun) / 60
        proved, every = sum(self.plan.weights[it] for it in self.done), sum(self.plan.weights.values())
        rest = f", about {gone * (every - proved) / proved:.0f} left" if every / 20 < proved < every else ""
        print(f"crate {len(self.done)} of {len(self.whole)}: {crate} proved; {gone:.1f} minutes gone{rest}", flush=True)

    def ended(self) -> Optional[str]:
        """Takes what has ended, and returns the crate that was not proved, if there is one."""
        for crate, process in list(self.running.items()):
            status = process.poll()
            if status is not None:
                del self.running[crate]
                if status:
                    return crate
                self.done.add(crate)
                self.show(crate)
        return None

    def prove(self) -> Optional[str]:
        """Proves all crates, and returns the first that was not proved, if there is one."""
        limit = lanes.lanes()
        try:
            while self.done != self.whole:
                for crate in self.plan.ready(self.done)[: limit - len(self.running)]:
                    self.begin(crate)
                time.sleep(0.2)
                failed = self.ended()
                if failed:
                    return failed
        finally:
            for process in self.running.values():
                process.terminate()
        return None


def take(kit: Kit, room: str) -> bool:
    """Links the programs, and puts them where `rt ci` leaves them in this repository."""
    for name in programs.PROGRAMS:
        crate = programs.crate_of(name)
        linked = subprocess.run(kit.link(crate, room), stdout=subprocess.PIPE, stderr=subprocess.STDOUT, text=True)
        if linked.returncode:
            print(linked.stdout, end="")
            return False
        target = programs.built_path(name)
        os.makedirs(os.path.dirname(target), exist_ok=True)
        shutil.copyfile(os.path.join(room, crate), target + ".new")
        os.chmod(target + ".new", 0o755)
        os.replace(target + ".new", target)
        print(f"built: {os.path.relpath(target, programs.TOP)}")
    return True


def main() -> int:
    if not programs.kit():
        print(programs.NEED_KIT, file=sys.stderr)
        return 1
    kit, before = Kit(), programs.digest()
    with tempfile.TemporaryDirectory() as room:
        failed = Run(kit, room).prove()
        if failed:
            with open(os.path.join(room, failed + ".log"), encoding="utf-8", errors="replace") as log:
                print(f"{log.read()}\n{failed} is NOT PROVED")
            return 1
        if programs.digest() != before:
            print("a source was changed while the crates were proved: nothing is built", file=sys.stderr)
            return 1
        return 0 if take(kit, room) else 1


if __name__ == "__main__":
    programs.ended(main)
