"""What runs take: seconds, and the most memory that they hold."""

import os
import resource
import subprocess
import time
from typing import NamedTuple

from lib import preload


class Taken(NamedTuple):
    """The seconds, the most kilobytes (None where the program was ended), the status, and what standard error got."""

    seconds: float
    kilobytes: int | None
    status: int
    said: str


def measured(program: str, words: str, folder: str, preloaded: str) -> Taken:
    """Runs a program in a folder, before which tools/lib/report_memory.c is preloaded."""
    reported = os.path.join(folder, "memory")
    means = dict(os.environ, LD_PRELOAD=preloaded, REPORT_MEMORY=reported)
    begun = time.perf_counter()
    ended = subprocess.run(
        [program, *words.split()], cwd=folder, env=means, stdout=subprocess.DEVNULL, stderr=subprocess.PIPE, text=True
    )
    spent = time.perf_counter() - begun
    return Taken(spent, preload.count_in(reported), ended.returncode, ended.stderr.strip())


def spent_below() -> float:
    """The processor seconds that ended processes took."""
    spent = resource.getrusage(resource.RUSAGE_CHILDREN)
    return spent.ru_utime + spent.ru_stime
