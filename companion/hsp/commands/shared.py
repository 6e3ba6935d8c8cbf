"""What several commands that plan have in common."""

import sys
from collections.abc import Callable
from contextlib import closing
from dataclasses import replace

from hsp.base.files import replace_all
from hsp.base.options import PathName
from hsp.base.text import show_progress
from hsp.plans.service import Service
from hsp.scenarios.ahead import Ahead, ahead_of, moved_since
from hsp.scenarios.judged import Judged

OUTPUT = PathName(dir_okay=False, readable=False)


def write(path: str, text: str) -> None:
    """Writes the whole text, or nothing."""
    replace_all({path: text.encode("utf-8")})


def progress(number: int) -> Callable[[], None]:
    """Counts plans on a terminal, where there are many of them."""
    if number < 8 or not sys.stderr.isatty():
        return lambda: None
    done = 0

    def one_more() -> None:
        nonlocal done
        done += 1
        show_progress(f"planning: {done} of {number}" if done < number else "")

    return one_more


def ahead(service: Service, before: str) -> Ahead:
    """What lies ahead of a plan, and what it moves since the plan in a file."""
    with closing(Judged()) as programs:
        return replace(ahead_of(service, programs), moved=moved_since(before, service, programs))
