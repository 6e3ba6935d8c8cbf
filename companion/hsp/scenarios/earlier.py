"""What an earlier run kept beside plans of DIR, and by which the plans that are there now don't stand."""

import contextlib
import os
from collections.abc import Collection

from hsp.base import files
from hsp.base.paths import path_in
from hsp.plans.answering import KEPT as INPUTS
from hsp.plans.service import OF_DAY, OF_WEEK
from hsp.scenarios.in_force import PLAN
from hsp.scenarios.near_plan import FOLDER, KEPT


def _plans_of_hours(folder: str) -> list[str]:
    names = (name for name in os.listdir(folder) if OF_DAY.fullmatch(name) or OF_WEEK.fullmatch(name))
    paths = (path_in(folder, os.path.join(name, PLAN)) for name in names)
    return [path for path in paths if os.path.isfile(path)]


def _near(folder: str) -> list[str]:
    """The files of the folder of a near plan, where it has these and no others. A link is not followed."""
    own = path_in(folder, FOLDER)
    if os.path.islink(own) or not os.path.isdir(own) or set(os.listdir(own)) != set(KEPT):
        return []
    return [path_in(own, name) for name in KEPT]


def _inputs(folder: str, others: Collection[str]) -> list[str]:
    """The inputs less a reserve or within a bound that are there, but for others. A link is not followed."""
    real = {os.path.realpath(path) for path in others}
    paths = (path_in(folder, name) for name in INPUTS.values())
    there = (path for path in paths if os.path.isfile(path) and not os.path.islink(path))
    return [path for path in there if os.path.realpath(path) not in real]


def forget(folder: str, written: Collection[str], read: Collection[str]) -> list[str]:
    """Takes away what an earlier run kept, but for what was written now, and what is read. Returns the paths of inputs
    that stay, since plans of hours may stand by them."""
    real = {os.path.realpath(path) for path in read}
    near, inputs = _near(folder), _inputs(folder, [*written, *read])
    if near and not real.intersection(map(os.path.realpath, near)) and not set(near).intersection(written):
        files.forget(folder, path_in(folder, FOLDER), KEPT)
        with contextlib.suppress(OSError):
            os.rmdir(path_in(folder, FOLDER))
    if _plans_of_hours(folder):
        return inputs
    _remove(inputs)
    return []


def forget_of_hours(folder: str, written: Collection[str], read: Collection[str]) -> list[str]:
    """Takes away the inputs that an earlier run kept, but for those that were written now, and those that are read.
    Returns the paths of those that stay, since a plan that was not written now may stand by them."""
    inputs, plans = _inputs(folder, [*written, *read]), [path_in(folder, PLAN), *_plans_of_hours(folder)]
    if any(os.path.lexists(path) and path not in written for path in plans):
        return inputs
    _remove(inputs)
    return []


def _remove(paths: Collection[str]) -> None:
    for path in paths:
        with contextlib.suppress(FileNotFoundError):
            os.unlink(path)
