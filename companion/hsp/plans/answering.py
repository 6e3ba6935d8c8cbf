"""How a log is answered by a plan that is kept, and what is kept beside a plan with a reserve or a bound of costs."""

import os
import shlex

from hsp.base.bounds import octets_of
from hsp.base.numbers import percent_exactly
from hsp.base.paths import named, path_in
from hsp.base.programs import Inputs
from hsp.plans.service import Service, newer_than

# The inputs of which a part is kept back, and the costs that are within a bound.
LESS_CAPACITY, LESS_SETTINGS, WITHIN = "capacity-less-reserve.csv", "settings-less-reserve.toml", "costs-within.csv"
KEPT = {"capacity": LESS_CAPACITY, "settings": LESS_SETTINGS, "costs": WITHIN}


def answer_command(inputs: Inputs, plan: str) -> str:
    """The command that answers a log by a plan: hsplan-stream answers any handle by prices, hsplan those of a table."""
    own = ["hsplan-stream", "answer", *inputs.priced(plan)]
    words = own if inputs.is_log else ["hsplan", "dispatch", *inputs.words(), "--plan", plan]
    shown = [word if word.startswith("--") else shlex.quote(named(word)) for word in words[2:]]
    return " ".join([*words[:2], *shown, "--log", "/dev/stdin"])


def less_reserve(plan: str, inputs: Inputs) -> Inputs | None:
    """The inputs less a reserve and within a bound as they are kept beside a plan; None where none are, or where they
    are older than what they were made of."""
    paths = {role: path_in(os.path.dirname(plan), name) for role, name in KEPT.items()}
    there = {role: path for role, path in paths.items() if os.path.isfile(path)}
    if "capacity" not in there:
        there.pop("settings", None)
    made_of: dict[str, list[str]] = {
        "capacity": [inputs.capacity, inputs.settings],
        "settings": [],
        "costs": [inputs.costs],
    }
    if not there or any(newer_than(made_of[role], path) for role, path in there.items()):
        return None
    return inputs.but(**there)


def kept_beside(service: Service, plan: str) -> tuple[Inputs, dict[str, bytes]]:
    """The inputs by which a kept plan is answered, and what has to be written for them beside the plan."""
    chosen, contents = service.own_inputs, dict[str, bytes]()
    roles = [role for role in KEPT if role != "costs" or service.within is not None]
    for role in roles:
        path, beside = getattr(service.inputs, role), path_in(os.path.dirname(plan), KEPT[role])
        if path != getattr(service.own_inputs, role):
            contents[beside] = octets_of(path)
            chosen = chosen.but(**{role: beside})
    return chosen, contents


def answer_lines(service: Service, inputs: Inputs, plan: str) -> list[str]:
    """What is kept less a reserve or within a bound, and the command that answers by these or by a plan of a log."""
    if not service.log and not service.limits:
        return []
    lines, own = [], service.own_inputs
    if inputs.capacity != own.capacity:
        files = [inputs.capacity] + ([inputs.settings] if inputs.settings != own.settings else [])
        what = "capacities" + (" and limits" if len(files) > 1 else "")
        lines.append(f"less {' and '.join(files)}: the {what} less {percent_exactly(service.reserve)}, rounded down")
    if inputs.costs != own.costs:
        lines.append(f"less {inputs.costs}: the costs of at most {service.within:,}")
    return [*lines, f"answer {answer_command(inputs, plan)}"]
