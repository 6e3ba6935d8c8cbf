#!/usr/bin/python3
"""Writes what follows from the commands, limits and headers of hsplan and hsplan-stream, which their sources have.

    tools/gate/write_grammar.py            writes
    tools/gate/write_grammar.py --check    writes nothing, and compares

Written are `companion/hsp/base/grammar.py`, the completions of all programs, and the tables of LIMITS. The completions
of `hsp` come of its own tree of commands: asked at each Tab, click would take half a second and more. So this needs
Debian's click and Jinja2.
"""

import difflib
import re
import sys
from collections.abc import Iterator
from pathlib import Path
from typing import Any

TOP = Path(__file__).resolve().parents[2]
sys.path[:0] = [str(TOP / "tools"), str(TOP / "companion")]

import click  # noqa: E402

from lib import completions, grammar  # noqa: E402
from lib.completions import FILE, FOLDER, OTHER, Command, Option, Program  # noqa: E402

MODULE = "companion/hsp/base/grammar.py"
PAGE = "docs/use/LIMITS.md"
HELP = Option("help", "", "show the options")
# The options that are read before the command, and so stand in no table.
FLAGS = {
    "hsplan": (),
    "hsplan-stream": (Option("help", "", "show what the commands do"), Option("version", "", "show the version")),
}
# What LIMITS says of limits, and their names; equal numbers are written once.
ROWS = {
    "sites": "MOST_SITES",
    "servers of a site, and of all sites together": "MOST_SERVERS",
    "hosts": "MOST_HOSTS",
    "regions in one table": "MOST_REGIONS",
    "regions in a log of `hsplan-stream`, and in the costs beside it": "MOST_LOG_REGIONS",
    "rows of the demand": "MOST_DEMAND_ROWS",
    "rows of the costs": "MOST_COST_ROWS",
    "rows of the costs beside a log of `hsplan-stream`": "MOST_LOG_COST_ROWS",
    "rows of the capacities": "MOST_CAPACITY_ROWS",
    "count of a row, cost of a query": "GREATEST_COUNT GREATEST_COST",
    "capacity of a server": "GREATEST_CAPACITY",
    "limit of a host": "GREATEST_LIMIT",
    "octets of the name of a region or a site": "LONGEST_NAME",
    "octets of a handle": "LONGEST_HANDLE",
    "octets of a file that is read whole, which is each file but a log": "LARGEST_FILE",
    "octets of a command on standard input": "LONGEST_FIRST_LINE",
    "rows of a log of `dispatch`": "MOST_LOG_ROWS",
    "rows of a log of `hsplan-stream`, but of its `plan`": "",
    "octets of a row of `places` or `answer`; a row of another log has no limit but memory": "LONGEST_ROW",
    "count of a row of a log of `plan`, `check` or `report`": "GREATEST_ROW_COUNT",
    "fronts": "MOST_FRONTS",
    "classes of a certificate by prices": "MOST_CLASSES",
    "price, and amount of a class, in such a certificate": "GREATEST_PRICE GREATEST_AMOUNT",
    "cost, demand or capacity in it": "GREATEST_SUM",
}
HEAD = '''"""The commands, limits and headers of hsplan and hsplan-stream, written by tools/gate/write_grammar.py."""

from typing import NamedTuple


class Command(NamedTuple):
    """A command: its program, the options that it needs, those that it may have, and what its last word is."""

    program: str
    needed: tuple[str, ...]
    optional: tuple[str, ...]
    last: str = ""

    @property
    def options(self) -> tuple[str, ...]:
        return self.needed + self.optional


'''
PROGRAM_OF = '''

def program_of(command: str) -> str:
    """The program with a command of this name, hsplan before hsplan-stream; nothing where neither has it."""
    return next((program for program, own in COMMANDS.items() if command in own), "")


'''


VALUE_OF = '''

def value_of(program: str, option: str) -> str:
    """What stands behind an option of a program."""
    return OWN_VALUES.get(program, {}).get(option, VALUES[option])


'''


def _written(value: Any) -> str:
    """A tuple of texts, or of such tuples, as `black` writes it."""
    if isinstance(value, str):
        return f'"{value}"'
    inner = ", ".join(_written(it) for it in value)
    return f"({inner},)" if len(value) == 1 else f"({inner})"


def _of_command(command: grammar.Command) -> str:
    last = [_written(command.last)] if command.last else []
    parts = [_written(command.program), _written(command.needed), _written(command.optional), *last]
    line = f"Command({', '.join(parts)})"
    if len(line) < 96:
        return line
    return "Command(\n" + "".join(f"            {part},\n" for part in parts) + "        )"


def _of_programs() -> str:
    lines = []
    for program in FLAGS:
        lines.append(f'    "{program}": {{\n')
        lines += [f'        "{it.name}": {_of_command(it)},\n' for it in grammar.commands() if it.program == program]
        lines.append("    },\n")
    return f"COMMANDS: dict[str, dict[str, Command]] = {{\n{''.join(lines)}}}\n"


def _of_values(values: dict[str, str]) -> str:
    return "{" + ", ".join(f"{_written(name)}: {_written(value)}" for name, value in values.items()) + "}"


def _listed(name: str, pairs: dict[str, str], kind: str) -> str:
    lines = "".join(f'    "{key}": {value},\n' for key, value in pairs.items())
    return f"{name}: dict[str, {kind}] = {{\n{lines}}}\n"


def module() -> str:
    options = grammar.options().values()
    others = {
        program: {name: it.value for name, it in own.items()}
        for program, own in grammar.own_options().items()
        if program
    }
    tables = {kind: _written(",".join(header)) for kind, header in grammar.table_headers().items()}
    logs = {
        command: _written([",".join(header) for header in headers])
        for command, headers in grammar.log_headers().items()
    }
    return "".join(
        [
            HEAD,
            "# The commands of each program, by their names.\n",
            _of_programs(),
            PROGRAM_OF,
            "# What stands behind each option: a file, a number, or one of some words.\n",
            _listed("VALUES", {option.name: _written(option.value) for option in options}, "str"),
            "# The same of a program, where it differs.\n",
            _listed("OWN_VALUES", {program: _of_values(own) for program, own in others.items()}, "dict[str, str]"),
            VALUE_OF,
            'FILES = tuple(name for name, value in VALUES.items() if value == "FILE")\n\n',
            "# The headers of the tables, and those of each command's log; `fronts` is a dispatch for several fronts.\n",
            _listed("HEADERS", tables, "str"),
            _listed("LOG_HEADERS", logs, "tuple[str, ...]"),
            'LOG_HEAD = LOG_HEADERS["dispatch"][0].encode() + b"\\n"\n',
            "\n# The signs of a name, as they stand between the brackets of a regular expression.\n",
            f'NAME_SIGNS = "{grammar.name_signs()}"\n\n',
            "# The greatest identifier of a server, index of a value and number of a front: these have four octets.\n",
            f"GREATEST_ID = {(1 << 32) - 1:_}\n",
            *(f"# {limit.meaning}\n{limit.name} = {limit.number:_}\n" for limit in grammar.limits()),
            f'\nNAME_RULE = f"{grammar.name_rule()}, and at most {{LONGEST_NAME}} of them"\n',
        ]
    )


def programs() -> list[Program]:
    """hsplan and hsplan-stream with their commands."""
    found = []
    for name, flags in FLAGS.items():
        options = {option: Option(*it) for option, it in grammar.options(name).items()}
        own = [it for it in grammar.commands() if it.program == name]
        more = flags[:1]
        commands = [
            Command(it.name, tuple(options[name] for name in it.options) + more, FILE if it.last == "file" else OTHER)
            for it in own
        ]
        found.append(Program(name, tuple(commands), flags))
    return found


def _kind(parameter: click.Parameter) -> str:
    """What stands behind an option of hsp, or what a word of it is."""
    if isinstance(parameter.type, click.Choice):
        return "|".join(parameter.type.choices)
    if isinstance(parameter.type, click.Path):
        return FILE if parameter.type.file_okay else FOLDER
    metavar = parameter.metavar or ""
    return FILE if re.search(r"\b(FILE|LOG|SOURCE)\b", metavar) else OTHER


def _of_click(path: str, command: click.Command) -> Command:
    options, words = [], []
    for it in command.params:
        if isinstance(it, click.Option):
            short, long = ([name for name in it.opts if name.startswith("--") == is_long] for is_long in (False, True))
            value = "" if it.is_flag else _kind(it)
            options.append(Option(long[0][2:], value, it.help or "", "".join(short), it.multiple))
        else:
            words.append(_kind(it))
    return Command(path, (*options, HELP), " ".join(words))


def alone(programs: list[Program]) -> list[Program]:
    """The programs with the commands that a name by itself stands for: the first program that has it."""
    found: list[Program] = []
    for program in programs:
        known = {name for other in found for name in other.names()}
        found.append(program._replace(commands=tuple(it for it in program.commands if it.path not in known)))
    return found


def _below(command: click.Command) -> dict[str, click.Command]:
    """The commands of a group by their names; none of another command."""
    from hsp.base.groups import Group

    return command.all_commands() if isinstance(command, Group) else {}


def companion(behind: list[Program]) -> Program:
    from hsp.cli import main

    found = []
    for name, command in _below(main).items():
        inner = [_of_click(f"{name} {it}", one) for it, one in _below(command).items()]
        found += inner or [_of_click(name, command)]
    return Program("hsp", tuple(found), (HELP, FLAGS["hsplan-stream"][1]), tuple(behind))


def files() -> Iterator[tuple[str, str]]:
    """The files that are written, with their paths: first the module, which the companion's commands stand on."""
    yield MODULE, module()
    own = programs()
    yield PAGE, limits_page((TOP / PAGE).read_text(encoding="utf-8"))
    for program in [*own, companion(alone(own))]:
        for name, written in completions.SHELLS.items():
            yield f"completions/{name.format(program.name)}", written(program)


def _number(number: int) -> str:
    digits = str(number)
    is_power = number >= 10**12 and digits.strip("0") == "1"
    return f"10^{len(digits) - 1}" if is_power else f"{number:,}"


def _table(page: str, name: str, rows: list[tuple[str, str]]) -> str:
    """The page with another table between two marks."""
    begin, end = f"<!-- {name} begin -->\n", f"<!-- {name} end -->\n"
    before, _, rest = page.partition(begin)
    head, old, _ = rest.partition("|---|---|\n")
    table = "".join(f"| {words} | {number} |\n" for words, number in rows)
    return before + begin + head + old + table + end + rest.partition(end)[2]


def limits_page(page: str) -> str:
    """The page with the tables of limits. A limit without words here is listed by its comment."""
    numbers = {limit.name: limit.number for limit in grammar.limits()}
    rows = [
        (words, ", and ".join(dict.fromkeys(_number(numbers[name]) for name in names.split())) or "any number")
        for words, names in ROWS.items()
    ]
    said = set(" ".join(ROWS.values()).split())
    rows += [(limit.meaning, _number(limit.number)) for limit in grammar.limits() if limit.name not in said]
    return _table(_table(page, "the limits", rows), "the limits of hsp", _rows_of_hsp())


def _rows_of_hsp() -> list[tuple[str, str]]:
    from hsp.base.bounds import MOST_HELD
    from hsp.doctor.guard import MEMORY, SECONDS
    from hsp.intake.logs import LONGEST, MOST_OF_LINE, MOST_XZ
    from hsp.plans.titles import MOST_OF_TITLES, MOST_POINTS

    return [
        ("octets of a line of a log that may be a query", f"{LONGEST:,}"),
        ("octets of a line that `hsp fleet dispatch` passes on", f"{MOST_OF_LINE:,}"),
        ("octets of queries that `hsp demand` holds in memory, before it writes them out", f"{MOST_HELD:,}"),
        ("octets in memory that a log packed by xz may ask for", f"{MOST_XZ:,}"),
        ("octets of hsp.toml, and parts of a key in it", f"{MOST_OF_TITLES:,}, and {MOST_POINTS}"),
        ("seconds, and octets in memory, in which `hsp doctor` explains", f"{SECONDS:.0f}, and {MEMORY:,}"),
    ]


def is_kept(name: str, text: str, only_compares: bool) -> bool:
    """Whether a file has its text; otherwise it is written, or the difference is shown."""
    path = TOP / name
    before = path.read_text(encoding="utf-8") if path.exists() else ""
    if before == text:
        return True
    if not only_compares:
        path.write_text(text, encoding="utf-8")
        return True
    heads = (name, "as tools/gate/write_grammar.py writes it")
    print("\n".join(difflib.unified_diff(before.splitlines(), text.splitlines(), *heads, lineterm="", n=0)))
    return False


def main() -> int:
    only_compares = "--check" in sys.argv
    names = []
    for name, text in files():
        names.append(name)
        if not is_kept(name, text, only_compares):
            return 1
    print(f"grammar: {len(names)} files of {len(grammar.commands())} commands and {len(grammar.limits())} limits")
    return 0


if __name__ == "__main__":
    sys.exit(main())
