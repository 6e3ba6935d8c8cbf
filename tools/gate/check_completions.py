#!/usr/bin/env python3
"""Tries the files of completions/ in the shells that are installed.

It types lines, asks the shell for completions, and compares these with the wanted ones. bash is asked through its
completion function, and fish by `complete -C`. zsh is asked at a terminal of its own, and the line is read back after
Tab. So zsh gets only the lines with at most one completion.

A shell that is not installed is named as not tried. With --all that is a fault.
"""

import argparse
import os
import pty
import re
import select
import shlex
import shutil
import subprocess
import sys
import tempfile
from collections.abc import Callable
from pathlib import Path

sys.path.insert(0, str(Path(__file__).resolve().parents[1]))

from lib import programs

FILES = os.path.join(programs.TOP, "completions")
# What is typed behind a command and what it is completed to, of each command in a line.
COMPLETED = """
hsplan: |check dispatch locate plan report site; re|report
hsplan locate: --op|--option; --option l|local; --option=l|local
hsplan site: --in|--index
hsplan plan: --ca|--capacity; --fr|
hsplan check: --demand dem|demand.csv; --demand=dem|demand.csv
hsplan dispatch: --settings settings.toml --fr|--fronts
hsplan report: --settings settings.toml --kind s|shortage
hsplan-stream: |--help --version answer check faults interfaces places plan report; pl|places plan
hsplan-stream interfaces: --va|--values; --lo|
hsplan-stream faults: --dem|--demand; --log dem|demand.csv; --pl|
hsplan-stream places: --cap|; --settings set|settings.toml; --settings=set|settings.toml
hsplan-stream check: --pr|--prices; --pl|
hsplan-stream answer: --pr|--prices; --fr|--front --fronts; --costs dem|demand.csv; --pl|; --un|
hsplan-stream plan: --cap|--capacity; --pr|
hsplan-stream report: --ki|--kind; --kind |load region; --pl|
hsp: |--help --version capacity costs day demand doctor export fleet forecast grow new plan sites steer survive view whatif \
where within
hsp: gr|grow; do|doctor; wh|whatif where; ex|export; ne|new
hsp survive: --bu|--buy; --near serv|service/
hsp day: --we|--week
hsp plan: --nea|--near; --wi|--within; --no|--no-save; --bef|; s|service/; --settings s|service/ settings.toml
hsp grow: --per|--percent
hsp demand: --jo|--jobs; --me|--mean; --reg|--regex --regions; --format ser|server; --regions dem|demand.csv
hsp demand: --bu|--busiest-hour; --fr|--from; --capa|
hsp doctor: --st|--strict; --un|; -- loc|locate; -- plan --settings set|settings.toml
hsp costs: --perc|--percentile; --by-distance dem|demand.csv; sett|settings.toml
hsp capacity: --per |day hour minute second; --dur|--duration
hsp within: --no|--no-save
hsp forecast: --reg|--regex --regions
hsp sites: --upd|--update; --cap|--capacity; sett|settings.toml; --into s|service/; --into=ser|service/
hsp where: --js|--json
hsp fleet demand: --cos|; --ti|--time; --ke|--keep; --regions dem|demand.csv; --sche|--scheduler
hsp export: |--help haproxy
hsp export haproxy: --int|--into; --into s|service/; --regions dem|demand.csv; --no|
hsp steer: --sta|--status; --into s|service/
hsp view: --bef|--before; --before s|service/
hsp whatif: --settings set|settings.toml; --cs|--csv; --settings=set|settings.toml
hsp new: --ex|--example; --cap|
hsp fleet: di|dispatch
hsp fleet dispatch: --fr|--fronts; --reg|
"""
CASES = [
    (f"{command} {typed}", wanted.split())
    for command, _, own in (line.partition(": ") for line in COMPLETED.strip().split("\n"))
    for typed, _, wanted in (case.partition("|") for case in own.split("; "))
]


def printed(command: list[str], folder: str) -> str:
    return subprocess.run(
        command, cwd=folder, stdout=subprocess.PIPE, stderr=subprocess.STDOUT, text=True, timeout=60
    ).stdout


def ask_bash(line: str, folder: str) -> list[str]:
    parts = [re.split("(=)", it) for it in shlex.split(line)]  # bash parts words there
    words = [it for part in parts for it in part] + ([""] if line.endswith(" ") else [])
    listed = " ".join(shlex.quote(it) for it in words)
    program = words[0]
    asked = f"COMP_WORDS=({listed}); COMP_CWORD={len(words) - 1}; _{program.replace('-', '_')}"
    script = f"source {FILES}/{program}.bash; {asked}; printf '%s\\n' \"${{COMPREPLY[@]}}\""
    return sorted(it for it in printed(["bash", "-c", script], folder).splitlines() if it)


def ask_fish(line: str, folder: str) -> list[str]:
    script = f"source {FILES}/{line.split()[0]}.fish; complete -C {shlex.quote(line)}"
    return sorted(it.split("\t")[0] for it in printed(["fish", "--no-config", "-c", script], folder).splitlines())


ZSHRC = """fpath=({files} $fpath)
autoload -Uz compinit
compinit -u -D
report() {{ print -r -- "$BUFFER" > {reported}; exit 0 }}
zle -N report
bindkey '^X^T' report
bindkey '^I' complete-word
PS1='ready>'
"""


def drained(terminal: int, until: bytes, seconds: float) -> bytes:
    """What a terminal shows, up to a text or until no octet has come for the given number of seconds."""
    shown = b""
    while until not in shown and select.select([terminal], [], [], seconds)[0]:
        try:
            shown += os.read(terminal, 4096)
        except OSError:
            break
    return shown


def ask_zsh(line: str, folder: str) -> list[str]:
    """The last word of the line after Tab, as a list. The list is empty where the line did not change. An option with
    an argument gets an equals sign, which a space takes away again."""
    with tempfile.TemporaryDirectory() as home:
        reported = os.path.join(home, "reported")
        with open(os.path.join(home, ".zshrc"), "w") as file:
            file.write(ZSHRC.format(files=FILES, reported=reported))
        child, terminal = pty.fork()
        if child == 0:
            os.chdir(folder)
            os.execvpe("zsh", ["zsh", "-i"], dict(os.environ, ZDOTDIR=home, TERM="dumb"))
        drained(terminal, b"ready>", 20)
        os.write(terminal, line.encode() + b"\t\x18\x14")
        drained(terminal, b"\x00", 10)
        os.close(terminal)
        os.waitpid(child, 0)
        after = open(reported).read().rstrip() if os.path.exists(reported) else line
    return [after.split(" ")[-1].removesuffix("=")] if after != line.rstrip() else []


def shown(shell: str, line: str, wanted: list[str]) -> list[str]:
    """What a shell shows of the wanted completions: fish shows options only after a hyphen, bash puts the slash behind
    a folder itself, and fish and zsh show the whole word of `--option=value`."""
    option, sign, _ = line.split(" ")[-1].partition("=")
    before = option + sign if sign and shell != "bash" else ""
    own = [before + (it.rstrip("/") if shell == "bash" else it) for it in wanted]
    return [it for it in own if shell != "fish" or option or not it.startswith("-")]


def tried(shell: str, ask: Callable[[str, str], list[str]]) -> tuple[list[str], int]:
    """The faults of the lines that a shell completes differently, and how many lines it was asked."""
    cases = [it for it in CASES if shell != "zsh" or len(it[1]) < 2]
    with tempfile.TemporaryDirectory() as folder:
        for name in ("demand.csv", "settings.toml"):
            open(os.path.join(folder, name), "w").close()
        os.mkdir(os.path.join(folder, "service"))
        got = [(line, shown(shell, line, wanted), ask(line, folder)) for line, wanted in cases]
    return [f"{shell}: {line!r}: wanted {wanted}, got {found}" for line, wanted, found in got if wanted != found], len(
        cases
    )


def main() -> int:
    arguments = argparse.ArgumentParser(description="Tries the completions in the shells that are installed.")
    arguments.add_argument("--all", action="store_true", help="treat a shell that is not installed as a fault")
    wants_all = arguments.parse_args().all
    shells = {"bash": ask_bash, "zsh": ask_zsh, "fish": ask_fish}
    absent = [it for it in shells if not shutil.which(it)]
    found = {name: tried(name, ask) for name, ask in shells.items() if name not in absent}
    faults = [fault for it, _ in found.values() for fault in it]
    asked = ", ".join(f"{name} {count}" for name, (_, count) in found.items())
    print("".join(f"{it} IS NOT INSTALLED HERE: its completions were not tried\n" for it in absent), end="")
    is_fine = bool(found) and not (wants_all and absent)
    return programs.concluded(faults, f"completions: lines tried in {asked or 'no shell'},", is_fine)


if __name__ == "__main__":
    sys.exit(main())
