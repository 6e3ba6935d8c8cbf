"""Completions of a program for bash, zsh and fish, written from its commands and their options."""

from collections.abc import Iterable
from typing import NamedTuple

HEAD = "# Completions of {name} for {shell}, written by tools/gate/write_grammar.py.\n"
# What stands behind an option or as a word: files, folders, or nothing that is known; otherwise these words.
FILE, FOLDER, OTHER = "FILE", "DIR", "N"


class Option(NamedTuple):
    """An option by its long name: what stands behind it, nothing for a flag; what it means; and its short name."""

    name: str
    value: str
    meaning: str
    short: str = ""
    is_many: bool = False


class Command(NamedTuple):
    """A command by its words, as `fleet demand`: its options, and what its own words are."""

    path: str
    options: tuple[Option, ...]
    words: str = ""


class Program(NamedTuple):
    """A program: its commands, and the options that it has without a command.

    Behind a doctor's `--` stand the commands of other programs.
    """

    name: str
    commands: tuple[Command, ...]
    flags: tuple[Option, ...] = ()
    behind: tuple["Program", ...] = ()

    @property
    def function(self) -> str:
        return "_" + self.name.replace("-", "_")

    def names(self, group: str = "") -> list[str]:
        """The names of the commands of a group, or those without one; a group is one of them."""
        own = [it.path for it in self.commands]
        inner = [path.removeprefix(group).split()[0] for path in own if path.startswith(group)]
        return list(dict.fromkeys(inner))

    def groups(self) -> list[str]:
        return list(dict.fromkeys(it.path.split()[0] for it in self.commands if " " in it.path))

    def told(self) -> list[str]:
        return [name for it in self.behind for name in it.names()]


def names_of(options: Iterable[Option]) -> list[str]:
    return [f"--{it.name}" for it in options]


# bash


def _cases(word: str, pairs: Iterable[tuple[str, str]], indent: str = "    ") -> str:
    lines = [f"{indent}case {word} in"]
    lines += [f"{indent}    {pattern}) echo {text} ;;" for pattern, text in pairs]
    return "\n".join([*lines, f"{indent}esac"]) + "\n"


def _function(name: str, body: str) -> str:
    return f"{name}() {{\n{body}}}\n\n"


def _of_bash(value: str) -> str:
    """What compgen completes a value by."""
    known = {FILE: "-f", FOLDER: "-d", OTHER: "-"}
    return known.get(value) or f'"-W {value.replace("|", " ")}"'


def _values(commands: Iterable[Command]) -> list[tuple[str, str]]:
    """The values of the options of all commands: first those that differ by the command, then the others."""
    by_name: dict[str, dict[str, list[str]]] = {}
    for command in commands:
        for option in (it for it in command.options if it.value):
            for name in filter(None, (f"--{option.name}", option.short)):
                by_name.setdefault(name, {}).setdefault(option.value, []).append(command.path)
    single, alike = [], dict[str, list[str]]()
    for name, values in by_name.items():
        often = max(values, key=lambda value: len(values[value]))
        alike.setdefault(often, []).append(name)
        single += [(f'"{path} {name}"', _of_bash(it)) for it in values if it != often for path in values[it]]
    rest = [(" | ".join(f'*" {it}"' for it in names), _of_bash(value)) for value, names in alike.items()]
    return [*single, *rest]


def _all_commands(program: Program) -> list[Command]:
    """The commands with those behind a doctor's `--`."""
    inner = [it._replace(path=f"doctor -- {it.path}") for other in program.behind for it in other.commands]
    return [*program.commands, *inner]


def _groups_of_bash(program: Program) -> str:
    lines = []
    for group in program.groups():
        lines += [
            f"    if ((COMP_CWORD > 1)) && [[ $command == {group} ]]; then",
            f'        group={group} first=2 command="{group} ${{COMP_WORDS[2]}}"',
            "    fi",
        ]
    if program.behind:
        lines += [
            "    for ((at = 2; at < COMP_CWORD; at++)); do",
            "        if [[ $command == doctor && ${COMP_WORDS[at]} == -- ]]; then",
            '            group="doctor --" first=$((at + 1)) command="doctor -- ${COMP_WORDS[at + 1]}"',
            "        fi",
            "    done",
        ]
    return "".join(f"{it}\n" for it in lines)


BASH = """    local current=${{COMP_WORDS[COMP_CWORD]}} before=${{COMP_WORDS[COMP_CWORD - 1]}} command=${{COMP_WORDS[1]}}
    local group= first=1 at values IFS=$' \\t\\n'
{groups}    if [[ $current == = ]]; then
        current=
    elif [[ $before == = ]]; then
        before=${{COMP_WORDS[COMP_CWORD - 2]}}
    fi
    COMPREPLY=()
    if ((COMP_CWORD <= first)); then
        COMPREPLY=($(compgen -W "$({name}_commands "$group")" -- "$current"))
        return
    fi
    values=$({name}_values "$command $before")
    if [[ -z $values && $current == -* ]]; then
        values="-W $({name}_options "$command")"
    fi
    values=${{values:-$({name}_words "$command")}}
    if [[ $values == -W* ]]; then
        COMPREPLY=($(compgen -W "${{values#-W }}" -- "$current"))
    elif [[ $values == -f || $values == -d ]]; then
        compopt -o filenames 2> /dev/null
        IFS=$'\\n'
        COMPREPLY=($(compgen "$values" -- "$current"))
    fi
"""


def bash(program: Program) -> str:
    own, name = _all_commands(program), program.function
    listed = [('""', [*program.names(), *names_of(program.flags)])]
    listed += [(group, [*program.names(f"{group} "), "--help"]) for group in program.groups()]
    listed += [('"doctor --"', program.told())] if program.behind else []
    options = [(f'"{it.path}"', f'"{" ".join(names_of(it.options))}"') for it in own if it.options]
    words = [(f'"{it.path}"', "-d") for it in own if it.words == FOLDER] + [("*", "-f")]
    return "".join(
        [
            HEAD.format(name=program.name, shell="bash") + "\n",
            _function(f"{name}_commands", _cases("$1", ((group, f'"{" ".join(it)}"') for group, it in listed))),
            _function(f"{name}_options", _cases("$1", options)),
            "# What stands behind an option of a command: words, files (-f), folders (-d), or what isn't known (-).\n",
            _function(f"{name}_values", _cases("$1", _values(own))),
            "# The words of a command that belong to no option.\n",
            _function(f"{name}_words", _cases("$1", words)),
            _function(name, BASH.format(name=name, groups=_groups_of_bash(program))),
            f"complete -F {name} {program.name}\n",
        ]
    )


# zsh


def _in_quotes(text: str) -> str:
    return "'" + text.replace("'", "'\\''") + "'"


def _of_zsh(option: Option) -> str:
    meaning = option.meaning.replace("\\", "\\\\").replace("[", "\\[").replace("]", "\\]")
    actions = {FILE: "file:_files", FOLDER: "folder:_files -/", OTHER: "value: "}
    behind = actions.get(option.value) or f"{option.name}:({option.value.replace('|', ' ')})"
    value = f":{behind}" if option.value else ""
    many = "*" if option.is_many else ""
    return _in_quotes(f"{many}--{option.name}{'=' if option.value else ''}[{meaning}]{value}")


def _arguments(command: Command) -> str:
    folder, files = "'1:folder:_files -/'", "'*:file:_files'"
    words = {FILE: [files], FOLDER: [folder], f"{FOLDER} {FILE}": [folder, files]}
    listed = [*map(_of_zsh, command.options), *words.get(command.words, [])]
    joined = " \\\n                ".join(["_arguments", *listed])
    return joined


ZSH_DOCTOR = """            local behind=$words[(i)--]
            if ((CURRENT == behind + 1)); then
                compadd -- {told}
                return
            elif ((CURRENT > behind)); then
                shift behind words
                ((CURRENT -= behind))
                case $words[1] in
{programs}
                esac
                return
            fi
"""


def _doctor_of_zsh(program: Program) -> str:
    lines = [
        f"                    {'|'.join(it.names())}) words=({it.name} $words); ((CURRENT++)); _{it.name} ;;"
        for it in program.behind
    ]
    return ZSH_DOCTOR.format(told=" ".join(program.told()), programs="\n".join(lines))


ZSH_GROUP = """    if [[ $words[2] == {group} ]]; then
        if ((CURRENT == 3)); then
            compadd -- {names} --help
            return
        fi
        shift words
        ((CURRENT--))
        group="{group} "
    fi
"""


def zsh(program: Program) -> str:
    lines = [f"#compdef {program.name}\n", HEAD.format(name=program.name, shell="zsh"), f"\n_{program.name}() {{\n"]
    lines.append(f"    local group=\n    if ((CURRENT == 2)); then\n        compadd -- {' '.join(program.names())}")
    lines.append("".join(f" {it}" for it in names_of(program.flags)) + "\n        return\n    fi\n")
    for group in program.groups():
        lines.append(ZSH_GROUP.format(group=group, names=" ".join(program.names(f"{group} "))))
    lines.append('    local command="$group$words[2]"\n    shift words\n    ((CURRENT--))\n    case $command in\n')
    for it in program.commands:
        pattern = f'"{it.path}"' if " " in it.path else it.path
        doctor = _doctor_of_zsh(program) if it.path == "doctor" and program.behind else ""
        lines.append(f"        {pattern})\n{doctor}            {_arguments(it)} ;;\n")
    lines.append(f'    esac\n}}\n\n_{program.name} "$@"\n')
    return "".join(lines)


# fish


def _is_seen(program: Program, paths: list[str]) -> str:
    """The condition that one of some commands stands in the line."""
    seen = "__fish_seen_subcommand_from"
    conditions = []
    for group in ["", *program.groups()]:
        own = [
            path.removeprefix(group).strip()
            for path in paths
            if path.startswith(group) and (" " in path) == bool(group)
        ]
        if own and group:
            conditions.append(f"{seen} {group}; and {seen} {' '.join(own)}")
        elif own and program.groups():
            conditions.append(f"{seen} {' '.join(own)}; and not {seen} {' '.join(program.groups())}")
        elif own:
            conditions.append(f"{seen} {' '.join(own)}")
    return "; or ".join(f"begin; {it}; end" for it in conditions) if len(conditions) > 1 else conditions[0]


def _of_fish(value: str) -> str:
    known = {"": "", FILE: " -r -F", FOLDER: ' -x -a "(__fish_complete_directories)"', OTHER: " -x"}
    return known[value] if value in known else f' -x -a "{value.replace("|", " ")}"'


def _fish_line(name: str, condition: str, rest: str) -> str:
    return f'complete -c {name} -n "{condition}"{rest}\n'


def _options_of_fish(program: Program) -> list[str]:
    paths: dict[Option, list[str]] = {}
    for command in program.commands:
        for option in command.options:
            paths.setdefault(option, []).append(command.path)
    return [
        _fish_line(
            program.name,
            _is_seen(program, own),
            f" -l {option.name}{_of_fish(option.value)} -d {_in_fish(option.meaning)}",
        )
        for option, own in paths.items()
    ]


def _in_fish(text: str) -> str:
    return "'" + text.replace("\\", "\\\\").replace("'", "\\'") + "'"


def fish(program: Program) -> str:
    names = " ".join(program.names())
    none = f"not __fish_seen_subcommand_from {names}"
    lines = [HEAD.format(name=program.name, shell="fish"), "\n", _fish_line(program.name, none, f' -f -a "{names}"')]
    lines += [_fish_line(program.name, none, f" -l {it.name} -d {_in_fish(it.meaning)}") for it in program.flags]
    for group in program.groups():
        inner = " ".join(program.names(f"{group} "))
        condition = f"__fish_seen_subcommand_from {group}; and not __fish_seen_subcommand_from {inner}"
        lines.append(_fish_line(program.name, condition, f' -f -a "{inner}"'))
    behind = "contains -- -- (commandline -opc)"
    folders = [it.path for it in program.commands if it.words == FOLDER]
    if folders:
        condition = f"{_is_seen(program, folders)}; and not {behind}"
        lines.append(_fish_line(program.name, condition, ' -f -a "(__fish_complete_directories)"'))
    if program.behind:
        condition = "__fish_seen_subcommand_from doctor; and test (commandline -opc)[-1] = --"
        lines.append(_fish_line(program.name, condition, f' -f -a "{" ".join(program.told())}"'))
    return "".join([*lines, *_options_of_fish(program)])


SHELLS = {"{}.bash": bash, "_{}": zsh, "{}.fish": fish}
