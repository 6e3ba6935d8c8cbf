"""Words that are no command of hsplan: which of them is missing, misspelt, or given twice."""

from collections.abc import Iterator
from dataclasses import replace

from hsp.base.grammar import (
    COMMANDS,
    FILES,
    GREATEST_ID,
    LONGEST_HANDLE,
    MOST_FRONTS,
    MOST_SERVERS,
    VALUES,
    Command,
    program_of,
    value_of,
)
from hsp.base.paths import shell_word
from hsp.base.spelling import near
from hsp.doctor.commands import Line, Option, Word, shown, split
from hsp.doctor.findings import Finding, Place, Words, found, quoted
from hsp.doctor.question import Said

USAGE = "Usage"
VERSION = ("-V", "--version", "version", "-v")
HELP = ("-h", "--help", "help", *VERSION)
# The commands of hsp that take a folder, and ask the doctor first.
OF_FOLDERS = ("plan", "view", "whatif", "doctor")


def at_word(line: Line, word: Word | None, words: Words) -> Finding:
    """A finding at a word, or behind the last one."""
    column = word.column if word else len(line.text) + 1
    width = len(word.text) if word else 1
    return found("", Place(1, column + 1, width, line.text), words, USAGE)


def command_fault(line: Line) -> Finding | None:
    """A command that isn't there, or is another program's."""
    if not line.words:
        listed = ", ".join(COMMANDS[line.program])
        return at_word(line, None, Words("no command", f"write one of {listed} behind {line.program}", ""))
    command, first = line.command, line.words[0]
    if command in HELP and line.program == "hsplan":
        remedy = "hsplan-stream --version prints it" if command in VERSION else "man hsplan is its help"
        return at_word(line, first, Words(f"hsplan has no {command}", remedy, "it takes commands only"))
    own = list(COMMANDS[line.program])
    if command in own:
        return None
    other = program_of(command)
    if other:
        message = f"{line.program} has no command {command}"
        return at_word(line, first, Words(message, f"write {other} {command}", f"it is a command of {other}"))
    if command.startswith("-"):
        _, others = split(replace(line, words=[first, *line.words]))
        later = next((word.text for word in others if word.text in own), "")
        words = Words(
            "an option stands where the command belongs",
            f"write {later} first, as {line.program} {later} {command} .."
            if later
            else f"write the command first: {', '.join(own)}",
            "the first word is the command",
        )
        return at_word(line, first, words)
    if command == "hsp":
        return at_word(line, first, _of_companion(line))
    meant = near(command, own, 0.6) or near(command, [name for it in COMMANDS.values() for name in it], 0.6)
    remedy = f"write {meant}" if meant in own else f"write {program_of(meant)} {meant}" if meant else ""
    remedy = remedy or f"write one of {', '.join(own)}"
    return at_word(
        line, first, Words(f"no command {quoted(command)}", remedy, "", f"did you mean {meant}?" if meant else "")
    )


def _of_companion(line: Line) -> Words:
    """What is said where the words of hsp stand behind --."""
    second, third = ([word.text for word in line.words] + ["", ""])[1:3]
    if second in OF_FOLDERS:
        folder = third if third and not third.startswith("-") else "DIR"
        remedy = f"hsp doctor {folder if folder == 'DIR' else shell_word(folder)}"
        return Words("hsp's own words need no --", remedy, f"hsp {second} asks the doctor about its folder first")
    return Words(
        "hsp's own words aren't for the doctor", "hsp --help lists its commands", "behind -- stand words of hsplan"
    )


def meant_by(name: str, takes: Command, taken: set[str]) -> str:
    """The option that a misspelt one likely is: a near one, or the only one that begins so."""
    free = [option for option in takes.options if option not in taken] or takes.options
    start = [option for option in free if name and option.startswith(name)]
    return near(name, free, 0.6) or (start[0] if len(start) == 1 else "")


def with_option(option: str, command: str) -> list[str]:
    """The commands that have an option, with their program where a name by itself stands for another command."""
    return [
        name if program == program_of(name) and name != command else f"{program} {name}"
        for program, own in COMMANDS.items()
        for name, takes in own.items()
        if option in takes.options
    ]


def _unknown_option(line: Line, takes: Command, option: Option, taken: set[str]) -> Finding:
    command = line.command
    meant = meant_by(option.name, takes, taken)
    elsewhere = with_option(option.name, command)
    if option.name in ("h", "help"):
        words = Words(
            f"{command} has no {option.word.text}", f"man {takes.program} is its help", "it takes files only"
        )
    elif meant:
        words = Words(f"no option {option.word.text}", f"write --{meant}", "", f"did you mean --{meant}?")
    elif elsewhere:
        message = f"{command} has no option --{option.name}"
        namesake = next((f"write {name}, or " for name in elsewhere if name.endswith(f" {command}")), "")
        remedy = f"{namesake}take it out with its value"
        words = Words(message, remedy, f"it is an option of {', '.join(elsewhere)}")
    else:
        words = Words(
            f"no option {option.word.text}", f"take it out; {command} has --{', --'.join(takes.options)}", ""
        )
    return at_word(line, option.word, words)


def _option_faults(line: Line, takes: Command, options: list[Option]) -> Iterator[Finding]:
    seen: set[str] = set()
    right = {option.name for option in options if option.name in takes.options}
    for option in options:
        if option.name not in takes.options:
            yield _unknown_option(line, takes, option, right)
        elif about := _of_option(takes.program, option, option.name in seen):
            yield at_word(line, *about)
        seen.add(option.name)


def _of_option(program: str, option: Option, is_second: bool) -> tuple[Word | None, Words] | None:
    """What is wrong with an option that the command has, or with its value."""
    name, value, own = option.name, option.value, option.value_word
    if not option.word.text.startswith("--"):
        return option.word, Words(f"{option.word.text} has one hyphen", f"write --{name}", "options have two hyphens")
    if is_second:
        return option.word, Words(f"--{name} stands twice", "take one of them out with its value", "", "the second")
    if own and own.text == "=":
        return own, Words("a blank stands beside '='", f"write --{name} {value}", "", "an option and its value")
    if value is None:
        remedy = f"write {'a file' if name in FILES else 'a value'} behind --{name}"
        why = "the next word is an option, or there is none"
        return option.word, Words(f"--{name} has no value", remedy, why)
    if own and own is not option.word and value.startswith("-") and len(value) > 1:
        return own, Words(f"{value} is read as an option", f"write --{name}={value}", "it begins with a hyphen")
    if name == "kind" and value not in (kinds := value_of(program, name).split("|")):
        meant, listed = near(value, kinds, 0.6), ", ".join(kinds)
        remedy = f"write {meant}" if meant else f"write one of {listed}"
        return own, Words(f"no kind {quoted(value)}", remedy, f"the kinds are {listed}")
    return None


def _missing(line: Line, takes: Command, options: list[Option]) -> Iterator[Finding]:
    """Options that a command needs and the line lacks, but for those that are misspelt in it."""
    names = {option.name for option in options}
    misspelt = [meant_by(option.name, takes, names) for option in options if option.name not in takes.options]
    lacking = [option for option in takes.needed if option not in names and option not in misspelt]
    if lacking:
        listed = " and ".join(f"--{name}" for name in lacking)
        values = " ".join(f"--{name} {'FILE' if name in FILES else 'load'}" for name in lacking)
        message = f"{line.command} needs {listed} too"
        yield at_word(line, None, Words(message, f"write {values} behind it", f"the form is {shown(line)}"))
    if line.command == "faults" and len(names & set(takes.options)) != 1:
        choices = " or ".join(f"--{option} FILE" for option in takes.options)
        yield at_word(line, None, Words("faults reads one file", f"write one of {choices}", "a table, or a log"))
    if line.command == "locate":
        yield from _locate(line, names | set(misspelt))
    if line.command == "answer" and ("fronts" in names) != ("front" in names):
        absent = "front" if "fronts" in names else "fronts"
        remedy = f"write --{absent} N too, or neither of the two"
        yield at_word(line, None, Words(f"--{absent} is missing", remedy, "--fronts N --front K belong together"))


def _locate(line: Line, names: set[str]) -> Iterator[Finding]:
    forms = f"locate --settings FILE HANDLE, or locate --option {VALUES['option']} --servers N HANDLE"
    if "settings" in names and names & {"option", "servers"}:
        message, why = "--settings and --option exclude each other", f"the forms are {forms}"
        yield at_word(line, None, Words(message, "keep either --settings, or --option and --servers", why))
    elif "settings" not in names:
        lacking = [name for name in ("option", "servers") if name not in names]
        if lacking:
            remedy = "write " + " and ".join(f"--{name} {'handle' if name == 'option' else 'N'}" for name in lacking)
            if len(lacking) == 2:
                remedy = "write --settings FILE, or --option handle --servers N"
            yield at_word(
                line,
                None,
                Words(
                    f"locate needs {' and '.join('--' + name for name in lacking)}", remedy, f"the forms are {forms}"
                ),
            )


def _other_words(line: Line, takes: Command, options: list[Option], others: list[Word]) -> Iterator[Finding]:
    """Words that belong to no option: the last word of some commands, and no other."""
    wanted = 1 if takes.last else 0
    if len(others) < wanted:
        example = "20.500.1234/report-2024" if takes.last == "handle" else "FILE"
        message = f"the {takes.last} is missing"
        yield at_word(line, None, Words(message, f"write {example} as the last word", f"the form is {shown(line)}"))
    given = {option.name for option in options}
    for other in others[wanted:]:
        meant = near(other.text.split(".")[0], takes.options, 0.6)
        why, remedy = "each file stands behind its option", "take it out, or put its option in front"
        if takes.last == "handle" and "/" in other.text:
            why = "locate takes one handle"
            remedy = "ask for one at a time; hsplan-stream places takes a log of them"
        elif wanted:
            why = f"a {'handle' if takes.last == 'handle' else 'name'} with a blank stands in quotes"
            remedy = "put quotes about the whole, or take it out"
        elif meant in given:
            why, remedy = f"--{meant} takes one file, and has it", "take it out, or make one file of both"
        elif meant:
            remedy = f"write --{meant} {other.text}"
        yield at_word(line, other, Words(f"the word {quoted(other.text)} belongs to no option", remedy, why))


def usage(line: Line) -> list[Finding]:
    """All that is wrong with words that are no command."""
    wrong = command_fault(line)
    if wrong:
        return [wrong]
    takes = line.takes
    options, others = split(line)
    faults = list(_option_faults(line, takes, options))
    faults += _other_words(line, takes, options, others)
    if not {"h", "help"} & {option.name for option in options if option.name not in takes.options}:
        faults += _missing(line, takes, options)
    if not faults:
        message = "these words are no command"
        words = Words(message, f"compare with {shown(line)}", "an option is missing, misspelt, or twice")
        faults = [at_word(line, None, words)]
    return faults


def not_utf8(line: Line, word: Word) -> Finding:
    """A word that hsplan doesn't take, since it isn't UTF-8."""
    is_handle = line.takes.last == "handle" and word in split(line)[1]
    remedy = "write it in UTF-8: iconv -f latin1 -t utf-8" if is_handle else "rename the file, or go into its folder"
    return at_word(line, word, Words(f"{quoted(word.text)} isn't UTF-8", remedy, "hsplan takes words in UTF-8"))


def value_fault(line: Line, word: str) -> Finding:
    """A value that its option doesn't take: `BadOption`, `BadServers`, `BadIndex`, `BadFronts` or `BadFront`."""
    advised = {
        "BadOption": ("option", "write na, local or handle"),
        "BadServers": ("servers", f"write the number of the site's servers, 1 to {MOST_SERVERS}"),
        "BadIndex": ("index", f"write the index of the value, a whole number up to {GREATEST_ID}"),
        "BadFronts": ("fronts", f"write how many dispatchers there are, 1 to {MOST_FRONTS}"),
        "BadFront": ("front", "write a number below that of --fronts: the first front is 0"),
    }
    name, remedy = advised[word]
    options, _ = split(line)
    option = next((option for option in options if option.name == name), None)
    value = option.value if option and option.value is not None else ""
    why = "a whole number of digits only"
    if word == "BadOption":
        why = "the hash option is one of three words"
    elif word == "BadFront" and value.isdigit():
        why = "fronts count from 0"
    elif value.isdigit():
        why = (
            "zeros before the digits"
            if value[0] == "0" and value.strip("0")
            else "0 is too few"
            if not value.strip("0")
            else "it is too large"
        )
    finding = at_word(
        line, option.value_word if option else None, Words(f"--{name} doesn't take {quoted(value)}", remedy, why)
    )
    message = finding.message
    return found(
        "", Place(1, finding.column, finding.end - finding.column, line.text), Words(message, remedy, why), word
    )


def bad_handle_word(line: Line, said: Said) -> Finding:
    """A handle among the words of `locate` that is none."""
    advised = {
        "NoSlash": ("a handle is a prefix, '/' and a suffix", "write it whole, as 20.500.1234/report-2024"),
        "EmptySegment": ("the prefix has an empty part", "write the prefix without a point at its ends or twice"),
        "NotUtf8": ("its octets aren't UTF-8", "write it in UTF-8: iconv -f latin1 -t utf-8"),
        "TooLong": (f"a handle has at most {LONGEST_HANDLE:,} octets", "is this a handle?"),
    }
    why, remedy = advised.get(said.word, ("it isn't a handle", "write prefix, '/', suffix"))
    others = split(line)[1]
    word = others[0] if others else Word("", len(line.text))
    place = Place(1, word.column + 1, len(word.text), line.text)
    return found("", place, Words(f"{quoted(word.text)} isn't a handle", remedy, why), said.line)
