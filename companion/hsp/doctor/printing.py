"""How findings are printed: for people at a terminal or in a pipe, and as JSON for editors."""

from collections.abc import Iterable, Iterator

from hsp.base.numbers import listed
from hsp.base.text import bold, colored, dim, json_text, visible
from hsp.doctor.findings import ERROR, WARNING, Finding

WIDE = 96


def _window(text: str, column: int) -> tuple[str, int]:
    """What is shown of a long line, and where the column stands in it."""
    if len(text) <= WIDE:
        return text, column
    start = max(0, min(column - 40, len(text) + 6 - WIDE))
    before = "\u2026" if start else ""
    after = "\u2026" if start + WIDE - 6 < len(text) else ""
    return before + text[start : start + WIDE - 6] + after, column - start + len(before)


def _place(finding: Finding, colour: str) -> Iterator[str]:
    gutter = " " * len(str(finding.line or ""))
    if finding.file:
        yield f"{gutter}{dim('-->')} {visible(finding.file)}" + (f":{finding.line}" if finding.line else "") + (
            f":{finding.column}" if finding.line and finding.column else ""
        )
    if not finding.line or not finding.text.strip() and not finding.column:
        return
    text, column = _window(finding.text, finding.column)
    text = visible(text)
    number = str(finding.line) if finding.file else " " * len(gutter)
    yield f"{number} {dim('|')} {text}".rstrip()
    if finding.column:
        carets = "^" * max(1, min(finding.end - finding.column, 60, len(text) - column + 1))
        yield f"{gutter} {dim('|')} {' ' * (column - 1)}{colored(carets, colour)} {visible(finding.mark)}".rstrip()


def _lines_of(finding: Finding, others: list[Finding]) -> Iterator[str]:
    colour = "red" if finding.severity == ERROR else "yellow"
    yield colored(finding.severity, colour) + bold(f": {visible(finding.message)}")
    yield from _place(finding, colour)
    if finding.why:
        yield f"  {dim('why')}  {visible(finding.why)}"
    yield f"  {dim('do')}   {visible(finding.remedy)}"
    yield from _others(finding, others)
    if finding.said:
        yield dim(f"  hsplan says {finding.said}")


def _others(finding: Finding, others: list[Finding]) -> Iterator[str]:
    """How many more there are of a group, and in which lines; or what each is, where they have no line of their own."""
    numbers = list(dict.fromkeys(str(other.line) for other in others if other.line not in (0, finding.line)))
    if others and not numbers:
        for other in others[:8]:
            yield f"  {dim('and')}  {visible(other.message)}"
        if len(others) > 8:
            yield f"  {dim('and')}  {len(others) - 8} more of this kind"
    elif others:
        plural = "s" if len(numbers) > 1 else ""
        yield f"  {dim('and')}  {len(others)} more of this kind, in line{plural} {listed(numbers, 8)}"


def grouped(findings: Iterable[Finding]) -> list[list[Finding]]:
    """The findings of one group in one file together, in the order of the first of each."""
    groups: dict[tuple[str, str, str], list[Finding]] = {}
    for finding in findings:
        groups.setdefault((finding.severity, finding.file, finding.group), []).append(finding)
    return list(groups.values())


def lines(findings: Iterable[Finding]) -> Iterator[str]:
    """Each group of findings once, with a blank line after it."""
    for first, *others in grouped(findings):
        yield from _lines_of(first, others)
        yield ""


def json_of(findings: Iterable[Finding]) -> str:
    objects = [
        {
            "severity": finding.severity,
            "file": visible(finding.file),
            "line": finding.line,
            "column": finding.column,
            "end": finding.end,
            "message": visible(finding.message),
            "why": visible(finding.why),
            "remedy": visible(finding.remedy),
            "hsplan": visible(finding.said),
            "accept": visible(finding.name) if finding.severity == WARNING else "",
        }
        for finding in findings
    ]
    return json_text(objects)
