"""What is said where time, memory or turns ended before all of the files was looked at."""

import os

from hsp.base.bounds import LARGEST
from hsp.base.numbers import some
from hsp.doctor.findings import ERROR, NOTE, Finding


def rounded(number: float) -> int:
    """A number of two digits and zeros."""
    return int(float(f"{number:.2g}"))


def _part_of(finding: Finding) -> tuple[str, str]:
    """Where hsplan met a fault: the file, and whether it read that by itself or with the others."""
    return finding.file, finding.said.partition(":")[0]


def likely(findings: list[Finding]) -> int:
    """How many findings the files may have in all; only these, where that isn't known.

    hsplan reads a file from its first line on. So each line behind the last finding is taken to have as many as one
    above it.
    """
    last = findings[-1]
    if last.severity != ERROR or not last.line or not os.path.isfile(last.file):
        return len(findings)
    with open(last.file, "rb") as file:
        octets = file.read(LARGEST)
    own = [finding.line for finding in findings if _part_of(finding) == _part_of(last)]
    header = int(min(own) > 1)
    lines, read = octets.removesuffix(b"\n").count(b"\n") + 1 - header, max(own) - header
    return rounded(len(findings) - len(own) + len(own) * max(lines, read) / read)


def cut_short(findings: list[Finding]) -> Finding:
    """How much of all is shown, and what to do."""
    if not findings:
        return Finding("the files are too large to be looked at for warnings", "", severity=NOTE)
    whole, remedy = likely(findings), "mend these, and ask again"
    if whole > len(findings):
        return Finding(f"the first {len(findings):,} of some {some(whole, 'finding')}", remedy, severity=NOTE)
    return Finding(f"the first {some(len(findings), 'finding')}; there may be more", remedy, severity=NOTE)
