"""What is likely meant by a text that is no whole number, and what to write."""

import re
from decimal import Decimal
from typing import NamedTuple

from hsp.base.grammar import GREATEST_CAPACITY, GREATEST_COST, GREATEST_COUNT, GREATEST_ID, GREATEST_ROW_COUNT
from hsp.doctor.findings import quoted


# What stands about a field in place of the quotes of a table.
QUOTES = "'`\u2018\u2019\u201c\u201d\u201e\u00ab\u00bb"


class Advice(NamedTuple):
    """Why a number is refused, what to do, and what stands in its place in a mended copy."""

    why: str
    remedy: str
    mended: str = "1"


def _of_forms(bare: str) -> Advice | None:
    """Forms of numbers that are not whole and plain."""
    if re.fullmatch(r"[0-9]{1,3}([.,' \u00a0\u202f_][0-9]{3})+", bare):
        digits = re.sub(r"[^0-9]", "", bare)
        return Advice("a separator of thousands", f"write {digits}", digits)
    if re.fullmatch(r"[+]?[0-9]*[.,][0-9]+", bare):
        whole = str(int(float(bare.replace(",", ".")) + 0.5))
        unit = "or take a smaller unit in the whole table, as tenths"
        return Advice("a fraction; every number is whole", f"write {whole}, {unit}", whole)
    if re.fullmatch(r"[0-9]+[.,]", bare):
        return Advice("a point behind the digits", f"write {bare[:-1]}", bare[:-1])
    if re.fullmatch(r"[0-9]+([.,][0-9]+)?[eE][+]?[0-9]{1,2}", bare):
        whole = str(int(float(bare.replace(",", "."))))
        return Advice("an exponent, as spreadsheets write it", f"write {whole}", whole)
    if re.match(r"[-\u2212]\s*[0-9.,]*$", bare) and len(bare) > 1:
        return Advice("a minus; no number is below 0", "write 0, or take the row out", "0")
    if re.fullmatch(r"\+[0-9]+", bare):
        return Advice("a plus before the digits", f"write {bare[1:]}", bare[1:])
    if re.fullmatch(r"0+[0-9]+", bare):
        return Advice("a zero before the digits", f"write {int(bare)}", str(int(bare)))
    return None


def _of_signs(bare: str) -> Advice | None:
    """Digits with other signs about them, or other signs only."""
    short = re.fullmatch(r"([0-9]+(?:[.,][0-9]+)?)\s*([kKM])", bare)
    if short:
        thousands, name = (1, "thousands") if short[2] in "kK" else (2, "millions")
        whole = f"{Decimal(short[1].replace(',', '.')) * 1000**thousands:.0f}"
        return Advice(f"{short[2]} for {name}", f"write {whole}", whole)
    digits = re.match(r"[0-9]+", bare)
    if digits and re.fullmatch(r"[0-9]+\s*[^\W\d_%]*[%\u00b5]?[^\W\d_]*(/[^\W\d_]+)?", bare):
        return Advice("a unit behind the digits", f"write {digits[0]}; hsp.toml has the units", digits[0])
    if bare.isdecimal() and not bare.isascii():
        plain = str(int(bare))
        return Advice("digits of another script", f"write {plain}", plain)
    if bare.lower() in ("", "-", "n/a", "na", "nan", "none", "null", "inf", "infinity", "unlimited", "\u221e"):
        many = bare.lower() in ("inf", "infinity", "unlimited", "\u221e")
        why = "a word in place of a number" if bare else "an empty field"
        remedy = (
            f"write a large number, as {GREATEST_CAPACITY} for a capacity"
            if many
            else "write a number, or take the row out"
        )
        return Advice(why, remedy)
    return None


def advice(text: str, name: str, is_log: bool = False) -> Advice:
    """What to do about the number of a column, of a table or of a log."""
    bare = "".join(sign for sign in text if sign.isprintable() and sign not in "\u200b\ufeff").strip(" \t\u00a0")
    if re.fullmatch(r"0|[1-9][0-9]*", bare) and bare != text:
        return Advice("a blank, or a sign that isn't seen, beside the digits", f"write {bare}, without it", bare)
    if re.fullmatch(r"0|[1-9][0-9]*", bare):
        if name in ("server_id", "front"):
            return Advice(
                f"a {name} is at most {GREATEST_ID:,}", "write the number that it has, as hsplan site prints it"
            )
        what = "costs" if name == "cost" else "counts and capacities"
        count = GREATEST_ROW_COUNT if is_log else GREATEST_COUNT
        limits = {"cost": GREATEST_COST, "count": count, "capacity": GREATEST_CAPACITY}
        limit = f"{limits[name]:,}" if name in limits else "the limit"
        return Advice(
            f"a {name} is at most {limit}", f"take a larger unit in all {what}, as thousands; or mend the digits"
        )
    found = _of_forms(bare) or _of_signs(bare)
    if found:
        return found
    inner = bare.strip(QUOTES)
    if re.fullmatch(r"0|[1-9][0-9]*", inner):
        return Advice("other quotes than those of a table", f"write {inner}", inner)
    return Advice(
        f"letters or signs where {name} stands", f"write only digits for {name} in place of {quoted(text, 20)}"
    )
