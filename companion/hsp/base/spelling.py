"""What a misspelt word likely means."""

import difflib
from collections.abc import Iterable


def near(word: str, words: Iterable[str], least: float = 0.6) -> str:
    """The likeliest of some words that was meant, or nothing."""
    if len(word) > 200:
        return ""
    known = list(words)
    folded = {name.casefold(): name for name in known}
    if word.strip().casefold() in folded:
        return folded[word.strip().casefold()]
    return next(iter(difflib.get_close_matches(word, known, 1, least)), "")
