"""Which known words a word that isn't known may stand for."""
import difflib

LEAST_ALIKE = 0.66
MOST = 3


def near(word, known) -> list[str]:
    """Those of the known words that a word is like, the nearest first. Capitals and small letters are the same."""
    by_letters = {}
    for it in known:
        by_letters.setdefault(it.lower(), it)
    return [by_letters[it] for it in difflib.get_close_matches(word.lower(), by_letters, MOST, LEAST_ALIKE)]


def meant(word, known) -> str:
    """What a message goes on with after a word that isn't known: those that may have been meant, or nothing."""
    found = near(word, known)
    return f"; did you mean {' or '.join(found)}?" if found else ""
