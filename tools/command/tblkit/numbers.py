"""Numbers of things in words, with the thing as one or as several."""


def noun(number: int, one: str, several: str = "") -> str:
    """What so many things are called."""
    return one if number == 1 else several or f"{one}s"


def counted(number: int, one: str, several: str = "") -> str:
    """A number of things, as `1 entry` and `12 entries`."""
    return f"{number} {noun(number, one, several)}"
