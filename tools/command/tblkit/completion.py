"""Which words may come next in a line of session text."""
from . import text
from .words import TextError

# A word that stands where any name may, and no keyword and no number.
ANY = '"?"'


def candidates(front, states, files, folder=".") -> list[str]:
    """The words that may follow the front of a line: keywords, and where a name or a handle is expected those that are known."""
    line = f"{front} {ANY}" if front.strip() else ANY
    at = len(line) - len(ANY)
    try:
        text.record_of(line, folder)
    except TextError as error:
        if error.at == at and error.allowed:
            return list(error.allowed)
        if error.at == at and "the handle" in str(error):
            return [str(number) for number in sorted(states.view.handles)]
        if error.at == at:
            return []
    return [*states.tables, *files]
