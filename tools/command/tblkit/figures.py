"""Tables of figures, as documents have them, and how figures differ from those that a document keeps."""
import re
from collections.abc import Iterator

# How much more than the figure that is kept passes, in parts of it. The system counts memory less well.
SLACK = 0.02
MEMORY_SLACK = 0.05
NUMBER = re.compile(r"[\d,]+")


def line(cells) -> str:
    return f"| {' | '.join(cells)} |"


def head(cells) -> str:
    """The first two lines of a table."""
    return f"{line(cells)}\n|{len(cells) * '---|'}"


def beside(values, form) -> list[str]:
    """The cells of a figure: the program's, and for each other program that one's, with how many times as much the first is."""
    return [form.format(values[0])] + [cell for it in values[1:] for cell in (form.format(it), f"{values[0] / it:.2f}")]


def kept(lines, heads) -> dict[str, list[int]]:
    """The whole numbers of each row of the tables that begin with these heads, by what stands first in the row."""
    found, in_table = {}, False
    for said in lines:
        cells = [it.strip() for it in said.strip().strip("|").split("|")]
        in_table = said.startswith("|") and (in_table or cells[:len(heads)] == heads)
        if in_table and len(cells) > 1 and NUMBER.fullmatch(cells[1]):
            found[cells[0]] = [int(it.replace(",", "")) for it in cells[1:] if NUMBER.fullmatch(it)]
    return found


def is_more(figure, other, slack=SLACK) -> bool:
    return figure > other * (1 + slack)


def more_than_kept(of_document, name, values, slack=SLACK) -> Iterator[str]:
    """What is wrong with the figures of a row, by those that a document keeps."""
    if name not in of_document:
        yield "docs/work/performance.md has no figure"
    elif any(is_more(*it, slack) for it in zip(values, of_document[name])):
        yield f"docs/work/performance.md has {' '.join(f'{it:,}' for it in of_document[name][:len(values)])}"
