"""The known differences from cFE that calls can meet: rows of docs/reference/cfe.md, which the table of names has by their numbers."""
import functools
from dataclasses import dataclass

from . import names

ANY, SINCE = "*", "since"


@dataclass(frozen=True)
class Known:
    """A known difference: its number, what is so in cFE, and how a call meets it: the request and its status here, the return codes
    there, and what else has to hold."""
    number: int
    what: str
    request: str
    status: str
    codes: tuple
    condition: str

    def is_met(self, answer, code, holds) -> bool:
        """Whether an answer here and a return code there meet it. `holds` tells of a condition whether it does."""
        return (self.request in (answer.request, ANY) and self.status in (str(answer.status), ANY)
                and (code in self.codes or ANY in self.codes) and (not self.condition or holds(self.condition)))

    def words(self) -> str:
        return f"difference {self.number} of docs/reference/cfe.md: {self.what}"


@functools.cache
def all_known() -> tuple[Known, ...]:
    """Those that calls meet, and those that they meet because of what came before, whose status is that reason."""
    found = []
    for number, what, match in names.rows_of("differs"):
        words, _, condition = match.partition(" if ")
        request, status, *codes = words.split()
        found.append(Known(int(number), what, request, status, tuple(codes), condition))
    return tuple(found)


def since(reason, code) -> Known | None:
    """The one that a call with a return code there meets because of what came before, or None."""
    return next((it for it in all_known() if (it.request, it.status) == (SINCE, reason) and (code in it.codes or ANY in it.codes)), None)


def of(answer, code, holds) -> Known | None:
    """The known difference that an answer here and a return code there meet, or None."""
    return next((it for it in all_known() if it.is_met(answer, code, holds)), None)


@functools.cache
def _codes_of_blocks() -> dict[int, str]:
    return {int(number): code for number, code in names.rows_of("cds return")}


def return_code(answer) -> str | None:
    """cFE's return code that says the same as the answer does, or None."""
    found = names.return_codes().get(answer.status)
    return _codes_of_blocks().get(answer.status, found) if answer.request.startswith("Cds") else found


@functools.cache
def codes() -> set[str]:
    """All return codes that recorded calls are compared by."""
    named = set(names.return_codes().values()) | set(_codes_of_blocks().values())
    return named | {code for it in all_known() for code in it.codes if code != ANY}
