"""Links and headings of pages in Markdown: what tools/develop/gate/check-links looks at, and what tools/publish/site changes."""
import re
import typing
from collections.abc import Iterator

# Code in which nothing is a link: a fenced block, an indented line, a comment, and a span.
CODE = re.compile(r"^(?P<fence>```|~~~).*?^(?P=fence)[^\n]*$|^(?: {4}|\t)[^\n]*$|<!--.*?-->|(?P<ticks>`+)(?!`).+?(?<!`)(?P=ticks)(?!`)",
                  re.MULTILINE | re.DOTALL)
INLINE = re.compile(r"(?P<image>!?)\[(?P<text>(?:[^\[\]]|!?\[[^\[\]]*\](?:\([^()]*\))?)*)\]\((?P<target>[^()\s]*(?:\([^()\s]*\))?[^()\s]*)(?P<title>\s+\"[^\"]*\")?\)")
OTHERS = re.compile(r"^ {0,3}\[[^\]]+\]:\s*(\S+)|<(?:a|img|source)\b[^>]*?\b(?:href|src|srcset)=\"([^\"]*)\"", re.MULTILINE)
HEADING = re.compile(r"^(#{1,6})[ \t]+(.+?)[ \t]*#*$", re.MULTILINE)
IDENTIFIER = re.compile(r"<\w+\b[^>]*?\b(?:id|name)=\"([^\"]+)\"")
OUTSIDE = re.compile(r"[a-z][a-z0-9+.-]*:|//", re.IGNORECASE)


class Link(typing.NamedTuple):
    """A link: where it begins and ends in the page, its text, and where it leads."""
    begin: int
    end: int
    text: str
    target: str
    is_image: bool = False

    @property
    def path(self) -> str:
        return self.target.partition("#")[0]

    @property
    def anchor(self) -> str:
        return self.target.partition("#")[2]

    @property
    def is_outside(self) -> bool:
        """Whether it leads to another place of the network."""
        return bool(OUTSIDE.match(self.target))


def blanked(text) -> str:
    """A page with blanks in the place of its code, so that all else is where it was."""
    return CODE.sub(lambda found: re.sub(r"[^\n]", " ", found[0]), text)


def links(text) -> Iterator[Link]:
    """The links of a page, and the links in the texts of links, as pictures are."""
    bare = blanked(text)
    for it in INLINE.finditer(bare):
        yield Link(it.start(), it.end(), text[it.start("text"):it.end("text")], it["target"], bool(it["image"]))
        for inner in INLINE.finditer(bare, it.start("text"), it.end("text")):
            yield Link(inner.start(), inner.end(), inner["text"], inner["target"], bool(inner["image"]))
    for it in OTHERS.finditer(bare):
        yield Link(it.start(), it.end(), "", (it[1] or it[2]).strip("<>"))


def anchor_of(heading) -> str:
    """The anchor of a heading, as GitHub and MyST make it."""
    words = re.sub(r"!?\[([^\[\]]*)\]\([^()]*\)", r"\1", heading)
    return re.sub(r"[^\w\- ]", "", words.lower()).replace(" ", "-")


def anchors(text) -> set[str]:
    """The anchors of a page: those of its headings, of which further ones of a text have a number, and those that it names itself."""
    found: set[str] = set()
    times: dict[str, int] = {}
    without_blocks = re.sub(r"^(```|~~~).*?^\1[^\n]*$|^(?: {4}|\t)[^\n]*$|<!--.*?-->", "", text, flags=re.MULTILINE | re.DOTALL)
    for _, heading in HEADING.findall(without_blocks):
        anchor = anchor_of(heading)
        count = times[anchor] = times.get(anchor, -1) + 1
        found.add(f"{anchor}-{count}" if count else anchor)
    return found | set(IDENTIFIER.findall(blanked(text)))
