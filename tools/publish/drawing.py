"""Pictures from text: boxes, arrows and layers of crates as SVG that is readable in light and in dark.

A description has a thing a line, and `#` begins a comment:

    title WORDS                             what the picture shows
    about WORDS                             the same for someone who doesn't see it; several lines are one text
    size WIDTH HEIGHT
    frame X Y WIDTH HEIGHT WORDS            a border around others, with its words at the top
    box NAME X Y WIDTH HEIGHT LOOK WORDS    LOOK is one of LOOKS; `|` begins a line, and the first line is bold
    arrow NAME SIDE [PART] -> NAME SIDE [PART] LINE [: WORDS]
                                            from and to a side (left, right, top, bottom), at a part of it (0.5 is its middle);
                                            LINE is solid or dashed; the words stand at the middle of its longest piece
    note X Y WORDS                          text that begins at a place; `|` begins a line
    layers FILE                             the layers of crates of a file such as crates.txt, the last one at the top
"""
import re
from dataclasses import dataclass, field
from xml.sax.saxutils import escape

FONT, LINE = 13, 18
# How wide a letter is at most on average, in parts of its height, so that words fit in whatever sans-serif font there is.
LETTER, BOLD_LETTER = 0.6, 0.66
LOOKS = ("plain", "actor", "table", "store")
# For each theme: what is behind, text, lines, and each look's inside.
THEMES = {
    "light": {"back": "#ffffff", "ink": "#1f2328", "line": "#57606a", "plain": "#f3f4f6", "actor": "#ddf4ff", "table": "#fff3c4", "store": "#dafbe1"},
    "dark": {"back": "#0d1117", "ink": "#e6edf3", "line": "#9da7b3", "plain": "#21262d", "actor": "#0c2d4d", "table": "#453600", "store": "#0f3d25"},
}
HEAD, HEAD_WIDTH = 9, 4
# Ends of an arrow that are nearer than this to one line are on it.
NEAR = 2
# Layers: the width of a picture of them, of its headings, and the room around crates.
LAYERS_WIDTH, HEADING_WIDTH, CRATE_HEIGHT, ROOM = 960, 230, 26, 8


class Wrong(Exception):
    """A line of a description that isn't right."""


@dataclass
class Box:
    """A rectangle with lines of text in it."""
    x: float
    y: float
    width: float
    height: float
    look: str
    lines: list[str]

    def at(self, side: str, part: float) -> tuple[float, float]:
        """The place at a part of a side."""
        if side in ("left", "right"):
            return self.x + (self.width if side == "right" else 0), self.y + part * self.height
        return self.x + part * self.width, self.y + (self.height if side == "bottom" else 0)


@dataclass
class Picture:
    """What a description has, as pieces of SVG in the order in which they are drawn."""
    title: str = ""
    about: list[str] = field(default_factory=list)
    width: float = 0
    height: float = 0
    boxes: dict[str, Box] = field(default_factory=dict)
    below: list[str] = field(default_factory=list)
    above: list[str] = field(default_factory=list)


def number(value: float) -> str:
    return f"{value:.1f}".rstrip("0").rstrip(".")


def width_of(words: str, is_bold: bool = False) -> float:
    """How wide a line of text is at most."""
    return len(words) * FONT * (BOLD_LETTER if is_bold else LETTER)


def text(x: float, y: float, words: str, kind: str = "", anchor: str = "start") -> str:
    kinds = f' class="{kind}"' if kind else ""
    placed = "" if anchor == "start" else f' text-anchor="{anchor}"'
    return f'<text x="{number(x)}" y="{number(y)}"{kinds}{placed}>{escape(words)}</text>'


def lines_in(words: str) -> list[str]:
    return [it.strip() for it in words.split("|")]


def rectangle(x: float, y: float, width: float, height: float, kind: str) -> str:
    return f'<rect x="{number(x)}" y="{number(y)}" width="{number(width)}" height="{number(height)}" rx="6" class="{kind}"/>'


def boxed(box: Box) -> list[str]:
    """A box with its lines in the middle of it."""
    made = [rectangle(box.x, box.y, box.width, box.height, f"box {box.look}")]
    first = box.y + (box.height - LINE * len(box.lines)) / 2 + FONT
    for at, words in enumerate(box.lines):
        if width_of(words, at == 0) > box.width - ROOM or LINE * len(box.lines) > box.height:
            raise Wrong(f"`{words}` doesn't fit into its box")
        made.append(text(box.x + box.width / 2, first + LINE * at, words, "" if at else "bold", "middle"))
    return made


def way(start: tuple[float, float], from_side: str, end: tuple[float, float], to_side: str) -> list[tuple[float, float]]:
    """The corners of an arrow, whose pieces go along the edges of the picture."""
    (x, y), (u, v) = start, end
    if abs(x - u) < NEAR or abs(y - v) < NEAR:
        return [start, (x, v) if abs(x - u) < NEAR else (u, y)]
    is_across = from_side in ("left", "right")
    if is_across != (to_side in ("left", "right")):
        return [start, (u, y) if is_across else (x, v), end]
    middle = [((x + u) / 2, y), ((x + u) / 2, v)] if is_across else [(x, (y + v) / 2), (u, (y + v) / 2)]
    return [start, *middle, end]


def head_of(before: tuple[float, float], end: tuple[float, float]) -> str:
    """The head of an arrow, as the corners of a triangle."""
    (x, y), (u, v) = before, end
    across, down = (u > x) - (u < x), (v > y) - (v < y)
    base = (u - HEAD * across, v - HEAD * down)
    corners = [end, (base[0] + HEAD_WIDTH * down, base[1] + HEAD_WIDTH * across), (base[0] - HEAD_WIDTH * down, base[1] - HEAD_WIDTH * across)]
    return " ".join(f"{number(a)},{number(b)}" for a, b in corners)


def words_at(corners: list[tuple[float, float]], words: str) -> list[str]:
    """The words of an arrow: above the longest piece if that lies, and else to the right of it."""
    lines = lines_in(words)
    (x, y), (u, v) = max(zip(corners, corners[1:]), key=lambda it: abs(it[0][0] - it[1][0]) + abs(it[0][1] - it[1][1]))
    if y == v:
        return [text((x + u) / 2, y - 6 - LINE * (len(lines) - 1 - at), line, "halo", "middle") for at, line in enumerate(lines)]
    first = (y + v) / 2 - LINE * len(lines) / 2 + FONT
    return [text(x + 8, first + LINE * at, line, "halo") for at, line in enumerate(lines)]


def arrow(picture: Picture, given: str) -> None:
    """Draws an arrow between two boxes that stand before it."""
    end = r"(\w+) (left|right|top|bottom)(?: ([\d.]+))?"
    found = re.fullmatch(rf"{end} -> {end} (solid|dashed)(?:: (.+))?", given)
    if not found or found[1] not in picture.boxes or found[4] not in picture.boxes:
        raise Wrong("an arrow has two boxes, each with a side, and how it is drawn")
    start = picture.boxes[found[1]].at(found[2], float(found[3] or 0.5))
    corners = way(start, found[2], picture.boxes[found[4]].at(found[5], float(found[6] or 0.5)), found[5])
    path = "M" + " L".join(f"{number(x)} {number(y)}" for x, y in corners)
    picture.below += [f'<path d="{path}" class="line {found[7]}"/>', f'<polygon points="{head_of(*corners[-2:])}" class="head"/>']
    picture.above += words_at(corners, found[8]) if found[8] else []


def layers_in(name: str) -> list[tuple[str, list[str]]]:
    """The layers of crates of a file: the first words of the heading of each, and its crates."""
    found: list[tuple[str, list[str]]] = []
    with open(name, encoding="utf-8") as file:
        parts = file.read().split("\n\n")
    for part in parts:
        heading, *crates = part.strip().split("\n")
        if crates:
            found.append((re.split("[:;]|, as? ", heading.removeprefix("# ").replace("`", ""))[0], [it.split(":")[0].split(" ")[0] for it in crates]))
    return found


def wrapped(words: str, width: float, is_bold: bool = False) -> list[str]:
    """Words as lines that aren't wider than that."""
    lines = [""]
    for word in words.split():
        longer = f"{lines[-1]} {word}".strip()
        lines = [*lines[:-1], longer] if width_of(longer, is_bold) <= width else [*lines, word]
    return lines


def rows_of(crates: list[str]) -> list[list[Box]]:
    """Crates side by side, as many in a row as fit; their places in the row alone are right."""
    rows, x = [[]], float(HEADING_WIDTH + 2 * ROOM)
    for name in crates:
        width = width_of(name) + 2 * ROOM
        if x + width > LAYERS_WIDTH - 2 * ROOM:
            rows, x = [*rows, []], float(HEADING_WIDTH + 2 * ROOM)
        rows[-1].append(Box(x, 0, width, CRATE_HEIGHT, "table", [name]))
        x += width + ROOM
    return rows


def layers(picture: Picture, name: str) -> None:
    """Draws each layer as a band: its heading at the left, its crates beside it."""
    y = float(ROOM)
    for heading, crates in reversed(layers_in(name)):
        rows, said = rows_of(crates), wrapped(heading, HEADING_WIDTH - ROOM, True)
        height = max(len(rows) * (CRATE_HEIGHT + ROOM) + ROOM, len(said) * LINE + 2 * ROOM)
        picture.below.append(rectangle(ROOM, y, LAYERS_WIDTH - 2 * ROOM, height, "box plain"))
        picture.above += [text(2 * ROOM, y + ROOM + FONT + LINE * at, line, "bold") for at, line in enumerate(said)]
        for at, row in enumerate(rows):
            for box in row:
                top = y + ROOM + at * (CRATE_HEIGHT + ROOM)
                picture.below.append(rectangle(box.x, top, box.width, box.height, f"box {box.look}"))
                picture.above.append(text(box.x + box.width / 2, top + CRATE_HEIGHT / 2 + FONT / 3, box.lines[0], "", "middle"))
        y += height + ROOM
    picture.width, picture.height = LAYERS_WIDTH, y


def take(picture: Picture, word: str, rest: str) -> None:
    """Takes a line of a description."""
    if word == "title":
        picture.title = rest
    elif word == "about":
        picture.about.append(rest)
    elif word == "size":
        picture.width, picture.height = map(float, rest.split())
    elif word == "frame":
        x, y, width, height, words = rest.split(" ", 4)
        picture.below.append(rectangle(float(x), float(y), float(width), float(height), "frame"))
        picture.above.append(text(float(x) + 10, float(y) + LINE + 2, words, "bold"))
    elif word == "box":
        name, x, y, width, height, look, words = rest.split(" ", 6)
        if look not in LOOKS:
            raise Wrong(f"a box has one of these looks: {', '.join(LOOKS)}")
        picture.boxes[name] = Box(float(x), float(y), float(width), float(height), look, lines_in(words))
        picture.above += boxed(picture.boxes[name])
    elif word == "arrow":
        arrow(picture, rest)
    elif word == "note":
        x, y, words = rest.split(" ", 2)
        picture.above += [text(float(x), float(y) + LINE * at, line) for at, line in enumerate(lines_in(words))]
    elif word == "layers":
        layers(picture, rest)
    else:
        raise Wrong(f"{word} isn't known")


def read(name: str) -> Picture:
    """The picture that a file describes."""
    picture = Picture()
    with open(name, encoding="utf-8") as file:
        for at, line in enumerate(file, 1):
            given = line.partition("#")[0].strip()
            if given:
                word, _, rest = given.partition(" ")
                try:
                    take(picture, word, rest.strip())
                except (Wrong, ValueError) as fault:
                    raise Wrong(f"{name}:{at}: {fault}") from fault
    if not (picture.title and picture.about and picture.width):
        raise Wrong(f"{name}: a picture has a title, what it is about, and a size")
    return picture


def rules(theme: dict[str, str]) -> str:
    """The colors of a theme."""
    made = [f".back{{fill:{theme['back']}}}", f"text{{fill:{theme['ink']}}}", f".halo{{stroke:{theme['back']}}}", f".line,.box,.frame{{stroke:{theme['line']}}}",
            f".head{{fill:{theme['line']}}}"]
    return "".join([*made, *(f".{look}{{fill:{theme[look]}}}" for look in LOOKS)])


def svg(picture: Picture) -> str:
    """The picture as SVG."""
    size = f"{number(picture.width)} {number(picture.height)}"
    style = (f"text{{font:{FONT}px Helvetica,Arial,sans-serif}}.bold{{font-weight:bold}}.halo{{stroke-width:4px;stroke-linejoin:round;paint-order:stroke}}"
             f".line,.frame{{fill:none}}.line{{stroke-width:1.5px}}.dashed{{stroke-dasharray:5 4}}.frame{{stroke-dasharray:2 3}}"
             f"{rules(THEMES['light'])}@media(prefers-color-scheme:dark){{{rules(THEMES['dark'])}}}")
    return "\n".join([
        f'<svg xmlns="http://www.w3.org/2000/svg" viewBox="0 0 {size}" width="{number(picture.width)}" height="{number(picture.height)}" role="img" '
        f'aria-labelledby="title about">',
        f'<title id="title">{escape(picture.title)}</title>', f'<desc id="about">{escape(" ".join(picture.about))}</desc>', f"<style>{style}</style>",
        f'<rect width="{number(picture.width)}" height="{number(picture.height)}" rx="8" class="back"/>', *picture.below, *picture.above, "</svg>", ""])
