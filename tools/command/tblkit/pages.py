"""Pages in HTML as one file, which needs no network: elements as text, and the frame around them.

A page is readable from 400 pixels on, in light and in dark as the system is set. Colors stand in `PALETTE` alone: text has a contrast of
4.5 to 1 at least, marks have 3 to 1, and each kind of mark has a shape or a pattern beside its color. tools/develop/check-pages measures that.
"""
import html
import os

# The colors by their names: in light and in dark.
PALETTE = {
    "page": ("#ffffff", "#14171a"), "panel": ("#f4f6f8", "#1e2328"), "line": ("#c8ced6", "#3a424b"), "edge": ("#68727d", "#8b95a1"),
    "text": ("#1b1f24", "#e6e8ea"), "muted": ("#55606c", "#a9b3be"), "link": ("#0b5cad", "#7db8f7"), "written": ("#ffffff", "#14171a"),
    "chosen": ("#fff3b0", "#4a4314"), "refusal": ("#fdeeee", "#3a1e20"), "accepted": ("#17795a", "#4cc38a"), "refused": ("#c0222b", "#ff7b72"), "reset": ("#7a2bd6", "#b794f6"),
    "held": ("#3b4149", "#c3c9d0"), "image-0": ("#3a6ea5", "#79aee8"), "image-1": ("#6a5aa8", "#b3a6ea"), "image-2": ("#1f7380", "#5fc2cf"),
    "image-3": ("#80552b", "#d6a676"), "recovered": ("#a3335c", "#f08bb4"), "open": ("#a85508", "#f0a04b"), "pending": ("#7d6400", "#e3c341"),
    "rejected": ("#a8322c", "#f2958c"), "validated": ("#377a2c", "#85cc76"), "asked": ("#14532d", "#b9e8c2"), "dump": ("#41688c", "#9fc3e3"),
    "hidden": ("#4f7aa3", "#8fb2d3"), "directory": ("#6f6660", "#b9b0ab")}
HERE = os.path.dirname(os.path.realpath(__file__))


def beside(name) -> str:
    """What a file beside this one has, as a style or a script of a page."""
    with open(os.path.join(HERE, name), encoding="utf-8") as file:
        return file.read()


def _palette(theme) -> str:
    return " ".join(f"--{name}: {colors[theme]};" for name, colors in PALETTE.items())


def element(name, content="", **attributes) -> str:
    """An element with its attributes: `data_entry` is written data-entry, and `class_` class. The content is markup."""
    said = "".join(f' {key.rstrip("_").replace("_", "-")}="{html.escape(str(value))}"'
                   for key, value in attributes.items() if value is not None)
    return f"<{name}{said}>{content}</{name}>"


def text(words) -> str:
    """Words as markup."""
    return html.escape(words, quote=False)


def legend(kinds) -> str:
    """What the marks of a picture mean: pairs of a mark, which is markup, and words."""
    return element("ul", "".join(element("li", mark + text(words)) for mark, words in kinds), class_="legend", aria_label="Legend")


def picture(width, height, content, **attributes) -> str:
    """A picture of a size in points."""
    return element("svg", content, width=width, height=height, viewBox=f"0 0 {width} {height}", **attributes)


def swatch(kind) -> str:
    """The mark in a legend for bars of a kind."""
    return element("i", class_=f"bar {kind}", aria_hidden="true")


def fitting(words) -> str:
    """Words in a bar, which are seen if there is room for all of them."""
    return element("span", element("span", text(words)), class_="fitting")


def table(heads, rows, **attributes) -> str:
    """A table. On a narrow page each row stands as a card, with the head of each cell before it. The cells are markup."""
    head = element("tr", "".join(element("th", text(it), scope="col") for it in heads))
    body = "\n".join(element("tr", "".join(element("td", cell, data_label=name) for name, cell in zip(heads, row))) for row in rows)
    return element("table", f"<thead>{head}</thead>\n<tbody>{body}</tbody>", **attributes)


def page(title, body, style="", script="") -> str:
    """A whole page."""
    scripts = f'<script type="module">\n{script}</script>\n' if script else ""
    colors = f":root {{ {_palette(0)} }}\n@media (prefers-color-scheme: dark) {{ :root {{ {_palette(1)} }} }}\n"
    return (f'<!DOCTYPE html>\n<html lang="en">\n<head>\n<meta charset="utf-8">\n'
            f'<meta name="viewport" content="width=device-width, initial-scale=1">\n<meta name="color-scheme" content="light dark">\n'
            f"<title>{text(title)}</title>\n<style>\n{colors}{beside('pages.css')}{style}</style>\n</head>\n<body>\n{body}\n{scripts}"
            "</body>\n</html>\n")
