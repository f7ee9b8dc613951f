"""Turns a screen of a terminal, as `tmux capture-pane -e -p` writes it, into a picture.

draw.py COLUMNS TITLE <screen >picture.svg
"""

import re
import sys
from html import escape

WIDTH, HEIGHT, SIZE, MARGIN = 8.4, 18, 14, 12
INK, PAPER = "#1f2328", "#ffffff"
SIXTEEN = [
    "#24292f", "#b31d28", "#116329", "#8a5a00", "#0550ae", "#8250df", "#1b7c83", "#d0d7de",
    "#57606a", "#cf222e", "#1a7f37", "#fff3b0", "#0969da", "#a475f9", "#3192aa", "#ffffff",
]  # fmt: skip


def colour(number):
    """The colour of a number from 0 to 255: sixteen named ones, a cube of 6 levels, and greys."""
    if number < 16:
        return SIXTEEN[number]
    if number < 232:
        cube = number - 16
        levels = [0, 95, 135, 175, 215, 255]
        return "#%02x%02x%02x" % (levels[cube // 36], levels[cube // 6 % 6], levels[cube % 6])
    return "#%02x%02x%02x" % ((8 + 10 * (number - 232),) * 3)


def restyled(style, codes):
    """The style behind an escape sequence with these numbers."""
    style = dict(style)
    codes = list(codes)
    while codes:
        code = codes.pop(0)
        if code == 0:
            style = {}
        elif code in (1, 4, 7):
            style[code] = True
        elif code in (22, 24, 27):
            style.pop({22: 1, 24: 4, 27: 7}[code], None)
        elif code in (38, 48):
            kind = codes.pop(0)
            value = colour(codes.pop(0)) if kind == 5 else "#%02x%02x%02x" % tuple(codes.pop(0) for _ in range(3))
            style["ink" if code == 38 else "paper"] = value
        elif code in (39, 49):
            style.pop("ink" if code == 39 else "paper", None)
        elif 30 <= code <= 37 or 90 <= code <= 97:
            style["ink"] = SIXTEEN[code - 30 if code < 90 else code - 82]
        elif 40 <= code <= 47 or 100 <= code <= 107:
            style["paper"] = SIXTEEN[code - 40 if code < 100 else code - 92]
    return style


def pieces(line, style):
    """The pieces of a line that have one style each, and the style behind the line."""
    found = []
    for text, codes in re.findall(r"([^\x1b]+)|\x1b\[([\d;]*)m", line.replace("\x0f", "")):
        if text:
            found.append((text, style))
        else:
            style = restyled(style, [int(code or 0) for code in codes.split(";")])
    return found, style


def drawn(text, style, column, row):
    """A piece of a line as elements of SVG."""
    ink, paper = style.get("ink", INK), style.get("paper", PAPER)
    if 7 in style:
        ink, paper = paper, ink
    x, y, wide = MARGIN + column * WIDTH, MARGIN + row * HEIGHT, len(text) * WIDTH
    if paper != PAPER:
        yield f'<rect x="{x:.1f}" y="{y}" width="{wide:.1f}" height="{HEIGHT}" fill="{paper}"/>'
    marks = (' font-weight="bold"' if 1 in style else "") + (' text-decoration="underline"' if 4 in style else "")
    # (word by word, since viewers treat blanks in different ways)
    for word in re.finditer(r"\S+", text):
        at, long = x + word.start() * WIDTH, len(word[0]) * WIDTH
        yield f'<text x="{at:.1f}" y="{y + 13.5}" textLength="{long:.1f}" fill="{ink}"{marks}>{escape(word[0])}</text>'


def main():
    columns, title = int(sys.argv[1]), sys.argv[2]
    lines = sys.stdin.read().rstrip("\n").split("\n")
    wide, high = 2 * MARGIN + columns * WIDTH, 2 * MARGIN + len(lines) * HEIGHT
    print(f'<svg xmlns="http://www.w3.org/2000/svg" viewBox="0 0 {wide:.0f} {high}" width="{wide:.0f}" height="{high}">')
    print(f"<title>{escape(title)}</title>")
    print(f'<rect width="100%" height="100%" rx="6" fill="{PAPER}" stroke="#d0d7de"/>')
    print(f'<g font-family="DejaVu Sans Mono, Menlo, Consolas, monospace" font-size="{SIZE}">')
    style = {}
    for row, line in enumerate(lines):
        column = 0
        found, style = pieces(line, style)
        for text, its_style in found:
            print("\n".join(drawn(text, its_style, column, row)) or "", end="")
            column += len(text)
        print()
    print("</g>\n</svg>")


main()
