"""Finds the edges of a picture, by the differences across 3 by 3 pixels.

Writes picture.pgm and edges.pgm into the folder that it is called in.
"""

from piperench import Program, signals

WIDTH, HEIGHT = 96, 64

EDGES = """
input line0:8;                           // a pixel
input line1:8;                           // the one above it
input line2:8;                           // and the one above that
fn apart(a, b) { return a > b ? a - b : b - a; }
let down = line0 + (line1 << 1) + line2;
let across = apart(down, down@2);
let top = line2 + (line2@1 << 1) + line2@2;
let bottom = line0 + (line0@1 << 1) + line0@2;
let sum = across + apart(top, bottom);
output edge:8 = sum > 255 ? 255 : sum;
"""

# A grey picture with a bright disc and a dark bar.
disc = [[200 if (x - 30) ** 2 + (y - 30) ** 2 < 400 else 90 for x in range(WIDTH)] for y in range(HEIGHT)]
picture = [[20 if 60 < x < 70 and 10 < y < 55 else disc[y][x] for x in range(WIDTH)] for y in range(HEIGHT)]
signals.write_picture("picture.pgm", [pixel for line in picture for pixel in line], width=WIDTH)

# The picture as a stream of columns of three pixels, through the program.
seen = signals.read_picture("picture.pgm")
edges = Program(EDGES).run(seen.lines(3))
signals.write_picture("edges.pgm", edges, width=seen.width)


def plain(y: int, x: int) -> int:
    """The same for the pixel in the middle, which is a line and a column before."""
    up, here, down = (picture[y + k][x - 1 : x + 2] for k in (-1, 0, 1))
    across = sum(w * (line[2] - line[0]) for w, line in zip((1, 2, 1), (up, here, down)))
    along = sum(w * (b - a) for w, a, b in zip((1, 2, 1), up, down))
    return min(abs(across) + abs(along), 255)


found = list(edges["edge"])
wrong = sum(
    found[(y + 1) * WIDTH + x + 1] != plain(y, x) for y in range(1, HEIGHT - 1) for x in range(1, WIDTH - 1)
)
print(f"{sum(value == 255 for value in found)} pixels on edges, {wrong} unlike the plain sum")
