"""What pyte, a terminal in Python, shows of what `tvdlg play` wrote; tools/live says how it is called.

usage: emulated.py NAME.bytes..     writes NAME.shown: the cells as `shot` and `colors` write them, and the cursor

The size is that of NAME.wanted. The bytes of the end, which give back the normal screen, are left out, as pyte has but one screen.
"""
import pathlib
import sys

import pyte

END = b"\x1b[0m\x1b[2J\x1b[?25h\x1b[?2004l\x1b[?1039l\x1b[?1036l\x1b[?1006l\x1b[?1002l\x1b[?1049l"
# as terminals count them, and what an attribute counts
NAMES = "black red green brown blue magenta cyan white".split()
ORDER = (0, 4, 2, 6, 1, 5, 3, 7)
NUMBERS = dict(zip(NAMES, ORDER)) | {f"bright {name}": 8 + number for name, number in zip(NAMES, ORDER)}
# of the 256 those that stand for the sixteen
FIXED = (16, 19, 34, 37, 124, 127, 130, 248, 240, 63, 83, 87, 203, 207, 227, 231)
NUMBERS |= {pyte.graphics.FG_BG_256[index]: number for number, index in enumerate(FIXED)}

# pyte takes a bright colour for the plain one in bold, which a plain colour doesn't turn off again
pyte.graphics.FG_AIXTERM.update({90 + place: f"bright {name}" for place, name in enumerate(NAMES)})


def shown(written, width, height):
    """The screen of a terminal that is a little larger, and was told this."""
    screen = pyte.Screen(width + 3, height + 2)
    pyte.ByteStream(screen).feed(written)
    lines = [[screen.buffer[row][column] for column in range(width)] for row in range(height)]
    text = [f"shot {width} {height}", *(":" + "".join(it.data for it in line) + ":" for line in lines)]
    text += [f"colors {width} {height}"]
    text += [":" + "".join(f"{NUMBERS.get(it.bg, 0):x}{NUMBERS.get(it.fg, 7):x}" for it in line) + ":" for line in lines]
    beside = [row[width:] for row in screen.display[:height]] + screen.display[height:]
    if any(it.strip() for it in beside):
        text += ["something stands beside the screen"]
    place = screen.cursor
    text += ["no cursor" if place.hidden else f"cursor {place.x} {place.y}"]
    return "\n".join(text + [""])


for path in map(pathlib.Path, sys.argv[1:]):
    _, width, height = path.with_suffix(".wanted").read_text(encoding="utf-8").split("\n", 1)[0].split()
    text = shown(path.read_bytes().removesuffix(END), int(width), int(height))
    path.with_suffix(".shown").write_text(text, encoding="utf-8")
