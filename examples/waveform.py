"""Draws a row on its way through the library: `waveform.py LIBRARY PICTURE` makes an SVG of its lights, its words and
what is read back. Every number drawn is an answer of LIBRARY, a shared object made of the archive; `make figure` makes
both. The structs below are those of include/ferghulta.h."""

import ctypes
import math
import struct
import sys
from ctypes import POINTER, Structure, c_size_t, c_uint8, c_uint16, c_uint32
from pathlib import Path

SYSTEM, BITS, MOST = 2, 10, 65535  # BT.709, 10 bits
BLACK, WHITE, COLOUR_TOP = 16 * 4, 235 * 4, 240 * 4
PART = 120  # samples of each part of the row
WIDTH = 3 * PART


class Picture(Structure):
    _fields_ = [
        ("phase", c_uint8), ("system", c_uint8), ("width", c_uint16), ("height", c_uint16), ("rows", c_uint16),
        ("bytes", c_uint32),
    ]  # fmt: skip


class PictureAnswer(Structure):
    _fields_ = [("refusal", c_uint32), ("picture", Picture)]


class CodeAnswer(Structure):
    _fields_ = [("refusal", c_uint32), ("code", c_uint16)]


class Clips(Structure):
    _fields_ = [("low", c_uint16), ("high", c_uint16)]


class BlockAnswer(Structure):
    _fields_ = [
        ("refusal", c_uint32), ("system", c_uint32), ("clips", Clips), ("row", c_uint16), ("samples", c_uint16)
    ]  # fmt: skip


def declared(path):
    """The calls that are used here, with their types."""
    library = ctypes.CDLL(path)
    types = {
        "new": (Picture, []),
        "open": (PictureAnswer, [Picture, c_uint32, c_uint32, c_uint32]),
        "row": (PictureAnswer, [Picture, POINTER(c_uint16), c_size_t, POINTER(c_uint8), c_size_t]),
        "close": (PictureAnswer, [Picture]),
        "read_block": (BlockAnswer, [POINTER(c_uint8), c_size_t, POINTER(c_uint16), c_size_t]),
        "code_of_light": (CodeAnswer, [c_uint32, c_uint16]),
    }
    for name, (result, arguments) in types.items():
        call = getattr(library, f"ferghulta_{name}")
        call.restype, call.argtypes = result, arguments
    return library


def accepted(answer):
    if answer.refusal:
        sys.exit(f"refused {answer.refusal}")
    return answer


def row_of_lights():
    """Bars, a ramp of grey light, and a turn through the hues: R, G, B of each sample."""
    for x in range(PART):
        bar = 7 - 8 * x // PART  # white, yellow, cyan, green, magenta, red, blue, black
        yield from (MOST * (bar >> 1 & 1), MOST * (bar >> 2 & 1), MOST * (bar & 1))
    for x in range(PART):
        yield from (MOST * x // (PART - 1),) * 3
    for x in range(PART):
        yield from (int(MOST * (0.5 + 0.5 * math.cos(math.tau * (x / PART - c / 3)))) for c in range(3))


def sent_and_read(library, lights):
    """The row's words (Y', Cb, Cr), the codes that are read back, and the codes of its lights."""
    size = 9 + 6 * WIDTH
    block, codes = (c_uint8 * size)(), (c_uint16 * len(lights))()
    picture = accepted(library.ferghulta_open(library.ferghulta_new(), SYSTEM, WIDTH, 1)).picture
    given = (c_uint16 * len(lights))(*lights)
    picture = accepted(library.ferghulta_row(picture, given, len(lights), block, size)).picture
    accepted(library.ferghulta_close(picture))
    accepted(library.ferghulta_read_block(block, size, codes, len(lights)))
    words = [struct.unpack_from(f"<{WIDTH}H", block, 5 + i * (2 + 2 * WIDTH)) for i in range(3)]
    exact = [accepted(library.ferghulta_code_of_light(SYSTEM, light)).code for light in lights]
    return words, list(codes), exact


# ---- drawing; the colours stay apart for colour-blind readers

LEFT, RIGHT, STEP = 92, 190, 1.9
SPAN = WIDTH * STEP
RED, GREEN, BLUE, LUMA = "#d55e00", "#009e73", "#0072b2", "#222222"


def text(x, y, words, size=12, anchor="start", colour="#222", weight="normal"):
    style = f'font-size="{size}" text-anchor="{anchor}" fill="{colour}" font-weight="{weight}"'
    return f'<text x="{x:.1f}" y="{y:.1f}" {style}>{words}</text>'


def rectangle(x, y, width, height, colour):
    return f'<rect x="{x:.1f}" y="{y:.1f}" width="{width:.1f}" height="{height:.1f}" fill="{colour}"/>'


def level(y, words, lower=4):
    """A level of a panel with its number to the left."""
    path = f'<line x1="{LEFT}" y1="{y:.1f}" x2="{LEFT + SPAN:.1f}" y2="{y:.1f}" stroke="#ddd"/>'
    return path + "\n" + text(LEFT - 8, y + lower, words, 11, "end", "#555")


def trace(values, height_of, colour):
    """Values along the row as steps, one point for each change."""
    path, last = [], None
    for x, value in enumerate(values):
        if value != last:
            path.append(f"{'M' if last is None else 'H'}{LEFT + x * STEP:.1f}" + (" " if last is None else "V")
                        + f"{height_of(value):.1f}")  # fmt: skip
            last = value
    return f'<path d="{"".join(path)}H{LEFT + SPAN:.1f}" fill="none" stroke="{colour}" stroke-width="1.3"/>'


def scale(bottom, height, least, greatest):
    return lambda value: bottom - height * (value - least) / (greatest - least)


def legend(y, entries):
    return [text(LEFT + SPAN + 14, y + 17 * i, words, 12, colour=colour) for i, (words, colour) in enumerate(entries)]


def colour_strip(codes, y, height):
    def shown(code):
        nominal = min(max(code, BLACK), WHITE)  # a code may come back one beyond it
        return 255 * (nominal - BLACK) // (WHITE - BLACK)

    for x in range(WIDTH):
        r, g, b = (shown(c) for c in codes[3 * x : 3 * x + 3])
        yield rectangle(LEFT + x * STEP, y, STEP + 0.3, height, f"#{r:02x}{g:02x}{b:02x}")


def drawing(lights, words, codes, exact):
    total = LEFT + SPAN + RIGHT
    out = [text(LEFT, 22, "One row through the library: BT.709, 10 bits", 15, weight="bold")]
    for i, part in enumerate(("colour bars", "grey, its light rising evenly", "a turn through the hues")):
        out.append(text(LEFT + (i + 0.5) * PART * STEP, 42, part, 12, "middle", "#555"))
    out += [rectangle(LEFT - 1, 49, SPAN + 2, 26, "#999"), *colour_strip(codes, 50, 24)]

    light = scale(184, 96, 0, MOST)
    out += [level(light(0), "0"), level(light(MOST), "65535")]
    out += [trace(lights[c::3], light, colour) for c, colour in enumerate((RED, GREEN, BLUE))]
    out += legend(104, (("in: linear light", "#222"), ("R", RED), ("G", GREEN), ("B", BLUE)))

    word = scale(440, 220, 0, (1 << BITS) - 1)
    for low, high in ((0, 3), (1020, 1023)):
        out.append(rectangle(LEFT, word(high) - 1, SPAN, word(low) - word(high) + 2, "#f2b8b5"))
    for value, lower in ((BLACK, 4), (512, 4), (WHITE, 8), (COLOUR_TOP, 2)):
        out.append(level(word(value), value, lower))
    out += [trace(w, word, colour) for w, colour in zip(words, (LUMA, BLUE, RED))]
    out += legend(
        260, (("out: words", "#222"), ("Y', 64 to 940", LUMA), ("Cb, 64 to 960", BLUE), ("Cr, 64 to 960", RED))
    )
    out.append(text(LEFT + SPAN + 14, word(1021) + 4, "timing codes: never", 12, colour="#b3261e"))

    back = scale(520, 40, -1, 1)
    out += [level(back(v), name) for v, name in ((1, "+1"), (0, "0"), (-1, "−1"))]
    off = [[read - wanted for read, wanted in zip(codes[c::3], exact[c::3])] for c in range(3)]
    out += [trace(o, lambda v, c=c: back(v) + c - 1, colour) for c, (o, colour) in enumerate(zip(off, (RED, GREEN, BLUE)))]
    out += legend(490, (("back: codes read, less", "#222"), ("the code of the light", "#222")))

    frame = f'<svg xmlns="http://www.w3.org/2000/svg" viewBox="0 0 {total:.0f} 540" font-family="sans-serif">'
    return "\n".join([frame, rectangle(0, 0, total, 540, "#ffffff"), *out, "</svg>"]) + "\n"


def main():
    library, picture = sys.argv[1:]
    lights = list(row_of_lights())
    Path(picture).write_text(drawing(lights, *sent_and_read(declared(library), lights)), encoding="utf-8")


main()
