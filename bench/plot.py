"""Draws one run's times: `plot.py FIGURES PICTURE` makes an SVG of two panels, ns a sample at width 7680, with exactness."""

import sys
from pathlib import Path

from figures import SYSTEM_NAMES, SYSTEMS, Figures

AT = 7680, "a picture"
# Colours that stay apart for colour-blind readers.
OURS, PEER, SAME_PEER, OTHER_PEER = "#0b5fa5", "#e08214", "#f6c98f", "#7f8c8d"
PANELS = (
    (
        "Light → block", "light to words", "words",
        (
            ("ours", OURS, ""),
            ("zimg exact gamma", PEER, "another curve, "),
            ("zimg approximate gamma", SAME_PEER, "another curve, "),
        ),
    ),
    (
        "Block → codes", "words to codes", "codes",
        (("ours", OURS, ""), ("zimg", PEER, ""), ("zimg 64-byte vectors", SAME_PEER, ""), ("swscale", OTHER_PEER, "")),
    ),
)  # fmt: skip
WIDTH, PANEL_WIDTH, LEFT, GROUP, GAP, TOP = 1000, 480, 120, 74, 14, 112
LEGEND = 19


def text(x, y, words, size=13, anchor="start", colour="#222", weight="normal"):
    style = f'font-size="{size}" text-anchor="{anchor}" fill="{colour}" font-weight="{weight}"'
    return f'<text x="{x:.1f}" y="{y:.1f}" {style}>{words}</text>'


def rectangle(x, y, width, height, colour):
    return f'<rect x="{x:.1f}" y="{y:.1f}" width="{width:.1f}" height="{height:.1f}" fill="{colour}"/>'


def line(x1, y1, x2, y2, colour="#ddd"):
    return f'<line x1="{x1:.1f}" y1="{y1:.1f}" x2="{x2:.1f}" y2="{y2:.1f}" stroke="{colour}"/>'


def percent(value):
    return "0" if value == 0 else f"{value:.4f}" if value < 0.1 else f"{value:.1f}"


def exactness(f, way, name, what):
    """How many of a contestant's results are off, over the systems."""
    off = [f.off(s, way, name) for s in SYSTEMS]
    least, most = min(o[0] for o in off), max(o[0] for o in off)
    if most == 0:
        return f"all {what} exact"
    return f"{percent(least)} to {percent(most)} % off, by up to {max(o[1] for o in off)}"


def steps(most):
    """A round step that makes four to eight lines of the scale."""
    step = next(s for s in (0.1, 0.2, 0.5, 1, 2, 5, 10, 20, 50) if most / s <= 8)
    return [step * i for i in range(int(most / step) + 2)]


def panel(f, left, title, way, what, contestants):
    bar = (GROUP - GAP) / len(contestants)
    top = TOP + LEGEND * 4
    bottom = top + GROUP * len(SYSTEMS)
    scale = steps(max(f.time(*AT, s, way, name) for s in SYSTEMS for name, _, _ in contestants))
    start, full = left + LEFT, PANEL_WIDTH - LEFT - 50

    def place(value):
        return start + full * value / scale[-1]

    drawn = [text(left, TOP - 44, title, 17, weight="bold"), text(left, TOP - 25, "ns a sample, less is better", 12, colour="#666")]
    for i, (name, colour, note) in enumerate(contestants):
        y = TOP + LEGEND * i
        drawn += [rectangle(left, y - 11, 12, 12, colour), text(left + 18, y, f"{name}: {note}{exactness(f, way, name, what)}", 12)]
    for value in scale:
        x = place(value)
        drawn += [line(x, top, x, bottom), text(x, bottom + 16, f"{value:g}", 11, "middle", "#666")]
    for row, system in enumerate(SYSTEMS):
        y = top + GROUP * row + GAP / 2
        drawn.append(text(start - 8, y + (GROUP - GAP) / 2 + 4, SYSTEM_NAMES[system], 12, "end"))
        for i, (name, colour, _) in enumerate(contestants):
            value = f.time(*AT, system, way, name)
            drawn.append(rectangle(start, y + i * bar, place(value) - start, bar - 2, colour))
            drawn.append(text(place(value) + 4, y + (i + 0.5) * bar + 3, f"{value:.2f}", 11))
    drawn.append(line(start, top, start, bottom, "#888"))
    return drawn, bottom


def picture(f):
    drawn, bottoms = [], []
    for i, (title, way, what, contestants) in enumerate(PANELS):
        part, bottom = panel(f, 20 + i * (PANEL_WIDTH + 10), title, way, what, contestants)
        drawn += part
        bottoms.append(bottom)
    height = max(bottoms) + 56
    versions = f"zimg {f.versions['zimg']}, swscale of FFmpeg {f.versions['FFmpeg'].split('-')[0]}"
    note = f"Rows of 7680 random samples, one after the other as in a picture, least of {f.versions['rounds']} rounds; {versions}."
    head = f'<svg xmlns="http://www.w3.org/2000/svg" viewBox="0 0 {WIDTH} {height:.0f}" font-family="Helvetica, Arial, sans-serif">'
    frame = [rectangle(0, 0, WIDTH, height, "#fff"), text(20, 34, "Rows and blocks beside zimg and swscale", 20, weight="bold")]
    return "\n".join([head, *frame, *drawn, text(20, height - 16, note, 12, colour="#666"), "</svg>"]) + "\n"


if __name__ == "__main__":
    Path(sys.argv[2]).write_text(picture(Figures(sys.argv[1])))
