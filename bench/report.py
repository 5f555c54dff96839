"""The tables of docs/BENCHMARKS.md: `report.py FOLDER` prints them, `report.py FOLDER DOCUMENT` puts them into the document."""

import subprocess
import sys
from pathlib import Path

from figures import SYSTEM_NAMES, SYSTEMS, Figures, counts

BEGIN, END = "<!-- figures of one run: begin -->", "<!-- figures of one run: end -->"
SETS = ((1920, "a picture"), (7680, "a picture"), (1920, "cache"), (7680, "cache"), (7680, "memory"))
ROW, READ = "light to words", "words to codes"
EXACT, APPROXIMATE = "zimg exact gamma", "zimg approximate gamma"
DEFAULT, WIDEST = "zimg", "zimg 64-byte vectors"
# What is asked of one run at width 7680, and of moving rows and changing their depth beside memcpy.
LEAST_FASTER, MOST_SLOWER = 4, 4
ROW_BYTES, MOST_MOVING = (11529, 46089), 2
READ_WIDTHS = (1, 1920, 7680)
TARGETS, MOST_CHANGING = {1: 2, 2: 1, 3: 4, 4: 3}, 4
# The encoding with constant luminance looks up Y'c, R' and B'.
CONSTANT_SYSTEMS, LOOKUPS, MOST_LOOKING_UP = (5, 6), 3, 2


def table(head, lines):
    """A Markdown table whose columns are as wide as their widest cell; all but the first are numbers."""
    widths = [max(map(len, column)) for column in zip(head, *lines)]
    rule = ["-" * widths[0]] + ["-" * (w - 1) + ":" for w in widths[1:]]
    shown = ([c.ljust(w) if i == 0 else c.rjust(w) for i, (c, w) in enumerate(zip(cells, widths))] for cells in (head, *lines))
    padded = list(shown)
    return "\n".join("| " + " | ".join(cells) + " |" for cells in (padded[0], rule, *padded[1:]))


def set_name(width, rows_from):
    return f"{width} from {rows_from}"


def by_set(head, cells):
    """A table with a line for each set of rows and each system."""
    lines = [
        [set_name(width, rows_from), str(system), *cells(width, rows_from, system)]
        for width, rows_from in SETS
        for system in SYSTEMS
    ]
    return table(["rows", "system", *head], lines)


def row_table(f):
    def cells(*at):
        ours, exact, approximate = (f.time(*at, ROW, name) for name in ("ours", EXACT, APPROXIMATE))
        return f"{ours:.2f}", f"{exact:.2f}", f"{exact / ours:.2f}", f"{approximate:.2f}", f"{approximate / ours:.2f}"

    return by_set(["ours", "zimg exact gamma", "zimg / ours", "zimg approximate gamma", "zimg / ours"], cells)


def read_table(f):
    def cells(*at):
        ours = f.time(*at, READ, "ours")
        peers = [f.time(*at, READ, name) for name in (DEFAULT, WIDEST, "swscale")]
        return [f"{ours:.2f}"] + [text for peer in peers for text in (f"{peer:.2f}", f"{ours / peer:.2f}")]

    return by_set(["ours", "zimg", "ours / zimg", "zimg 64-byte", "ours / zimg", "swscale", "ours / swscale"], cells)


def target_lines(f):
    for rows_from in ("a picture", "cache", "memory"):
        at = 7680, rows_from
        faster = [f.time(*at, s, ROW, EXACT) / f.time(*at, s, ROW, "ours") for s in SYSTEMS]
        met = "met" if min(faster) >= LEAST_FASTER else "not met"
        what = f"light → block, at least {LEAST_FASTER} times faster than zimg with exact gamma"
        yield [what, rows_from, f"{min(faster):.2f} to {max(faster):.2f}", met]
        for name in (DEFAULT, WIDEST):
            slower = [f.time(*at, s, READ, "ours") / f.time(*at, s, READ, name) for s in SYSTEMS]
            met = "met" if max(slower) <= MOST_SLOWER else "not met"
            what = f"block → codes, at most {MOST_SLOWER} times the time of {name}"
            yield [what, rows_from, f"{min(slower):.2f} to {max(slower):.2f}", met]


def accuracy_table(f):
    def cell(system, way, name):
        percent, worst = f.off(system, way, name)
        return f"{percent:.4f} % ({worst})"

    compared = (
        (ROW, "ours"), (ROW, EXACT), (ROW, APPROXIMATE), ("codes to words", "zimg"),
        (READ, "ours"), (READ, DEFAULT), (READ, WIDEST), (READ, "swscale"),
    )  # fmt: skip
    lines = [[f"{way}, {name}", *(cell(s, way, name) for s in SYSTEMS)] for way, name in compared]
    return table(["", *(f"system {s}" for s in SYSTEMS)], lines)


def call_table(f):
    lines = [[f"`{name}`", *(f"{f.call(s, name):.1f}" for s in SYSTEMS)] for name in f.call_names()]
    return table(["ns a call", *(f"system {s}" for s in SYSTEMS)], lines)


def reading_lines(f):
    for width in READ_WIDTHS:
        for system in SYSTEMS:
            plain, *others = (f.read(width, system, name) for name in ("read_block", "read_metered", "read_next"))
            beside = [text for other in others for text in (f"{other:.1f}", f"{other / plain:.3f}")]
            yield [str(width), str(system), f"{plain:.1f}", *beside]


def constant_lines(f):
    for system in CONSTANT_SYSTEMS:
        names = "code_of_light", "constant_words_of_lights", "constant_codes_of_words"
        code, words, back = (f.constant(system, name) for name in names)
        each = words / (LOOKUPS * code)
        met = "met" if each <= MOST_LOOKING_UP else "not met"
        yield [str(system), f"{code:.1f}", f"{words:.1f}", f"{each:.2f}", met, f"{back:.1f}"]


def move_lines(f):
    for row_bytes in ROW_BYTES:
        copied = f.move(row_bytes, "memcpy")
        for name in ("to_segmented", "to_progressive"):
            ours = f.move(row_bytes, name)
            met = "met" if ours <= MOST_MOVING * copied else "not met"
            yield [f"`{name}`", str(row_bytes), f"{ours:.2f}", f"{copied:.2f}", f"{ours / copied:.2f}", met]


def depth_lines(f):
    for system, target in TARGETS.items():
        ours, copied = (f.depth(system, name) for name in ("change_depth", "memcpy"))
        met = "met" if ours <= MOST_CHANGING * copied else "not met"
        yield [str(system), str(target), f"{ours:.1f}", f"{copied:.1f}", f"{ours / copied:.2f}", met]


def count_table(counted):
    names = list(dict.fromkeys((way, name) for _, way, name in counted))
    lines = [[f"{way}, {name}", *(f"{counted[s, way, name]:.1f}" for s in SYSTEMS)] for way, name in names]
    return table(["instructions a sample", *(f"system {s}" for s in SYSTEMS)], lines)


def first_line(*command):
    return subprocess.run(command, check=True, capture_output=True, text=True).stdout.splitlines()[0]


def processor():
    lines = Path("/proc/cpuinfo").read_text().splitlines()
    told = {key.strip(): value.strip() for key, _, value in (line.partition(":") for line in lines)}
    return f"{told['model name']}, family {told['cpu family']} model {told['model']}"


def machine(f):
    return table(
        ["what", "this run"],
        [
            ["processor", processor()],
            ["compiler of the program", first_line("gcc", "--version")],
            ["zimg", f.versions["zimg"]],
            ["FFmpeg, whose swscale it is", f.versions["FFmpeg"]],
            ["rounds", f.versions["rounds"]],
        ],
    )


def report(folder):
    f = Figures(Path(folder) / "figures.csv")
    counted = counts(Path(folder) / "counts.csv")
    systems = "; ".join(f"{number} is {name}" for number, name in SYSTEM_NAMES.items())
    parts = [
        "### Machine", machine(f),
        "### Light → block, ns a sample", f"Systems: {systems}.", row_table(f),
        "### Block → codes, ns a sample", read_table(f),
        "### Targets, at width 7680", table(["asked", "rows from", "ratios of the systems", "result"], list(target_lines(f))),
        "### Words and codes that are not exact (and the worst distance)", accuracy_table(f),
        "### Single calls", call_table(f),
        f"### Constant luminance, ns a call (asked: each of {LOOKUPS} lookups at most {MOST_LOOKING_UP} times a code of a light)",
        table(
            ["system", "`code_of_light`", "`constant_words_of_lights`", "a lookup / a code", "result", "`constant_codes_of_words`"],
            list(constant_lines(f)),
        ),
        "### Reading with a meter and through a reader, ns a block",
        table(["width", "system", "`read_block`", "`read_metered`", "/ plain", "`read_next`", "/ plain"], list(reading_lines(f))),
        f"### Segmented frames, ms for 1080 rows (asked: at most {MOST_MOVING} times the time of memcpy)",
        table(["call", "row bytes", "ours", "memcpy", "ours / memcpy", "result"], list(move_lines(f))),
        f"### Depth change, ns a block of 7680 samples (asked: at most {MOST_CHANGING} times the time of memcpy)",
        table(["system", "target", "`change_depth`", "memcpy", "ours / memcpy", "result"], list(depth_lines(f))),
    ]  # fmt: skip
    if counted:
        parts += ["### Instructions, rows of 1920", count_table(counted)]
    return "\n\n".join(parts)


def put_between(document, text):
    path = Path(document)
    before, _, rest = path.read_text().partition(BEGIN)
    _, _, after = rest.partition(END)
    if not after:
        sys.exit(f"{document} lacks the marker lines")
    path.write_text(f"{before}{BEGIN}\n\n{text}\n\n{END}{after}")


if __name__ == "__main__":
    tables = report(sys.argv[1])
    if len(sys.argv) > 2:
        put_between(sys.argv[2], tables)
    else:
        print("\n" + tables)
