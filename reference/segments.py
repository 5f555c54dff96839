"""Segmented-frame order (request 2026-01), from the request's words alone: rows by the total line of their active line."""

LINES = 1080

# The first and the last line of each segment, as BT.709-5 has them (Part 2, above Figure 11), and second ones.
TOTAL_LINES = {1: 21, 3: 22, 1079: 560, 2: 584, 4: 585, 1080: 1123}


def total_line(active):
    return 21 + (active - 1) // 2 if active % 2 else 584 + (active - 2) // 2


def order():
    """The active lines in rising total line."""
    return sorted(range(1, LINES + 1), key=total_line)


def row_length(source, target):
    """The bytes of a row, or 31 for lengths that are refused, as a pair of which one is None."""
    refused = source == 0 or target == 0 or source % LINES or target % LINES or source != target
    return (None, 31) if refused else (source // LINES, None)


def to_segmented(given, target):
    """The buffer of rows in segmented order, or 31."""
    length, refusal = row_length(len(given), target)
    if refusal:
        return refusal
    return b"".join(given[length * (line - 1) : length * line] for line in order())


def to_progressive(given, target):
    length, refusal = row_length(len(given), target)
    if refusal:
        return refusal
    rows = {line: given[length * place : length * (place + 1)] for place, line in enumerate(order())}
    return b"".join(rows[line] for line in range(1, LINES + 1))


def check():
    for active, total in TOTAL_LINES.items():
        assert total_line(active) == total
    totals = [total_line(line) for line in order()]
    assert totals == list(range(21, 561)) + list(range(584, 1124))
    rows = bytes(range(240)) * 9
    assert to_progressive(to_segmented(rows, len(rows)), len(rows)) == rows
    assert to_segmented(to_progressive(rows, len(rows)), len(rows)) == rows
