"""A terminal's tapes as a strip, and all tapes as a bar. What is not PASS is told apart by where it stands, not by its colour alone: a lane
for each verdict. A column stands for one tape, or for several where there are many; it is marked where any of them has the verdict."""
from lab.verdicts import VERDICTS

# Each lane with the line that it stands on and its height.
LANES = {"FAIL": (15, 14), "INCONCLUSIVE": (25, 9), "UNREADABLE": (35, 9)}
HEIGHT = 36
# Columns of all strips together, and of one: what a report may grow to.
ALL_COLUMNS, LEAST_COLUMNS, MOST_COLUMNS = 20000, 60, 600


def columns_each(strips):
    return max(LEAST_COLUMNS, min(MOST_COLUMNS, ALL_COLUMNS // max(1, strips)))


def columns(tapes, most):
    """The verdicts of the tapes in each column, in order: as many columns as tapes, or `most`."""
    count = min(len(tapes), most)
    return [[tape.verdict for tape in tapes[k * len(tapes) // count:(k + 1) * len(tapes) // count]] for k in range(count)]


def height(verdicts, verdict):
    """How high a column stands in a verdict's lane: not at all where it has none, three at least where it has one, all of it where it has
    nothing else; in between by the root of the share, since most shares are small."""
    count = verdicts.count(verdict)
    return count and max(3, round(LANES[verdict][1] * (count / len(verdicts)) ** 0.5))


def path(cells, verdict):
    """The marks of one lane; neighbours of one height are drawn as one."""
    base, marks, heights, k = LANES[verdict][0], [], [height(cell, verdict) for cell in cells], 0
    while k < len(heights):
        end = k + 1
        while end < len(heights) and heights[end] == heights[k]:
            end += 1
        if heights[k]:
            marks.append(f"M{k} {base}v-{heights[k]}h{end - k}v{heights[k]}z")
        k = end
    return f'<path class="{verdict}" d="{"".join(marks)}"/>' if marks else ""


def strip(tapes, most, counts):
    """A terminal's tapes from the first to the last. PASS is the pale ground."""
    if not tapes:
        return ""
    cells = columns(tapes, most)
    said = ", ".join(f"{counts[verdict]} {verdict}" for verdict in VERDICTS)
    return (f'<svg class="strip" viewBox="0 0 {len(cells)} {HEIGHT}" preserveAspectRatio="none" role="img" aria-label="{said}">'
            f'<path class="ground" d="M0 0h{len(cells)}v{HEIGHT}H0z"/>{"".join(path(cells, verdict) for verdict in LANES)}</svg>')


def bar(counts):
    """All tapes as one bar, each verdict with its own ground; one that is there has some width, however few its tapes are."""
    total, least = sum(counts.values()), 14
    there = [verdict for verdict in VERDICTS if counts[verdict]]
    room, x, parts = 1000 - least * len(there), 0.0, []
    for verdict in there:
        wide = least + room * counts[verdict] / total
        parts.append(f'<rect class="{verdict}" x="{x:.1f}" y="0" width="{wide:.1f}" height="16"/>'
                     f'<rect class="over {verdict}" x="{x:.1f}" y="0" width="{wide:.1f}" height="16"/>')
        x += wide
    return f'<svg class="bar" viewBox="0 0 1000 16" preserveAspectRatio="none" aria-hidden="true">{"".join(parts)}</svg>'


PATTERNS = """<svg class="patterns" width="0" height="0" aria-hidden="true"><defs>
<pattern id="stripes" width="6" height="6" patternUnits="userSpaceOnUse" patternTransform="rotate(45)">
<path d="M0 0h2.4v6H0z" fill="#fff"/></pattern>
<pattern id="dots" width="6" height="6" patternUnits="userSpaceOnUse"><circle cx="3" cy="3" r="1.5" fill="#fff"/></pattern>
</defs></svg>"""


def swatch(verdict):
    """A small field with the ground of a verdict, and its letter."""
    return (f'<svg class="swatch" viewBox="0 0 22 22" aria-hidden="true"><rect class="{verdict}" width="22" height="22"/>'
            f'<rect class="over {verdict}" width="22" height="22"/></svg>')
