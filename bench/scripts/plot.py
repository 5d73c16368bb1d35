"""Draws how time grows with size, as SVG: panels side by side, both axes by powers of ten."""

import math

WIDTH, HEIGHT, GAP = 320, 260, 8
LEFT, TOP, BOTTOM = 62, 44, 52
OURS, THEIRS, GREY = "#1f5fa8", "#c2571a", "#666666"


def decades(values):
    """The powers of ten round some values, as exponents."""
    return math.floor(math.log10(min(values)) + 1e-9), math.ceil(math.log10(max(values)) - 1e-9)


def time(exponent):
    """A power of ten of nanoseconds."""
    unit = min(exponent // 3, 3)
    return f"{10 ** (exponent - 3 * unit):,} {['ns', 'µs', 'ms', 's'][unit]}"


def text(x, y, said, anchor="middle", color="#222222", more=""):
    """A text at a place."""
    return f'<text x="{x:.1f}" y="{y:.1f}" text-anchor="{anchor}" fill="{color}" {more}>{said}</text>'


def path(points, color, dash=""):
    """A line through points, with a mark at each."""
    places = " ".join(f"{x:.1f},{y:.1f}" for x, y in points)
    marks = "".join(f'<circle cx="{x:.1f}" cy="{y:.1f}" r="3" fill="{color}"/>' for x, y in points)
    return f'<polyline points="{places}" fill="none" stroke="{color}" stroke-width="2" {dash}/>{marks}'


def panel(title, what, peer, rows):
    """A panel of sizes and of the times of both sides, its corner at 0, 0."""
    low, high = decades([size for size, _, _ in rows])
    least, most = decades([time for _, *times in rows for time in times])
    high, most = max(high, low + 1), max(most, least + 1)
    wide, tall = WIDTH - LEFT - 34, HEIGHT - TOP - BOTTOM

    def across(size):
        return LEFT + wide * (math.log10(size) - low) / (high - low)

    def up(nanoseconds):
        return TOP + tall * (1 - (math.log10(nanoseconds) - least) / (most - least))

    parts = [text(LEFT + wide / 2, 18, title, more='font-weight="bold"')]
    for exponent in range(low, high + 1):
        x = across(10**exponent)
        parts.append(f'<line x1="{x:.1f}" y1="{TOP}" x2="{x:.1f}" y2="{TOP + tall}" stroke="#dddddd"/>')
        parts.append(text(x, TOP + tall + 16, f"{10**exponent:,}", color=GREY))
    for exponent in range(least, most + 1):
        y = up(10**exponent)
        parts.append(f'<line x1="{LEFT}" y1="{y:.1f}" x2="{LEFT + wide}" y2="{y:.1f}" stroke="#dddddd"/>')
        parts.append(text(LEFT - 6, y + 4, time(exponent), "end", GREY))
    parts.append(f'<rect x="{LEFT}" y="{TOP}" width="{wide}" height="{tall}" fill="none" stroke="{GREY}"/>')
    parts.append(path([(across(size), up(theirs)) for size, _, theirs in rows], THEIRS, 'stroke-dasharray="6 3"'))
    parts.append(path([(across(size), up(ours)) for size, ours, _ in rows], OURS))
    parts.append(text(LEFT + wide / 2, TOP + tall + 36, what, color=GREY))
    parts.append(text(-(TOP + tall / 2), 10, "time", color=GREY, more='transform="rotate(-90)"'))
    parts.append(text(LEFT + 4, 36, "this library", "start", OURS))
    parts.append(text(LEFT + wide, 36, f"{peer} (dashed)", "end", THEIRS))
    return "".join(parts)


def svg(panels):
    """The picture of all panels that have rows."""
    shown = [it for it in panels if it[3]]
    wide = len(shown) * (WIDTH + GAP)
    places = (i * (WIDTH + GAP) for i in range(len(shown)))
    groups = "\n".join(f'<g transform="translate({at},0)">{panel(*it)}</g>' for at, it in zip(places, shown))
    size = f'width="{wide}" height="{HEIGHT}" viewBox="0 0 {wide} {HEIGHT}"'
    return f"""<svg xmlns="http://www.w3.org/2000/svg" {size} font-family="sans-serif" font-size="11">
<rect width="{wide}" height="{HEIGHT}" fill="white"/>
{groups}
</svg>
"""
