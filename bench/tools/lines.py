"""Parts of pictures as SVG text, and pictures of lines. They can be read at half their size, on a light and on a dark ground."""

from html import escape

WIDTH, LEFT, LINE = 940, 24, 26
FONT = "font-family='Helvetica, Arial, sans-serif'"
# The colours on a light ground, and those that take their place on a dark one: of the first line, which is dashed, and of the second.
LIGHT = {"ground": "#ffffff", "ink": "#1f2328", "faint": "#57606a", "first": "#a04100", "second": "#0550ae"}
DARK = {"ground": "#0d1117", "ink": "#e6edf3", "faint": "#9da7b3", "first": "#ffa657", "second": "#79c0ff"}
# Where a panel of lines stands, how high it is, and the room for values beside its last place.
TOP, HEIGHT, BETWEEN, BESIDE = 100, 230, 30, 56


def style(light=LIGHT, dark=DARK):
    """What a viewer with a dark ground takes in place of the colours that stand in the picture."""
    rules = "".join(f".{name}{{fill:{dark[name]}}}.{name}-line{{stroke:{dark[name]}}}" for name in light)
    return f"<style>@media (prefers-color-scheme: dark){{{rules}}}</style>"


def text(x, y, words, size=20, anchor="middle", colour="ink", more="", light=LIGHT):
    return f"<text class='{colour}' x='{x:.1f}' y='{y:.1f}' font-size='{size}' text-anchor='{anchor}' fill='{light[colour]}' {FONT} {more}>{escape(words)}</text>"


def stroke(points, colour, more="", width=4, light=LIGHT):
    path = " ".join(f"{x:.1f},{y:.1f}" for x, y in points)
    return f"<polyline class='{colour}-line' points='{path}' fill='none' stroke='{light[colour]}' stroke-width='{width}' {more}/>"


def whole(height, parts, light=LIGHT, dark=DARK):
    """A picture of these parts, on its ground."""
    head = f"<svg xmlns='http://www.w3.org/2000/svg' width='{WIDTH}' height='{height}' viewBox='0 0 {WIDTH} {height}'>"
    ground = f"<rect class='ground' width='{WIDTH}' height='{height}' fill='{light['ground']}'/>"
    return "\n".join([head, style(light, dark), ground, *parts, "</svg>"]) + "\n"


def rounded(value):
    """A value in at most three digits that count."""
    return f"{value:.0f}" if value >= 100 else f"{value:.1f}" if value >= 10 else f"{value:.2f}"


def axis(left, width, scale):
    """A ground line with four quarters of a hundred, and what they mean."""
    base = TOP + HEIGHT
    parts = [stroke([(left, base), (left + width, base)], "ink", "stroke-opacity='0.5'")]
    for share in range(0, 101, 25):
        x = left + width * share / 100
        parts.append(stroke([(x, base), (x, base + 8)], "ink", "stroke-opacity='0.5'", 2))
        parts.append(text(x, base + 30, f"{share} %"))
    return [*parts, text(left + width / 2, base + 60, scale, 20, colour="faint")]


def panel(left, width, title, scale, level, values, names):
    """One panel: a dashed line at a level, and a line through a value at each share of a hundred, each with its name on it."""
    base, width = TOP + HEIGHT, width - BESIDE
    height = (HEIGHT - 40) / max(level, *values.values())
    points = [(left + width * share / 100, base - value * height) for share, value in sorted(values.items())]
    parts = [text(left, TOP - 20, title, 23, "start", more="font-weight='bold'"), *axis(left, width, scale)]
    at = base - level * height
    parts.append(stroke([(left, at), (left + width, at)], "first", "stroke-dasharray='12 8'"))
    parts.append(text(left + width, at - 12, f"{names[0]}: {rounded(level)}", 22, "end", "first", "font-weight='bold'"))
    parts.append(stroke(points, "second"))
    for (x, y), share in zip(points, sorted(values)):
        parts.append(f"<circle class='second' cx='{x:.1f}' cy='{y:.1f}' r='7' fill='{LIGHT['second']}'/>")
        if share in (0, 50, 90, 100):
            across, down = (14, 8) if share == 100 else (0, -16) if share == 0 else (6, -14)
            parts.append(text(x + across, y + down, rounded(values[share]), 21, "start", "second"))
    (x, y), (after, below) = points[0], points[-1]
    parts.append(text(x + (after - x) * 0.36, y + (below - y) * 0.3, names[1], 22, "start", "second", "font-weight='bold'"))
    return parts


def picture(title, scale, names, panels, caption):
    """Panels beside each other: each has a title, the level of the first line, and the second line's values by their share."""
    width = (WIDTH - 2 * LEFT - BETWEEN * (len(panels) - 1)) / len(panels)
    parts = [text(LEFT, 38, title, 26, "start", more="font-weight='bold'")]
    for place, (name, level, values) in enumerate(panels):
        parts += panel(LEFT + place * (width + BETWEEN), width, name, scale, level, values, names)
    for place, line in enumerate(caption):
        parts.append(text(LEFT, TOP + HEIGHT + 100 + LINE * place, line, 20, "start"))
    return whole(TOP + HEIGHT + 90 + LINE * len(caption), parts)
