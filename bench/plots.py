"""Bars of ratios, and curves of bytes read, as pictures."""

# Dark where the reader's screen is.
STYLE = (
    "<style>.page{fill:#ffffff}text{fill:#222222}.line{stroke:#bbbbbb}@media(prefers-color-scheme:dark)"
    "{.page{fill:#15181d}text{fill:#dddddd}.line{stroke:#555555}}</style>"
)


def write(path, width, height, parts):
    with open(path, "w") as file:
        file.write(
            f'<svg xmlns="http://www.w3.org/2000/svg" width="{width}" height="{height}" font-family="sans-serif"'
            f' font-size="13">{STYLE}<rect class="page" width="{width}" height="{height}"/>' + "".join(parts) + "</svg>\n"
        )


# Where bars begin, how long a bar of one is, how high each is, and their colours.
START, ONE, HIGH = 270, 130, 13
BARS = ["#4477aa", "#cc6633"]


def bars(y, label, values):
    """A row: its label, and a bar for each value."""
    yield f'<text x="8" y="{y + 4 + HIGH}">{label}</text>'
    for number, (value, color) in enumerate(zip(values, BARS)):
        top, width = y + number * HIGH, ONE * value
        yield f'<rect x="{START}" y="{top}" width="{width:.0f}" height="{HIGH - 1}" fill="{color}"/>'
        yield f'<text x="{START + 8 + width:.0f}" y="{top + HIGH - 2}">{value:.2f}</text>'


def ratios(path, names, sections):
    """Bars of each section, which is a title and labels with a ratio for each name, and a line where a ratio is one."""
    rows, y = [], 8
    for place, (name, color) in enumerate(zip(names, BARS)):
        rows.append(f'<text x="{START + 100 * place}" y="20" style="fill:{color}">{name}</text>')
    for title, values in sections:
        rows.append(f'<text x="8" y="{y + 12}" font-weight="bold">{title}</text>')
        y += 22
        top = y - 2
        for label, several in values.items():
            rows += bars(y, label, several)
            y += 8 + HIGH * len(names)
        rows.append(f'<line class="line" x1="{START + ONE}" x2="{START + ONE}" y1="{top}" y2="{y - 2}"/>')
        y += 14
    longest = max(max(several) for _, values in sections for several in values.values())
    write(path, round(START + ONE * longest + 60), y, rows)


# Where the picture of curves has its corners, and the steps of its scale.
LEFT, TOP, RIGHT, BOTTOM = 60, 68, 600, 340
TICK = 20
COLORS = ["#888888", "#4477aa", "#cc6633"]


def across(column, columns):
    return LEFT + (RIGHT - LEFT) * (column + 0.5) / columns


def up(value, greatest):
    return BOTTOM - (BOTTOM - TOP) * value / greatest


def curve(points, color, greatest):
    """The middle values, over a band from the least to the greatest."""
    places = [across(column, len(points)) for column in range(len(points))]
    least, middle, most = ([f"{x:.1f},{up(y, greatest):.1f}" for x, y in zip(places, values)] for values in zip(*points))
    return (
        f'<polygon points="{" ".join(most + least[::-1])}" fill="{color}" opacity="0.2"/>'
        f'<polyline points="{" ".join(middle)}" fill="none" stroke="{color}" stroke-width="2.5"/>'
    )


def axes(title, below, names, greatest):
    parts = [f'<text x="{LEFT}" y="26" font-weight="bold">{title}</text>']
    for value in range(0, int(greatest) + 1, TICK):
        y = up(value, greatest)
        parts.append(f'<line class="line" x1="{LEFT}" x2="{RIGHT}" y1="{y:.1f}" y2="{y:.1f}"/>')
        parts.append(f'<text x="{LEFT - 8}" y="{y + 4:.1f}" text-anchor="end">{value}{" kB" if value else ""}</text>')
    for column, name in enumerate(names):
        parts.append(f'<text x="{across(column, len(names)):.0f}" y="{BOTTOM + 18}" text-anchor="middle">{name}</text>')
    parts.append(f'<text x="{(LEFT + RIGHT) / 2:.0f}" y="{BOTTOM + 38}" text-anchor="middle">{below}</text>')
    return parts


def curves(path, title, below, names, named):
    """A curve for each name of `named`, whose points, one for each of `names`, are a least, a middle and a greatest value."""
    greatest = max(most for points in named.values() for _, _, most in points)
    parts = axes(title, below, names, greatest)
    for (name, points), color in zip(named.items(), COLORS):
        parts.append(curve(points, color, greatest))
        parts.append(f'<text x="{across(0, len(names)):.0f}" y="{up(points[0][2], greatest) - 8:.1f}">{name}</text>')
    write(path, RIGHT + 20, BOTTOM + 54, parts)
