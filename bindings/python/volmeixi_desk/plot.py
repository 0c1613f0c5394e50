"""The modes of a request and its sheet in the complex plane, side by side, as SVG written by hand."""

import math
from xml.sax.saxutils import escape

PANEL = 380  # width and height of a panel's frame
LEFT, TOP, GAP, RIGHT = 74, 100, 92, 28
INK, SOFT, GRID, MARK, MOVED, BAND = "#1f2933", "#52606d", "#d9dee3", "#2563a8", "#c2410c", "#f3f6f9"
HALO = ' font-weight="bold" stroke="#ffffff" stroke-width="3" paint-order="stroke"'
FONT = "font-family=\"'DejaVu Sans', Verdana, sans-serif\""


def label(x):
    return format(x, ".4g").replace("-", "\u2212")


def ticks(low, high, most=6):
    """Round numbers from low to high: steps of 1, 2 or 5 times a power of ten."""
    raw = (high - low) / most
    power = 10.0 ** math.floor(math.log10(raw))
    step = next(k * power for k in (1, 2, 5, 10) if k * power >= raw * (1 - 1e-9))
    return [k * step for k in range(math.ceil(low / step - 1e-9), math.floor(high / step + 1e-9) + 1)]


def span(numbers):
    """Low and high ends around numbers and zero, with room at both sides."""
    low, high = min(0.0, *numbers), max(0.0, *numbers)
    room = 0.12 * (high - low) if high - low > 1e-300 else 1.0
    return low - room, high + room


class Panel:
    """One complex plane: places of numbers, and labels that keep clear of what is there."""

    def __init__(self, left, across, up):
        self.left, self.across, self.up = left, across, up
        x, y = self.x(0.0), self.y(0.0)
        self.taken = [(left, y - 1, left + PANEL, y + 1), (x - 1, TOP, x + 1, TOP + PANEL)]  # the two axes

    def x(self, re):
        low, high = self.across
        return self.left + PANEL * (re - low) / (high - low)

    def y(self, im):
        low, high = self.up
        return TOP + PANEL * (high - im) / (high - low)

    def clear(self, box):
        x0, y0, x1, y1 = box
        if x0 < self.left + 2 or x1 > self.left + PANEL - 2 or y0 < TOP + 2 or y1 > TOP + PANEL - 2:
            return False
        return all(x1 <= a or c <= x0 or y1 <= b or d <= y0 for a, b, c, d in self.taken)

    def spot(self, x, y, text):
        """Where a label of a point goes: the nearest of the places around it that is free."""
        wide, high = 8.4 * len(text) + 2, 13
        for away in (10, 18, 30, 44, 60, 78):
            for turn in (-0.5, 0.5, -0.25, -0.75, 0.25, 0.75, 0, 1):
                cx = x + (away + wide / 2) * math.cos(math.pi * turn)
                cy = y + (away + high / 2 - 4) * math.sin(math.pi * turn)
                box = cx - wide / 2, cy - high / 2, cx + wide / 2, cy + high / 2
                if self.clear(box):
                    break
            else:
                continue
            break
        self.taken.append(box)
        return (box[0] + box[2]) / 2, (box[1] + box[3]) / 2, away > 10


def drawn(mode):
    """Whether a mode is drawn: a plane has no place for infinities and NaN, nor for what is almost one."""
    return abs(mode.re) <= 1e300 and abs(mode.im) <= 1e300


def points_of(modes):
    """Each point of the plane with the numbers of the modes that stand there: (re, im) to numbers."""
    points = {}
    for k, mode in enumerate(modes, 1):
        for im in (mode.im, -mode.im) if mode.pair else (0.0,):
            if drawn(mode):
                numbers = points.setdefault((mode.re, im + 0.0), [])
                if k not in numbers:
                    numbers.append(k)
    return points


def text(x, y, words, size=13, colour=INK, anchor="middle", more=""):
    place = f'x="{x:.1f}" y="{y:.1f}" font-size="{size}" fill="{colour}" text-anchor="{anchor}"{more}'
    return f"<text {place}>{escape(words)}</text>"


def line(x1, y1, x2, y2, colour, wide=1.0):
    ends = f'x1="{x1:.1f}" y1="{y1:.1f}" x2="{x2:.1f}" y2="{y2:.1f}"'
    return f'<line {ends} stroke="{colour}" stroke-width="{wide}"/>'


def box(x, y, wide, high, fill, more=""):
    return f'<rect x="{x:.1f}" y="{y:.1f}" width="{wide:.1f}" height="{high:.1f}" fill="{fill}"{more}/>'


def axes(panel, title):
    left, right, bottom = panel.left, panel.left + PANEL, TOP + PANEL
    zero, level = panel.x(0.0), panel.y(0.0)
    out = [box(left, TOP, PANEL, PANEL, "#ffffff"), box(zero, TOP, right - zero, PANEL, BAND)]
    for re in ticks(*panel.across):
        out.append(line(panel.x(re), TOP, panel.x(re), bottom, GRID))
        out.append(text(panel.x(re), bottom + 18, label(re), 12, SOFT))
    for im in ticks(*panel.up):
        out.append(line(left, panel.y(im), right, panel.y(im), GRID))
        out.append(text(left - 8, panel.y(im) + 4, label(im), 12, SOFT, "end"))
    out.append(line(zero, TOP, zero, bottom, SOFT, 1.2))
    out.append(line(left, level, right, level, SOFT, 1.2))
    out.append(box(left, TOP, PANEL, PANEL, "none", f' stroke="{SOFT}"'))
    middle = left + PANEL / 2
    out.append(text(middle, TOP - 12, title, 14, INK, more=' font-weight="bold"'))
    out.append(text(middle, bottom + 38, "real part (below 0 decays, shaded grows)", 12, SOFT))
    turn = f' transform="rotate(-90 {left - 50} {TOP + PANEL / 2})"'
    out.append(text(left - 50, TOP + PANEL / 2, "imaginary part (turns)", 12, SOFT, more=turn))
    return out


def dots(panel, modes, moved):
    """The points, then their labels: a number stands at both values of a pair."""
    points, out = points_of(modes), []
    star = {k for k, mode in enumerate(modes, 1) if mode.block.row == moved}
    for re, im in points:
        x, y = panel.x(re), panel.y(im)
        panel.taken.append((x - 6, y - 6, x + 6, y + 6))
    for (re, im), numbers in points.items():
        x, y = panel.x(re), panel.y(im)
        colour = MOVED if star & set(numbers) else MARK
        out.append(f'<circle cx="{x:.1f}" cy="{y:.1f}" r="5" fill="{colour}"/>')
        words = ", ".join(map(str, numbers))
        lx, ly, far = panel.spot(x, y, words)
        if far:
            out.append(line(x, y, lx, ly, colour, 0.8))
        out.append(text(lx, ly + 4.5, words, 13, colour, more=HALO))
    return out


def value(mode):
    return label(mode.re) + (f" \u00b1 {label(mode.im)}i" if mode.pair else "")


def entry(mode):
    rows = ("row " if mode.block.size == 1 else "rows ") + mode.block.rows.replace(", ", "\u2013")
    return f"{rows}: {value(mode)}" + ("" if drawn(mode) else " (not drawn)")


def legend(left, modes, moved):
    """Number, rows and value of each mode, below the panel; in two columns where they are short."""
    entries = [entry(mode) for mode in modes]
    half = -(-len(modes) // 2) if max(map(len, entries)) <= 27 else len(modes)
    out, top = [], TOP + PANEL + 66
    for k, (mode, words) in enumerate(zip(modes, entries)):
        x, y = left + (PANEL / 2 + 4) * (k // half), top + 18 * (k % half)
        colour = MOVED if mode.block.row == moved else INK
        out.append(text(x + 14, y, str(k + 1), 11.5, colour, "end", ' font-weight="bold"'))
        out.append(text(x + 21, y, words, 11.5, colour, "start"))
    return out, top + 18 * half


def svg_of(planes, title):
    """The picture of one or two planes: (its title, modes, the row of the moved block or None)."""
    points = [point for _, modes, _ in planes for point in points_of(modes)] or [(0.0, 0.0)]
    across, up = span([re for re, _ in points]), span([im for _, im in points])
    body, bottom = [], 0
    for k, (head, modes, moved) in enumerate(planes):
        panel = Panel(LEFT + k * (PANEL + GAP), across, up)
        body += axes(panel, head) + dots(panel, modes, moved)
        lines, end = legend(panel.left, modes, moved)
        body, bottom = body + lines, max(bottom, end)
    wide = LEFT + len(planes) * PANEL + (len(planes) - 1) * GAP + RIGHT
    high = bottom + 26
    note = "orange is the moved block; a" if any(moved is not None for _, _, moved in planes) else "a"
    head = [
        f'<svg xmlns="http://www.w3.org/2000/svg" width="{wide}" height="{high}" viewBox="0 0 {wide} {high}" {FONT}>',
        f"<title>{escape(title)}</title>",
        f'<rect width="{wide}" height="{high}" fill="#ffffff"/>',
        text(LEFT, 34, title, 17, INK, "start", ' font-weight="bold"'),
        text(
            LEFT,
            56,
            f"Modes numbered in their order; {note} mode goes as exp(value \u00d7 time).",
            12,
            SOFT,
            "start",
        ),
    ]
    return "\n".join(head + body + ["</svg>"]) + "\n"
