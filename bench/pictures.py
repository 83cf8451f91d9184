"""What the programs beside it draw: pictures in SVG, light and dark, without a tool besides Python 3."""

import csv
import math

from lookups import mean_and_reach

WIDTH, HEIGHT = 880, 414
TOP, BOTTOM = 96, 352
STYLE = """
    text { font: 12px system-ui, -apple-system, "Segoe UI", Roboto, "Helvetica Neue", Arial, sans-serif; fill: #3c4248; }
    .title { font-size: 15px; font-weight: 600; fill: #16191d; }
    .heading { font-size: 13px; font-weight: 600; fill: #16191d; }
    .label { font-weight: 600; }
    .paper { fill: #ffffff; }
    .grid { stroke: #e3e6ea; stroke-width: 1; }
    .axis { stroke: #8a929b; stroke-width: 1; }
    .line { fill: none; stroke-width: 2; stroke-linejoin: round; }
    .bar { stroke-width: 1.3; }
    .s1 { stroke: #c84a00; } .f1 { fill: #c84a00; }
    .s2 { stroke: #9a3f8c; } .f2 { fill: #9a3f8c; }
    .s4 { stroke: #0068b5; } .f4 { fill: #0068b5; }
    .s8 { stroke: #00795b; } .f8 { fill: #00795b; }
    @media (prefers-color-scheme: dark) {
      text { fill: #b6bec8; }
      .title, .heading { fill: #eef1f5; }
      .paper { fill: #0d1117; }
      .grid { stroke: #262c34; }
      .axis { stroke: #6b7580; }
      .s1 { stroke: #ff9a4d; } .f1 { fill: #ff9a4d; }
      .s2 { stroke: #e79ad6; } .f2 { fill: #e79ad6; }
      .s4 { stroke: #6cb8f5; } .f4 { fill: #6cb8f5; }
      .s8 { stroke: #4fd1a5; } .f8 { fill: #4fd1a5; }
    }
"""


class Picture:
    """A picture with a title and a line about it."""

    def __init__(self, title, about, height=HEIGHT):
        self.out = [
            '<svg xmlns="http://www.w3.org/2000/svg" width="%d" height="%d" viewBox="0 0 %d %d" role="img">'
            % (WIDTH, height, WIDTH, height),
            "<title>%s. %s</title>" % (title, about),
            "<style>%s</style>" % STYLE,
            '<rect class="paper" width="%d" height="%d"/>' % (WIDTH, height),
            '<text class="title" x="18" y="28">%s</text>' % title,
            '<text x="18" y="48">%s</text>' % about,
        ]

    def write(self, path):
        with open(path, "w") as file:
            file.write("\n".join(self.out + ["</svg>", ""]))


def step_of(most):
    """The step of an axis from 0 that holds `most` in four to six steps, and where the axis ends."""
    step = next(f * 10**e for e in range(-1, 9) for f in (1, 2, 5) if f * 10**e * 6 >= most)
    return step, step * max(1, math.ceil(most / step))


def mark(kind, x, y):
    if kind == 1:
        return '<circle class="f1" cx="%.1f" cy="%.1f" r="3.4"/>' % (x, y)
    corners = {
        2: ((-3.1, -3.1), (3.1, -3.1), (3.1, 3.1), (-3.1, 3.1)),
        4: ((0, -4.2), (4, 3.2), (-4, 3.2)),
        8: ((0, -4.4), (4.4, 0), (0, 4.4), (-4.4, 0)),
    }[kind]
    return '<polygon class="f%d" points="%s"/>' % (kind, " ".join("%.1f,%.1f" % (x + dx, y + dy) for dx, dy in corners))


class Panel:
    """A panel of a picture with shares in a hundred upwards, and whatever `places` names across."""

    def __init__(self, picture, left, right, heading, below, places, most):
        self.out, self.left, self.right, self.most = picture.out, left, right, most
        out = self.out
        out.append('<text class="heading" x="%d" y="%d">%s</text>' % (left - 40, TOP - 18, heading))
        for value in range(0, 101, 20):
            y = self.down(value)
            out.append('<line class="grid" x1="%d" y1="%.1f" x2="%d" y2="%.1f"/>' % (left, y, right, y))
            out.append('<text x="%d" y="%.1f" text-anchor="end">%d %%</text>' % (left - 11, y + 4, value))
        out.append('<line class="axis" x1="%d" y1="%d" x2="%d" y2="%d"/>' % (left, BOTTOM, right, BOTTOM))
        for place, word in places:
            x = self.across(place)
            out.append('<line class="axis" x1="%.1f" y1="%d" x2="%.1f" y2="%d"/>' % (x, BOTTOM, x, BOTTOM + 4))
            out.append('<text x="%.1f" y="%d" text-anchor="middle">%s</text>' % (x, BOTTOM + 18, word))
        out.append('<text x="%.1f" y="%d" text-anchor="middle">%s</text>' % ((left + right) / 2, BOTTOM + 40, below))

    def across(self, place):
        return self.left + (self.right - self.left) * place / self.most

    def down(self, value):
        return BOTTOM - (BOTTOM - TOP) * value / 100

    def line(self, kind, points):
        """A line of (place, mean, reach of its interval)."""
        spots = [(self.across(place), self.down(mean)) for place, mean, _ in points]
        self.out.append('<polyline class="line s%d" points="%s"/>' % (kind, " ".join("%.1f,%.1f" % spot for spot in spots)))
        for (x, y), (_, mean, reach) in zip(spots, points):
            low, high = self.down(max(mean - reach, 0)), self.down(min(mean + reach, 100))
            self.out.append('<line class="bar s%d" x1="%.1f" y1="%.1f" x2="%.1f" y2="%.1f"/>' % (kind, x, low, x, high))
            self.out.append(mark(kind, x, y))

    def labels(self, kind, points, words, above):
        """A label at each point, above it or below."""
        for (place, mean, _), word in zip(points, words):
            y = self.down(mean) + (-11 if above and mean < 90 else 20)
            self.word(kind, self.across(place), y, word, "middle")

    def word(self, kind, x, y, text, anchor="start"):
        self.out.append('<text class="label f%d" x="%.1f" y="%.1f" text-anchor="%s">%s</text>' % (kind, x, y, anchor, text))


PATHS = ("1", "2", "4", "8")
BARS = "bars are 95 % intervals over networks. A label is a number of paths"


def spread(places, apart):
    """The places in their order, moved as little as it takes for them to be so far apart and to end at BOTTOM."""
    order = sorted(places, key=lambda item: item[1])
    moved = [y for _, y in order]
    for _ in range(200):
        for i in range(len(moved) - 1):
            short = apart - (moved[i + 1] - moved[i])
            if short > 0:
                moved[i] -= short / 2
                moved[i + 1] += short / 2
        moved[-1] = min(moved[-1], BOTTOM)
    return {name: y for (name, _), y in zip(order, moved)}


def by_point(path, names):
    """The lines of a table, of each network one, by what `names` say of them."""
    points = {}
    with open(path, newline="") as table:
        for row in csv.DictReader(table):
            points.setdefault(tuple(row[name] for name in names), []).append(row)
    return points


def share_of(rows, name, of):
    return mean_and_reach([100 * int(row[name]) / int(row[of]) for row in rows])


# ---------------------------------------------------------------------------------------------------------- same price

WAYS = {"disjoint": (4, "disjoint paths"), "wide": (1, "one wide path"), "apart": (2, "lookups apart")}
NAMED = {"misroute": "each names the same 16 hostile nodes", "scatter": "each names 16 of 64 hostile nodes"}


def draw_prices(table, path, share):
    """Found beside queries, for each way to spend them, where hostile nodes misroute."""
    points = by_point(table, ("attack", "share", "way", "paths"))
    one = points["misroute", str(share), "disjoint", "1"]
    about = "2,000 nodes, k 8; {} networks of {} lookups; " + BARS
    title = "Lookups that found the closest honest node for their queries, %d %% hostile" % share
    picture = Picture(title, about.format(len(one), one[0]["lookups"]))
    for (attack, heading), (left, right) in zip(NAMED.items(), ((58, 406), (500, 848))):
        lines = {}
        for way in WAYS:
            lines[way] = []
            for paths in PATHS:
                rows = points[attack, str(share), way if paths != "1" else "disjoint", paths]
                lines[way].append((share_of(rows, "asked", "lookups")[0] / 100, *share_of(rows, "closest", "lookups")))
        step, most = step_of(max(point[0] for found in lines.values() for point in found))
        places = [(place * step, "%d" % (place * step)) for place in range(round(most / step) + 1)]
        panel = Panel(picture, left, right, heading[0].upper() + heading[1:], "queries of a lookup, on average", places, most)
        for place, (way, found) in enumerate(lines.items()):
            kind, word = WAYS[way]
            panel.line(kind, found)
            if way != "wide":
                panel.labels(kind, found[way == "apart" :], PATHS[way == "apart" :], way == "disjoint")
            panel.word(kind, right - 8, BOTTOM - 48 + 16 * place, word, "end")
    picture.write(path)


# -------------------------------------------------------------------------------------------------------------- values

CASES = {
    "drawn 50": (8, "as many hostile as honest, drawn"),
    "at key c1 16": (4, "32 at the key, by a puzzle of 16 bits"),
    "at key": (1, "32 at the key, of free choice"),
}


def draw_values(table, path):
    """How often a value is got, and how often a new one is kept, beside the queries."""
    points = by_point(table, ("nodes", "case", "paths", "claim"))
    nodes = str(min(int(key[0]) for key in points))
    one = points[nodes, "at key", "1", "named"]
    about = "{:,} honest nodes, k 8; {} networks of {} values; " + BARS
    picture = Picture("Values, where hostile nodes join a network", about.format(int(nodes), len(one), one[0]["values"]))
    panels = (("got", 58, 406, "Got: values put before they came"), ("kept", 500, 848, "Got: values put after they came"))
    for name, left, right, heading in panels:
        places = [(value, "%d" % value) for value in range(0, 101, 20)]
        panel = Panel(picture, left, right, heading, "queries of a get, on average", places, 100)
        for place, (case, (kind, word)) in enumerate(CASES.items()):
            line = []
            for paths in PATHS:
                rows = points[nodes, case, paths, "named"]
                line.append((share_of(rows, "asked", "values")[0] / 100, *share_of(rows, name, "values")))
            panel.line(kind, line)
            if case == "at key":
                panel.labels(kind, line, PATHS, True)
            panel.word(kind, right - 8, panel.down(50) + 16 * place, word, "end")
    picture.write(path)
