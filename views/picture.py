"""A chain as a picture (SVG): a row for each step, a column for each place, a line from each word that was read; choices, rounds of a loop, and two runs beside each other. `chain` uses this module."""
from typing import NamedTuple
from xml.sax.saxutils import escape

STYLE = """\
text { font: 13px monospace; fill: #222; }
.place { font-weight: bold; }
.step, .never { fill: #777; }
.box { fill: #eef4fb; stroke: #4a7ab5; }
.marked .box { fill: #fdecea; stroke: #c0392b; stroke-width: 2; }
.marked text { fill: #c0392b; font-weight: bold; }
line { stroke: #9ab; }
.ground { fill: #fff; }"""
# (these stand where they are asked for alone)
OF_ROUNDS = """
text.rounds { font: italic 11px monospace; fill: #555; }
.more { fill: #fff; stroke: #4a7ab5; }"""
OF_WAYS = """
.way, .way text, text.way { fill: #8f4700; }
line.way { stroke: #b35900; stroke-dasharray: 5 3; stroke-width: 1.5; }
.choice { fill: #b35900; }
.by { fill: #fff; stroke: #b35900; stroke-dasharray: 4 2; }
.led { fill: #fff; stroke: #b35900; stroke-width: 1.5; }"""
OF_RUNS = """
.both .box { fill: #f1f1f1; stroke: #666; }
.second .box { fill: #fdf1e3; stroke: #b35900; stroke-dasharray: 5 2; stroke-width: 1.5; }
line.second { stroke: #b35900; stroke-dasharray: 5 3; }
line.first { stroke: #4a7ab5; }
line.part { stroke: #222; stroke-dasharray: 1 4; stroke-width: 1.5; }
text.part { font: italic 11px monospace; }"""
# In pixels: what stands left of the columns, of two runs too, and what the way takes; a column, of two runs too; a row, and the head.
LEFT, LEFT_OF_TWO, WAY, COLUMN, COLUMN_OF_TWO, ROW, HEAD = 230, 282, 150, 92, 156, 34, 40
# How much further down stands what comes after the place where two runs part.
GAP = 14
# How far the words of two runs stand from the middle of their column.
SIDE = 37
RUNS = ("first", "second")


class Row(NamedTuple):
    """A row: the link of each run that stands there, or None; whether it is the same in both; the choice that was made there, or None; and the rounds that are told by it, with words."""

    links: tuple
    is_same: bool = True
    way: object = None
    rounds: tuple = ()
    told: tuple = ()

    @property
    def number(self):
        """The step that stands there, of the first run, or None."""
        known = self.links[0] or self.way
        return known and known.number


class Picture:
    """The parts of a picture, and where the places have their columns: in the order in which they come first."""

    def __init__(self, rows, led=None, names=()):
        """Draws rows from above; `led` has the choice of each step that one led to; two runs have names."""
        self.rows, self.led, self.names, self.count = rows, led or {}, names, max(len(names), 1)
        self.ways, self.folds = any(it.way for it in rows), any(it.rounds for it in rows)
        self.left = (LEFT_OF_TWO if names else LEFT) + WAY * self.ways
        self.width = COLUMN_OF_TWO if names else COLUMN
        places = dict.fromkeys(place for row in rows for place, _ in of_row(row))
        self.columns = {place: self.left + self.width * number + self.width // 2 for number, place in enumerate(places)}
        # Where each place's word stands last, of each run.
        self.last = [{} for _ in range(self.count)]
        self.lines, self.words, self.boxes = [], [], []
        # (what was never written, as it is drawn)
        self.unwritten = [set() for _ in range(self.count)]
        self.heights = {}
        self.parting = next((i for i, it in enumerate(rows) if not it.is_same), len(rows)) if names else len(rows)
        for number, row in enumerate(rows):
            self.add(row, HEAD + ROW * (number + 1) + GAP * (number >= self.parting))
        self.part()
        self.lead()

    def add(self, row, y):
        """A row at a height."""
        self.heights[row.number] = y
        parts = self.head(row, y)
        if row.rounds:
            parts += self.fold(row.rounds, y)
        elif row.is_same and row.links[0]:
            parts += self.step(row.links[0], range(self.count), y)
        else:
            self.common(row.links, y)
            for run, link in enumerate(row.links):
                parts += [f'<g class="{RUNS[run]}">', *self.step(link, [run], y), "</g>"] if link else []
        parts += self.choice(row.way, y) if row.way else []
        self.boxes.append((row, parts))

    def head(self, row, y):
        """What stands left of the columns: the step, of two runs both, and what was done; of rounds how many they are."""
        known = next((it for it in row.links if it), row.way)
        mark = f'<tspan class="step"> IN {known.entered}</tspan>' if getattr(known, "entered", "") else ""
        if self.names:
            numbers, at = [(10 + 46 * i, it.number) for i, it in enumerate(row.links) if it], 108
        else:
            numbers, at = [(10, known.number)], 56
        parts = "".join(f'<text class="step" x="{x}" y="{y + 4}">{it}</text>' for x, it in numbers)
        if row.told:
            texts = [f'<text class="rounds" x="{at}" y="{y - 3 + 13 * i}">{escape(it)}</text>' for i, it in enumerate(row.told)]
            return [parts, *texts]
        return [f'{parts}<text x="{at}" y="{y + 4}">{escape(known.text)}{mark}</text>']

    def step(self, link, runs, y):
        """What a step read, where nothing in the picture has written that, and what it wrote, with a line from each to each."""
        cells = [place for place, _ in link.written]
        for place, word in link.read:
            new = [it for it in runs if place not in self.last[it]]
            if new:
                # (above it, where the step writes there too)
                height = y - ROW // 2 if place in cells else y
                for it in new:
                    self.last[it][place] = self.x(place, new), height
                    self.unwritten[it].add(place)
                self.words.append(self.word("never", place, word, new, height))
        for place in cells:
            for origin, _ in link.read:
                self.join(origin, runs, self.x(place, runs), y)
        for run in runs:
            self.last[run].update((place, (self.x(place, runs), y)) for place in cells)
            self.unwritten[run].difference_update(cells)
        return [self.word("box", place, word, runs, y) for place, word in link.written]

    def common(self, links, y):
        """What both of two links read, where neither run has written it, is told once."""
        if not all(links) or len(links) < 2:
            return
        cells = {place for link in links for place, _ in link.written}
        for place, word in links[0].read:
            if (place, word) in links[1].read and not any(place in it for it in self.last) and place not in cells:
                for run in range(self.count):
                    self.last[run][place] = self.x(place, range(self.count)), y
                    self.unwritten[run].add(place)
                self.words.append(self.word("never", place, word, range(self.count), y))

    def fold(self, rounds, y):
        """Rounds of a loop: the last words that they write, of each run by itself where these are not the same."""
        if all(it.is_same for it in rounds):
            return self.last_words([it.links[0] for it in rounds if it.links[0]], range(self.count), y)
        parts = []
        for run, kind in enumerate(RUNS):
            links = [it.links[run] for it in rounds if it.links[run]]
            parts += [f'<g class="{kind}">', *self.last_words(links, [run], y), "</g>"] if links else []
        return parts

    def last_words(self, links, runs, y):
        """The last word of each place that some links write, as a box upon others, with lines from what they read that stands above."""
        written, joined = {}, {}
        for link in links:
            # (what stands there for good would be a line from far above)
            origins = [place for place, _ in link.read if place not in written and place not in self.unwritten[runs[0]]]
            joined.update(dict.fromkeys((origin, cell) for origin in origins for cell, _ in link.written))
            written.update(link.written)
        for origin, cell in joined:
            self.join(origin, runs, self.x(cell, runs), y)
        parts = []
        for place, word in written.items():
            x = self.x(place, runs)
            parts += [f'<rect class="more" x="{x - 32 + it}" y="{y - 10 - it}" width="64" height="20" rx="3"/>' for it in (6, 3)]
            parts.append(self.word("box", place, word, runs, y))
            for run in runs:
                self.last[run][place] = x, y
                self.unwritten[run].discard(place)
        return parts

    def choice(self, way, y):
        """A choice: where it led, and what it was made by, with a line from where that came from."""
        x, parts = self.lane(way.number), []
        if way.read:
            self.lines.append(f'<line class="way" x1="{x}" y1="{y}" x2="{max(self.columns[it] for it, _ in way.read) - 32}" y2="{y}"/>')
        for place, word in way.read:
            at = self.columns[place]
            if place in self.last[0] and self.last[0][place][1] != y:
                self.lines.append(f'<line class="way" x1="{self.last[0][place][0]}" y1="{self.last[0][place][1] + 6}" x2="{at}" y2="{y - 10}"/>')
            parts.append(f'<rect class="by" x="{at - 30}" y="{y - 9}" width="60" height="18" rx="9"/><text class="way" x="{at}" y="{y + 4}" text-anchor="middle">{word}</text>')
        parts.append(f'<path class="choice" d="M{x - 8} {y}l8 -8l8 8l-8 8z"/><text class="way" x="{x + 14}" y="{y - 5}">to {escape(way.to.split(" ", 1)[-1])}</text>')
        return parts

    def lane(self, choice):
        """Where the line of a choice stands: right of those of the choices before it that led to a step after it."""
        return self.left - WAY + 18 + 14 * sum(1 for it in {*self.led.values()} if it < choice < max(step for step, by in self.led.items() if by == it))

    def lead(self):
        """From each choice a line along the steps that it led to."""
        for choice in dict.fromkeys(self.led.values()):
            x, steps = self.lane(choice), [self.heights[it] for it, by in self.led.items() if by == choice and it in self.heights]
            if choice in self.heights and steps:
                self.lines.append(f'<line class="way" x1="{x}" y1="{self.heights[choice]}" x2="{x}" y2="{max(steps)}"/>')
                self.words += [f'<circle class="led" cx="{x}" cy="{it}" r="3.5"/>' for it in steps]

    def part(self):
        """Where two runs part first."""
        if self.parting < len(self.rows):
            y = HEAD + ROW * (self.parting + 1) + GAP - ROW // 2 - 1
            said = "they part here" if self.parting else "no link in common before"
            self.lines.append(f'<line class="part" x1="10" y1="{y}" x2="{self.left + self.width * len(self.columns)}" y2="{y}"/><text class="part" x="10" y="{y - 4}">{said}</text>')

    def x(self, place, runs):
        return self.columns[place] + (0 if len(runs) == self.count else (-SIDE, SIDE)[runs[0]])

    def join(self, origin, runs, x2, y):
        """Lines from where the word of an origin stands last to a box at a height: to its top, or along its row."""
        ends = {}
        for run in runs:
            if origin in self.last[run]:
                ends.setdefault(self.last[run][origin], []).append(run)
        for (x1, y1), of in ends.items():
            kind = f'class="{RUNS[of[0]]}" ' if self.names and len(of) < self.count else ""
            if y1 == y:
                side = 1 if x1 > x2 else -1
                self.lines.append(f'<line {kind}x1="{x1 - 26 * side}" y1="{y}" x2="{x2 + 32 * side}" y2="{y}"/>')
            else:
                self.lines.append(f'<line {kind}x1="{x1}" y1="{y1 + 6}" x2="{x2}" y2="{y - 10}"/>')

    def word(self, kind, place, word, runs, y):
        x = self.x(place, runs)
        corner = 9 if len(runs) < self.count and runs[0] else 3
        frame = f'<rect class="box" x="{x - 32}" y="{y - 10}" width="64" height="20" rx="{corner}"/>' if kind == "box" else ""
        return f'{frame}<text class="{"word" if frame else "never"}" x="{x}" y="{y + 4}" text-anchor="middle">{word}</text>'

    def legend(self, y):
        """What the signs of choices and of two runs mean."""
        if self.names:
            signs = [("both", 3, "in both"), ("first", 3, self.names[0]), ("second", 9, self.names[1])]
            return [f'<g class="{kind}"><rect class="box" x="{10}" y="{y + 24 * i - 10}" width="40" height="18" rx="{corner}"/></g><text x="60" y="{y + 24 * i + 4}">{escape(text)}</text>' for i, (kind, corner, text) in enumerate(signs)]
        if not self.ways:
            return []
        signs = [
            f'<path class="choice" d="M22 {y}l8 -8l8 8l-8 8z"/><text x="60" y="{y + 4}">a choice, and where it led</text>',
            f'<line class="way" x1="10" y1="{y + 24}" x2="50" y2="{y + 24}"/><circle class="led" cx="30" cy="{y + 24}" r="3.5"/><text x="60" y="{y + 28}">a step that it led to</text>',
            f'<rect class="by" x="10" y="{y + 39}" width="40" height="18" rx="9"/><text x="60" y="{y + 52}">the word that it was made by</text>',
        ]
        return signs

    def drawn(self, marked):
        """The picture as text."""
        bottom = HEAD + ROW * (len(self.boxes) + 1) + GAP * (self.parting < len(self.rows))
        legend = self.legend(bottom)
        # (a sign of the legend has 8 pixels for each letter beside it)
        width = max([self.left + self.width * len(self.columns), *(60 + 8 * len(it) for it in self.names)]) + 10
        height = bottom + (72 if legend else 0)
        heads = [f'<text class="place" x="{x}" y="22" text-anchor="middle">{escape(place)}</text>' for place, x in self.columns.items()]
        groups = [f'<g class="{self.kind(row, marked)}">{"".join(parts)}</g>' for row, parts in self.boxes]
        size = f'width="{width}" height="{height}" viewBox="0 0 {width} {height}"'
        ground = f'<rect class="ground" width="{width}" height="{height}"/>'
        style = STYLE + OF_ROUNDS * self.folds + OF_WAYS * self.ways + OF_RUNS * bool(self.names)
        return "\n".join([f'<svg xmlns="http://www.w3.org/2000/svg" {size}>', f"<style>\n{style}\n</style>", ground, *heads, *self.lines, *self.words, *groups, *legend, "</svg>", ""])

    def kind(self, row, marked):
        if marked and marked == row.number:
            return "marked"
        return "both" if self.names and row.is_same else "way" if row.way and not row.links[0] else "plain"


def of_row(row):
    """The places of a row, each with a word, in the order of their columns; of rounds those that they write."""
    if row.rounds:
        return [pair for it in row.rounds for link in it.links if link for pair in link.written]
    return [pair for link in row.links if link for pair in [*link.read, *link.written]] + (row.way.read if row.way else [])
