"""The picture of the crates: an SVG of the map that crates.txt is (crate_map.py).

Each group is a box, and a crate stands above all that it cites. Groups stand in columns: the longest chain of groups that stand on
each other in the first, the others beside it. A line leads from a crate down to one that it lists and reaches through no other. Lines
to the same crate run together on their way down, and so do lines from one crate to several of another group.

A line has a point in each row that it passes, with a place among the row's crates, so that no line runs over a crate. Rows are counted
from the bottom.
"""

import collections
import html
import itertools

import crate_map

HIGH, DOWN, APART, LINE_APART = 26, 32, 16, 10
PADDING, MARGIN, BETWEEN = 8, 12, 32
# the width of ten letters of a crate's name and of a letter of a heading, and the most letters of a heading in a line
LETTER, BOLD, MOST = 76, 9, 13
# the colours of a group: its box, its crates, lines to its crates
COLOURS = [('#f3f6fb', '#dbe6f6', '#4a6fa5'), ('#f4f9f1', '#dcedd3', '#5b8c46'), ('#fdf6ec', '#f8e3c4', '#b9812f'),
           ('#f8f3fa', '#e9dcf0', '#8a5aa0'), ('#fdf2f2', '#f6d9d8', '#b4524e'), ('#f1f8f8', '#d3ebea', '#3f8a86'),
           ('#f7f6ee', '#e8e5cd', '#8a8340'), ('#f5f5f5', '#e2e2e2', '#6b6b6b'), ('#fbf2f7', '#f2d8e6', '#a8527e')]
CAPTION = 'A line leads down to a crate that is cited. What is reached through another crate has no line of its own.'
# Places across are found in whole parts of a unit, since sums of fractions are not the same in every Python.
PARTS, FAR = 256, 10**9

# A place in a row. A crate's has its name as the target and no way. A line's has the way on which it is: to a crate, or from a crate to
# several of a group, which is the target then.
Point = collections.namedtuple('Point', 'row column target way')


def wrapped(words):
    """The words of a heading in lines of at most MOST letters, or of one word."""
    lines = ['']
    for word in words.split():
        if lines[-1] and len(lines[-1]) + 1 + len(word) > MOST:
            lines.append('')
        lines[-1] = f'{lines[-1]} {word}'.strip()
    return lines


class Layout:
    """Where everything stands."""

    def __init__(self, groups):
        self.groups, self.crates = groups, crate_map.by_name(groups)
        self.group_of = {crate.name: at for at, group in enumerate(groups) for crate in group.crates}
        self._stack()
        self._lead_lines()
        self._order_rows()
        self._place_across()

    # ---- columns and rows

    def _stack(self):
        """The groups of each column, the row in which each begins, and each crate's point: above those of its group that it lists."""
        level = {}
        for name, crate in self.crates.items():
            level[name] = max((level[other] + 1 for other in crate.lists if self.group_of.get(other) == self.group_of[name]), default=0)
        self.height = [1 + max(level[crate.name] for crate in group.crates) for group in self.groups]
        self.stands_on = [{self.group_of[other] for crate in group.crates for other in crate.lists if other in self.group_of} - {at}
                          for at, group in enumerate(self.groups)]
        self.columns = self._columns()
        self.column_of = {group: at for at, column in enumerate(self.columns) for group in column}
        self.begin, self.end = {}, {}
        for group in range(len(self.groups)):
            column = self.columns[self.column_of[group]]
            self.begin[group] = max((self.end[other] for other in self.stands_on[group].union(column) if other < group), default=0)
            self.end[group] = self.begin[group] + self.height[group]
        self.place = {name: Point(self.begin[group] + level[name], self.column_of[group], name, None)
                      for name, group in self.group_of.items()}

    def _columns(self):
        def high(chain):
            return sum(self.height[group] for group in chain), chain
        longest = []
        for group, below in enumerate(self.stands_on):
            longest.append(max((longest[other] for other in below), key=high, default=[]) + [group])
        columns = [max(longest, key=high)]
        for group in range(len(self.groups)):
            if group not in columns[0]:
                if len(columns) == 1 or high(columns[-1] + [group]) > high(columns[0]):
                    columns.append([])
                columns[-1].append(group)
        return columns

    # ---- points and lines

    def _lead_lines(self):
        """The points, and the pieces of lines, each from a point to one in the row below."""
        self.lines = {}
        for name, cited in crate_map.directly(self.crates).items():
            for group, targets in itertools.groupby(sorted(cited, key=self.group_of.get), self.group_of.get):
                targets, start = list(targets), self.place[name]
                if len(targets) > 1 and group != self.group_of[name]:
                    above = range(start.row - 1, self.end[group] - 1, -1)
                    start = self._lead(start, [Point(row, start.column, group, name) for row in above])
                for target in targets:
                    end = self.place[target]
                    self._lead(start, [Point(row, start.column, target, '') for row in range(start.row - 1, end.row, -1)] + [end])
        self.points = dict.fromkeys([*self.place.values(), *itertools.chain(*self.lines)])
        self.above = {point: [a for a, b in self.lines if b == point] for point in self.points}
        self.below = {point: [b for a, b in self.lines if a == point] for point in self.points}

    def _lead(self, start, points):
        """Leads a line from a point through others; answers the last of them."""
        for point in points:
            self.lines[start, point] = None
            start = point
        return start

    def group_at(self, point):
        """The group that a crate is in, or that a line leads to."""
        return self.group_of.get(point.target, point.target)

    def width(self, point):
        return LETTER * len(point.target) // 10 + 14 if point.way is None else 0

    # ---- the order in each row

    def _order_rows(self):
        """Orders each row by the places of its points' neighbours, up and down, and keeps the order in which the fewest lines cross."""
        keys = sorted({(point.row, point.column) for point in self.points})
        self.order = {key: [point for point in self.points if point[:2] == key] for key in keys}
        least, best = self.crossings(), self.order
        for turn in range(30):
            near, way = (self.below, keys) if turn % 2 else (self.above, keys[::-1])
            for key in way:
                at = self._places()
                wish = {point: sum(at[other] for other in near[point]) / len(near[point]) if near[point] else at[point]
                        for point in self.order[key]}
                self.order = {**self.order, key: sorted(self.order[key], key=wish.get)}
            self._swap_neighbours()
            if self.crossings() < least:
                least, best = self.crossings(), {key: list(row) for key, row in self.order.items()}
        self.order = best

    def _places(self):
        """Each point's place in its row, columns side by side."""
        return {point: len(self.points) * key[1] + at for key, row in self.order.items() for at, point in enumerate(row)}

    def crossings(self):
        """How many pairs of lines between neighbouring rows cross."""
        at, pairs = self._places(), collections.defaultdict(list)
        for a, b in self.lines:
            pairs[a.row].append((at[a], at[b]))
        return sum((a - c) * (b - d) < 0 for row in pairs.values() for (a, b), (c, d) in itertools.combinations(row, 2))

    def _swap_neighbours(self):
        """Swaps neighbours in a row as long as fewer lines cross by it."""
        at, better = self._places(), True
        while better:
            better = False
            for row in self.order.values():
                for place in range(len(row) - 1):
                    left, right = row[place:place + 2]
                    gain = sum((at[a] > at[b]) - (at[a] < at[b])
                               for near in (self.above, self.below) for a in near[left] for b in near[right])
                    if gain > 0:
                        row[place:place + 2] = right, left
                        at[left], at[right] = at[right], at[left]
                        better = True

    # ---- the places across

    def _place_across(self):
        """The middle of each point, the left and right end of each column, and the picture's width."""
        self.x = dict.fromkeys(self.points, 0)
        for turn in range(200):
            for key in sorted(self.order, reverse=turn % 2 == 0):
                self._settle(self.order[key])
        for _ in range(3):
            for point in self.points:
                if point.way is not None and all(other[2:] != point[2:] for other in self.above[point]):
                    self._straighten(point)
        self.ends, left = [], MARGIN
        for column, groups in enumerate(self.columns):
            points = [point for point in self.points if point.column == column]
            least = min(self.x[point] - self.width(point) * PARTS // 2 for point in points)
            most = max(self.x[point] + self.width(point) * PARTS // 2 for point in points)
            # headings stand on the left of all crates and lines
            begin = left + 2 * PADDING + BOLD * max(len(line) for group in groups for line in wrapped(self.groups[group].heading))
            self.x.update((point, (self.x[point] - least) // PARTS + begin) for point in points)
            self.ends.append((left, (most - least) // PARTS + begin + PADDING))
            left = self.ends[-1][1] + BETWEEN
        self.wide = self.ends[-1][1] + MARGIN

    def _apart(self, left, right):
        """How far the middles of two neighbours in a row have to be apart, in parts."""
        gap = APART if left.way is None and right.way is None else LINE_APART
        return (self.width(left) + self.width(right) + 2 * gap) * PARTS // 2

    def _settle(self, row):
        """Moves a row's points as near to their neighbours above and below as they can get, in their order and far enough apart. Long
        lines pull the most. Points that would come too near stand together, as a run with one wish."""
        runs, apart = [], 0
        for at, point in enumerate(row):
            apart += self._apart(row[at - 1], point) if at else 0
            pulls = [(self.x[other], (100, 300, 900)[(point.way is not None) + (other.way is not None)])
                     for other in self.above[point] + self.below[point] if other.column == point.column] or [(self.x[point], 1)]
            weight = sum(pull for _, pull in pulls)
            runs.append((sum(x * pull for x, pull in pulls) // weight - apart, weight, [(point, apart)]))
            while len(runs) > 1 and runs[-2][0] > runs[-1][0]:
                (wish, weight, points), (before, heavy, earlier) = runs.pop(), runs.pop()
                runs.append(((before * heavy + wish * weight) // (heavy + weight), heavy + weight, earlier + points))
        self.x.update((point, wish + apart) for wish, _, points in runs for point, apart in points)

    def _straighten(self, point):
        """Makes a line straight from a point of it down, as far as its neighbours let it, and again from there."""
        run, least, most = [], -FAR, FAR
        while point is not None:
            row = self.order[point[:2]]
            at = row.index(point)
            left = self.x[row[at - 1]] + self._apart(row[at - 1], point) if at else -FAR
            right = self.x[row[at + 1]] - self._apart(point, row[at + 1]) if at + 1 < len(row) else FAR
            if run and max(least, left) > min(most, right):
                self._align(run, least, most)
                run, least, most = [], -FAR, FAR
            run, least, most = run + [point], max(least, left), min(most, right)
            point = next((other for other in self.below[point] if other[2:] == point[2:]), None)
        self._align(run, least, most)

    def _align(self, run, least, most):
        middle = sum(self.x[point] for point in run) // len(run)
        self.x.update(dict.fromkeys(run, min(max(middle, least), most)))

    # ---- in the picture

    def y(self, row):
        """The middle of a row."""
        return 2 * MARGIN + PADDING + HIGH + (max(self.end.values()) - 1 - row) * (HIGH + DOWN)

    def box(self, group):
        """The left, the top, the right and the bottom of a group."""
        left, right = self.ends[self.column_of[group]]
        around = HIGH // 2 + PADDING
        return left, self.y(self.end[group] - 1) - around, right, self.y(self.begin[group]) + around


def drawn_groups(at):
    for number, group in enumerate(at.groups):
        fill, _, ink = COLOURS[number % len(COLOURS)]
        left, top, right, bottom = at.box(number)
        yield (f'<rect x="{left}" y="{top}" width="{right - left}" height="{bottom - top}" rx="6" fill="{fill}" stroke="{ink}" '
               'stroke-opacity="0.5"/>')
        for place, line in enumerate(wrapped(group.heading)):
            yield f'<text x="{left + PADDING}" y="{top + 19 + 16 * place}" font-weight="bold" fill="{ink}">{html.escape(line)}</text>'


def drawn_lines(at):
    for point in at.points:
        ends = sorted(at.below[point], key=at.x.get)
        # a crate's lines leave it side by side
        apart = min(14, (at.width(point) - 16) // len(ends)) if ends and point.way is None else 0
        for place, end in enumerate(ends):
            x = at.x[point] + (2 * place - len(ends) + 1) * apart // 2
            top, bottom = at.y(point.row) + HIGH // 2, at.y(end.row) - HIGH // 2
            middle, past = (top + bottom) // 2, '' if end.way is None else f' V{bottom + HIGH}'
            yield (f'<path d="M{x} {top} C{x} {middle} {at.x[end]} {middle} {at.x[end]} {bottom}{past}" fill="none" '
                   f'stroke="{COLOURS[at.group_at(end) % len(COLOURS)][2]}"/>')


def drawn_crates(at):
    for name, point in at.place.items():
        _, fill, ink = COLOURS[at.group_of[name] % len(COLOURS)]
        x, y, wide = at.x[point], at.y(point.row), at.width(point)
        yield f'<rect x="{x - wide // 2}" y="{y - HIGH // 2}" width="{wide}" height="{HIGH}" rx="4" fill="{fill}" stroke="{ink}"/>'
        yield f'<text x="{x}" y="{y + 4}" text-anchor="middle">{name}</text>'


def drawing(groups):
    at = Layout(groups)
    high = at.y(0) + HIGH // 2 + PADDING + MARGIN
    return '\n'.join([f'<svg xmlns="http://www.w3.org/2000/svg" viewBox="0 0 {at.wide} {high}" font-family="sans-serif" font-size="13">',
                      '<title>The crates and what they cite</title>',
                      f'<rect width="{at.wide}" height="{high}" fill="white"/>',
                      f'<text x="{MARGIN}" y="{MARGIN + 12}" fill="#444">{CAPTION}</text>',
                      *drawn_groups(at), *drawn_lines(at), *drawn_crates(at), '</svg>', ''])
