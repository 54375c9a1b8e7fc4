"""README's table and docs/architecture.svg are what tools/architecture makes of crates.txt, and the picture shows what that says."""

import os
import re
import unittest

import sharing
import crate_map
import drawing

TOOL = sharing.loaded(os.path.join(sharing.TOOLS, 'architecture'))
GROUPS = crate_map.groups()


class Made(unittest.TestCase):
    def test_table_and_picture_are_of_the_crates_as_they_are(self):
        for path, text in TOOL.made(GROUPS).items():
            with open(os.path.join(crate_map.TOP, path), encoding='utf-8') as file:
                self.assertEqual(file.read(), text, f'{path} is not up to date. Run: tools/architecture')

    def test_table(self):
        groups = [crate_map.Group('The ground', [crate_map.Crate('keys', 'what keys are', [])])]
        text = f'before\n{TOOL.BEGIN}an old table\n{TOOL.END}after\n'
        self.assertEqual(TOOL.with_table(text, groups), f'before\n{TOOL.BEGIN}| crate | what it is |\n|---|---|\n'
                         f'| **The ground** | |\n| `keys` | what keys are |\n{TOOL.END}after\n')

    def test_no_place_for_the_table(self):
        for text in 'before\nafter\n', f'before\n{TOOL.BEGIN}after\n':
            with self.assertRaisesRegex(ValueError, 'no place for the table'):
                TOOL.with_table(text, GROUPS)


class Picture(unittest.TestCase):
    @classmethod
    def setUpClass(cls):
        cls.at = drawing.Layout(GROUPS)

    def along(self, point):
        """The crates to which lines lead from a point."""
        ends = set()
        for below in self.at.below[point]:
            ends |= {below.target} if below.way is None else self.along(below)
        return ends

    def test_lines_lead_to_what_is_cited_directly(self):
        for name, cited in crate_map.directly(self.at.crates).items():
            self.assertEqual(self.along(self.at.place[name]), set(cited), name)

    def test_lines_go_down_a_row_at_a_time(self):
        # in the second map a group beside the longest chain stands on one of the chain
        beside = [crate_map.Group(heading, [crate_map.Crate(name, heading, lists) for name, *lists in crates])
                  for heading, *crates in (('One', 'a', 'ba'), ('Two', 'ca', 'dc'), ('Beside', 'ea'), ('Three', 'fed'))]
        for at in self.at, drawing.Layout(beside):
            self.assertEqual([line for line in at.lines if line[0].row != line[1].row + 1], [])

    def test_nothing_overlaps_in_a_row(self):
        for row in self.at.order.values():
            for left, right in zip(row, row[1:]):
                room = self.at.x[right] - self.at.x[left] - (self.at.width(left) + self.at.width(right)) / 2
                self.assertGreaterEqual(room, drawing.LINE_APART - 2, (left, right))

    def test_crates_and_lines_stand_right_of_the_headings_and_in_the_boxes(self):
        for point in self.at.points:
            left, right = self.at.ends[point.column]
            begin = left + drawing.BOLD * max(len(line) for group in self.at.columns[point.column]
                                              for line in drawing.wrapped(GROUPS[group].heading))
            self.assertGreater(self.at.x[point] - self.at.width(point) / 2, begin, point)
            self.assertLess(self.at.x[point] + self.at.width(point) / 2, right, point)

    def test_a_box_has_its_own_crates_and_no_others(self):
        for group in range(len(GROUPS)):
            left, top, right, bottom = self.at.box(group)
            inside = {name for name, point in self.at.place.items()
                      if left < self.at.x[point] < right and top < self.at.y(point.row) < bottom}
            self.assertEqual(inside, {crate.name for crate in GROUPS[group].crates})

    def test_headings_fit_into_their_boxes(self):
        for group, (heading, _) in enumerate(GROUPS):
            _, top, _, bottom = self.at.box(group)
            self.assertLessEqual(19 + 16 * (len(drawing.wrapped(heading)) - 1) + 4, bottom - top, heading)

    def test_every_name_and_heading_is_written_once(self):
        texts = re.findall(r'<text [^>]*>([^<]*)</text>', drawing.drawing(GROUPS))
        lines = [line for heading, _ in GROUPS for line in drawing.wrapped(heading)]
        self.assertEqual(sorted(texts), sorted([drawing.CAPTION, *lines, *self.at.crates]))


if __name__ == '__main__':
    unittest.main()
