"""Layouts show the family of a network, and labels overlap nothing. A *layout* has a point for each node, in a *field*
of the page. A *family* is a kind of network that `./class new` can make, such as a cycle. A *label* has the name of a
node's owner, and the frame for its rule."""
from __future__ import annotations

import math
import random
import time
import unittest
from itertools import combinations, pairwise

from classroom.core.journal import RULES
from classroom.core.networks import Links, family
from classroom.pages.labels import LEAST_FRAMED, Box, View, framed, view_of, text_width
from classroom.pages.layout import CELL, RING, TALL, WIDE, Layout, lay_out
from classroom.pages.shapes import shape_of
from classroom.pages.springs import FEW_NODES, LEAST, distance_to_line, by_springs, distances, tangles

FAMILIES = ("path", "cycle", "star", "tree", "complete", "grid:4x3", "grid:3x7", "grid:10x10", "random:12:16", "random:30:40", "random:64:90",
            "random:15:60", "crowd")
NAMES = ("zoe-mueller", "jonas-ek", "ana", "gus-roy", "ida-bergstroem", "tim", "eva-sol", "bo-dahl", "kim-vo", "pia-rot", "leo-wolf", "uma-das",
         "kai-ness", "nora-lind", "jean-baptiste-lamarck")
SECONDS = 60  # the most processor time for 256 nodes; this project's machine takes 1.5 seconds, and a slow one ten times that


def network(word: str, size: int = 15) -> tuple[list[int], Links]:
    """Returns the nodes and links of a network of the family `word`. It has `size` nodes unless `word` has a size."""
    count, links = family(word, None if ":" in word else size, size, random.Random(7))
    return list(range(1, count + 1)), sorted(links)


def renamed(nodes: list[int], links: Links, seed: int) -> tuple[list[int], Links]:
    """Returns the same network with random identifiers: the nodes in the same order as before, and the links."""
    drawn = random.Random(seed).sample(range(1, 60000), len(nodes))
    names = dict(zip(nodes, drawn))
    return drawn, [(names[a], names[b]) for a, b in links]


def viewed(word: str, size: int = 15) -> tuple[View, Links]:
    """Returns the drawing of a network of the family `word` for a screen, with names, and its links. The network has
    `size` nodes unless `word` has a size."""
    nodes, links = network(word, size)
    return view_of({node: [NAMES[node % len(NAMES)]] for node in nodes}, links, WIDE), links


class Shapes(unittest.TestCase):
    """The shape of a network is recognised from its links alone, and is visible."""

    def shape(self, word: str, size: int = 15, seed: int = 0) -> tuple[str, Layout, list[int]]:
        """Makes a network of the family `word`, with `size` nodes unless `word` has a size, and lays it out. Returns
        the kind of shape that was recognised, the layout, and the nodes in the order in which the family lists them.
        With a seed, the nodes have random identifiers."""
        nodes, links = network(word, size)
        if seed:
            nodes, links = renamed(nodes, links, seed)
        layout = lay_out(nodes, links)
        return layout.kind, layout, nodes

    def test_families_are_recognised_whatever_the_nodes_are_called(self) -> None:
        """A random network with many links is drawn on an ellipse. A grid that lacks a link, and a network of two
        triangles without a path between them, are of no known shape, called `general`. A single node has a layout
        too."""
        for word, kind in (("path", "path"), ("cycle", "cycle"), ("star", "star"), ("tree", "tree"), ("complete", "complete"), ("grid:4x3", "grid"),
                           ("grid:8x8", "grid"), ("grid:2x9", "grid"), ("random:12:16", "general"), ("random:15:80", "ellipse")):
            for seed in range(4):
                self.assertEqual(self.shape(word, seed=seed)[0], kind, (word, seed))
        # The last argument of `shape_of` is the width of the field, divided by its height.
        nearly = [link for link in network("grid:4x3")[1] if link != (6, 7)]
        self.assertEqual(shape_of(list(range(1, 13)), nearly, 1.7).kind, "general")
        self.assertEqual(shape_of([1, 2, 3, 4, 5, 6], [(1, 2), (2, 3), (1, 3), (4, 5), (5, 6), (4, 6)], 1.7).kind, "general")
        self.assertEqual(len(lay_out([7], []).points), 1)

    def test_a_grid_s_rows_are_lines_in_order(self) -> None:
        """With seed 0 the nodes are numbered row by row."""
        for word in ("grid:4x3", "grid:8x8", "grid:3x5"):
            width = int(word[5])  # the digit after `grid:`
            for seed in (0, 5):
                _, layout, nodes = self.shape(word, seed=seed)
                rows = [[layout.points[node] for node in nodes[start:start + width]] for start in range(0, len(nodes), width)]
                if seed:  # The drawing may be mirrored or turned, since no name determines which corner is the first.
                    self.assertEqual(len({y for _, y in layout.points.values()}) * len({x for x, _ in layout.points.values()}), len(nodes))
                    continue
                for row in rows:
                    self.assertEqual(row, sorted(row))
                    self.assertEqual(len({y for _, y in row}), 1)
                for above, below in pairwise(rows):
                    self.assertEqual([x for x, _ in above], [x for x, _ in below])
                    self.assertLess(above[0][1], below[0][1])

    def test_a_path_is_drawn_in_rows_and_turns_back_at_the_end_of_each_row(self) -> None:
        """All links are level but those from one row to the next. Each link is longer than 2.9 radii of a disc, so that
        it can be seen between its nodes. A path of seven nodes has only one row."""
        for size in (2, 5, 9, 15, 40):
            for seed in (0, 3):
                _, layout, nodes = self.shape("path", size, seed)
                lengths = [math.dist(layout.points[a], layout.points[b]) for a, b in pairwise(nodes)]
                level = [layout.points[a][1] == layout.points[b][1] for a, b in pairwise(nodes)]
                rows = len({y for _, y in layout.points.values()})
                self.assertEqual(level.count(False), rows - 1)
                self.assertTrue(all(length > 2.9 * layout.radius for length in lengths), size)
        self.assertEqual(len({y for _, y in self.shape("path", 7)[1].points.values()}), 1)

    def test_a_star_s_hub_is_in_the_middle(self) -> None:
        """It may be off the middle of the other nodes by less than 0.35 of the longest link."""
        for size in (4, 7, 15, 30):
            _, layout, nodes = self.shape("star", size)
            hub, rim = layout.points[1], [layout.points[node] for node in nodes[1:]]
            middle = [(max(values) + min(values)) / 2 for values in zip(*rim)]
            self.assertLess(math.dist(hub, middle), 0.35 * max(math.dist(hub, point) for point in rim), size)
            self.assertTrue(all(math.dist(hub, point) > 4 * layout.radius for point in rim))

    def test_cycles_and_complete_graphs_stand_on_an_ellipse_in_order(self) -> None:
        """The distances between consecutive nodes differ by less than a fifth, so no node is out of order."""
        for word in ("cycle", "complete"):
            _, layout, nodes = self.shape(word)
            wide_by, high_by = ((max(values) - min(values)) / 2 for values in zip(*layout.points.values()))
            middle = [(max(values) + min(values)) / 2 for values in zip(*layout.points.values())]
            for x, y in layout.points.values():
                self.assertAlmostEqual(math.hypot((x - middle[0]) / wide_by, (y - middle[1]) / high_by), 1, delta=0.05)
            sides = [math.dist(layout.points[a], layout.points[b]) for a, b in pairwise([*nodes, nodes[0]])]
            self.assertLess(max(sides), 1.2 * min(sides))

    def test_nodes_of_one_depth_in_a_tree_are_level_and_each_node_is_above_the_middle_of_its_children(self) -> None:
        """A random network of 20 nodes and 19 links is a tree."""
        for word, size in (("tree", 15), ("tree", 31), ("random:20:19", 20)):
            nodes, links = network(word, size)
            layout, depth = lay_out(nodes, links), {1: 0}
            for a, b in links * len(nodes):  # Each round over the links finds the depth of at least one more node.
                for near, far in ((a, b), (b, a)):
                    if near in depth:
                        depth.setdefault(far, depth[near] + 1)
            self.assertEqual(len({(depth[node], layout.points[node][1]) for node in nodes}), max(depth.values()) + 1)
            for node in nodes:
                children = [layout.points[other][0] for link in links if node in link for other in link if depth[other] > depth[node]]
                if children:
                    self.assertAlmostEqual(layout.points[node][0], (min(children) + max(children)) / 2, delta=0.2)

    def test_nodes_don_t_touch_and_are_in_the_field_and_the_order_of_nodes_and_links_doesn_t_matter(self) -> None:
        """The drawing of a node reaches RING times the radius of its disc from its middle."""
        for word in FAMILIES:
            nodes, links = network(word)
            for field in (WIDE, TALL, CELL):
                with self.subTest(word, field=field):
                    layout = lay_out(nodes, links, field)
                    self.assertEqual(layout, lay_out(reversed(nodes), reversed(links), field))
                    self.assertEqual(set(layout.points), set(nodes))
                    self.assertGreater(layout.nearest, 2 * layout.radius)
                    for x, y in layout.points.values():
                        self.assertTrue(RING * layout.radius <= x <= field.width - RING * layout.radius)
                        self.assertTrue(RING * layout.radius <= y <= field.height - RING * layout.radius)

    def test_grids_trees_and_rings_have_no_link_that_crosses_another(self) -> None:
        for word in ("path", "cycle", "star", "tree", "grid:4x3", "grid:8x8", "grid:10x10", "random:20:19"):
            with self.subTest(word):
                nodes, links = network(word)
                layout = lay_out(nodes, links)
                self.assertEqual(tangles(layout.points, links, layout.radius), 0)

    def test_networks_of_256_nodes_are_laid_out_in_time_and_faster_in_a_second_field(self) -> None:
        """The search for a layout is made once, and its result is used for all fields. So in a second field, two of the
        networks together take less than half of the time of the slowest one."""
        took: list[float] = []
        for word in ("random:256:300", "random:256:1000", "grid:16x16", "tree", "path", "cycle"):
            nodes, links = network(word, 256)
            start = time.process_time()
            layout = lay_out(nodes, links)
            took.append(time.process_time() - start)
            self.assertLess(took[-1], SECONDS, word)
            self.assertGreater(layout.nearest, 2 * layout.radius, word)
        start = time.process_time()
        lay_out(nodes, links, TALL)  # the network of the last word
        lay_out(*network("random:256:300"), TALL)
        self.assertLess(time.process_time() - start, max(took) / 2)


class Springs(unittest.TestCase):
    """Any other network: distances correspond to the lengths of paths."""

    def test_parts_that_no_path_joins_are_drawn_apart(self) -> None:
        """The network has two equal parts and node 9, which has no link. Without a path the distance is 3, one more
        than the longest path of a part."""
        links = [(1, 2), (2, 3), (1, 3), (3, 4), (5, 6), (6, 7), (5, 7), (7, 8)]
        nodes = list(range(1, 10))
        far = distances(nodes, links)
        # The index of a node is its number minus 1.
        self.assertEqual((far[0][3], far[0][4], far[8][0], far[8][8]), (2.0, 3.0, 3.0, 0.0))
        layout = lay_out(nodes, links)
        self.assertEqual((len(layout.points), tangles(layout.points, links, layout.radius)), (9, 0))

    def test_both_methods_unfold_a_grid_that_lacks_a_link(self) -> None:
        """In a network of at most FEW_NODES nodes, each node is pulled by all others, and in a larger one only by some
        of them, the pivots. An unfolded grid has few tangles (crossings, and nodes on links), here at most two. No two
        nodes are nearer to each other than LEAST."""
        for word in ("grid:9x8", "grid:10x9"):
            nodes, links = network(word)
            links.remove((11, 12))
            points = by_springs(tuple(nodes), tuple(links))
            self.assertEqual(len(nodes) > FEW_NODES, word == "grid:10x9")
            self.assertLess(tangles(points, links, 0.1), 3, word)
            self.assertGreaterEqual(min(math.dist(a, b) for a, b in combinations(points.values(), 2)), LEAST - 0.01)

    def test_the_distance_to_a_line_is_that_to_its_nearest_point(self) -> None:
        """The line has two ends. It may also be a single point."""
        for point, far in (((5.0, 3.0), 3.0), ((-3.0, 4.0), 5.0), ((13.0, -4.0), 5.0), ((10.0, 0.0), 0.0)):
            self.assertEqual(distance_to_line(point, (0.0, 0.0), (10.0, 0.0)), far)
        self.assertEqual(distance_to_line((3.0, 4.0), (0.0, 0.0), (0.0, 0.0)), 5.0)

    def test_tangles_counts_crossings_and_nodes_on_links_but_not_common_ends(self) -> None:
        """The radius of nodes is 1, so node 5 is on the link between 1 and 2."""
        square = {1: (0.0, 0.0), 2: (10.0, 0.0), 3: (10.0, 10.0), 4: (0.0, 10.0), 5: (5.0, 0.5)}
        for links, count in (([(1, 3), (2, 4)], 1), ([(1, 2), (3, 4)], 1), ([(1, 3), (1, 2)], 1), ([(3, 4), (2, 3)], 0)):
            self.assertEqual(tangles(square, links, 1.0), count, links)


class Labels(unittest.TestCase):
    """Names and rules overlap no disc, no link and no other label."""

    def boxes(self, view: View) -> dict[int, Box]:
        """Returns for each node the box around its label, with the name and the widest rule."""
        form, found = view.form, {}
        for node, label in view.labels.items():
            x, y = view.layout.points[node]
            width = max(form.widest_pill, text_width(label.text, form.size))
            left = {"start": 0.0, "middle": -width / 2, "end": -width}[label.anchor] + x + label.x
            # The upper and lower edges of the name and of the rule's frame, either of which may be above the other.
            lines = sorted((label.name_y - form.size, label.name_y + 0.25 * form.size, label.pill_y - 0.7 * form.pill, label.pill_y + 0.7 * form.pill))
            found[node] = Box(left, y + lines[0], left + width, y + lines[-1])
        return found

    def test_labels_in_small_networks_overlap_no_label_disc_or_link_and_are_in_the_field(self) -> None:
        words = [(word, size) for word in ("path", "cycle", "star", "tree") for size in (3, 7, 12, 15)]
        for word, size in [*words, ("grid:4x3", 12), ("grid:5x3", 15), ("grid:3x5", 15), ("grid:2x7", 14)]:
            with self.subTest(word, size=size):
                view, links = viewed(word, size)
                boxes, radius = self.boxes(view), view.layout.radius
                self.assertEqual(set(boxes), set(view.layout.points))
                for a, b in combinations(boxes.values(), 2):
                    self.assertFalse(min(a.right, b.right) > max(a.left, b.left) and min(a.bottom, b.bottom) > max(a.top, b.top))
                for box in boxes.values():
                    self.assertTrue(box.left >= 0 and box.top >= 0 and box.right <= WIDE.width and box.bottom <= WIDE.height)
                    self.assertEqual([node for node, point in view.layout.points.items() if distance(box, point) < radius], [])
                    self.assertEqual([link for link in links if box.length_inside(*(view.layout.points[node] for node in link)) > 0], [])

    def test_in_narrow_fields_the_frames_of_rules_overlap_no_other_node_and_no_other_frame(self) -> None:
        """Tries random, complete and crowded networks, on a phone and in a small drawing. There are no names there."""
        checked = 0
        for seed in range(8):
            for word in ("random:8:12", "random:12:18", "random:14:22", "random:16:24", "complete", "crowd"):
                count, links = family(word, None if ":" in word else 9, 0, random.Random(seed))
                for field in (TALL, CELL):
                    view = view_of({node: ["ana"] for node in range(1, count + 1)}, sorted(links), field)
                    radius = view.layout.radius
                    frames = {node: framed(point, (view.corners[node][0] / radius, view.corners[node][1] / radius), radius)
                              for node, point in view.layout.points.items()}
                    if radius < LEAST_FRAMED:
                        continue  # No letter is drawn.
                    checked += 1
                    with self.subTest(word, seed=seed, field=field):
                        self.assertEqual([(a, b) for a, frame in frames.items() for b, point in view.layout.points.items()
                                          if a != b and distance(frame, point) < radius], [])
                        for a, b in combinations(frames.values(), 2):
                            self.assertFalse(min(a.right, b.right) > max(a.left, b.left) and min(a.bottom, b.bottom) > max(a.top, b.top))
        self.assertGreater(checked, 80)  # Of 96 drawings, few may have discs that are too small for frames.

    def test_length_inside_returns_the_length_of_the_part_of_a_line_in_a_box_that_is_widened_by_the_gap(self) -> None:
        """GAP is 2, so this box reaches from 8 to 22."""
        box = Box(10, 10, 20, 20)
        for a, b, length in (((0, 15), (30, 15), 14), ((15, 0), (15, 9), 1), ((0, 0), (5, 30), 0), ((0, 30), (30, 0), 14 * math.sqrt(2))):
            self.assertAlmostEqual(box.length_inside(a, b), length)

    def test_long_names_are_cut_and_networks_without_room_have_no_labels(self) -> None:
        view, _ = viewed("grid:4x3", 12)
        self.assertIn("jean-baptiste-lam…", [label.text for label in viewed("cycle")[0].labels.values()])
        self.assertTrue(all(len(label.text) <= view.form.letters for label in view.labels.values()))
        for word, field in (("grid:8x8", WIDE), ("cycle", TALL)):
            nodes, links = network(word)
            self.assertEqual(view_of({node: ["ana"] for node in nodes}, links, field).labels, {})

    def test_texts_are_large_enough_for_a_laptop_and_a_phone(self) -> None:
        """A laptop with 1280 pixels shows the field for screens nearly at its full size, and a phone shows its own.
        With 12.7 units of the field, a text has the pixels that `test_shown` requires: 12 on a laptop and 11 on a
        phone."""
        for word in (*FAMILIES, "grid:8x8"):
            for field in (WIDE, TALL):
                nodes, links = network(word)
                view = view_of({node: [NAMES[node % len(NAMES)]] for node in nodes}, links, field)
                self.assertGreaterEqual(min(view.form.size, view.form.pill), 12.7)
                if view.layout.radius > 13:  # A smaller disc may have no room for an identifier of this size.
                    self.assertGreaterEqual(view.identifier_size, 12.7, word)
                self.assertGreater(view.form.widest_pill, max(text_width(view.form.word(rule), view.form.pill) for rule in RULES))


def distance(box: Box, point: tuple[float, float]) -> float:
    """Returns the distance between a point and the nearest point of a box."""
    return math.dist(point, (min(max(point[0], box.left), box.right), min(max(point[1], box.top), box.bottom)))


if __name__ == "__main__":
    unittest.main()
