"""Covers of pads: each shape at 15 angles against KiCad's own polygon."""
import math
import tempfile
import unittest

from . import boards
from .boards import needs_kicad, pcbnew

ANGLES = [0, 7, 15, 30, 37.5, 45, 60, 83, 90, 101, 135, 180, 215, 270, 333]
TOLERANCE = 20
# KiCad's own polygon may lie this far (nanometres) inside the true copper.
CURVE_ERROR = 5000


def shapes():
    """For each name a function that gives a pad its shape."""
    def chamfered(pad):
        pad.SetShape(pcbnew.PAD_SHAPE_CHAMFERED_RECT)
        pad.SetChamferRectRatio(0.25)
        pad.SetChamferPositions(9)  # the top left and the bottom right corner

    def trapezoid(pad):
        pad.SetShape(pcbnew.PAD_SHAPE_TRAPEZOID)
        pad.SetDelta(boards.size(0, 0.3))

    def rounded(pad):
        pad.SetShape(pcbnew.PAD_SHAPE_ROUNDRECT)
        pad.SetRoundRectRadiusRatio(0.25)

    def custom(pad):
        pad.SetShape(pcbnew.PAD_SHAPE_CUSTOM)
        pad.SetAnchorPadShape(pcbnew.PAD_SHAPE_CIRCLE)
        pad.SetSize(boards.size(0.6, 0.6))
        points = pcbnew.wxPoint_Vector()
        for x, y in ((0, -0.2), (1.5, -0.2), (1.5, 0.9), (1.1, 0.9), (1.1, 0.2), (0, 0.2)):
            points.append(boards.at(x, y))
        pad.AddPrimitivePoly(points, 0, True)

    def plain(kind):
        return lambda pad: pad.SetShape(kind)

    return {"circle": plain(pcbnew.PAD_SHAPE_CIRCLE), "rectangle": plain(pcbnew.PAD_SHAPE_RECT),
            "oval": plain(pcbnew.PAD_SHAPE_OVAL), "rounded": rounded, "chamfered": chamfered,
            "trapezoid": trapezoid, "custom": custom}


def area_outside(inner, outer):
    """How much of the first polygon set, in square micrometres, lies outside the second."""
    rest = pcbnew.SHAPE_POLY_SET(inner)
    rest.BooleanSubtract(outer, pcbnew.SHAPE_POLY_SET.PM_STRICTLY_SIMPLE)
    return rest.Area() / 1e6


@needs_kicad
class PadCovers(unittest.TestCase):
    """What a cover of a pad must be."""

    def setUp(self):
        from contour_kicad import export, kicad
        self.export, self.kicad = export, kicad
        self.folder = tempfile.TemporaryDirectory()
        self.addCleanup(self.folder.cleanup)

    def covered(self, give_shape, degrees, measures=(1.0, 0.6), middle=(110.0, 110.0)):
        """A pad, and its cover as KiCad's polygon set and as the group of the model."""
        board = boards.empty_board(f"{self.folder.name}/a.kicad_pcb")
        pad = boards.pad(board, *middle, "A", measures=measures, smd=True)
        give_shape(pad)
        pad.SetOrientation(10 * degrees)
        model = self.export.Exporter(board, self.export.Options(tolerance=TOLERANCE)).model()
        group = model.nets[0].groups[0]
        ox, oy = model.origin
        union = pcbnew.SHAPE_POLY_SET()
        for x0, y0, x1, y1 in group.rects:
            corners = [(x0, y0), (x1, y0), (x1, y1), (x0, y1)]
            one = self.kicad.polygon_set([[(1000 * x + ox, 1000 * y + oy) for x, y in corners]])
            union.BooleanAdd(one, pcbnew.SHAPE_POLY_SET.PM_STRICTLY_SIMPLE)
        return pad, union, group

    def test_no_copper_is_uncovered_and_the_excess_is_bounded(self):
        for name, give_shape in shapes().items():
            for degrees in ANGLES:
                with self.subTest(shape=name, degrees=degrees):
                    pad, union, _ = self.covered(give_shape, degrees)
                    copper = self.kicad.simplified(pcbnew.SHAPE_POLY_SET(pad.GetEffectivePolygon()))
                    self.assertLess(area_outside(copper, union), 1, "copper is uncovered")
                    upright = degrees % 90 == 0 and name == "rectangle"
                    reach = 1000 if upright else 1000 * TOLERANCE + self.kicad.CURVE_ERROR
                    room = self.kicad.grown(copper, reach + 50, mitred=upright)
                    self.assertLess(area_outside(union, room), 1, "the cover reaches too far")

    def test_a_rectangle_at_right_angles_is_exact(self):
        for degrees in (0, 90, 180, 270):
            _, _, group = self.covered(shapes()["rectangle"], degrees)
            self.assertEqual(len(group.rects), 1)
            x0, y0, x1, y1 = group.rects[0]
            self.assertEqual({x1 - x0, y1 - y0}, {1000, 600})

    def test_a_place_between_micrometres_is_rounded_outwards(self):
        board = boards.empty_board(f"{self.folder.name}/b.kicad_pcb")
        for i in range(3):
            boards.pad(board, 105 + i, 105, "A", measures=(1, 0.6), smd=True)
        odd = boards.pad(board, 110.0003, 110.0007, "B", shape=1, measures=(1, 0.6), smd=True)
        model = self.export.Exporter(board, self.export.Options()).model()
        rect = next(net for net in model.nets if net.title == "B").groups[0].rects[0]
        left = odd.GetPosition().x - 500000 - model.origin[0]
        self.assertLessEqual(1000 * rect[0], left)
        self.assertGreaterEqual(1000 * rect[2], left + 1000000)
        self.assertEqual(rect[2] - rect[0], 1001)

    def test_upright_and_round_pads_hold_their_anchor_in_each_rectangle(self):
        for name in ("circle", "rectangle", "oval", "rounded", "chamfered"):
            for degrees in (0, 90, 180, 270):
                _, _, group = self.covered(shapes()[name], degrees)
                x, y = group.anchor
                for x0, y0, x1, y1 in group.rects:
                    self.assertTrue(x0 <= x <= x1 and y0 <= y <= y1, (name, degrees))

    def test_rectangles_of_a_slanted_pad_hang_together(self):
        for degrees in ANGLES:
            _, _, group = self.covered(shapes()["rectangle"], degrees, measures=(2.0, 0.4))
            for i, rect in enumerate(group.rects[1:], 1):
                self.assertTrue(any(rect[0] <= o[2] and o[0] <= rect[2] and rect[1] <= o[3] and o[1] <= rect[3]
                                    for o in group.rects[:i]), degrees)

    def test_corners_of_a_circle_stay_within_the_tolerance(self):
        pad, _, group = self.covered(shapes()["circle"], 0, measures=(1.0, 1.0))
        x, y = group.anchor
        for x0, y0, x1, y1 in group.rects:
            far = max(math.hypot(cx - x, cy - y) for cx in (x0, x1) for cy in (y0, y1))
            self.assertLessEqual(far, 500 + TOLERANCE)
        self.assertEqual(pad.GetSize().x, 1000000)


if __name__ == "__main__":
    unittest.main()
