"""What is asked of KiCad's module: boards read and refused, polygons of items, net classes."""
import os

from . import cover, shapes
from .errors import WrongInput

try:
    import pcbnew
except ImportError:
    pcbnew = None

# How far KiCad's polygon of a pad may lie inside the true curve.
CURVE_ERROR = 5000
FIRST_VERSION = 20210000


def open_board(path):
    """The board of a file of KiCad 6 or later; anything else is refused in one line."""
    if os.path.isdir(path):
        raise WrongInput(f"{path}: is a directory, and no board file")
    if not os.path.isfile(path):
        raise WrongInput(f"{path}: there is no such file")
    version = version_of(path)
    if version < FIRST_VERSION:
        raise WrongInput(f"{path}: is a board of KiCad 5 or older; open and save it in KiCad 6 first")
    try:
        with silence():
            board = pcbnew.LoadBoard(path)
    except Exception as error:
        raise WrongInput(f"{path}: KiCad cannot read it: {one_line(error)}") from None
    if board is None:
        raise WrongInput(f"{path}: KiCad cannot read it")
    return board


def version_of(path):
    """The number that a board file gives as its version."""
    try:
        with open(path, "rb") as file:
            head = file.read(200).decode("ascii", "replace").replace("(", " ( ").replace(")", " ) ").split()
    except OSError as error:
        raise WrongInput(f"{path}: cannot be read: {error.strerror}") from None
    if head[:4] != ["(", "kicad_pcb", "(", "version"] or len(head) < 5 or not head[4].isdigit():
        raise WrongInput(f"{path}: is no KiCad board file")
    return int(head[4])


def one_line(error):
    """The first line of what an error says."""
    return (str(error).strip().splitlines() or ["no reason given"])[0]


class silence:
    """Sends what KiCad's own code prints to nowhere, for as long as the block lasts."""

    def __enter__(self):
        self.kept = [os.dup(1), os.dup(2)]
        nowhere = os.open(os.devnull, os.O_WRONLY)
        os.dup2(nowhere, 1)
        os.dup2(nowhere, 2)
        os.close(nowhere)

    def __exit__(self, *_):
        for number, kept in zip((1, 2), self.kept):
            os.dup2(kept, number)
            os.close(kept)


def contours_of(shape):
    """The contours of one of KiCad's polygon sets, outlines and holes alike, in nanometres."""
    found = []
    for i in range(shape.OutlineCount()):
        found.append(points_of(shape.Outline(i)))
        found += [points_of(shape.Hole(i, j)) for j in range(shape.HoleCount(i))]
    return [contour for contour in found if len(contour) >= 3]


def points_of(line):
    """The points of one of KiCad's closed lines."""
    return [(line.CPoint(i).x, line.CPoint(i).y) for i in range(line.PointCount())]


def polygon_set(contours):
    """KiCad's polygon set of outlines without holes."""
    shape = pcbnew.SHAPE_POLY_SET()
    for contour in contours:
        shape.NewOutline()
        for x, y in contour:
            shape.Append(int(x), int(y))
    return shape


def degrees_of(pad):
    """The angle by which a pad is turned, in degrees."""
    return pad.GetOrientationDegrees() if hasattr(pad, "GetOrientationDegrees") else pad.GetOrientation() / 10


def copper_of_pad(pad):
    """A polygon set that holds the pad's copper."""
    position, size = pad.ShapePos(), pad.GetSize()
    middle, degrees = (position.x, position.y), degrees_of(pad)
    kind = pad.GetShape()
    if kind in (pcbnew.PAD_SHAPE_CIRCLE, pcbnew.PAD_SHAPE_OVAL):
        size = (size.x, size.x if kind == pcbnew.PAD_SHAPE_CIRCLE else size.y)
        return polygon_set([shapes.rounded_box(middle, size, min(size) / 2, degrees)])
    if kind == pcbnew.PAD_SHAPE_ROUNDRECT:
        return polygon_set([shapes.rounded_box(middle, (size.x, size.y), pad.GetRoundRectCornerRadius(), degrees)])
    found = simplified(pcbnew.SHAPE_POLY_SET(pad.GetEffectivePolygon()))
    if kind in (pcbnew.PAD_SHAPE_RECT, pcbnew.PAD_SHAPE_TRAPEZOID) or cover.is_upright(contours_of(found)):
        return found
    return grown(found, CURVE_ERROR)


def copper_of_track(track):
    """A polygon set that holds the copper of a track, an arc or a via."""
    start, end, width = track.GetStart(), track.GetEnd(), track.GetWidth()
    if isinstance(track, pcbnew.PCB_VIA):
        return polygon_set([shapes.rounded([(start.x, start.y)], width / 2)])
    if isinstance(track, pcbnew.PCB_ARC):
        center = track.GetCenter()
        angle = track.GetAngle()
        degrees = angle.AsDegrees() if hasattr(angle, "AsDegrees") else angle / 10
        points = shapes.arc_points((center.x, center.y), (start.x, start.y), degrees)
        return line_set(points, width + 2 * shapes.ARC_ERROR)
    return polygon_set([shapes.line((start.x, start.y), (end.x, end.y), width)])


def line_set(points, width):
    """A polygon set that holds a broken line with round ends."""
    return simplified(polygon_set([shapes.line(a, b, width) for a, b in zip(points, points[1:])]))


def copper_of_drawing(item):
    """A polygon set that holds a text or a graphic; of a text it is the box round it."""
    if not isinstance(item, (pcbnew.PCB_SHAPE, pcbnew.FP_SHAPE)):
        box = item.GetBoundingBox()
        x, y, right, top = box.GetX(), box.GetY(), box.GetRight(), box.GetBottom()
        return polygon_set([[(x, y), (right, y), (right, top), (x, top)]])
    width = item.GetWidth()
    points, closed = points_of_drawing(item)
    found = line_set(points, width + 2 * shapes.ARC_ERROR)
    if closed and (item.IsFilled() or width == 0):
        found.BooleanAdd(polygon_set([points]), pcbnew.SHAPE_POLY_SET.PM_STRICTLY_SIMPLE)
    return found


def points_of_drawing(item):
    """The points of a graphic's line, and whether they close round an area."""
    kind = item.GetShape()
    start, end = item.GetStart(), item.GetEnd()
    if kind == pcbnew.SHAPE_T_CIRCLE:
        center = item.GetCenter()
        return shapes.arc_points((center.x, center.y), (end.x, end.y), 360), True
    if kind == pcbnew.SHAPE_T_ARC:
        center = item.GetCenter()
        angle = item.GetArcAngle()
        degrees = angle.AsDegrees() if hasattr(angle, "AsDegrees") else angle / 10
        return shapes.arc_points((center.x, center.y), (start.x, start.y), degrees), False
    if kind == pcbnew.SHAPE_T_RECT:
        corners = [(start.x, start.y), (end.x, start.y), (end.x, end.y), (start.x, end.y)]
        return corners + corners[:1], True
    if kind == pcbnew.SHAPE_T_POLY:
        corners = contours_of(item.GetPolyShape())[0]
        return corners + corners[:1], True
    if kind == pcbnew.SHAPE_T_BEZIER:
        return [(point.x, point.y) for point in item.GetBezierPoints()], False
    return [(start.x, start.y), (end.x, end.y)], False


def simplified(shape):
    """The polygon set without overlaps."""
    shape.Simplify(pcbnew.SHAPE_POLY_SET.PM_STRICTLY_SIMPLE)
    return shape


def hole_of(pad):
    """A polygon set that holds the pad's hole; None where it has none."""
    size, position = pad.GetDrillSize(), pad.GetPosition()
    if size.x == 0 or size.y == 0:
        return None
    box = shapes.rounded_box((position.x, position.y), (size.x, size.y), min(size.x, size.y) / 2, degrees_of(pad))
    return polygon_set([box])


def grown(shape, amount, mitred=False):
    """A copy of the polygon set, grown by so many nanometres, or shrunk by a negative number."""
    copy = pcbnew.SHAPE_POLY_SET(shape)
    if amount:
        corners = (pcbnew.SHAPE_POLY_SET.ALLOW_ACUTE_CORNERS if mitred
                   else pcbnew.SHAPE_POLY_SET.ROUND_ALL_CORNERS)
        copy.Inflate(int(amount), 32, corners)
    return copy


def outline_of(board):
    """The board's outline with its cut-outs as one polygon set."""
    shape = pcbnew.SHAPE_POLY_SET()
    with silence():
        found = board.GetBoardPolygonOutlines(shape)
    if not found or shape.OutlineCount() == 0 or shape.Area() == 0:
        raise WrongInput(f"{os.path.basename(board.GetFileName())}: has no closed outline on Edge.Cuts")
    return shape


def copper_layers(board):
    """The numbers of the copper layers, from the front to the back."""
    return [layer for layer in board.GetEnabledLayers().CuStack()]


def box_of(shape):
    """The least rectangle round a polygon set, as (x0, y0, x1, y1) in nanometres."""
    points = [point for contour in contours_of(shape) for point in contour]
    xs, ys = [x for x, _ in points], [y for _, y in points]
    return (min(xs), min(ys), max(xs), max(ys))


def position(x, y):
    """A place in nanometres, in the type that KiCad's calls take."""
    if hasattr(pcbnew, "wxPoint") and pcbnew.Version().startswith("6"):
        return pcbnew.wxPoint(int(x), int(y))
    return pcbnew.VECTOR2I(int(x), int(y))
