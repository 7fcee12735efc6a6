"""Small boards that tests make with pcbnew."""
import os
import sys
import unittest

try:
    import pcbnew
except ImportError:
    pcbnew = None

MM = 1000000
WANTING = "KiCad's Python module pcbnew is not installed (apt-get install kicad), so these tests are skipped"
if pcbnew is None:
    print(WANTING, file=sys.stderr)
PROGRAM = os.environ.get("CONTOUR", "")


def needs_kicad(case):
    """Skips a case, in one line, where pcbnew is missing."""
    return unittest.skipIf(pcbnew is None, WANTING)(case)


def needs_program(case):
    """Skips a case where no built contour is named, or built in the repository."""
    top = os.path.dirname(os.path.dirname(os.path.dirname(os.path.dirname(os.path.abspath(__file__)))))
    built = os.path.exists(os.path.join(top, "crates", "contour", "out", "contour"))
    return unittest.skipUnless(PROGRAM or built, "contour is not built, and CONTOUR names none")(case)


def empty_board(path, width=30, height=20, copper=2, outline=True):
    """A board with a rectangular outline at 100, 100 (millimetres), saved once so that it has a project."""
    board = pcbnew.NewBoard(path) if hasattr(pcbnew, "NewBoard") else pcbnew.BOARD()
    board.SetCopperLayerCount(copper)
    if outline:
        box(board, 100, 100, width, height, pcbnew.Edge_Cuts)
    return board


def box(board, x, y, width, height, layer):
    """Four lines round a box."""
    corners = [(x, y), (x + width, y), (x + width, y + height), (x, y + height)]
    for a, b in zip(corners, corners[1:] + corners[:1]):
        shape = pcbnew.PCB_SHAPE(board)
        shape.SetShape(pcbnew.SHAPE_T_SEGMENT)
        shape.SetStart(at(*a))
        shape.SetEnd(at(*b))
        shape.SetLayer(layer)
        shape.SetWidth(MM // 20)
        board.Add(shape)


def at(x, y):
    """A point in millimetres."""
    return pcbnew.wxPoint(round(x * MM), round(y * MM))


def size(x, y):
    """A size in millimetres."""
    return pcbnew.wxSize(round(x * MM), round(y * MM))


def net(board, name):
    """A net of the board, made where there is none."""
    found = board.FindNet(name)
    if found is None:
        found = pcbnew.NETINFO_ITEM(board, name)
        board.Add(found)
    return board.FindNet(name)


def pad(board, x, y, name=None, shape=0, measures=(1, 1), drill=0, degrees=0.0, smd=False):
    """A pad in a footprint of its own; its shape is KiCad's number."""
    footprint = pcbnew.FOOTPRINT(board)
    footprint.SetReference(f"X{len(board.GetFootprints()) + 1}")
    footprint.Reference().SetVisible(False)
    footprint.Value().SetVisible(False)
    item = pcbnew.PAD(footprint)
    item.SetName("1")
    item.SetShape(shape)
    item.SetSize(size(*measures))
    if smd:
        item.SetAttribute(pcbnew.PAD_ATTRIB_SMD)
        item.SetLayerSet(item.SMDMask())
    else:
        item.SetAttribute(pcbnew.PAD_ATTRIB_PTH)
        item.SetLayerSet(item.PTHMask())
        item.SetDrillSize(size(drill, drill))
    footprint.Add(item)
    board.Add(footprint)
    footprint.SetPosition(at(x, y))
    item.SetPosition(at(x, y))
    item.SetOrientation(10 * degrees)
    if name:
        item.SetNet(net(board, name))
    return item


def save(board, path):
    """Saves a board."""
    pcbnew.SaveBoard(path, board)
    return path
