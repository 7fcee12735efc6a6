"""KiCad's toolbar button "Route with Contour": routes the chosen nets, or all, in the open board.

Copy or link this file into KiCad's folder of action plugins. It calls the functions of the command
`contour-kicad`; where that is found is set by the environment's CONTOUR_KICAD (the folder tools/kicad of the
repository), else it is the folder above the one that this file, or what it links to, stands in.
"""
import os
import sys

import pcbnew
import wx


class RouteWithContour(pcbnew.ActionPlugin):
    """The button. What it adds is one step of KiCad's undo."""

    def defaults(self):
        """What the menu and the toolbar show."""
        self.name = "Route with Contour"
        self.category = "Routing"
        self.description = "Routes the nets of the selected pads and tracks, or all nets, on least paths"
        self.show_toolbar_button = True

    def Run(self):
        """Routes, tells the table, and leaves the board as it was where anything is wrong."""
        try:
            package = tool()
            message = route_open_board(package)
        except Exception as error:
            message = str(error).strip().splitlines()[0] if str(error).strip() else type(error).__name__
        if not os.environ.get("CONTOUR_PLUGIN_SILENT"):
            wx.MessageBox(message, "Contour")
        else:
            print(message, file=sys.stderr)


def tool():
    """The package of the command."""
    here = os.path.dirname(os.path.dirname(os.path.realpath(__file__)))
    folder = os.environ.get("CONTOUR_KICAD", here)
    if not os.path.isdir(os.path.join(folder, "contour_kicad")):
        raise RuntimeError(f"{folder} has no contour_kicad: set CONTOUR_KICAD to the folder tools/kicad")
    if folder not in sys.path:
        sys.path.insert(0, folder)
    from contour_kicad import export, judge, program, report, route
    return {"export": export, "judge": judge, "program": program, "report": report, "route": route}


def selected_codes(board):
    """The numbers of the nets of which something is selected."""
    items = list(board.GetPads()) + list(board.GetTracks())
    return {item.GetNetCode() for item in items if item.IsSelected() and item.GetNetCode() > 0}


def route_open_board(package):
    """Routes in the board that is open and gives the table."""
    board = pcbnew.GetBoard()
    codes = selected_codes(board) or package["route"].chosen_codes(board, None)
    path = package["program"].find_program()
    with package["program"].Program(path) as running:
        outcome = package["route"].route_board(board, running, package["export"].Options(), codes, quiet=True)
    return "\n".join(package["report"].table(outcome))


RouteWithContour().register()
