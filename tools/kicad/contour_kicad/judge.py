"""What KiCad says of a board: its connectivity, its rule check, and the length of its tracks."""
import os
import re
import tempfile
from collections import Counter
from dataclasses import dataclass

from . import kicad
from .kicad import pcbnew

# Kinds of KiCad's report that say what is not connected; they are counted by connectivity instead.
UNCONNECTED = "unconnected_items"


@dataclass
class Verdict:
    """What KiCad says of one state of a board; lengths in nanometres."""
    unconnected: int
    violations: Counter
    tracks: int
    vias: int
    length: float

    def kinds(self):
        """How many violations there are of each kind."""
        kinds = Counter()
        for (kind, _), count in self.violations.items():
            kinds[kind] += count
        return kinds


def fill_zones(board):
    """Fills all zones again."""
    zones = board.Zones()
    if len(zones):
        with kicad.silence():
            pcbnew.ZONE_FILLER(board).Fill(zones)


def unconnected(board):
    """How many connections KiCad misses."""
    board.BuildConnectivity()
    connectivity = board.GetConnectivity()
    connectivity.RecalculateRatsnest()
    try:
        return connectivity.GetUnconnectedCount()
    except TypeError:
        return connectivity.GetUnconnectedCount(False)


def judge(board):
    """KiCad's verdict on the board as it stands in memory."""
    missing = unconnected(board)
    tracks = [track for track in board.GetTracks() if not isinstance(track, pcbnew.PCB_VIA)]
    return Verdict(missing, violations(board), len(tracks), len(board.GetTracks()) - len(tracks),
                   sum(track.GetLength() for track in tracks))


def violations(board):
    """KiCad's violations, each as its kind and what it is about, with how often it is told."""
    with tempfile.TemporaryDirectory(prefix="contour-kicad-") as folder:
        path = os.path.join(folder, "drc")
        with kicad.silence():
            pcbnew.WriteDRCReport(board, path, pcbnew.EDA_UNITS_MILLIMETRES, True)
        with open(path, encoding="utf-8", errors="replace") as report:
            return read_report(report)


def read_report(lines):
    """The violations of a report of KiCad."""
    found = Counter()
    kind, about = None, []
    for line in lines:
        start = re.match(r"\[(\w+)\]:", line)
        if start or line.startswith("**"):
            if kind and kind != UNCONNECTED:
                found[kind, tuple(sorted(about))] += 1
            kind, about = (start.group(1) if start else None), []
        elif kind and line.strip().startswith("@"):
            about.append(line.strip())
    if kind and kind != UNCONNECTED:
        found[kind, tuple(sorted(about))] += 1
    return found


def new_violations(before, after):
    """How many violations of each kind stand in the second verdict and not in the first."""
    kinds = Counter()
    for (kind, _), count in (after.violations - before.violations).items():
        kinds[kind] += count
    return kinds
