"""Small boards through the whole way, one demonstration board, and input that is refused."""
import json
import os
import re
import shutil
import signal
import subprocess
import sys
import tempfile
import time
import unittest

from . import boards
from .boards import needs_kicad, needs_program, pcbnew

HERE = os.path.dirname(os.path.abspath(__file__))
COMMAND = os.path.join(os.path.dirname(HERE), "contour-kicad")
ECC83 = "/usr/share/kicad/demos/ecc83/ecc83-pp.kicad_pcb"


def call(*words, **changes):
    """Runs the command; gives its status, standard output and standard error."""
    done = subprocess.run([sys.executable, COMMAND, *words], capture_output=True, text=True, timeout=120,
                          env={**os.environ, **changes}, check=False)
    said = "\n".join(line for line in done.stderr.splitlines() if "swig/python" not in line)
    return done.returncode, done.stdout, said


class Folder(unittest.TestCase):
    """A test with a folder of its own."""

    def setUp(self):
        folder = tempfile.TemporaryDirectory()
        self.addCleanup(folder.cleanup)
        self.folder = folder.name

    def path(self, name):
        """The path of a file in the folder."""
        return os.path.join(self.folder, name)

    def board(self, name="in.kicad_pcb", **measures):
        """An empty board of a file of this name."""
        return boards.empty_board(self.path(name), **measures)


def two_pads(board, smd=False):
    """A net A of two pads 20 mm apart."""
    boards.pad(board, 105, 110, "A", measures=(1.6, 1.6), drill=0 if smd else 0.8, smd=smd)
    boards.pad(board, 125, 110, "A", measures=(1.6, 1.6), drill=0 if smd else 0.8, smd=smd)


@needs_kicad
class Export(Folder):
    """What the board text says."""

    def exported(self, board, *words):
        """The lines of the exported text."""
        status, out, said = call("export", boards.save(board, self.path("in.kicad_pcb")), *words)
        self.assertEqual((status, said), (0, ""))
        return out.splitlines()

    def test_a_board_of_two_pads(self):
        board = self.board()
        two_pads(board)
        lines = self.exported(board)
        self.assertRegex(lines[0], r"^board 2 in\.kicad_pcb 29\d\d\d 19\d\d\d$")
        self.assertEqual([line for line in lines if line.startswith("layer ")], ["layer L1", "layer L2"])
        self.assertEqual(sum(line.startswith("net A ") for line in lines), 1)
        self.assertEqual(lines[lines.index("end") + 1:], ["route A"])
        pins = {tuple(line.split()[6:]) for line in lines if line.startswith("pin A ")}
        self.assertEqual(pins, {("L1", "L2")})

    def test_surface_pads_stand_on_their_layer(self):
        board = self.board()
        two_pads(board, smd=True)
        pins = [line for line in self.exported(board) if line.startswith("pin A ")]
        self.assertTrue(pins and all(line.endswith(" L1 L1") for line in pins))

    def test_drilled_holes_keep_vias_away(self):
        board = self.board()
        two_pads(board)
        self.assertEqual(sum(line.startswith("keepout vias ") for line in self.exported(board)), 4)

    def test_a_rule_area_is_a_keep_out(self):
        board = self.board()
        two_pads(board)
        zone = pcbnew.ZONE(board)
        zone.SetIsRuleArea(True)
        zone.SetDoNotAllowTracks(True)
        zone.SetDoNotAllowVias(False)
        zone.SetLayerSet(pcbnew.LSET(pcbnew.F_Cu))
        outline = zone.Outline()
        outline.NewOutline()
        for x, y in ((110, 105), (115, 105), (115, 115), (110, 115)):
            outline.Append(x * boards.MM, y * boards.MM)
        board.Add(zone)
        areas = [line for line in self.exported(board) if line.startswith("keepout wires L1 ")]
        self.assertEqual(len(areas), 1)
        x0, y0, x1, y1 = (int(word) for word in areas[0].split()[3:])
        self.assertTrue(5000 <= x1 - x0 <= 5002 and 10000 <= y1 - y0 <= 10002)

    def test_text_on_copper_is_a_blockage(self):
        board = self.board()
        two_pads(board)
        text = pcbnew.PCB_TEXT(board)
        text.SetText("HELLO")
        text.SetPosition(boards.at(115, 115))
        text.SetLayer(pcbnew.F_Cu)
        board.Add(text)
        self.assertEqual(sum(line.startswith("block L1 ") for line in self.exported(board)), 1)

    def test_tracks_stay_or_go(self):
        board = self.board()
        two_pads(board)
        track = pcbnew.PCB_TRACK(board)
        track.SetStart(boards.at(105, 110))
        track.SetEnd(boards.at(115, 110))
        track.SetWidth(250000)
        track.SetNet(board.FindNet("A"))
        board.Add(track)
        kept = [line for line in self.exported(board) if line.startswith("pin A ")]
        gone = [line for line in self.exported(board, "--rip-up") if line.startswith("pin A ")]
        self.assertEqual(len(kept), len(gone) + 1)

    def test_a_cut_out_and_a_corner_are_kept_free(self):
        board = self.board()
        boards.box(board, 112, 108, 6, 4, pcbnew.Edge_Cuts)
        two_pads(board)
        wires = [line for line in self.exported(board) if line.startswith("keepout wires ")]
        self.assertTrue(wires)

    def test_names_are_printable(self):
        board = self.board()
        boards.pad(board, 105, 110, "größe 1", measures=(1, 1), smd=True)
        boards.pad(board, 115, 110, "größe 2", measures=(1, 1), smd=True)
        lines = self.exported(board)
        names = [line.split()[1] for line in lines if line.startswith("net ")]
        self.assertEqual(len(names), len(set(names)))
        self.assertTrue(all(re.fullmatch(r"[!-~]{1,64}", name) for name in names))


@needs_kicad
@needs_program
class Route(Folder):
    """Boards that are routed, and judged by KiCad."""

    def routed(self, board, *words):
        """The status and the board that routing writes, and the table."""
        source, target = boards.save(board, self.path("in.kicad_pcb")), self.path("out.kicad_pcb")
        status, out, said = call("route", source, "-o", target, "--quiet", *words)
        self.assertEqual(said, "")
        return status, pcbnew.LoadBoard(target), out

    def test_two_pads_are_joined_by_one_track(self):
        board = self.board()
        two_pads(board)
        status, result, out = self.routed(board)
        self.assertEqual(status, 0)
        self.assertRegex(out, r"unconnected +1 +0\n")
        tracks = list(result.GetTracks())
        self.assertEqual(len(tracks), 1)
        self.assertEqual(tracks[0].GetStart().y, tracks[0].GetEnd().y)
        self.assertEqual(tracks[0].GetNetname(), "A")

    def test_slanted_pads_are_joined(self):
        for degrees in (15, 45, 60):
            board = self.board()
            boards.pad(board, 105, 110, "A", shape=1, measures=(2.0, 0.6), degrees=degrees, smd=True)
            boards.pad(board, 125, 112, "A", shape=2, measures=(2.0, 0.6), degrees=degrees, smd=True)
            status, _, out = self.routed(board)
            self.assertEqual(status, 0, degrees)
            self.assertRegex(out, r"unconnected +1 +0\n", degrees)

    def test_two_nets_cross_by_vias(self):
        board = self.board()
        for x, y, name in ((105, 110, "A"), (125, 110, "A"), (115, 104, "B"), (115, 116, "B")):
            boards.pad(board, x, y, name, shape=1, measures=(1, 1), smd=True)
        boards.box(board, 103, 102, 24, 16, pcbnew.Dwgs_User)
        status, result, out = self.routed(board, "--via-charge", "100")
        self.assertEqual(status, 0)
        self.assertRegex(out, r"unconnected +2 +0\n")
        self.assertTrue(any(isinstance(track, pcbnew.PCB_VIA) for track in result.GetTracks()))

    def test_a_net_is_chosen_by_name(self):
        board = self.board()
        two_pads(board)
        for x in (105, 125):
            boards.pad(board, x, 115, "B", shape=1, measures=(1, 1), smd=True)
        _, result, out = self.routed(board, "--nets", "B*")
        self.assertEqual({track.GetNetname() for track in result.GetTracks()}, {"B"})
        self.assertRegex(out, r"unconnected +2 +1\n")

    def test_a_pad_without_a_way_is_told(self):
        board = self.board()
        two_pads(board, smd=True)
        boards.box(board, 103, 108, 4, 4, pcbnew.F_Cu)
        boards.box(board, 103, 108, 4, 4, pcbnew.B_Cu)
        _, _, out = self.routed(board)
        self.assertRegex(out, r"unconnected +1 +1\n")
        self.assertRegex(out, r"not connected: X\d\.1 of A: there is no way")

    def test_rounds_keep_what_a_plain_run_makes(self):
        board = self.board()
        two_pads(board, smd=True)
        boards.box(board, 103, 108, 4, 4, pcbnew.F_Cu)
        boards.box(board, 103, 108, 4, 4, pcbnew.B_Cu)
        for x in (105, 125):
            boards.pad(board, x, 115, "B", shape=1, measures=(1, 1), smd=True)
        _, _, out = self.routed(board, "--rounds", "2")
        self.assertRegex(out, r"unconnected +2 +1\n")

    def test_a_search_names_only_nets_of_the_board(self):
        from contour_kicad import export, program, route
        board = self.board()
        for name, y in (("A", 105), ("B", 110), ("C", 115)):
            for x in (105, 125):
                boards.pad(board, x, y, name, shape=1, measures=(1, 1), smd=True)
        model = export.Exporter(board, export.Options()).model()
        nets = [net for net in model.nets if net.title in ("A", "B")]
        with program.Program(program.find_program()) as running:
            plan = route.search_orders(running, model, nets, 2, True)
        self.assertEqual({command.split()[1] for command in plan.commands}, {"A", "B"})
        self.assertEqual(route.shortfall(plan.state, nets), 0)

    def test_a_zone_joins_what_it_can_and_tracks_the_rest(self):
        board = self.board()
        for x in (104, 108, 122, 126):
            boards.pad(board, x, 110, "GND", measures=(1.2, 1.2), drill=0.6)
        zone = pcbnew.ZONE(board)
        zone.SetLayerSet(pcbnew.LSET(pcbnew.F_Cu))
        zone.SetNetCode(board.FindNet("GND").GetNetCode())
        outline = zone.Outline()
        outline.NewOutline()
        for x, y in ((101, 105), (116, 105), (116, 115), (101, 115)):
            outline.Append(x * boards.MM, y * boards.MM)
        board.Add(zone)
        status, result, out = self.routed(board)
        self.assertEqual(status, 0)
        self.assertRegex(out, r"unconnected +2 +0\n")
        self.assertTrue(all(track.GetEnd().x >= 107 * boards.MM for track in result.GetTracks()))

    def test_tracks_that_stand_are_kept_and_only_the_rest_is_routed(self):
        board = self.board()
        two_pads(board)
        boards.pad(board, 115, 105, "A", measures=(1.6, 1.6), drill=0.8)
        track = pcbnew.PCB_TRACK(board)
        track.SetStart(boards.at(105, 110))
        track.SetEnd(boards.at(115, 105))
        track.SetWidth(250000)
        track.SetNet(board.FindNet("A"))
        board.Add(track)
        old = ends(board)
        status, result, out = self.routed(board)
        self.assertEqual(status, 0)
        self.assertRegex(out, r"unconnected +1 +0\n")
        self.assertLess(old, ends(result))

    @unittest.skipUnless(os.path.exists(ECC83), "the package kicad-demos is not installed")
    def test_a_board_that_is_complete_stays_as_it_is(self):
        status, _, said = call("route", ECC83, "-o", self.path("out.kicad_pcb"), "--quiet")
        self.assertEqual((status, said), (0, ""))
        self.assertEqual(ends(pcbnew.LoadBoard(ECC83)), ends(pcbnew.LoadBoard(self.path("out.kicad_pcb"))))

    def test_a_pad_that_no_wire_can_leave_is_named(self):
        board = self.board()
        two_pads(board, smd=True)
        for y in (108.95, 111.05):
            boards.pad(board, 105, y, "B", shape=1, measures=(3, 0.3), smd=True)
        for x in (103.95, 106.05):
            boards.pad(board, x, 110, "B", shape=1, measures=(0.3, 1.6), smd=True)
        for item in board.GetPads():
            if item.GetNetname() == "A" and item.GetPosition().x == 105 * boards.MM:
                item.SetShape(1)
                item.SetSize(boards.size(0.2, 0.2))
        for pads in ((104.7, 110), (105.3, 110), (105, 109.7), (105, 110.3)):
            boards.pad(board, *pads, "B", shape=1, measures=(0.1, 0.1), smd=True)
        _, _, out = self.routed(board, "--nets", "A")
        self.assertRegex(out, r"not connected: X\d+\.1 of A: no wire of its class can leave it")

    def test_an_interrupt_leaves_no_file(self):
        board = self.board()
        for i in range(40):
            boards.pad(board, 102 + i % 10 * 2.5, 103 + i // 10 * 4, f"N{i % 13}", measures=(1, 1), drill=0.5)
        source = boards.save(board, self.path("in.kicad_pcb"))
        before = sorted(os.listdir(self.folder))
        child = subprocess.Popen([sys.executable, COMMAND, "route", source, "-o", self.path("out.kicad_pcb")],
                                 stdout=subprocess.DEVNULL, stderr=subprocess.PIPE, text=True)
        time.sleep(0.7)
        child.send_signal(signal.SIGINT)
        _, said = child.communicate(timeout=60)
        self.assertNotIn("Traceback", said)
        self.assertEqual(child.returncode, 130)
        self.assertEqual(sorted(os.listdir(self.folder)), before)

    def test_import_of_replies_gives_the_tracks_of_route(self):
        board = self.board()
        two_pads(board)
        _, result, _ = self.routed(board)
        source = self.path("in.kicad_pcb")
        _, text, _ = call("export", source)
        program = os.environ.get("CONTOUR") or os.path.join(HERE, "..", "..", "..", "contour")
        with open(self.path("replies"), "wb") as out:
            subprocess.run([program, "run"], input=text.encode("ascii"), stdout=out, check=True, timeout=60)
        status, _, said = call("import", source, self.path("replies"), "-o", self.path("again.kicad_pcb"))
        self.assertEqual((status, said), (0, ""))
        again = pcbnew.LoadBoard(self.path("again.kicad_pcb"))
        self.assertEqual(ends(result), ends(again))

    @unittest.skipUnless(os.path.exists(ECC83), "the package kicad-demos is not installed")
    def test_a_demonstration_board_is_complete_and_else_untouched(self):
        status, out, said = call("route", ECC83, "-o", self.path("out.kicad_pcb"), "--rip-up", "--quiet")
        self.assertEqual((status, said), (0, ""))
        self.assertRegex(out, r"unconnected +14 +0\n")
        self.assertEqual(bare(ECC83, self.path("a.kicad_pcb")), bare(self.path("out.kicad_pcb"),
                                                                      self.path("b.kicad_pcb")))


def ends(board):
    """The tracks of a board as sets of numbers."""
    return {(track.GetStart().x, track.GetStart().y, track.GetEnd().x, track.GetEnd().y, track.GetWidth(),
             track.GetLayer(), track.GetNetname()) for track in board.GetTracks()}


def bare(source, target):
    """The text of a board without tracks and with its zones not filled."""
    board = pcbnew.LoadBoard(source)
    for track in list(board.GetTracks()):
        board.Delete(track)
    for zone in board.Zones():
        zone.UnFill()
    pcbnew.SaveBoard(target, board)
    with open(target, encoding="utf-8") as text:
        return text.read()


@needs_kicad
class Refused(Folder):
    """Wrong input: one line, status 2, and nothing written."""

    def refused(self, *words, what, **changes):
        """Calls route and looks at the refusal."""
        before = sorted(os.listdir(self.folder))
        status, out, said = call("route", *words, "-o", self.path("out.kicad_pcb"), **changes)
        self.assertEqual((status, out), (2, ""), said)
        self.assertEqual(len(said.splitlines()), 1, said)
        self.assertIn(what, said)
        self.assertEqual(sorted(os.listdir(self.folder)), before)

    def saved(self, board):
        """The path of a saved board."""
        return boards.save(board, self.path("in.kicad_pcb"))

    def test_no_file(self):
        self.refused(self.path("none.kicad_pcb"), what="there is no such file", CONTOUR=self.fake())

    def test_a_directory(self):
        self.refused(self.folder, what="is a directory", CONTOUR=self.fake())

    def test_another_file(self):
        with open(self.path("in.kicad_pcb"), "w", encoding="ascii") as out:
            out.write("hello\n")
        self.refused(self.path("in.kicad_pcb"), what="is no KiCad board file", CONTOUR=self.fake())

    def test_a_board_that_is_cut_off(self):
        board = self.board()
        two_pads(board)
        path = self.saved(board)
        with open(path, encoding="utf-8") as text:
            whole = text.read()
        with open(path, "w", encoding="utf-8") as out:
            out.write(whole[:len(whole) // 2])
        self.refused(path, what="KiCad cannot read it", CONTOUR=self.fake())

    def test_a_board_of_kicad_5(self):
        with open(self.path("in.kicad_pcb"), "w", encoding="ascii") as out:
            out.write("(kicad_pcb (version 20171130) (host pcbnew 5.1.9)\n)\n")
        self.refused(self.path("in.kicad_pcb"), what="KiCad 5", CONTOUR=self.fake())

    def test_no_outline(self):
        board = self.board(outline=False)
        two_pads(board)
        self.refused(self.saved(board), what="no closed outline", CONTOUR=self.fake())

    def test_nine_copper_layers(self):
        board = self.board(copper=10)
        two_pads(board)
        self.refused(self.saved(board), what="copper layers", CONTOUR=self.fake())

    def test_five_classes_that_differ(self):
        board = self.board()
        for i in range(5):
            boards.pad(board, 104 + 4 * i, 110, f"N{i}", measures=(1, 1), smd=True)
        path = self.saved(board)
        project = self.path("in.kicad_pro")
        with open(project, encoding="utf-8") as text:
            content = json.load(text)
        classes = content["net_settings"]["classes"]
        for i in range(5):
            classes.append({**classes[0], "name": f"K{i}", "track_width": 0.3 + 0.05 * i, "nets": [f"N{i}"]})
        with open(project, "w", encoding="utf-8") as out:
            json.dump(content, out)
        self.refused(path, what="K0, K1, K2, K3, K4", CONTOUR=self.fake())

    def test_no_net_of_the_name(self):
        board = self.board()
        two_pads(board)
        self.refused(self.saved(board), "--nets", "Z*", what="no net of the board", CONTOUR=self.fake())

    def test_no_program(self):
        board = self.board()
        two_pads(board)
        self.refused(self.saved(board), "--contour", self.path("none"), what="there is no program")

    def test_another_program(self):
        board = self.board()
        two_pads(board)
        self.refused(self.saved(board), "--contour", "/bin/true", what="is no program contour")

    def test_a_reply_text_that_is_none(self):
        board = self.board()
        two_pads(board)
        path = self.saved(board)
        with open(self.path("replies"), "w", encoding="ascii") as out:
            out.write("hello\n")
        status, _, said = call("import", path, self.path("replies"), "-o", self.path("out.kicad_pcb"))
        self.assertEqual(status, 2)
        self.assertIn("no replies", said)
        self.assertFalse(os.path.exists(self.path("out.kicad_pcb")))

    def fake(self):
        """A program that upgrades the one text by which a program is known, and cannot do more."""
        if not hasattr(self, "faked"):
            folder = tempfile.mkdtemp()
            self.addCleanup(shutil.rmtree, folder)
            self.faked = os.path.join(folder, "contour")
            with open(self.faked, "w", encoding="ascii") as out:
                out.write("#!/bin/sh\necho 'board 2 t 9 9'\n")
            os.chmod(self.faked, 0o755)
        return self.faked


if __name__ == "__main__":
    unittest.main()
