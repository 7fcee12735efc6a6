"""The command `contour-kicad`: route, export, import."""
import argparse
import os
import signal
import sys

from . import judge, kicad, replies, report, route, writing
from .errors import NotRight, WrongInput
from .export import Exporter, Options
from .program import find_program

DONE, VIOLATION, WRONG, INTERRUPTED = 0, 1, 2, 130


def parser():
    """The words of the command."""
    top = argparse.ArgumentParser(prog="contour-kicad", description="KiCad boards routed by Contour.")
    words = top.add_subparsers(dest="word", required=True, metavar="route|export|import")
    one = words.add_parser("route", help="route a board into a new board file")
    two = words.add_parser("export", help="write the board text to standard output")
    three = words.add_parser("import", help="write a reply text's tracks into a new board file")
    for each in (one, two, three):
        each.add_argument("board", metavar="IN.kicad_pcb")
        kept = each.add_mutually_exclusive_group()
        kept.add_argument("--keep-tracks", action="store_true", help="tracks of the board stay (the default)")
        kept.add_argument("--rip-up", action="store_true", help="take the tracks of the chosen nets away first")
        each.add_argument("--nets", metavar="PATTERN", help="nets by name, as 'GND,/D*'; all without it")
        each.add_argument("--tolerance", type=whole(1, 1000), default=20, metavar="UM",
                          help="how far slanted and round pads may be covered too widely (20 micrometres)")
        each.add_argument("--via-charge", type=whole(0, 65535), default=2000, metavar="UM",
                          help="how much wire a via is worth (2000 micrometres)")
        each.add_argument("--zones", choices=("flow", "block"), default="flow",
                          help="zones flow round wires (the default), or keep them out")
    for each in (one, three):
        each.add_argument("-o", "--output", required=True, metavar="OUT.kicad_pcb")
    three.add_argument("replies", metavar="REPLIES")
    one.add_argument("--rounds", type=whole(1, 10000), metavar="N",
                     help="search a better order of the nets: steps of `finish`, or rounds of `auto`")
    one.add_argument("--report", metavar="FILE", help="write the table there, and not to standard output")
    one.add_argument("--contour", metavar="PATH", help="the built program (else $CONTOUR, else the repository's)")
    one.add_argument("--quiet", action="store_true", help="no progress on standard error")
    return top


def whole(least, most):
    """A reader of whole numbers in a range."""
    def read(word):
        if not word.isdigit() or not least <= int(word) <= most:
            raise argparse.ArgumentTypeError(f"{word} is no whole number from {least} to {most}")
        return int(word)
    return read


def options_of(words):
    """What the words say of the export."""
    return Options(words.tolerance, words.via_charge, words.rip_up, words.zones == "block", words.nets)


def target_of(words):
    """The output's path, refused where no file can stand there."""
    path = words.output
    folder = os.path.dirname(os.path.abspath(path))
    if os.path.isdir(path):
        raise WrongInput(f"{path}: is a directory")
    if not os.path.isdir(folder) or not os.access(folder, os.W_OK):
        raise WrongInput(f"{folder}: no file can be written there")
    if not path.endswith(".kicad_pcb"):
        raise WrongInput(f"{path}: the name of a board file ends with .kicad_pcb")
    return path


def prepared(words):
    """The board as it is exported, and the numbers of the nets chosen."""
    board = kicad.open_board(words.board)
    codes = route.chosen_codes(board, words.nets)
    if words.rip_up:
        route.rip_up(board, codes)
    return board, codes


def do_route(words):
    """Routes, writes the board and tells the table."""
    target = target_of(words)
    if words.report and os.path.isdir(words.report):
        raise WrongInput(f"{words.report}: is a directory")
    path = find_program(words.contour)
    outcome = route.route_file(words.board, target, path, options_of(words), words.rounds, words.quiet)
    text = "\n".join(report.table(outcome)) + "\n"
    if words.report:
        with open(words.report, "w", encoding="utf-8") as out:
            out.write(text)
    else:
        sys.stdout.write(text)
    return VIOLATION if outcome.new else DONE


def do_export(words):
    """Writes the board text, with a command for each net chosen."""
    board, codes = prepared(words)
    model = Exporter(board, options_of(words)).model()
    commands = [f"route {net.name}" for net in model.nets if net.code in codes]
    sys.stdout.buffer.write(model.text(commands))
    return DONE


def do_import(words):
    """Writes the tracks of a reply text, which is not judged here, into a copy of the board."""
    target = target_of(words)
    board, _ = prepared(words)
    if not os.path.isfile(words.replies):
        raise WrongInput(f"{words.replies}: there is no such file")
    model = Exporter(board, options_of(words)).model()
    with open(words.replies, "rb") as lines:
        state = replies.read_replies(lines)
    if not state.connections:
        raise WrongInput(f"{words.replies}: has no replies of contour to route, rip or show")
    judge.fill_zones(board)
    before = judge.judge(board)
    writing.Writer(board, model).write(state)
    judge.fill_zones(board)
    new = judge.new_violations(before, judge.judge(board))
    writing.save(board, target)
    for kind, count in sorted(new.items()):
        print(f"new violations, {kind}: {count}")
    return VIOLATION if new else DONE


def main(arguments=None):
    """Does what the words say and gives the status."""
    signal.signal(signal.SIGTERM, lambda *_: sys.exit(INTERRUPTED))
    words = parser().parse_args(arguments)
    try:
        return {"route": do_route, "export": do_export, "import": do_import}[words.word](words)
    except WrongInput as error:
        return told(error, WRONG)
    except NotRight as error:
        return told(error, VIOLATION)
    except BrokenPipeError:
        os.dup2(os.open(os.devnull, os.O_WRONLY), 1)
        return told("standard output was closed", WRONG)
    except OSError as error:
        return told(error, WRONG)
    except KeyboardInterrupt:
        return told("interrupted; nothing was written", INTERRUPTED)


def told(error, status):
    """Says one line on standard error and gives the status."""
    print(f"contour-kicad: {kicad.one_line(error)}", file=sys.stderr)
    return status
