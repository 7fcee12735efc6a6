#!/usr/bin/env python3
"""Routes KiCad's demonstration boards and prints the table of docs/MEASURED.md.

The tracks of each board are taken away and its zones filled again: that is "before". Then `tools/kicad` routes it,
`contour check` judges the replies, and KiCad's connectivity and rule check judge the board. The human's tracks are
those of the demonstration board. A board that takes longer than the limit is told as such.

    bench/kicad.py [--contour PATH] [--limit SECONDS] [--rounds N] [--out FOLDER] [NAME ..]

Needs Debian's packages kicad and kicad-demos. Run it at the top of the repository.
"""
import argparse
import json
import os
import signal
import subprocess
import sys
import time

TOP = os.path.dirname(os.path.dirname(os.path.abspath(__file__)))
DEMOS = "/usr/share/kicad/demos"
BOARDS = {
    "ecc83": "ecc83/ecc83-pp.kicad_pcb",
    "complex_hierarchy": "complex_hierarchy/complex_hierarchy.kicad_pcb",
    "sonde_xilinx": "sonde xilinx/sonde xilinx.kicad_pcb",
    "pic_programmer": "pic_programmer/pic_programmer.kicad_pcb",
    "test_xil_95108": "test_xil_95108/carte_test.kicad_pcb",
    "interf_u": "interf_u/interf_u.kicad_pcb",
    "StickHub": "stickhub/StickHub.kicad_pcb",
    "coldfire": "kit-dev-coldfire-xilinx_5213/kit-dev-coldfire-xilinx_5213.kicad_pcb",
}


def measure(name, program, rounds, folder):
    """The figures of one board, as a dictionary."""
    sys.path.insert(0, os.path.join(TOP, "tools", "kicad"))
    from contour_kicad import judge, kicad, program as calls, route, writing
    from contour_kicad.export import Options
    path = calls.find_program(program)
    board = kicad.open_board(os.path.join(DEMOS, BOARDS[name]))
    judge.fill_zones(board)
    human = judge.judge(board)
    codes = route.chosen_codes(board, None)
    route.rip_up(board, codes)
    start = time.monotonic()
    with calls.Program(path) as running:
        outcome = route.route_board(board, running, Options(rip_up=True), codes, rounds, quiet=True)
    seconds = time.monotonic() - start
    if folder:
        writing.save(board, os.path.join(folder, f"{name}.kicad_pcb"))
    return {"before": outcome.before.unconnected, "after": outcome.after.unconnected, "new": dict(outcome.new),
            "tracks": outcome.after.tracks, "human_tracks": human.tracks, "vias": outcome.after.vias,
            "human_vias": human.vias, "length": outcome.after.length / 1e6, "human_length": human.length / 1e6,
            "missing": len(outcome.missing), "seconds": seconds}


def row(name, found):
    """A line of the table."""
    new = ", ".join(f"{count} {kind}" for kind, count in sorted(found["new"].items())) or "0"
    return (f"| {name} | {found['before']}, {found['after']} | {new} | {found['tracks']}, {found['human_tracks']} | "
            f"{found['vias']}, {found['human_vias']} | {found['length']:,.0f}, {found['human_length']:,.0f} | "
            f"{found['seconds']:.1f} |")


def main():
    """Measures the boards named, each in a process of its own."""
    words = argparse.ArgumentParser()
    words.add_argument("--contour")
    words.add_argument("--limit", type=float, default=600)
    words.add_argument("--rounds", type=int)
    words.add_argument("--out")
    words.add_argument("--one", help=argparse.SUPPRESS)
    words.add_argument("names", nargs="*", default=list(BOARDS))
    given = words.parse_args()
    if given.one:
        signal.signal(signal.SIGTERM, lambda *_: sys.exit(1))
        print(json.dumps(measure(given.one, given.contour, given.rounds, given.out)))
        return 0
    print("| board | unconnected: before, after | new | tracks: ours, human | vias: ours, human | "
          "mm: ours, human | seconds |\n|---|---|---|---|---|---|---|", flush=True)
    for name in given.names:
        if name not in BOARDS:
            sys.exit(f"bench/kicad.py: there is no board {name}; the boards are {', '.join(BOARDS)}")
        call = ["/usr/bin/python3", os.path.abspath(__file__), "--one", name]
        call += ["--contour", given.contour] if given.contour else []
        call += ["--rounds", str(given.rounds)] if given.rounds else []
        call += ["--out", given.out] if given.out else []
        child = subprocess.Popen(call, stdout=subprocess.PIPE, stderr=subprocess.PIPE, text=True)
        try:
            out, said = child.communicate(timeout=given.limit)
            reason = (said.strip().splitlines() or ["no reason given"])[-1]
            print(row(name, json.loads(out.splitlines()[-1])) if child.returncode == 0 and out else
                  f"| {name} | failed: {reason} | | | | | |", flush=True)
        except subprocess.TimeoutExpired:
            child.terminate()
            child.communicate()
            print(f"| {name} | not done within {given.limit:.0f} s | | | | | |", flush=True)
    return 0


if __name__ == "__main__":
    sys.exit(main())
