#!/usr/bin/env python3
"""Times the command `strips` on boards of more and more blockages.

Makes boards of 100, 400 and 1,600 blockages of 20 by 20 micrometres, each at a place that a seeded
generator draws from the cells of a square field, with one layer and one class. Each blockage is grown by
half a wire and a gap when it comes into the plane. Runs `./contour run` on each and prints the number of
strips, the time and the greatest memory.

    bench/strips.py [FOLDER]

The boards are made in FOLDER (the folder /tmp/contour-bench by default). Run it at the top of the
repository.
"""
import os
import random
import subprocess
import sys
import time

SIZES = [100, 400, 1_600]
CELL = 60


def board(path, blocks):
    """A board with so many blockages, spread over a field of four times as many cells."""
    draw = random.Random(blocks)
    cells = int((4 * blocks) ** 0.5)
    side = cells * CELL + 100
    with open(path, "w") as out:
        out.write(f"board 1 spread{blocks} {side} {side}\n")
        out.write("layer top\nclass sig\nrule top sig 5 5\n")
        for cell in sorted(draw.sample(range(cells * cells), blocks)):
            x = 50 + CELL * (cell % cells) + draw.randrange(20)
            y = 50 + CELL * (cell // cells) + draw.randrange(20)
            out.write(f"block top {x} {y} {x + 20} {y + 20}\n")
        out.write("end\nstrips top sig\n")


def measured(path):
    """The first line of the reply, the seconds, and the greatest memory in MiB."""
    start = time.monotonic()
    with open(path, "rb") as text:
        child = subprocess.Popen(["./contour", "run"], stdin=text, stdout=subprocess.PIPE, stderr=subprocess.DEVNULL)
    reply = child.stdout.read()
    _, status, usage = os.wait4(child.pid, 0)
    if os.waitstatus_to_exitcode(status) != 0:
        sys.exit(f"{path}: status {os.waitstatus_to_exitcode(status)}")
    return reply.split(b"\n", 1)[0].decode(), time.monotonic() - start, usage.ru_maxrss / 1024


def main():
    folder = sys.argv[1] if len(sys.argv) > 1 else "/tmp/contour-bench"
    os.makedirs(folder, exist_ok=True)
    print(f"{'blockages':>9} {'strips':>8} {'seconds':>8} {'MiB':>6}")
    for blocks in SIZES:
        path = os.path.join(folder, f"spread{blocks}.board")
        board(path, blocks)
        first, seconds, memory = measured(path)
        print(f"{blocks:9} {first.split()[-1]:>8} {seconds:8.2f} {memory:6.0f}")


if __name__ == "__main__":
    main()
