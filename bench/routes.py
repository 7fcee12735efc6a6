#!/usr/bin/env python3
"""Times the routing of generated boards of more and more nets.

Makes boards of 1, 10, 30 and 100 nets in rows, on two layers, where the wires of each two neighbours must
cross by vias; blockages stand in the rows. Runs `./contour run --quiet` on the commands `all` and `rules`
and prints how many connections were made, what they cost together, the time and the greatest memory.

    bench/routes.py [FOLDER]

The boards are made in FOLDER (the folder /tmp/contour-bench by default). Run it at the top of the
repository.
"""
import os
import subprocess
import sys
import time

SIZES = [1, 10, 30, 100]


def row(i, n):
    """The row of the right pin of net i: that of its neighbour."""
    if i % 2 == 0:
        return i - 1
    return i + 1 if i < n else i


def board(path, n):
    """A board of n nets."""
    with open(path, "w") as out:
        out.write(f"board 1 gen{n} 20000 {100 * n + 200}\n")
        out.write("layer top\nlayer bot\nclass sig\nrule top sig 10 10\nrule bot sig 10 10\n")
        out.write("viakind v top bot 50\npad v sig 15\n")
        for i in range(1, n + 1):
            x, y = 2000 + (7001 * i) % 16000, 100 * i + 60
            out.write(f"block top {x} {y} {x + 200} {y + 20}\n")
        for i in range(1, n + 1):
            out.write(f"net n{i} sig\n")
        for i in range(1, n + 1):
            for x, y in ((100, 100 * i), (19860, 100 * row(i, n))):
                out.write(f"pin n{i} {x} {y} {x + 40} {y + 40} top top\n")
        out.write("end\nall\nrules\n")


def measured(path):
    """The lines of the reply, the seconds, and the greatest memory in MiB."""
    start = time.monotonic()
    with open(path, "rb") as text:
        child = subprocess.Popen(
            ["./contour", "run", "--quiet"], stdin=text, stdout=subprocess.PIPE, stderr=subprocess.DEVNULL
        )
    reply = child.stdout.read().decode().split("\n")
    _, status, usage = os.wait4(child.pid, 0)
    if os.waitstatus_to_exitcode(status) != 0:
        sys.exit(f"{path}: status {os.waitstatus_to_exitcode(status)}")
    return reply, time.monotonic() - start, usage.ru_maxrss / 1024


def main():
    folder = sys.argv[1] if len(sys.argv) > 1 else "/tmp/contour-bench"
    os.makedirs(folder, exist_ok=True)
    print(f"{'nets':>6} {'made':>6} {'cost':>10} {'seconds':>8} {'MiB':>6}")
    for nets in SIZES:
        path = os.path.join(folder, f"rows{nets}.board")
        board(path, nets)
        reply, seconds, memory = measured(path)
        costs = [int(line.split()[2]) for line in reply if line.startswith("conn ")]
        print(f"{nets:6} {len(costs):6} {sum(costs):10} {seconds:8.2f} {memory:6.0f}", flush=True)


if __name__ == "__main__":
    main()
