#!/usr/bin/env python3
"""Times the reading of large board texts.

Makes texts of 2^28 bytes (comments, blank lines, one long line) and a board at its limits, runs
`./contour run` on each, and prints the time and the greatest memory beside those of `wc -l`.

    bench/read.py [FOLDER]

The texts are made in FOLDER (the folder /tmp/contour-bench by default) where they are not there yet,
and stay there. Run it at the top of the repository.
"""
import os
import subprocess
import sys
import time

SIZE = 1 << 28
NETS = 16_384
PINS = 32_768
BLOCKS = 8_192


def filled(path, piece):
    """A file of SIZE bytes that repeats a piece."""
    chunk = piece * max(1, (1 << 20) // len(piece))
    with open(path, "wb") as out:
        left = SIZE
        while left > 0:
            out.write(chunk[:left])
            left -= min(left, len(chunk))


def full_board(path):
    """A board at its limits: all nets, pins and blockages that there may be."""
    with open(path, "w") as out:
        out.write("board 1 full 1048576 1048576\n")
        layers = [f"layer{n}" for n in range(8)]
        classes = [f"class{n}" for n in range(4)]
        for name in layers:
            out.write(f"layer {name}\n")
        for name in classes:
            out.write(f"class {name}\n")
        for layer in layers:
            for name in classes:
                out.write(f"rule {layer} {name} 10 10\n")
        for n in range(7):
            out.write(f"viakind kind{n} {layers[n]} {layers[n + 1]} 50\n")
            for name in classes:
                out.write(f"pad kind{n} {name} 15\n")
        for n in range(BLOCKS):
            x, y = 100 * (n % 8192), 100 * (n // 8192)
            out.write(f"block {layers[n % 8]} {x} {y} {x + 20} {y + 20}\n")
        for n in range(NETS):
            out.write(f"net a_net_with_a_rather_long_name_{n} {classes[n % 4]}\n")
        for n in range(PINS):
            net = n % NETS
            x, y = 60 * (n % 16384), 1000 + 60 * (n // 16384)
            layer = layers[n % 8]
            out.write(f"pin a_net_with_a_rather_long_name_{net} {x} {y} {x + 20} {y + 20} {layer} {layer}\n")
        out.write("end\n")


def measured(command, path):
    """Seconds, greatest memory in MiB, and exit status of a command whose input is a file."""
    start = time.monotonic()
    with open(path, "rb") as text:
        child = subprocess.Popen(command, stdin=text, stdout=subprocess.DEVNULL, stderr=subprocess.DEVNULL)
    _, status, usage = os.wait4(child.pid, 0)
    seconds = time.monotonic() - start
    return seconds, usage.ru_maxrss / 1024, os.waitstatus_to_exitcode(status)


def main():
    folder = sys.argv[1] if len(sys.argv) > 1 else "/tmp/contour-bench"
    os.makedirs(folder, exist_ok=True)
    texts = {
        "comments": lambda path: filled(path, b"# nothing but words that no one reads\n"),
        "blank": lambda path: filled(path, b"\n"),
        "spaces": lambda path: filled(path, b" \t \t \t \t\n"),
        "long": lambda path: filled(path, b"word "),
        "full": full_board,
    }
    print(f"{'text':10} {'bytes':>10} {'seconds':>8} {'MiB':>6} {'status':>6} {'wc -l':>8}")
    for name, make in texts.items():
        path = os.path.join(folder, name)
        if not os.path.exists(path):
            make(path)
        seconds, memory, status = measured(["./contour", "run"], path)
        plain, _, _ = measured(["wc", "-l"], path)
        size = os.path.getsize(path)
        print(f"{name:10} {size:10} {seconds:8.2f} {memory:6.0f} {status:6} {plain:8.2f}")


if __name__ == "__main__":
    main()
