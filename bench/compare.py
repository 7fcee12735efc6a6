#!/usr/bin/env python3
"""Compares the program with a plain search over unit steps, on small random boards.

    bench/compare.py PROGRAM [FROM TO]

PROGRAM is the built program, and FROM and TO are the first seed and the one after the last. Each seed
gives a board of up to four layers with blockages, keep-outs, gaps by pairs of classes and vias over
spans with inner pads. The search here tries each point by the rules as they are written, square by
square, and knows nothing of grown rectangles, strips or certificates. The costs of the first connection
of the first net must be one, or both must find none; and the upgraded text must give the same replies.
"""

import heapq
import random
import subprocess
import sys


def too_close(a, b, gap):
    across = max(b[0] - a[2], a[0] - b[2])
    up = max(b[1] - a[3], a[1] - b[3])
    return across < gap and up < gap


class Board:
    """A random board."""

    def __init__(self, seed):
        r = random.Random(seed)
        self.width, self.height = r.randrange(8, 22), r.randrange(8, 22)
        self.layers, self.classes = r.choice([1, 2, 3, 3, 4]), r.choice([1, 2])
        self.version = r.choice([1, 2, 2])
        self.rules, self.gaps, self.kinds = {}, {}, []
        for l in range(self.layers):
            for c in range(self.classes):
                self.rules[l, c] = (r.randrange(1, 3), r.randrange(1, 4))
        for l in range(self.layers):
            for c in range(self.classes):
                for d in range(c, self.classes):
                    gap = self.default_gap(l, c, d)
                    if self.version == 2 and r.random() < 0.4:
                        gap = r.randrange(1, 6)
                    self.gaps[l, c, d] = self.gaps[l, d, c] = gap
        if self.layers > 1:
            for _ in range(r.randrange(1, 4)):
                a, b = sorted(r.sample(range(self.layers), 2))
                self.kinds.append((a, b, r.randrange(0, 7)))
        self.pads, self.inners = {}, {}
        for k, (a, b, _) in enumerate(self.kinds):
            for c in range(self.classes):
                self.pads[k, c] = self.inners[k, c] = r.randrange(1, 4)
                if b > a + 1 and r.random() < 0.6:
                    self.inners[k, c] = r.randrange(1, 4)
        self.blocks = [(r.randrange(self.layers), self.area(r, 7)) for _ in range(r.randrange(0, 4))]
        self.keepouts = [
            (r.random() < 0.5, r.randrange(self.layers), self.area(r, 7)) for _ in range(r.randrange(0, 3))
        ]
        self.nets = [r.randrange(self.classes) for _ in range(r.randrange(1, 4))]
        self.pins = []
        for n in range(len(self.nets)):
            for _ in range(r.randrange(2, 4) if n == 0 else r.randrange(0, 2)):
                first = r.randrange(self.layers)
                self.pins.append((n, self.area(r, 3), first, r.randrange(first, self.layers)))

    def area(self, r, size):
        x, y = r.randrange(0, self.width + 1), r.randrange(0, self.height + 1)
        return (x, y, min(self.width, x + r.randrange(0, size)), min(self.height, y + r.randrange(0, size)))

    def default_gap(self, l, c, d):
        return max(self.rules[l, c][1], self.rules[l, d][1])

    def text(self):
        lines = [f"board {self.version} random {self.width} {self.height}"]
        lines += [f"layer l{l}" for l in range(self.layers)] + [f"class c{c}" for c in range(self.classes)]
        lines += [f"rule l{l} c{c} {half} {gap}" for (l, c), (half, gap) in self.rules.items()]
        for (l, c, d), gap in self.gaps.items():
            if c <= d and gap != self.default_gap(l, c, d):
                lines.append(f"clear l{l} c{d} c{c} {gap}")
        lines += [f"viakind k{k} l{b} l{a} {charge}" for k, (a, b, charge) in enumerate(self.kinds)]
        lines += [f"pad k{k} c{c} {half}" for (k, c), half in self.pads.items()]
        lines += [f"inner k{k} c{c} {half}" for (k, c), half in self.inners.items() if half != self.pads[k, c]]
        lines += ["block l%d %d %d %d %d" % (l, *area) for l, area in self.blocks]
        lines += ["keepout %s l%d %d %d %d %d" % ("wires" if w else "vias", l, *area) for w, l, area in self.keepouts]
        lines += [f"net n{n} c{c}" for n, c in enumerate(self.nets)]
        lines += ["pin n%d %d %d %d %d l%d l%d" % (n, *area, a, b) for n, area, a, b in self.pins]
        return "\n".join(lines + ["end", "route n0", "rules"]) + "\n"

    def shapes(self):
        pins = [(l, area, n) for n, area, a, b in self.pins for l in range(a, b + 1)]
        return [(l, area, None) for l, area in self.blocks] + pins

    def is_left(self, l, half, x, y, wires):
        """Whether the square of this half width round the point may belong to the first net."""
        square = (x - half, y - half, x + half, y + half)
        if square[0] < 0 or square[1] < 0 or square[2] > self.width or square[3] > self.height:
            return False
        for layer, area, net in self.shapes():
            if layer == l and net != 0:
                gap = self.rules[l, self.nets[0]][1] if net is None else self.gaps[l, self.nets[0], self.nets[net]]
                if too_close(square, area, gap):
                    return False
        return not any(w == wires and k == l and too_close(square, area, 1) for w, k, area in self.keepouts)

    def is_passable(self, x, y, l):
        return self.is_left(l, self.rules[l, self.nets[0]][0], x, y, True)

    def has_via(self, k, x, y):
        a, b, _ = self.kinds[k]
        halves = {l: self.pads if l in (a, b) else self.inners for l in range(a, b + 1)}
        return all(self.is_left(l, halves[l][k, self.nets[0]], x, y, False) for l in halves)

    def steps(self, x, y, l):
        for to in ((x + 1, y, l), (x - 1, y, l), (x, y + 1, l), (x, y - 1, l)):
            if self.is_passable(*to):
                yield 1, to
        for k, (a, b, charge) in enumerate(self.kinds):
            if a <= l <= b and self.has_via(k, x, y):
                for m in range(a, b + 1):
                    if m != l and self.is_passable(x, y, m):
                        yield charge, (x, y, m)

    def least_cost(self):
        """The cost of the first connection of the first net, or None."""
        boxes = [[], []]
        for box, (_, area, a, b) in zip(boxes, (pin for pin in self.pins if pin[0] == 0)):
            for l in range(a, b + 1):
                box += [(x, y, l) for x in range(area[0], area[2] + 1) for y in range(area[1], area[3] + 1)]
        waiting = [(0, node) for node in boxes[0] if self.is_passable(*node)]
        heapq.heapify(waiting)
        targets, done = set(boxes[1]), set()
        while waiting:
            cost, node = heapq.heappop(waiting)
            if node in targets:
                return cost
            if node not in done:
                done.add(node)
                for price, to in self.steps(*node):
                    if to not in done:
                        heapq.heappush(waiting, (cost + price, to))
        return None


def reply(program, words, text):
    return subprocess.run([program, *words], input=text, capture_output=True, text=True, check=True).stdout


def main():
    program = sys.argv[1]
    first, last = (int(sys.argv[2]), int(sys.argv[3])) if len(sys.argv) > 3 else (0, 1000)
    made = 0
    for seed in range(first, last):
        board = Board(seed)
        text = board.text()
        found = reply(program, ["run", "--quiet"], text)
        costs = [int(line.split()[2]) for line in found.splitlines() if line.startswith("conn 1 ")]
        wanted = board.least_cost()
        if (costs[0] if costs else None) != wanted:
            sys.exit(f"seed {seed}: {costs} and not {wanted}\n{text}{found}")
        if reply(program, ["run", "--quiet"], reply(program, ["upgrade"], text)) != found:
            sys.exit(f"seed {seed}: another reply to the upgraded text\n{text}")
        made += wanted is not None
    print(f"{last - first} boards agree: {made} with a connection, {last - first - made} without")


if __name__ == "__main__":
    main()
