"""Which pads a wire of their class can leave: a pad needs a point that no other copper, hole or edge is too near."""
from collections import defaultdict

CELL = 1000


class Obstacles:
    """What keeps wires away on each layer: rectangles with their owner, found by cells of a millimetre."""

    def __init__(self, model):
        self.model = model
        self.classes = {one.name: one for one in model.classes}
        self.cells = defaultdict(list)
        self.reach = max(one.half + one.gap for one in model.classes)
        for area in model.areas:
            if area.what != "vias":
                self.add(area.layer, area.rect, None, area.what)
        for net in model.nets:
            for group in net.groups:
                for layer in range(group.first, group.last + 1):
                    for rect in group.rects:
                        self.add(layer, rect, net, "copper")

    def add(self, layer, rect, owner, what):
        """Enters a rectangle into the cells that it or its surroundings meet."""
        x0, y0, x1, y1 = (value + sign * self.reach for value, sign in zip(rect, (-1, -1, 1, 1)))
        for column in range(x0 // CELL, x1 // CELL + 1):
            for row in range(y0 // CELL, y1 // CELL + 1):
                self.cells[layer, column, row].append((rect, owner, what))

    def shut(self, net, layer, rect):
        """The rectangles of points near `rect` that the net's wires cannot have as their middle."""
        one = self.classes[net.class_name]
        found = set()
        for column in range(rect[0] // CELL, rect[2] // CELL + 1):
            for row in range(rect[1] // CELL, rect[3] // CELL + 1):
                for other, owner, what in self.cells.get((layer, column, row), ()):
                    if owner is net:
                        continue
                    gap = one.gap if owner is None else max(one.gap, self.classes[owner.class_name].gap)
                    by = one.half + (0 if what == "wires" else gap - 1)
                    grown = (other[0] - by, other[1] - by, other[2] + by, other[3] + by)
                    if grown[0] <= rect[2] and rect[0] <= grown[2] and grown[1] <= rect[3] and rect[1] <= grown[3]:
                        found.add(grown)
        return found

    def has_free_point(self, net, layer, rect):
        """Whether a wire of the net can have its middle somewhere in the rectangle.

        Where there is such a point, there is one right beside what is shut, or on the rectangle's edge.
        """
        half = self.classes[net.class_name].half
        x0, y0 = max(rect[0], half), max(rect[1], half)
        x1, y1 = min(rect[2], self.model.width - half), min(rect[3], self.model.height - half)
        if x0 > x1 or y0 > y1:
            return False
        shut = self.shut(net, layer, (x0, y0, x1, y1))
        columns = {x0} | {one[2] + 1 for one in shut if x0 <= one[2] + 1 <= x1}
        rows = {y0} | {one[3] + 1 for one in shut if y0 <= one[3] + 1 <= y1}
        return any(not any(one[0] <= x <= one[2] and one[1] <= y <= one[3] for one in shut)
                   for x in columns for y in rows)

    def can_leave(self, net, group):
        """Whether each rectangle of the group has such a point on one of the group's layers."""
        layers = range(group.first, group.last + 1)
        return all(any(self.has_free_point(net, layer, rect) for layer in layers) for rect in group.rects)


def shut_in(model, nets):
    """The pads of the nets that no wire of their class can leave, as pairs of net and group."""
    obstacles = Obstacles(model)
    return [(net, group) for net in nets for group in net.groups if not obstacles.can_leave(net, group)]
