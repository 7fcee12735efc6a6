"""Connections of the replies as KiCad's tracks and vias."""
import json
import os
from collections import defaultdict

from . import cover, kicad
from .errors import WrongInput
from .kicad import pcbnew

NM = cover.NM


class Writer:
    """Adds what a state holds to the board that the model was made of."""

    def __init__(self, board, model):
        self.board = board
        self.model = model
        self.places = {name: i for i, name in enumerate(model.layers)}
        self.kinds = {kind.name: kind for kind in model.kinds}
        self.classes = {one.name: one for one in model.classes}

    def write(self, state):
        """Adds the tracks and vias of all nets; gives the items added."""
        nets = {net.name: net for net in self.model.nets}
        added = []
        for name, connections in state.connections.items():
            if name not in nets:
                raise WrongInput(f"the replies are for another board: it has no net {name}")
            if connections:
                added += self.write_net(nets[name], connections)
        return added

    def write_net(self, net, connections):
        """Adds what one net's connections need."""
        pads = self.own_pads(net)
        wires, vias = defaultdict(list), {}
        for connection in self.needed(net, pads, connections):
            for start, end in zip(connection.nodes, connection.nodes[1:]):
                if end[3] is not None:
                    vias[end[0], end[1], end[3]] = True
                elif not self.lies_in_pad(pads, start, end):
                    self.take_wire(wires, start, end)
        one = self.classes[net.class_name]
        items = []
        for layer, start, end in joined_wires(wires):
            items.append(self.track(net, one, layer, start, end))
        for x, y, kind in vias:
            items.append(self.via(net, one, x, y, kind))
        for item in items:
            self.board.Add(item)
        return items

    def needed(self, net, pads, connections):
        """The connections without those that only join a pad's further rectangles, which its copper joins.

        Such a one stays where a later connection that stays starts on it, outside the net's pads.
        """
        first_pins, place = set(), 0
        for group in net.groups:
            first_pins.add(place)
            place += len(group.rects)
        kept = []
        for connection in reversed(connections):
            starts = [one.nodes[0] for one in kept]
            if connection.number in first_pins or any(
                    lies_on(node, connection) and not self.lies_in_pad(pads, node, node) for node in starts):
                kept.append(connection)
        return kept[::-1]

    def own_pads(self, net):
        """The contours of the net's pads, with their layers, from the origin."""
        ox, oy = self.model.origin
        found = []
        for group in net.groups:
            if isinstance(group.item, pcbnew.PAD):
                contours = [[(x - ox, y - oy) for x, y in contour]
                            for contour in kicad.contours_of(kicad.copper_of_pad(group.item))]
                found.append((group.first, group.last, cover.Outline(contours)))
        return found

    def lies_in_pad(self, pads, start, end):
        """Whether a wire's middle line lies in one pad of the net."""
        layer = self.place(start[2])
        x0, y0, x1, y1 = NM * start[0], NM * start[1], NM * end[0], NM * end[1]
        for first, last, outline in pads:
            if first <= layer <= last and box_holds(outline.box, x0, y0) and box_holds(outline.box, x1, y1):
                if line_in(outline, x0, y0, x1, y1):
                    return True
        return False

    def place(self, name):
        """The place of a layer of the replies."""
        if name not in self.places:
            raise WrongInput(f"the replies are for another board: it has no layer {name}")
        return self.places[name]

    def take_wire(self, wires, start, end):
        """Adds a wire to its row or column."""
        layer = self.place(start[2])
        if start[1] == end[1]:
            wires[layer, "row", start[1]].append(tuple(sorted((start[0], end[0]))))
        elif start[0] == end[0]:
            wires[layer, "column", start[0]].append(tuple(sorted((start[1], end[1]))))
        else:
            wires[layer, "slant", (start[:2], end[:2])].append((0, 0))

    def position(self, x, y):
        """A place of the model in KiCad's nanometres."""
        return kicad.position(self.model.origin[0] + NM * x, self.model.origin[1] + NM * y)

    def track(self, net, one, layer, start, end):
        """A track of the net's class."""
        item = pcbnew.PCB_TRACK(self.board)
        item.SetStart(self.position(*start))
        item.SetEnd(self.position(*end))
        item.SetWidth(one.width_nm)
        item.SetLayer(self.model.layer_ids[layer])
        item.SetNetCode(net.code)
        return item

    def via(self, net, one, x, y, name):
        """A via of a kind, in the sizes of the net's class."""
        if name not in self.kinds:
            raise WrongInput(f"the replies are for another board: it has no kind of via {name}")
        kind = self.kinds[name]
        item = pcbnew.PCB_VIA(self.board)
        item.SetPosition(self.position(x, y))
        item.SetWidth(one.via_nm)
        item.SetDrill(one.drill_nm)
        whole = kind.first == 0 and kind.last == len(self.model.layers) - 1
        item.SetViaType(pcbnew.VIATYPE_THROUGH if whole else pcbnew.VIATYPE_BLIND_BURIED)
        item.SetLayerPair(self.model.layer_ids[kind.first], self.model.layer_ids[kind.last])
        item.SetNetCode(net.code)
        return item


def lies_on(node, connection):
    """Whether a node's place is on one of the connection's legs; a via counts on every layer."""
    x, y, layer, _ = node
    for (x0, y0, start_layer, _), (x1, y1, _, kind) in zip(connection.nodes, connection.nodes[1:]):
        if min(x0, x1) <= x <= max(x0, x1) and min(y0, y1) <= y <= max(y0, y1):
            if kind is not None or layer == start_layer:
                return True
    return False


def box_holds(box, x, y):
    """Whether the point lies in the box."""
    return box[0] <= x <= box[2] and box[1] <= y <= box[3]


def line_in(outline, x0, y0, x1, y1):
    """Whether a line that is parallel to an axis lies in the polygon; its ends are moved off edges by a nanometre."""
    if not (outline.holds_point(x0 + 0.5, y0 + 0.5) and outline.holds_point(x1 + 0.5, y1 + 0.5)):
        return False
    left, right, low, high = min(x0, x1) - 0.5, max(x0, x1) + 0.5, min(y0, y1) - 0.5, max(y0, y1) + 0.5
    return not any(cover.enters(*a, *b, left, low, right, high) for a, b in outline.all_edges)


def joined_wires(wires):
    """Wires of a row or column that touch as one, as (layer, start, end)."""
    for (layer, way, at), spans in wires.items():
        if way == "slant":
            yield layer, at[0], at[1]
            continue
        for low, high in cover.joined(spans):
            if way == "row":
                yield layer, (low, at), (high, at)
            else:
                yield layer, (at, low), (at, high)


def save(board, path):
    """Writes the board, and its project beside it: each to a file of another name first."""
    folder = os.path.dirname(os.path.abspath(path))
    stem = os.path.splitext(os.path.basename(path))[0]
    beside = os.path.join(folder, f".{stem}.{os.getpid()}.kicad_pcb")
    try:
        with kicad.silence():
            pcbnew.SaveBoard(beside, board)
        if not os.path.isfile(beside):
            raise WrongInput(f"{path}: cannot be written")
        os.replace(beside, path)
        move_project(beside, path)
    finally:
        for end in (".kicad_pcb", ".kicad_pro", ".kicad_prl"):
            left = os.path.splitext(beside)[0] + end
            if os.path.exists(left):
                os.remove(left)


def move_project(beside, path):
    """Keeps the project that KiCad wrote beside the board, under the board's name, where there is none yet."""
    old, new = os.path.splitext(beside)[0] + ".kicad_pro", os.path.splitext(path)[0] + ".kicad_pro"
    if not os.path.exists(old) or os.path.exists(new):
        return
    with open(old, encoding="utf-8") as text:
        project = json.load(text)
    project.setdefault("meta", {})["filename"] = os.path.basename(new)
    with open(old, "w", encoding="utf-8") as out:
        json.dump(project, out, indent=2)
        out.write("\n")
    os.replace(old, new)
