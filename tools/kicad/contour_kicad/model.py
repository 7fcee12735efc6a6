"""A board as Contour reads it: what the lines of a board text say, in micrometres."""
from dataclasses import dataclass, field

MOST_LAYERS, MOST_CLASSES, MOST_KINDS = 8, 4, 8
MOST_AREAS, MOST_PINS, MOST_NETS = 8192, 32768, 16384
GREATEST_SIDE, GREATEST_RULE = 8388608, 65535


@dataclass(frozen=True)
class NetClass:
    """A class of nets: sizes in micrometres for the text, and in nanometres for KiCad's tracks and vias."""
    name: str
    half: int
    gap: int
    pad: int
    width_nm: int
    gap_nm: int
    via_nm: int
    drill_nm: int


@dataclass(frozen=True)
class ViaKind:
    """A kind of via between two layers, given by their places from 0."""
    name: str
    first: int
    last: int
    charge: int


@dataclass
class Group:
    """Copper that hangs together, a pad or a track: rectangles in order, on layers from the first to the last.

    The first rectangle is the one that wires should reach; label says what it is, for reports.
    """
    rects: list
    first: int
    last: int
    anchor: tuple
    label: str
    item: object = None


@dataclass
class Net:
    """A net of the text; code is KiCad's number of it, or None for copper without a net."""
    name: str
    class_name: str
    groups: list = field(default_factory=list)
    code: int = None
    title: str = ""


@dataclass
class Area:
    """A blockage (what is `block`), or a keep-out (`wires`, `vias`) on a layer."""
    what: str
    layer: int
    rect: tuple


@dataclass
class Model:
    """A whole board."""
    name: str
    width: int
    height: int
    origin: tuple
    layers: list
    layer_ids: list
    classes: list
    kinds: list
    areas: list
    nets: list

    def pin_count(self):
        """How many pins the text has."""
        return sum(len(group.rects) for net in self.nets for group in net.groups)

    def lines(self, commands):
        """The lines of the board text, with these commands after the board."""
        yield f"board 2 {self.name} {self.width} {self.height}"
        yield from (f"layer {layer}" for layer in self.layers)
        yield from (f"class {one.name}" for one in self.classes)
        for layer in self.layers:
            yield from (f"rule {layer} {one.name} {one.half} {one.gap}" for one in self.classes)
        for kind in self.kinds:
            yield f"viakind {kind.name} {self.layers[kind.first]} {self.layers[kind.last]} {kind.charge}"
            yield from (f"pad {kind.name} {one.name} {one.pad}" for one in self.classes)
        for area in self.areas:
            words = "block" if area.what == "block" else f"keepout {area.what}"
            yield f"{words} {self.layers[area.layer]} {numbers(area.rect)}"
        yield from (f"net {net.name} {net.class_name}" for net in self.nets)
        for net in self.nets:
            for group in net.groups:
                layers = f"{self.layers[group.first]} {self.layers[group.last]}"
                yield from (f"pin {net.name} {numbers(rect)} {layers}" for rect in group.rects)
        yield "end"
        yield from commands

    def text(self, commands):
        """The board text as bytes."""
        return ("\n".join(self.lines(commands)) + "\n").encode("ascii")


def numbers(rect):
    """The four numbers of a rectangle, with blanks between."""
    return "{} {} {} {}".format(*rect)
