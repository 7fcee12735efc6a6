"""A KiCad board as a model: copper grows and free space shrinks where a coordinate is rounded."""
import os
import re
from collections import Counter
from dataclasses import dataclass

from . import cover, kicad, shapes
from .errors import WrongInput
from .kicad import pcbnew
from .model import (Area, Group, Model, Net, NetClass, ViaKind, GREATEST_RULE, GREATEST_SIDE, MOST_AREAS,
                    MOST_CLASSES, MOST_KINDS, MOST_LAYERS, MOST_NETS, MOST_PINS)

NM = cover.NM
MITRE_ROOM = 1000
TEXT_TOLERANCE = 100


@dataclass
class Options:
    """What the user chose: tolerance and via charge in micrometres."""
    tolerance: int = 20
    via_charge: int = 2000
    rip_up: bool = False
    zones_block: bool = False
    nets: str = None


def half_up(nm):
    """Half of a width in nanometres, rounded up to whole micrometres."""
    return -((-nm) // (2 * NM))


class Exporter:
    """Makes the model of a board. Tracks that the caller removed are not seen any more."""

    def __init__(self, board, options):
        self.board = board
        self.options = options
        self.settings = board.GetDesignSettings()
        self.title = os.path.basename(board.GetFileName()) or "board"
        self.covers = {}
        self.layer_ids = kicad.copper_layers(board)
        self.place = {layer: i for i, layer in enumerate(self.layer_ids)}
        if len(self.layer_ids) > MOST_LAYERS:
            raise WrongInput(f"{self.title}: has {len(self.layer_ids)} copper layers, and at most "
                             f"{MOST_LAYERS} are possible")
        self.outline = kicad.outline_of(board)
        self.pads = list(board.GetPads())
        self.origin = self.choose_origin()

    def model(self):
        """The whole model."""
        self.classes, self.class_of_code = self.net_classes()
        self.least_gap = min(one.gap_nm for one in self.classes)
        kinds = self.via_kinds()
        nets = self.nets()
        areas = self.areas()
        model = Model(self.text_name(self.title), 0, 0, self.origin, [f"L{i + 1}" for i in
                      range(len(self.layer_ids))], self.layer_ids, self.classes, kinds, areas, nets)
        self.place_on_board(model)
        self.keep_within_limits(model)
        return model

    # Origin and coordinates

    def choose_origin(self):
        """A point left of and above all, so placed that most pads have whole micrometres as their middle."""
        points = [pad.GetPosition() for pad in self.pads]
        x_rest = Counter(point.x % NM for point in points).most_common(1)
        y_rest = Counter(point.y % NM for point in points).most_common(1)
        left, top = kicad.box_of(self.outline)[:2]
        for pad in self.pads:
            found = pad.GetBoundingBox()
            left, top = min(left, found.GetX()), min(top, found.GetY())
        for track in self.board.GetTracks():
            found = track.GetBoundingBox()
            left, top = min(left, found.GetX()), min(top, found.GetY())
        rest = ((x_rest[0][0] if x_rest else 0), (y_rest[0][0] if y_rest else 0))
        return tuple((value - 10 * NM - keep) // NM * NM + keep for value, keep in zip((left, top), rest))

    def moved(self, shape):
        """The contours of a polygon set, from the origin."""
        ox, oy = self.origin
        return [[(x - ox, y - oy) for x, y in contour] for contour in kicad.contours_of(shape)]

    def point(self, position):
        """The whole micrometre nearest to a place of KiCad."""
        return (round((position.x - self.origin[0]) / NM), round((position.y - self.origin[1]) / NM))

    # Classes

    def net_classes(self):
        """Classes with equal width, clearance and via are one; more than four that differ are refused."""
        found = self.settings.GetNetClasses()
        raised = self.raised_clearances()
        users = {}
        names = {}
        used = {item.GetNetCode() for item in self.pads + list(self.board.GetTracks())}
        for code, net in self.board.GetNetsByNetcode().items():
            if code not in used:
                continue
            name = net.GetNetClassName() or "Default"
            one = found.Find(name) or found.Find("Default")
            gap = max(one.GetClearance(), self.settings.m_MinClearance, raised.get(code, 0))
            sizes = (max(one.GetTrackWidth(), self.settings.m_TrackMinWidth), gap,
                     max(one.GetViaDiameter(), self.settings.m_ViasMinSize),
                     max(one.GetViaDrill(), self.settings.m_MinThroughDrill))
            users.setdefault(sizes, set()).add(name)
            names[code] = sizes
        if len(users) > MOST_CLASSES:
            users, names = self.merged_by_width(users, names)
        if len(users) > MOST_CLASSES:
            told = ", ".join(sorted(set().union(*users.values())))
            raise WrongInput(f"{self.title}: has {len(users)} net classes that differ, and at most {MOST_CLASSES} "
                             f"are possible: {told}")
        classes = []
        of_sizes = {}
        for i, sizes in enumerate(sorted(users, key=lambda s: (0 not in [c for c in names if names[c] == s], s))):
            width, gap, via, drill = sizes
            one = NetClass(f"C{i}", half_up(width), max(1, -((-gap) // NM)), half_up(via), width, gap, via, drill)
            if max(one.half, one.gap, one.pad) > GREATEST_RULE:
                raise WrongInput(f"{self.title}: a width or clearance of class "
                                 f"{', '.join(sorted(users[sizes]))} is above {GREATEST_RULE} micrometres")
            classes.append(one)
            of_sizes[sizes] = one
        if not classes:
            raise WrongInput(f"{self.title}: has no nets")
        by_code = {code: of_sizes[sizes] for code, sizes in names.items()}
        return classes, by_code

    @staticmethod
    def merged_by_width(users, names):
        """Classes with equal width and clearance made one, with the greatest via of them."""
        greatest = {}
        for width, gap, via, drill in users:
            old = greatest.get((width, gap), (0, 0))
            greatest[width, gap] = max(old, (via, drill))
        merged = {}
        for sizes, who in users.items():
            merged.setdefault(sizes[:2] + greatest[sizes[:2]], set()).update(who)
        return merged, {code: sizes[:2] + greatest[sizes[:2]] for code, sizes in names.items()}

    def raised_clearances(self):
        """For each net the greatest clearance that a pad of it asks for by itself."""
        raised = {}
        for pad in self.pads:
            local = own_clearance(pad)
            if local and pad.GetNetCode():
                raised[pad.GetNetCode()] = max(local, raised.get(pad.GetNetCode(), 0))
        return raised

    def via_kinds(self):
        """Through vias, and where the board allows them those between each two layers, the nearest first."""
        last = len(self.layer_ids) - 1
        if last < 1:
            return []
        kinds = [ViaKind("through", 0, last, self.options.via_charge)]
        if self.settings.m_BlindBuriedViaAllowed:
            spans = sorted((b - a, a, b) for a in range(last) for b in range(a + 1, last + 1) if b - a < last)
            kinds += [ViaKind(f"v{a + 1}-{b + 1}", a, b, self.options.via_charge)
                      for _, a, b in spans[:MOST_KINDS - 1]]
        return kinds

    # Nets

    def nets(self):
        """The nets with their pads and tracks, and copper without a net as nets of one piece each."""
        taken = set()
        nets = {}
        for code, info in self.board.GetNetsByNetcode().items():
            if code in self.class_of_code and code > 0:
                name = self.fresh_name(info.GetNetname(), taken)
                nets[code] = Net(name, self.class_of_code[code].name, [], code, info.GetNetname())
        loose = []
        default = self.class_of_code.get(0, self.classes[0])
        for pad in self.pads:
            group = self.pad_group(pad)
            if group is None:
                continue
            if pad.GetNetCode() in nets:
                nets[pad.GetNetCode()].groups.append(group)
            else:
                loose.append(Net(self.fresh_name(f"~{len(loose) + 1}", taken), default.name, [group], None, "no net"))
        for track in self.board.GetTracks():
            group = self.track_group(track)
            if group is not None and track.GetNetCode() in nets:
                nets[track.GetNetCode()].groups.append(group)
            elif group is not None:
                loose.append(Net(self.fresh_name(f"~{len(loose) + 1}", taken), default.name, [group], None, "no net"))
        used = [net for net in nets.values() if net.groups]
        for net in used:
            net.groups = in_order(net.groups)
        return used + loose

    @staticmethod
    def text_name(title):
        """A name that a board text may have."""
        return re.sub(r"[^!-~]", "_", title)[:64] or "_"

    def fresh_name(self, title, taken):
        """A name of printable ASCII, at most 64 bytes, that no net has yet."""
        base = self.text_name(title)
        name, number = base, 2
        while name in taken:
            end = f"~{number}"
            name, number = base[:64 - len(end)] + end, number + 1
        taken.add(name)
        return name

    def pad_group(self, pad):
        """The rectangles of a pad's copper, or None where it has none."""
        layers = [self.place[layer] for layer in pad.GetLayerSet().CuStack() if layer in self.place]
        if not layers or is_bare_hole(pad):
            return None
        extra = max(0, own_clearance(pad) - self.least_gap) if pad.GetNetCode() == 0 else 0
        shape = kicad.grown(kicad.copper_of_pad(pad), extra, mitred=True)
        label = f"{pad.GetParent().GetReference()}.{pad.GetName()}" if pad.GetParent() else pad.GetName()
        anchor = self.point(pad.ShapePos())
        return Group(self.cover(shape, anchor), min(layers), max(layers), anchor, label, pad)

    def track_group(self, track):
        """The rectangles of a track's, an arc's or a via's copper."""
        if isinstance(track, pcbnew.PCB_VIA):
            ends = sorted(self.place[layer] for layer in (track.TopLayer(), track.BottomLayer()))
            anchor = self.point(track.GetPosition())
            shape = kicad.copper_of_track(track)
            return Group(self.cover(shape, anchor), ends[0], ends[1], anchor, "via", track)
        layer = self.place.get(track.GetLayer())
        if layer is None:
            return None
        start, end = self.point(track.GetStart()), self.point(track.GetEnd())
        if not isinstance(track, pcbnew.PCB_ARC) and (start[0] == end[0] or start[1] == end[1]):
            half = half_up(track.GetWidth()) + 1
            rect = (min(start[0], end[0]) - half, min(start[1], end[1]) - half,
                    max(start[0], end[0]) + half, max(start[1], end[1]) + half)
            return Group([rect], layer, layer, start, "track", track)
        return Group(self.cover(kicad.copper_of_track(track), start), layer, layer, start, "track", track)

    def cover(self, shape, anchor):
        """Rectangles that cover the shape; all hold the anchor where the tolerance allows that, else they chain."""
        contours = self.moved(shape)
        base = (anchor[0] * NM, anchor[1] * NM)
        key = tuple(tuple((x - base[0], y - base[1]) for x, y in contour) for contour in contours)
        if key not in self.covers:
            local = [list(contour) for contour in key]
            self.covers[key] = cover_at(local, self.options.tolerance)
        return [(x0 + anchor[0], y0 + anchor[1], x1 + anchor[0], y1 + anchor[1])
                for x0, y0, x1, y1 in self.covers[key]]

    # Blockages and keep-outs

    def areas(self):
        """Everything that is no net's copper."""
        return (self.bare_holes() + self.hole_keepouts() + self.copper_drawings() + self.rule_areas()
                + self.zone_areas() + self.outside())

    def every_layer(self, what, rects):
        """The areas on each layer."""
        return [Area(what, layer, rect) for layer in range(len(self.layer_ids)) for rect in rects]

    def loose_cover(self, shape, tolerance):
        """Slices that cover a shape, with a tolerance in micrometres."""
        contours = self.moved(shape)
        if not contours:
            return []
        return cover.fewest_slices(contours, room_of(contours, tolerance))

    def bare_holes(self):
        """Holes without copper, as blockages on each layer."""
        rects = []
        wanted = max(self.settings.m_HoleClearance, self.settings.m_CopperEdgeClearance)
        for pad in self.pads:
            if is_bare_hole(pad):
                extra = max(0, max(wanted, own_clearance(pad)) - self.least_gap)
                rects += self.loose_cover(kicad.grown(kicad.hole_of(pad), extra, mitred=True), self.options.tolerance)
        return self.every_layer("block", rects)

    def hole_keepouts(self):
        """Areas round drilled holes in which a via's hole would come too close."""
        apart = self.settings.m_HoleToHoleMin
        extra = max(apart + (one.drill_nm - one.via_nm) // 2 for one in self.classes)
        rects = []
        for pad in self.pads:
            size = pad.GetDrillSize()
            if size.x and size.y and min(size.x, size.y) // 2 + extra > 0:
                rects.append(self.box_rect(kicad.box_of(kicad.grown(kicad.hole_of(pad), max(0, extra), mitred=True))))
        for track in self.board.GetTracks():
            if isinstance(track, pcbnew.PCB_VIA):
                x, y = self.point(track.GetPosition())
                reach = half_up(track.GetDrillValue()) + max(0, -((-extra) // NM)) + 1
                rects.append((x - reach, y - reach, x + reach, y + reach))
        return self.every_layer("vias", rects)

    def box_rect(self, box):
        """A box of KiCad in whole micrometres, rounded outwards."""
        (x0, y0, x1, y1), (ox, oy) = box, self.origin
        return (cover.floor_um(x0 - ox), cover.floor_um(y0 - oy), cover.ceil_um(x1 - ox), cover.ceil_um(y1 - oy))

    def copper_drawings(self):
        """Text and graphics on copper layers, of the board and of footprints."""
        items = list(self.board.GetDrawings())
        for footprint in self.board.GetFootprints():
            items += list(footprint.GraphicalItems()) + [footprint.Reference(), footprint.Value()]
        areas = []
        for item in items:
            layer = item.GetLayer()
            if layer in self.place and is_shown(item):
                rects = self.loose_cover(kicad.copper_of_drawing(item), TEXT_TOLERANCE)
                areas += [Area("block", self.place[layer], rect) for rect in rects]
        return areas

    def all_zones(self):
        """The zones of the board and of its footprints."""
        zones = list(self.board.Zones())
        for footprint in self.board.GetFootprints():
            zones += list(footprint.Zones())
        return zones

    def rule_areas(self):
        """Rule areas that forbid tracks or vias."""
        areas = []
        for zone in self.all_zones():
            if not zone.GetIsRuleArea():
                continue
            what = [word for word, asked in (("wires", zone.GetDoNotAllowTracks()),
                                             ("vias", zone.GetDoNotAllowVias())) if asked]
            areas += self.zone_cover(zone, what)
        return areas

    def zone_areas(self):
        """Copper zones, where the user wants them to keep wires out."""
        if not self.options.zones_block:
            return []
        return [area for zone in self.all_zones() if not zone.GetIsRuleArea()
                for area in self.zone_cover(zone, ["wires"])]

    def zone_cover(self, zone, what):
        """Keep-outs over a zone's outline on its copper layers."""
        layers = [self.place[layer] for layer in zone.GetLayerSet().CuStack() if layer in self.place]
        rects = self.loose_cover(kicad.simplified(pcbnew.SHAPE_POLY_SET(zone.Outline())), self.options.tolerance)
        return [Area(word, layer, rect) for word in what for layer in layers for rect in rects]

    def outside(self):
        """Keep-outs over what is not in the outline, or too close to it."""
        inner = kicad.grown(self.outline, -self.settings.m_CopperEdgeClearance)
        frame = self.inside_frame()
        ox, oy = self.origin
        x0, y0, x1, y1 = frame
        whole = kicad.polygon_set([[(x0 * NM + ox, y0 * NM + oy), (x1 * NM + ox, y0 * NM + oy),
                                    (x1 * NM + ox, y1 * NM + oy), (x0 * NM + ox, y1 * NM + oy)]])
        whole.BooleanSubtract(inner, pcbnew.SHAPE_POLY_SET.PM_STRICTLY_SIMPLE)
        rects = self.loose_cover(whole, self.options.tolerance)
        rects = [rect for rect in rects if rect[2] > rect[0] and rect[3] > rect[1]]
        return self.every_layer("wires", rects) + self.every_layer("vias", rects)

    def inside_frame(self):
        """The least rectangle round the outline less the edge clearance, rounded inwards."""
        box = kicad.box_of(kicad.grown(self.outline, -self.settings.m_CopperEdgeClearance))
        (x0, y0, x1, y1), (ox, oy) = box, self.origin
        return (cover.ceil_um(x0 - ox), cover.ceil_um(y0 - oy), cover.floor_um(x1 - ox), cover.floor_um(y1 - oy))

    # The board's own rectangle

    def place_on_board(self, model):
        """Gives the model its size. Pads beyond the edge make it larger, and keep-outs fill what is added."""
        frame = self.inside_frame()
        rects = [rect for net in model.nets for group in net.groups for rect in group.rects]
        whole = (min([frame[0]] + [r[0] for r in rects]), min([frame[1]] + [r[1] for r in rects]),
                 max([frame[2]] + [r[2] for r in rects]), max([frame[3]] + [r[3] for r in rects]))
        beyond = [(whole[0], whole[1], frame[0], whole[3]), (frame[2], whole[1], whole[2], whole[3]),
                  (whole[0], whole[1], whole[2], frame[1]), (whole[0], frame[3], whole[2], whole[3])]
        for rect in beyond:
            if rect[2] > rect[0] and rect[3] > rect[1]:
                model.areas += self.every_layer("wires", [rect]) + self.every_layer("vias", [rect])
        dx, dy = whole[0], whole[1]
        model.width, model.height = whole[2] - dx, whole[3] - dy
        model.origin = (self.origin[0] + dx * NM, self.origin[1] + dy * NM)
        for net in model.nets:
            for group in net.groups:
                group.rects = [(a - dx, b - dy, c - dx, d - dy) for a, b, c, d in group.rects]
                group.anchor = (group.anchor[0] - dx, group.anchor[1] - dy)
        for area in model.areas:
            a, b, c, d = area.rect
            area.rect = (max(0, a - dx), max(0, b - dy), min(model.width, c - dx), min(model.height, d - dy))
        model.areas = [area for area in model.areas
                       if area.rect[0] <= area.rect[2] and area.rect[1] <= area.rect[3]]

    def keep_within_limits(self, model):
        """Refuses what no board text can hold."""
        counts = ((len(model.areas), MOST_AREAS, "blockages and keep-outs"), (len(model.nets), MOST_NETS, "nets"),
                  (model.pin_count(), MOST_PINS, "rectangles of pads and tracks"),
                  (model.width, GREATEST_SIDE, "micrometres across"), (model.height, GREATEST_SIDE,
                                                                       "micrometres up"))
        for count, most, what in counts:
            if count > most:
                raise WrongInput(f"{self.title}: has {count} {what}, and at most {most} are possible; "
                                 "a greater --tolerance gives fewer rectangles")


def own_clearance(pad):
    """The clearance that the pad or its footprint asks for by itself, in nanometres; 0 where there is none."""
    local = pad.GetLocalClearance()
    if not local and pad.GetParent():
        local = pad.GetParent().GetLocalClearance()
    return local


def is_bare_hole(pad):
    """Whether the pad is a hole without copper round it."""
    if pad.GetAttribute() != pcbnew.PAD_ATTRIB_NPTH:
        return False
    size, drill = pad.GetSize(), pad.GetDrillSize()
    return size.x <= drill.x and size.y <= drill.y


def is_shown(item):
    """Whether a text is drawn; graphics always are."""
    return not hasattr(item, "IsVisible") or item.IsVisible()


def room_of(contours, tolerance):
    """How far a cover may reach: a micrometre where all sides are parallel to an axis, else the tolerance."""
    shape = kicad.polygon_set(contours) if len(contours) == 1 else None
    if shape is None:
        shape = even_odd(contours)
    if cover.is_upright(contours):
        return kicad.contours_of(kicad.grown(shape, MITRE_ROOM + 1, mitred=True))
    return kicad.contours_of(kicad.grown(shape, max(MITRE_ROOM + 1, NM * tolerance - shapes.ARC_ERROR)))


def even_odd(contours):
    """KiCad's polygon set of contours of which some are holes in others."""
    shape = kicad.polygon_set([])
    for contour in contours:
        add_or_cut(shape, contour)
    return shape


def add_or_cut(shape, contour):
    """Adds a contour, or cuts it out where its first corner lies within the shape."""
    one = kicad.polygon_set([contour])
    x, y = contour[0]
    if shape.OutlineCount() and shape.Contains(pcbnew.VECTOR2I(int(x), int(y))):
        shape.BooleanSubtract(one, pcbnew.SHAPE_POLY_SET.PM_STRICTLY_SIMPLE)
    else:
        shape.BooleanAdd(one, pcbnew.SHAPE_POLY_SET.PM_STRICTLY_SIMPLE)


def cover_at(contours, tolerance):
    """The cover of a polygon round the point 0 0."""
    room = room_of(contours, tolerance)
    found = cover.star(cover.Outline(contours), cover.Outline(room), (0, 0))
    return found if found is not None else cover.chain(contours, room, (0, 0))


def in_order(groups):
    """The groups in the order in which a tree grows that always takes the nearest (Prim, 1957)."""
    if len(groups) < 3:
        return groups
    left = groups[1:]
    near = [distance(groups[0], group) for group in left]
    ordered = [groups[0]]
    while left:
        i = min(range(len(left)), key=near.__getitem__)
        taken = left.pop(i)
        near.pop(i)
        ordered.append(taken)
        for j, group in enumerate(left):
            near[j] = min(near[j], distance(taken, group))
    return ordered


def distance(a, b):
    """How far the anchors of two groups are apart, across and up together."""
    return abs(a.anchor[0] - b.anchor[0]) + abs(a.anchor[1] - b.anchor[1])
