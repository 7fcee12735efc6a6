"""Nets with zones: what their filled zones join already, and which pads are left for tracks."""
from dataclasses import replace

from . import cover, kicad
from .cover import NM
from .export import distance
from .model import Net


def islands_of(board, model, code):
    """The filled islands of a net's zones, as (place of the layer, outline) from the model's origin."""
    ox, oy = model.origin
    found = []
    for zone in board.Zones():
        if zone.GetIsRuleArea() or zone.GetNetCode() != code:
            continue
        for place, layer in enumerate(model.layer_ids):
            if not zone.IsOnLayer(layer):
                continue
            filled = zone.GetFilledPolysList(layer)
            for i in range(filled.OutlineCount()):
                contours = [kicad.points_of(filled.Outline(i))]
                contours += [kicad.points_of(filled.Hole(i, j)) for j in range(filled.HoleCount(i))]
                found.append((place, cover.Outline([[(x - ox, y - oy) for x, y in one] for one in contours])))
    return found


def touches(group, place, outline):
    """Whether an island lies on a group's copper: a side of it enters the group, or it holds the anchor."""
    if not group.first <= place <= group.last:
        return False
    x0, y0, x1, y1 = (NM * value for value in group.rects[0])
    if not (outline.box[0] <= x1 and x0 <= outline.box[2] and outline.box[1] <= y1 and y0 <= outline.box[3]):
        return False
    if any(cover.enters(*a, *b, x0, y0, x1, y1) for a, b in outline.all_edges):
        return True
    return outline.holds_point(NM * group.anchor[0] + 0.5, NM * group.anchor[1] + 0.5)


def clusters_of(board, model, net):
    """The net's groups in lists: those of a list hang together by zones, or touch; the longest list first."""
    parent = {}

    def root(key):
        while parent.setdefault(key, key) != key:
            key = parent[key]
        return key

    def join(a, b):
        parent[root(a)] = root(b)

    for number, (place, outline) in enumerate(islands_of(board, model, net.code)):
        for i, group in enumerate(net.groups):
            if touches(group, place, outline):
                join(i, ("island", number))
    for i, a in enumerate(net.groups):
        for j in range(i):
            if root(i) != root(j) and groups_meet(a, net.groups[j]):
                join(i, j)
    lists = {}
    for i, group in enumerate(net.groups):
        lists.setdefault(root(i), []).append(group)
    return sorted(lists.values(), key=len, reverse=True)


def groups_meet(a, b):
    """Whether two groups have copper in common on a layer."""
    if a.last < b.first or b.last < a.first:
        return False
    return any(cover.meets(one, other) for one in a.rects for other in b.rects)


def with_links(model, zoned, clusters):
    """The model with small nets for what zones do not join, and these nets.

    Each cluster but the greatest is to be joined to a pad of that, by the two groups that are nearest to each other.
    Links that share a pad are one net; all other pads of a zoned net are nets of their own.
    """
    nets = [net for net in model.nets if net not in zoned]
    links = []
    for net in zoned:
        main, *others = clusters[net.name]
        ends = {}
        for cluster in others:
            start, end = min(((a, b) for a in main for b in cluster), key=lambda pair: distance(*pair))
            ends.setdefault(id(start), [start]).append(end)
        used = {id(group) for groups in ends.values() for group in groups}
        made = [Net(f"{net.name[:50]}~L{i + 1}", net.class_name, groups, net.code, net.title)
                for i, groups in enumerate(ends.values())]
        made.sort(key=lambda link: distance(link.groups[0], link.groups[1]))
        links += made
        nets += made
        nets += [Net(f"{net.name[:50]}~P{i + 1}", net.class_name, [group], None, net.title)
                 for i, group in enumerate(net.groups) if id(group) not in used]
    return replace(model, nets=nets), links
