"""Covers of polygons by rectangles with whole coordinates.

A polygon is a list of contours, each a list of points (x, y) in nanometres; a point is inside where a ray
crosses the contours an odd number of times. A rectangle is (x0, y0, x1, y1) in micrometres. A cover never
leaves a point of the polygon out, and stays in the polygon's `room`: a larger polygon that says how far the
rectangles may reach beyond it.
"""
import math
from bisect import bisect_left

NM = 1000


def floor_um(nm):
    """The greatest whole micrometre that is not above."""
    return nm // NM


def ceil_um(nm):
    """The least whole micrometre that is not below."""
    return -((-nm) // NM)


class Outline:
    """A polygon made ready for slicing: its edges without the horizontal ones, and its vertex rows."""

    def __init__(self, contours):
        self.edges = []
        self.all_edges = []
        rows = set()
        xs = []
        for contour in contours:
            previous = contour[-1]
            for point in contour:
                rows.add(point[1])
                xs.append(point[0])
                self.all_edges.append((previous, point))
                if previous[1] != point[1]:
                    low, high = sorted((previous, point), key=lambda p: p[1])
                    self.edges.append((low[1], high[1], low[0], high[0]))
                previous = point
        self.rows = sorted(rows)
        self.box = (min(xs), self.rows[0], max(xs), self.rows[-1])

    def crossings(self, low, high):
        """The edges that pass the rows from low to high, as (x at low, x at high), from left to right."""
        found = []
        for y0, y1, x0, x1 in self.edges:
            if y0 <= low and y1 >= high:
                slope = (x1 - x0) / (y1 - y0)
                found.append((x0 + slope * (low - y0), x0 + slope * (high - y0)))
        found.sort(key=lambda pair: pair[0] + pair[1])
        return found

    def extents(self, low, high):
        """The columns that the polygon has somewhere in the rows from low to high, as disjoint intervals."""
        first = bisect_left(self.rows, low)
        cuts = [low]
        for row in self.rows[first:]:
            if row >= high:
                break
            if row > low:
                cuts.append(row)
        cuts.append(high)
        spans = []
        for bottom, top in zip(cuts, cuts[1:]):
            found = self.crossings(bottom, top)
            for left, right in zip(found[::2], found[1::2]):
                spans.append((math.floor(min(left)), math.ceil(max(right))))
        return joined(spans)

    def holds_point(self, x, y):
        """Whether the point is inside, for a point that lies on no edge."""
        inside = False
        for y0, y1, x0, x1 in self.edges:
            if y0 <= y < y1 and x0 + (x1 - x0) * (y - y0) / (y1 - y0) < x:
                inside = not inside
        return inside

    def holds(self, rect):
        """Whether the rectangle (micrometres) lies in the polygon: no edge passes its inside, its middle is in."""
        x0, y0, x1, y1 = (NM * value for value in rect)
        if not (self.box[0] <= x0 and self.box[1] <= y0 and x1 <= self.box[2] and y1 <= self.box[3]):
            return False
        for (ax, ay), (bx, by) in self.all_edges:
            if enters(ax, ay, bx, by, x0, y0, x1, y1):
                return False
        return self.holds_point((x0 + x1) / 2, (y0 + y1) / 2)


def enters(ax, ay, bx, by, x0, y0, x1, y1):
    """Whether the line from a to b has a point strictly inside the rectangle (Liang and Barsky, 1984)."""
    if max(ax, bx) <= x0 or min(ax, bx) >= x1 or max(ay, by) <= y0 or min(ay, by) >= y1:
        return False
    start, end = 0.0, 1.0
    for value, step, low, high in ((ax, bx - ax, x0, x1), (ay, by - ay, y0, y1)):
        if step == 0:
            if not low < value < high:
                return False
            continue
        first, second = (low - value) / step, (high - value) / step
        start = max(start, min(first, second))
        end = min(end, max(first, second))
    return start < end


def joined(spans):
    """The union of intervals, as disjoint intervals from left to right."""
    result = []
    for left, right in sorted(spans):
        if result and left <= result[-1][1]:
            result[-1][1] = max(result[-1][1], right)
        else:
            result.append([left, right])
    return [tuple(span) for span in result]


def hull(rect, point):
    """The least rectangle that holds the rectangle and the point."""
    x0, y0, x1, y1 = rect
    x, y = point
    return (min(x0, x), min(y0, y), max(x1, x), max(y1, y))


def contains(outer, inner):
    """Whether the first rectangle holds the second."""
    return outer[0] <= inner[0] and outer[1] <= inner[1] and inner[2] <= outer[2] and inner[3] <= outer[3]


def band(outline, low, high):
    """The rectangles that cover what the polygon has in the rows from low to high (micrometres)."""
    spans = outline.extents(max(NM * low, outline.box[1]), min(NM * high, outline.box[3]))
    wide = joined([(floor_um(left), ceil_um(right)) for left, right in spans])
    return [(left, low, right, high) for left, right in wide]


def greatest_step(fits, limit):
    """The greatest step from 1 to the limit that fits, if fitting is lost once and for all; 0 where 1 does not."""
    if not fits(1):
        return 0
    low, high = 1, 1
    while high < limit and fits(min(2 * high, limit)):
        low = high = min(2 * high, limit)
    if high == limit:
        return limit
    high = min(2 * high, limit)
    while high - low > 1:
        middle = (low + high) // 2
        if fits(middle):
            low = middle
        else:
            high = middle
    return low


def star(outline, room, anchor):
    """A cover whose rectangles all hold the anchor, or None where the room is too narrow for one."""
    bottom, top = floor_um(outline.box[1]), ceil_um(outline.box[3])
    if not bottom <= anchor[1] <= top:
        return None
    found = []
    for start, end in ((top, anchor[1]), (bottom, anchor[1])):
        sign = 1 if end > start else -1
        at = start
        while at != end:
            def fits(step):
                rects = band(outline, *sorted((at, at + sign * step)))
                return all(room.holds(hull(rect, anchor)) for rect in rects)
            step = greatest_step(fits, abs(end - at))
            if step == 0:
                return None
            found += [hull(rect, anchor) for rect in band(outline, *sorted((at, at + sign * step)))]
            at += sign * step
    return without_repeats([stretched(rect, outline, room) for rect in found])


def stretched(rect, outline, room):
    """The rectangle made as tall as the room allows, within the rows of the polygon."""
    x0, y0, x1, y1 = rect
    bottom, top = floor_um(outline.box[1]), ceil_um(outline.box[3])
    if y0 > bottom:
        y0 -= greatest_step(lambda step: room.holds((x0, y0 - step, x1, y1)), y0 - bottom)
    if y1 < top:
        y1 += greatest_step(lambda step: room.holds((x0, y0, x1, y1 + step)), top - y1)
    return (x0, y0, x1, y1)


def without_repeats(rects):
    """The rectangles that no other one holds, the largest first."""
    kept = []
    for rect in sorted(set(rects), key=lambda r: (-(r[2] - r[0]) * (r[3] - r[1]), r)):
        if not any(contains(other, rect) for other in kept):
            kept.append(rect)
    return kept


def slices(outline, room):
    """A cover by rows of rectangles, each row as high as the room allows; a row is at least one micrometre."""
    bottom, top = floor_um(outline.box[1]), ceil_um(outline.box[3])
    found = []
    at = bottom
    while at < top:
        def fits(step):
            return all(room.holds(rect) for rect in band(outline, at, at + step))
        step = max(1, greatest_step(fits, top - at))
        found += band(outline, at, at + step)
        at += step
    return found


def turned(contours):
    """The polygon with x and y exchanged."""
    return [[(y, x) for x, y in contour] for contour in contours]


def turned_rect(rect):
    """The rectangle with x and y exchanged."""
    return (rect[1], rect[0], rect[3], rect[2])


def fewest_slices(contours, room_contours):
    """A cover by rows or by columns, whichever takes fewer rectangles."""
    rows = slices(Outline(contours), Outline(room_contours))
    columns = slices(Outline(turned(contours)), Outline(turned(room_contours)))
    if len(columns) < len(rows):
        return [turned_rect(rect) for rect in columns]
    return rows


def chain(contours, room_contours, anchor):
    """A cover by slices that reach into one another, the ones that hold the anchor first."""
    by_rows = chain_of_rows(Outline(contours), Outline(room_contours), anchor)
    x, y = anchor
    by_columns = chain_of_rows(Outline(turned(contours)), Outline(turned(room_contours)), (y, x))
    if len(by_columns) < len(by_rows):
        return [turned_rect(rect) for rect in by_columns]
    return by_rows


def chain_of_rows(outline, room, anchor):
    """Rows of rectangles, each stretched as far as the room allows, from the anchor outwards."""
    found = without_repeats([stretched(rect, outline, room) for rect in slices(outline, room)])
    return outwards(found, anchor)


def outwards(rects, anchor):
    """The rectangles in an order in which each touches one before it, where it touches any at all."""
    left = sorted(rects, key=lambda rect: away(rect, anchor))
    ordered = [left.pop(0)]
    while left:
        touching = (rect for rect in left if any(meets(rect, other) for other in ordered))
        following = next(touching, left[0])
        left.remove(following)
        ordered.append(following)
    return ordered


def meets(a, b):
    """Whether two rectangles have a point in common."""
    return a[0] <= b[2] and b[0] <= a[2] and a[1] <= b[3] and b[1] <= a[3]


def away(rect, point):
    """How far the point is from the rectangle, across and up together."""
    x, y = point
    return max(rect[0] - x, 0, x - rect[2]) + max(rect[1] - y, 0, y - rect[3])


def is_upright(contours):
    """Whether every side of the polygon is parallel to an axis."""
    return all(a[0] == b[0] or a[1] == b[1]
               for contour in contours for a, b in zip(contour, contour[1:] + contour[:1]))
