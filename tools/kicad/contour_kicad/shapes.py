"""Polygons that hold round shapes, in nanometres: sides touch the true curve from outside.

A circle's sides are tangent to it, and among them are those at the turn of the shape and at right angles to it, so
that nothing is added on straight sides.
"""
import math

# How far a corner of a polygon may lie outside its circle.
ARC_ERROR = 2000


def directions(radius, turn):
    """The angles of the sides round a circle: a multiple of four, so that no corner is farther out than the error."""
    least = math.pi / math.acos(radius / (radius + ARC_ERROR)) if radius > 0 else 4
    count = max(8, 4 * math.ceil(least / 4))
    return [turn + 2 * math.pi * i / count for i in range(count)], math.pi / count


def round_points(x, y, radius, turn):
    """The corners of a polygon whose sides are tangent to the circle."""
    if radius <= 0:
        return [(x, y)]
    angles, half_step = directions(radius, turn)
    reach = radius / math.cos(half_step)
    return [(x + reach * math.cos(angle + half_step), y + reach * math.sin(angle + half_step)) for angle in angles]


def hull_of(points):
    """The convex hull (A. M. Andrew's monotone chain, 1979), in whole nanometres."""
    points = sorted({(round(x), round(y)) for x, y in points})
    if len(points) < 3:
        return points
    halves = []
    for ordered in (points, points[::-1]):
        half = []
        for point in ordered:
            while len(half) > 1 and turn_of(half[-2], half[-1], point) <= 0:
                half.pop()
            half.append(point)
        halves += half[:-1]
    return halves


def turn_of(a, b, c):
    """Positive where the way from a by b to c turns to the left."""
    return (b[0] - a[0]) * (c[1] - a[1]) - (b[1] - a[1]) * (c[0] - a[0])


def rounded(corners, radius, turn=0.0):
    """The hull of equal circles round the corners."""
    return hull_of([point for x, y in corners for point in round_points(x, y, radius, turn)])


def line(start, end, width):
    """A line with round ends."""
    turn = math.atan2(end[1] - start[1], end[0] - start[0])
    return rounded([start, end], width / 2, turn)


def rotated(point, degrees):
    """A point turned as KiCad turns items (y goes down, positive angles go against the clock)."""
    angle = math.radians(degrees)
    x, y = point
    return (x * math.cos(angle) + y * math.sin(angle), y * math.cos(angle) - x * math.sin(angle))


def rounded_box(middle, size, radius, degrees):
    """A box with rounded corners round its middle, turned by an angle."""
    half_x, half_y = size[0] / 2 - radius, size[1] / 2 - radius
    corners = [rotated((sx * half_x, sy * half_y), degrees) for sx in (-1, 1) for sy in (-1, 1)]
    return rounded([(middle[0] + x, middle[1] + y) for x, y in corners], radius, -math.radians(degrees))


def arc_points(center, start, degrees):
    """Points on an arc, so near that its lines are at most the error from it."""
    radius = math.dist(center, start)
    first = math.atan2(start[1] - center[1], start[0] - center[0])
    step = 2 * math.acos(max(0.0, 1 - ARC_ERROR / radius)) if radius > ARC_ERROR else math.pi / 4
    count = max(1, math.ceil(math.radians(abs(degrees)) / step))
    angles = [first + math.radians(degrees) * i / count for i in range(count + 1)]
    return [(center[0] + radius * math.cos(angle), center[1] + radius * math.sin(angle)) for angle in angles]
