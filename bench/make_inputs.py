#!/usr/bin/env python3
"""Makes the benchmark's files: bench/make_inputs.py FOLDER

    largest.in   100 km, a row every metre, all lists as long as a road can have them
    usual.in     5 km, a row every 20 m
    refused.in   the largest road, with a crossfall that changes on the last arc (R 19 194)
    mountain.in  100 km, a row every metre, most of them on egg curves and in reversing bends
    any_speed.in the mountain road with wider bends and milder grades: it passes at all seven speeds

The files are the same at every run.
"""
import pathlib
import sys

STRAIGHT, ARC, CLOTHOID = 0, 1, 2
ROOF = (-25_000, -25_000)


def number(n):
    """Seven bits to a byte, lowest group first."""
    out = bytearray()
    while n > 127:
        out.append(n & 127 | 128)
        n >>= 7
    out.append(n)
    return bytes(out)


def signed(v):
    return number(2 * v if v >= 0 else -2 * v - 1)


def encode(class_, terrain, step, ramp_limit, elements, height, tangents, points):
    out = [number(class_), number(terrain), number(step), number(ramp_limit)]
    out.append(number(len(elements)))
    for kind, length, radius in elements:
        out += [number(kind), number(length)]
        if kind == ARC:
            out.append(signed(radius))
    out += [signed(height), number(len(tangents))]
    for i, (length, grade, half) in enumerate(tangents):
        out += [number(length), signed(grade)]
        if i < len(tangents) - 1:
            out.append(number(half))
    out.append(number(len(points)))
    for station, left, right in points:
        out += [number(station), signed(left), signed(right)]
    return b"".join(out)


def tilt(radius, crossfall):
    """Left and right on an arc, the inner side negative."""
    return (crossfall, -crossfall) if radius > 0 else (-crossfall, crossfall)


def plan(straights, bends):
    """Elements of straights and bends in turn, and the points of the bends' crossfalls: the ramps
    lie on the clothoids. A bend is clothoid length, arc length, radius, clothoid length, crossfall
    (None for the roof)."""
    elements = [(STRAIGHT, straights[0], 0)]
    points = []
    station = straights[0]
    for (into, arc, radius, out, crossfall), straight in zip(bends, straights[1:]):
        on_arc = ROOF if crossfall is None else tilt(radius, crossfall)
        points += [
            (station, *ROOF),
            (station + into, *on_arc),
            (station + into + arc, *on_arc),
            (station + into + arc + out, *ROOF),
        ]
        elements += [(CLOTHOID, into, 0), (ARC, arc, radius), (CLOTHOID, out, 0)]
        elements.append((STRAIGHT, straight, 0))
        station += into + arc + out + straight
    return elements, points, station


def hundred_tangents(total, least=40_000, spread=60_000):
    """Uphill and downhill in turn, with curves between them; at 40 km/h, 100 km."""
    tangents = []
    for i in range(99):
        grade = least + i // 2 * 6151 % spread + i % 7
        half = 400_003 + i * 3571 % 50_000
        tangents.append((999_503 + i * 577 % 1009, grade if i % 2 == 0 else -grade, half))
    rest = total - sum(t[0] for t in tangents)
    return [*tangents, (rest, -30_000, 0)]


def largest(change_on_last_arc=0):
    """40 km/h: no rule for straights. 197 elements, 100 tangents, 200 crossfall points."""
    total = 100_000_000
    lengths = [507_001 + i * 7919 % 1201 for i in range(196)]
    lengths.append(total - sum(lengths))
    bends = []
    for b in range(49):
        into, arc, out = lengths[4 * b + 1 : 4 * b + 4]
        radius = (45_000 + 61_003 * b) * (-1 if b % 3 == 1 else 1)
        bends.append((into, arc, radius, out, 25_000 + 977 * b % 45_000))
    elements, points, length = plan(lengths[::4], bends)
    assert length == total and len(elements) == 197
    points = [(0, *ROOF), (253_507, *ROOF), *points]
    points += [(total - 253_507, *ROOF), (total, *ROOF)]
    assert len(points) == 200
    if change_on_last_arc:
        station, left, right = points[-4]
        points[-4] = (station, left, right + change_on_last_arc)

    return encode(4, 3, 1_000, 5_000, elements, 1_000_000, hundred_tangents(total), points)


def usual():
    """80 km/h: four bends, one of them with a roof, and five vertical curves."""
    bends = [
        (80_000, 240_350, 350_000, 80_000, 50_000),
        (90_000, 310_125, -400_000, 90_000, 45_000),
        (60_000, 400_000, 2_600_000, 60_000, None),
        (100_000, 280_480, -300_000, 100_000, 60_000),
    ]
    straights = [600_200, 450_700, 700_333, 520_412]
    total = 5_000_000
    straights.append(total - sum(straights) - sum(b[0] + b[1] + b[3] for b in bends))
    elements, points, length = plan(straights, bends)
    assert length == total
    points = [(0, *ROOF), *points, (total, *ROOF)]
    tangents = [
        (800_000, 20_000, 90_000),
        (900_000, -15_000, 80_000),
        (700_000, 30_000, 150_000),
        (1_100_000, -40_000, 70_000),
        (900_000, 5_000, 60_000),
        (600_000, -20_000, 0),
    ]
    return encode(2, 2, 20_000, 5_000, elements, 212_345, tangents, points)


def eggs_and_pairs(total, least_radius, least_straight):
    """80 arcs, no two of one radius, none over 1,000,000. From one to the next lead an egg (E), a
    reversing pair (P) or two clothoids with a straight between them (S): 45, 31 and 3 times. 200
    elements, 200 crossfall points: both ends of arcs and straights, and where the clothoids of a pair
    meet, the first pair apart."""
    radii = 1_000_001 - least_radius
    links = ("PEPEE" * 16)[:76]
    links = "S".join(links[i : i + 19] for i in range(0, 76, 19))
    elements, points, station = [], [], 0

    def add(kind, length, radius=0):
        nonlocal station
        length += len(elements) * 7919 % 1201
        elements.append((kind, length, radius))
        station += length

    def point(crossfalls):
        points.append((station, *crossfalls))

    def straight(length):
        point(ROOF)
        add(STRAIGHT, length)
        point(ROOF)

    def arc(i, turn):
        radius = turn * (1_000_000 - (361_013 + 7919 * i) * i % radii)
        on_arc = tilt(radius, 25_000 + 977 * i % 45_000)
        point(on_arc)
        add(ARC, 149_003, radius)
        point(on_arc)

    turn = 1
    straight(least_straight)
    add(CLOTHOID, 149_003)
    arc(0, turn)
    for i, link in enumerate(links, 1):
        if link == "E":
            add(CLOTHOID, 1_001_003)
        elif link == "P":
            turn = -turn
            add(CLOTHOID, 655_003)
            if i > 1:
                point(ROOF)
            add(CLOTHOID, 655_003)
        else:
            add(CLOTHOID, 149_003)
            straight(least_straight)
            add(CLOTHOID, 149_003)
        arc(i, turn)
    add(CLOTHOID, 149_003)
    straight(total - station - len(elements) * 7919 % 1201)
    assert station == total and len(elements) == len(points) == 200
    assert len({abs(radius) for kind, _, radius in elements if kind == ARC}) == 80
    return elements, points


def mountain():
    """40 km/h: 200 elements, 100 tangents, 200 crossfall points."""
    total = 100_000_000
    elements, points = eggs_and_pairs(total, 45_000, 199_001)
    return encode(4, 3, 1_000, 5_000, elements, 1_000_000, hundred_tangents(total), points)


def any_speed():
    """100 km/h, within the limits of every lower speed too: no straight over 1,200 m, no roof on an
    arc. The lists are as long as the mountain road's."""
    total = 100_000_000
    elements, points = eggs_and_pairs(total, 450_000, 200_003)
    tangents = hundred_tangents(total, 20_000, 29_995)
    return encode(1, 1, 1_000, 5_000, elements, 300_000, tangents, points)


def main():
    if len(sys.argv) != 2:
        sys.exit(__doc__.strip())
    folder = pathlib.Path(sys.argv[1])
    folder.mkdir(parents=True, exist_ok=True)
    (folder / "largest.in").write_bytes(largest())
    (folder / "usual.in").write_bytes(usual())
    (folder / "refused.in").write_bytes(largest(change_on_last_arc=1))
    (folder / "mountain.in").write_bytes(mountain())
    (folder / "any_speed.in").write_bytes(any_speed())


main()
