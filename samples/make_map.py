#!/usr/bin/env python3
"""make_map.py [--check]: makes the sample map, map.sheet, map.tiles and map.dds beside this file; with --check it only compares.

The map is of our own making: a terrain by noise of a fixed seed, a station on a hill, and around it the link margin as a colour, from dark
blue where it is weak to yellow where it is strong. Alpha is the terrain mask: 255 where the station is in sight, 0 deep behind a ridge.

Each block gets the mode that draws it best, by a search that knows the lines of a block from compare/model.py. What is stored is made by
the proved code, through the program `replay` (`rt run` in crates/replay builds it): heads by W, each line put in by R, which turns the pair
where the anchor asks for it, and the DDS file by X. The pixels are drawn by D and held to the terrain's. Only the order of the blocks in
map.tiles is computed here, from the words of the request: so it says the same as the moves of the proved code, and not because they made it.

Only sums, products, quotients and square roots of numbers are taken, which every machine rounds alike: the bytes are the same everywhere.
"""
import math
import sys
from collections import Counter
from pathlib import Path

HERE = Path(__file__).resolve().parent
sys.path.insert(0, str(HERE.parent / "compare"))
import model
import protocol
import tools

WIDTH, HEIGHT = 301, 205
SEED = 109
STATION = (168, 128)
TOWERS = (((188, 110), 150), ((152, 148), 130), ((150, 106), 170))  # places of two by two, and metres


def total(values):
    """The sum from the left, rounded at each step. Python's own rounds otherwise from 3.12 on, and the map would be another."""
    so_far = 0
    for value in values:
        so_far += value
    return so_far


# ---------------------------------------------------------------------------------------------------------------------
# The terrain and what is seen of it.


def lattice(x, y, octave):
    """A number from 0 to 1 for each point of a grid."""
    mixed = (x * 374761393 + y * 668265263 + (SEED + octave) * 2246822519) & 0xFFFFFFFF
    for shift, factor in ((15, 2246822519), (13, 3266489917)):
        mixed = (mixed ^ mixed >> shift) * factor & 0xFFFFFFFF
    return (mixed ^ mixed >> 16) / 0xFFFFFFFF


def height_at(x, y):
    """Metres above the sea, from four octaves of noise."""
    height = 0
    for octave, (cell, metres) in enumerate(((64, 420), (32, 210), (16, 80), (8, 25))):
        column, across = divmod(x / cell, 1)
        row, down = divmod(y / cell, 1)
        across, down = (t * t * (3 - 2 * t) for t in (across, down))
        top, bottom = (
            lattice(int(column), int(row) + i, octave) * (1 - across) + lattice(int(column) + 1, int(row) + i, octave) * across for i in (0, 1)
        )
        height += metres * (top * (1 - down) + bottom * down)
    return height


def hidden_metres(heights, eye):
    """For each place how far it lies below what the station sees there, 0 where it is in sight. From the station outwards: the line of sight
    to a place passes between two places that are one step nearer, and is at least as steep as theirs."""
    x0, y0 = STATION
    steepest, hidden = {}, {STATION: 0}
    for x, y in sorted(heights, key=lambda at: max(abs(at[0] - x0), abs(at[1] - y0))):
        dx, dy = x - x0, y - y0
        steps = max(abs(dx), abs(dy))
        if steps == 0:
            continue
        distance = math.sqrt(dx * dx + dy * dy)
        slope = (heights[x, y] + 2 - eye) / distance
        seen = -1e9
        if steps > 1:
            if abs(dx) == steps:
                nearer_y = y0 + dy * (steps - 1) / steps
                low = math.floor(nearer_y)
                part, near = nearer_y - low, x - (1 if dx > 0 else -1)
                seen = steepest[near, low] if part == 0 else steepest[near, low] * (1 - part) + steepest[near, low + 1] * part
            else:
                nearer_x = x0 + dx * (steps - 1) / steps
                low = math.floor(nearer_x)
                part, near = nearer_x - low, y - (1 if dy > 0 else -1)
                seen = steepest[low, near] if part == 0 else steepest[low, near] * (1 - part) + steepest[low + 1, near] * part
        hidden[x, y] = max(0, (seen - slope) * distance)
        steepest[x, y] = max(seen, slope)
    return hidden


def log2(x):
    """Of a number above 0, by its square roots: no machine rounds it otherwise."""
    whole = 0
    while x >= 2:
        x, whole = x / 2, whole + 1
    part, step = 0, 1.0
    for _ in range(20):
        x, step = x * x, step / 2
        if x >= 2:
            x, part = x / 2, part + step
    return whole + part


# Weak to strong, at equal steps of margin.
SCALE = ((38, 24, 92), (42, 78, 140), (32, 132, 142), (60, 180, 112), (158, 216, 60), (253, 231, 37))


def colour_of(margin):
    """Of a margin from 0 to 1."""
    at = min(max(margin, 0), 1) * (len(SCALE) - 1)
    stop = min(int(at), len(SCALE) - 2)
    return tuple(int(a + (b - a) * (at - stop) + 0.5) for a, b in zip(SCALE[stop], SCALE[stop + 1]))


def pixels():
    """The map, pixel by pixel: what the blocks are to draw."""
    heights = {(x, y): height_at(x, y) for y in range(HEIGHT) for x in range(WIDTH)}
    for (x, y), metres in TOWERS:
        for place in ((x, y), (x + 1, y), (x, y + 1), (x + 1, y + 1)):
            heights[place] += metres
    hidden = hidden_metres(heights, heights[STATION] + 25)
    found = {}
    for (x, y), metres in hidden.items():
        dx, dy = x - STATION[0], y - STATION[1]
        loss = log2(1 + math.sqrt(dx * dx + dy * dy) / 12) / 5 + min(metres, 45) / 75
        alpha = 255 - int(min(max(metres - 30, 0) / 40, 1) * 255)
        found[x, y] = (*colour_of(1.02 - loss), alpha)
    return found


# ---------------------------------------------------------------------------------------------------------------------
# The best block for sixteen pixels.


def ends_of(points):
    """The two ends of the points along the axis on which they lie apart most."""
    channels = range(len(points[0]))
    middle = [total(point[c] for point in points) / len(points) for c in channels]
    apart = [[point[c] - middle[c] for c in channels] for point in points]
    axis = max(apart, key=lambda d: total(v * v for v in d))
    for _ in range(3):
        along = [total(d[c] * axis[c] for c in channels) for d in apart]
        axis = [total(t * d[c] for t, d in zip(along, apart)) for c in channels]
        length = math.sqrt(total(v * v for v in axis))
        if length == 0:
            return middle, middle
        axis = [v / length for v in axis]
    along = [total(d[c] * axis[c] for c in channels) for d in apart]
    return tuple([middle[c] + t * axis[c] for c in channels] for t in (min(along), max(along)))


def stored(target, widths, p):
    """The values of an endpoint that come nearest to it with this p bit, or without one, and what they are drawn as."""
    values, drawn = [], []
    for wanted, width in zip(target, widths):
        most = (1 << width) - 1
        bits = width + (p is not None)
        exact = min(max(wanted, 0), 255) * ((1 << bits) - 1) / 255
        value = min(max(int((exact - p) / 2 + 0.5) if p is not None else int(exact + 0.5), 0), most)
        values.append(value)
        drawn.append(model.eight_bits(2 * value + p if p is not None else value, bits))
    return values, drawn


def fitted_line(mode, split, number, wanted):
    """A replacement for the line that comes near to the wanted pixels, and its error: the sum of squares."""
    line = model.lines(mode, split)[number]
    shown = [model.rotated(split, channel) for channel in line.channels]
    widths = [model.channel_width(mode, channel) for channel in line.channels]
    points = [[wanted[pixel][channel] for channel in shown] for pixel in line.pixels]
    given, drawn = [0] * 26, []
    if not line.p:
        choices = ((None, None),)
    elif 3 in shown and all(colour[3] == 255 for colour in wanted):
        choices = ((1, 1),)  # with another p bit alpha would be 254
    elif mode == 1:
        choices = ((0, 0), (1, 1))
    else:
        choices = ((0, 0), (0, 1), (1, 0), (1, 1))
    ends = ends_of(points)
    tried = []
    for ps in choices:
        both = [stored(end, widths, p) for end, p in zip(ends, ps)]
        away = total((a - b) * (a - b) for (_, as_drawn), end in zip(both, ends) for a, b in zip(as_drawn, end))
        tried.append((away, ps, both))
    _, ps, both = min(tried)
    for end, (values, as_drawn) in enumerate(both):
        for channel, value in zip(line.channels, values):
            given[4 * end + channel] = value
        given[8 + end] = ps[end] or 0
        drawn.append(as_drawn)
    palette = [[((64 - w) * a + w * b + 32) // 64 for a, b in zip(*drawn)] for w in model.WEIGHTS[line.index_width]]
    error = 0
    for pixel, point in zip(line.pixels, points):
        away, index = min((total((a - b) * (a - b) for a, b in zip(colour, point)), index) for index, colour in enumerate(palette))
        given[10 + pixel] = index
        error += away
    return error, given


def fitted(mode, split, wanted):
    """Error, mode, split and lines."""
    found = [fitted_line(mode, split, number, wanted) for number in range(model.MODES[mode].lines)]
    return total(error for error, _ in found), mode, split, [given for _, given in found]


def likely_partitions(mode, wanted, count):
    """The partitions of the mode whose subsets are most alike."""
    kind = model.MODES[mode].kind

    def apart(partition):
        spread = 0
        for line in model.lines(mode, (kind, partition)):
            for c in range(4):
                values = [wanted[pixel][c] for pixel in line.pixels]
                spread += total(v * v for v in values) - total(values) * total(values) / len(values)
        return spread

    return [(kind, partition) for partition in sorted(range(1 << model.MODES[mode].split_bits[0]), key=apart)[:count]]


NEAR = 20  # a block whose pixels differ by so little, as the sum of squares, isn't tried in further modes


def best_block(wanted):
    opaque = all(colour[3] == 255 for colour in wanted)
    found = [fitted(6, ("whole",), wanted)]
    if not opaque and min(found)[0] > NEAR:
        found += [fitted(5, ("vector", rotation, 0), wanted) for rotation in (0, 1)]
        found += [fitted(4, ("vector", 0, index_mode), wanted) for index_mode in (0, 1)]
    for mode, count in ((1, 3), (3, 2), (0, 2), (2, 2)) if opaque else ((7, 3),):
        if min(found)[0] > NEAR:
            found += [fitted(mode, split, wanted) for split in likely_partitions(mode, wanted, count)]
    return min(found)


# ---------------------------------------------------------------------------------------------------------------------
# The files.


def answers(calls, length):
    """The answers of replay, each of this length behind a refusal of 0."""
    said = tools.through(REPLAY, b"".join(map(protocol.call_bytes, calls)))
    step = 1 + length
    assert len(said) == step * len(calls) and not any(said[::step]), "replay refuses a call"
    return [said[at + 1 : at + step] for at in range(0, len(said), step)]


def opened(mode, split):
    """A block of this mode and split with zeros behind them."""
    number, bit = 1 << mode, mode + 1
    for value, width in zip(split[1:], model.MODES[mode].split_bits):
        number, bit = number | value << bit, bit + width
    return number.to_bytes(16, "little")


def tile_order(columns, rows):
    """The numbers of the blocks as form 2 stores them: tiles of 8 by 8, row by row, and in each tile its slots from 0 to 63, whose even bits
    are the column's and odd bits the row's; a slot beyond the sheet is left out."""
    for top in range(0, rows, 8):
        for left in range(0, columns, 8):
            for slot in range(64):
                column = left + (slot & 1) + (slot >> 1 & 2) + (slot >> 2 & 4)
                row = top + (slot >> 1 & 1) + (slot >> 2 & 2) + (slot >> 3 & 4)
                if column < columns and row < rows:
                    yield row * columns + column


def files(wanted):
    """The bytes of the sheet, of the sheet in tiles and of the DDS file, and the blocks."""
    chosen, blocks = [], []
    for top in range(0, HEIGHT, 4):
        for left in range(0, WIDTH, 4):
            places = [(min(left + i % 4, WIDTH - 1), min(top + i // 4, HEIGHT - 1)) for i in range(16)]
            chosen.append(best_block([wanted[place] for place in places]))
            blocks.append(opened(*chosen[-1][1:3]))
    for number in range(3):
        with_line = [i for i, (_, _, _, lines) in enumerate(chosen) if number < len(lines)]
        calls = [("R", blocks[i], number, chosen[i][3][number]) for i in with_line]
        for i, block in zip(with_line, answers(calls, 16)):
            blocks[i] = block
    (head,) = answers([("W", WIDTH, HEIGHT)], 8)
    form_and_size = head[1 : 1 + head[0]]
    sheet = form_and_size + b"".join(blocks)
    order = tile_order(model.in_blocks(WIDTH), model.in_blocks(HEIGHT))
    tiles = b"\2" + form_and_size[1:] + b"\0" + b"".join(blocks[number] for number in order)
    needed = 148 + 16 * len(blocks)
    (dds,) = answers([("X", sheet, bytes(needed))], needed)
    return sheet, tiles, dds, blocks


def report(wanted, blocks):
    """What is drawn against what was meant, in words."""
    said = tools.through(REPLAY, b"".join(protocol.call_bytes(("D", block)) for block in blocks))
    across, worst, off = model.in_blocks(WIDTH), 0, 0
    for (x, y), colour in wanted.items():
        at = 64 * (y // 4 * across + x // 4) + 4 * (y % 4 * 4 + x % 4)
        away = [abs(a - b) for a, b in zip(said[at : at + 4], colour)]
        worst, off = max(worst, *away), off + total(away)
    modes = Counter(map(model.mode_of, blocks))
    return "blocks by mode: %s; a channel is off by %d at the most, by %.2f on average" % (
        ", ".join("%d: %d" % item for item in sorted(modes.items())), worst, off / (4 * len(wanted)))


if __name__ == "__main__":
    if sys.argv[1:] not in ([], ["--check"]):
        sys.exit("usage: make_map.py [--check]")
    REPLAY = tools.program("replay")
    if REPLAY is None:
        sys.exit("make_map.py: crates/replay/out/replay isn't built; rt run in crates/replay builds it")
    meant = pixels()
    *made, made_blocks = files(meant)
    names = ("map.sheet", "map.tiles", "map.dds")
    if len(sys.argv) == 1:
        for name, data in zip(names, made):
            (HERE / name).write_bytes(data)
        print(report(meant, made_blocks))
    elif any((HERE / name).read_bytes() != data for name, data in zip(names, made)):
        sys.exit("make_map.py: %s, %s or %s is another" % names)
