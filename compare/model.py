"""Document 01 read a second time, and document 02 as far as it has landed, in Python and for clarity: what every public
call answers.

A block is one number of 128 bits, byte 0 lowest. For a mode and its split, each stored value has a first bit and a
width; a record is the list of these values; a line is the part of the record that one endpoint pair draws with. All
else follows from those three tables. Nothing here is taken from the code that it is compared with.

Values are plain integers and tuples:
  split        ("whole",), ("two", partition), ("three", partition) or ("vector", rotation, index mode)
  record       Record(mode, split, values), 62 values: 24 endpoint values (endpoint 0 red green blue alpha, endpoint 1,
               ..), 6 p bits, 16 first indexes, 16 second indexes
  replacement  26 values: 8 endpoint values, 2 p bits, 16 indexes
  pixels       64 bytes, red green blue alpha of the pixels 0 to 15
"""
import struct
from collections import namedtuple
from fractions import Fraction
from functools import lru_cache
from itertools import islice

import halves
import partitions

# ---------------------------------------------------------------------------------------------------------------------
# The mode table: the kind of split, its bits, the widths of a colour and an alpha value, how many p bits, and the
# widths of the two index sets.
Mode = namedtuple("Mode", "kind lines split_bits colour alpha p index_widths")
MODES = (
    Mode("three", 3, (4,), 4, 0, 6, (3, 0)),
    Mode("two", 2, (6,), 6, 0, 2, (3, 0)),
    Mode("three", 3, (6,), 5, 0, 0, (2, 0)),
    Mode("two", 2, (6,), 7, 0, 4, (2, 0)),
    Mode("vector", 2, (2, 1), 5, 6, 0, (2, 3)),
    Mode("vector", 2, (2, 0), 7, 8, 0, (2, 2)),
    Mode("whole", 1, (), 7, 7, 2, (4, 0)),
    Mode("two", 2, (6,), 5, 5, 4, (2, 0)),
)
RESERVED = 8

# The format's own weights, of 64.
WEIGHTS = {
    2: (0, 21, 43, 64),
    3: (0, 9, 18, 27, 37, 46, 55, 64),
    4: (0, 4, 9, 13, 17, 21, 26, 30, 34, 38, 43, 47, 51, 55, 60, 64),
}

Record = namedtuple("Record", "mode split values")
P_BITS, FIRST, SECOND, VALUES = 24, 30, 46, 62  # where the parts of a record's values begin, and how many there are
ZERO_RECORD = Record(0, ("whole",), (0,) * VALUES)
ZERO_BLOCK = bytes(16)
ZERO_PIXELS = bytes(64)


def mode_of(block):
    """The trailing zero bits of byte 0: 8 where it is zero."""
    return next((bit for bit in range(8) if block[0] >> bit & 1), RESERVED)


def splits(mode):
    """Every split that a mode can store."""
    kind, bits = MODES[mode].kind, MODES[mode].split_bits
    if kind == "whole":
        return [("whole",)]
    if kind == "vector":
        return [(kind, rotation, index_mode) for rotation in range(4) for index_mode in range(1 << bits[1])]
    return [(kind, partition) for partition in range(1 << bits[0])]


# ---------------------------------------------------------------------------------------------------------------------
# Lines: which endpoints, channels, p bits, indexes and pixels one line has, and which pixel is its anchor.
Line = namedtuple("Line", "ends channels p indexes index_width pixels anchor")


@lru_cache(None)
def lines(mode, split):
    m = MODES[mode]
    everything = tuple(range(16))
    if m.kind == "vector":
        # The 2-bit set of mode 4 is stored first; it is the vector's under index mode 0, the scalar's under 1.
        vector, scalar = (1, 0) if split[2] == 1 else (0, 1)
        starts = (FIRST, SECOND)
        return (
            Line((0, 1), (0, 1, 2), None, starts[vector], m.index_widths[vector], everything, 0),
            Line((0, 1), (3,), None, starts[scalar], m.index_widths[scalar], everything, 0),
        )
    if m.kind == "whole":
        subset_of, anchors = (0,) * 16, (0,)
    else:
        subset_of, anchors = partitions.subsets(m.kind, split[1]), partitions.anchors(m.kind, split[1])
    channels = (0, 1, 2, 3) if m.alpha else (0, 1, 2)
    found = []
    for subset in range(m.lines):
        ends = (2 * subset, 2 * subset + 1)
        if m.p == 0:
            p = None
        elif mode == 1:  # one p bit serves both endpoints of a subset
            p = (P_BITS + subset, P_BITS + subset)
        else:
            p = (P_BITS + ends[0], P_BITS + ends[1])
        pixels = tuple(pixel for pixel in range(16) if subset_of[pixel] == subset)
        found.append(Line(ends, channels, p, FIRST, m.index_widths[0], pixels, anchors[subset]))
    return tuple(found)


def channel_width(mode, channel):
    return MODES[mode].alpha if channel == 3 else MODES[mode].colour


# ---------------------------------------------------------------------------------------------------------------------
# Where the values of a record stand in a block.
@lru_cache(None)
def full_widths(mode):
    """The width of each of the 62 values, anchors not yet considered; 0 for what the mode doesn't use."""
    m = MODES[mode]
    endpoints = 2 if m.kind == "vector" else 2 * m.lines
    widths = [channel_width(mode, channel) if end < endpoints else 0 for end in range(6) for channel in range(4)]
    widths += [1 if number < m.p else 0 for number in range(6)]
    widths += [m.index_widths[0]] * 16 + [m.index_widths[1]] * 16
    return tuple(widths)


@lru_cache(None)
def anchor_places(mode, split):
    """The values of a record that are an anchor's index."""
    return frozenset(line.indexes + line.anchor for line in lines(mode, split))


@lru_cache(None)
def layout(mode, split):
    """(value's number, first bit, width) of every stored value after the split, in stored order."""
    order = [4 * end + channel for channel in range(4) for end in range(6)] + list(range(P_BITS, VALUES))
    bit = mode + 1 + sum(MODES[mode].split_bits)
    found = []
    for number in order:
        width = full_widths(mode)[number] - (number in anchor_places(mode, split))
        if width > 0:
            found.append((number, bit, width))
            bit += width
    assert bit == 128, (mode, split, bit)
    return tuple(found)


def field(number, bit, width):
    return number >> bit & ((1 << width) - 1)


def reads(block, kinds):
    """Reads of the bit reader, one after the other from the block's start. A kind is 0 for one bit, 1 to 8 for so many, and 128 and
    a count of 1 to 64. Each answers a refusal, the value, the number of its first bit, and how many bits remain afterwards; one
    that wants more than remain is refused with 22, and the reader stays where it is."""
    left, answers = [byte >> bit & 1 for byte in block for bit in range(8)], []
    for kind in kinds:
        first, count = 128 - len(left), 1 if kind == 0 else kind % 128
        if count > len(left):
            answers.append((22, 0, first, len(left)))
        else:
            taken, left = left[:count], left[count:]
            answers.append((0, sum(bit << place for place, bit in enumerate(taken)), first, len(left)))
    return answers


def split_of(mode, number):
    kind, bits = MODES[mode].kind, MODES[mode].split_bits
    stored, bit = [], mode + 1
    for width in bits:
        stored.append(field(number, bit, width))
        bit += width
    return (kind, *stored)


def take_apart(block):
    """The record of a block whose first byte isn't zero."""
    mode, number = mode_of(block), int.from_bytes(block, "little")
    split = split_of(mode, number)
    values = [0] * VALUES
    for place, bit, width in layout(mode, split):
        values[place] = field(number, bit, width)
    return Record(mode, split, tuple(values))


def put_together(record):
    """The block of a well-formed record."""
    number, bit = 1 << record.mode, record.mode + 1
    for width, value in zip(MODES[record.mode].split_bits, record.split[1:]):
        number |= value << bit
        bit += width
    for place, bit, _ in layout(record.mode, record.split):
        number |= record.values[place] << bit
    return number.to_bytes(16, "little")


def unpack(block):
    if mode_of(block) == RESERVED:
        return 1, ZERO_RECORD
    return 0, take_apart(block)


def pack(record, spare=()):
    """`spare` are bytes that the split's kind hasn't got: their width is 0."""
    if record.mode > 7 or record.split[0] != MODES[record.mode].kind:
        return 5, ZERO_BLOCK
    if any(spare):
        return 3, ZERO_BLOCK
    widths = MODES[record.mode].split_bits + full_widths(record.mode)
    if any(value >> width for value, width in zip(record.split[1:] + tuple(record.values), widths)):
        return 3, ZERO_BLOCK
    full = full_widths(record.mode)
    if any(record.values[place] >> full[place] - 1 for place in anchor_places(record.mode, record.split)):
        return 6, ZERO_BLOCK
    return 0, put_together(record)


# ---------------------------------------------------------------------------------------------------------------------
# Drawing.
def eight_bits(value, width):
    """Shifted to the top, and filled from its own top."""
    return value << (8 - width) | value >> (2 * width - 8)


def line_of(record, line):
    """What a line holds, in the form of a replacement."""
    values = record.values
    held = [0] * 26
    for end in range(2):
        for channel in line.channels:
            held[4 * end + channel] = values[4 * line.ends[end] + channel]
        if line.p:
            held[8 + end] = values[line.p[end]]
    for pixel in line.pixels:
        held[10 + pixel] = values[line.indexes + pixel]
    return held


def paint(pixels, mode, split, line, held):
    """Draws what the 26 values `held` mean as that line, with full indexes, over `pixels` (a bytearray of 64)."""
    weights = WEIGHTS[line.index_width]
    for channel in line.channels:
        width, ends = channel_width(mode, channel), [held[channel], held[4 + channel]]
        if line.p:
            width, ends = width + 1, [2 * ends[0] + held[8], 2 * ends[1] + held[9]]
        first, second = eight_bits(ends[0], width), eight_bits(ends[1], width)
        drawn = [((64 - weight) * first + weight * second + 32) // 64 for weight in weights]
        shown = rotated(split, channel)
        for pixel in line.pixels:
            pixels[4 * pixel + shown] = drawn[held[10 + pixel]]


def rotated(split, channel):
    """Where a channel is shown: rotation 1, 2, 3 swaps alpha with red, green, blue."""
    if split[0] == "vector" and split[1] > 0:
        swapped = split[1] - 1
        return {swapped: 3, 3: swapped}.get(channel, channel)
    return channel


def draw(record):
    pixels = bytearray(b"\0\0\0\xff" * 16)  # modes 0 to 3 have alpha 255, the others draw over it
    for line in lines(record.mode, record.split):
        paint(pixels, record.mode, record.split, line, line_of(record, line))
    return bytes(pixels)


def decode(block):
    return ZERO_PIXELS if mode_of(block) == RESERVED else draw(take_apart(block))


def pixel(block, number):
    """M-105: what the decoder shows at one pixel, red green blue alpha; 21 for 16 and up, whatever the block."""
    if number >= 16:
        return 21, bytes(4)
    return 0, decode(block)[4 * number : 4 * number + 4]


def decode_bc6h(block, signed):
    """M-110: the sixteen pixels of a BC6H block, three halves each, in 96 bytes. The format has its own page, halves.py."""
    return halves.decode(block, signed)


# ---------------------------------------------------------------------------------------------------------------------
# Replacing a line.
@lru_cache(None)
def replacement_widths(mode, split, number):
    """The width of each of a replacement's 26 values in that line; 0 for what the line hasn't got."""
    line = lines(mode, split)[number]
    widths = [channel_width(mode, channel) if channel in line.channels else 0 for channel in range(4)] * 2
    widths += [1 if line.p else 0] * 2
    return tuple(widths + [line.index_width if pixel in line.pixels else 0 for pixel in range(16)])


def read_line(block, number):
    """The refusal, what the line holds as a replacement, and the widths of its 26 values."""
    if mode_of(block) == RESERVED:
        return 1, (0,) * 26, (0,) * 26
    record = take_apart(block)
    if number >= MODES[record.mode].lines:
        return 2, (0,) * 26, (0,) * 26
    line = lines(record.mode, record.split)[number]
    return 0, line_of(record, line), replacement_widths(record.mode, record.split, number)


def replacement_refusal(block, number, new):
    if mode_of(block) == RESERVED:
        return 1
    mode, split = mode_of(block), split_of(mode_of(block), int.from_bytes(block, "little"))
    if number >= MODES[mode].lines:
        return 2
    if any(value >> width for value, width in zip(new, replacement_widths(mode, split, number))):
        return 3
    if mode == 1 and new[8] != new[9]:
        return 4
    return 0


def turned(line, new):
    """Endpoints and p bits exchanged, each index of the line counted from the other end."""
    last = (1 << line.index_width) - 1
    indexes = [last - new[10 + pixel] if pixel in line.pixels else 0 for pixel in range(16)]
    return [*new[4:8], *new[0:4], new[9], new[8], *indexes]


def replace(block, number, new):
    refusal = replacement_refusal(block, number, new)
    if refusal:
        return refusal, bytes(block)
    record = take_apart(block)
    line = lines(record.mode, record.split)[number]
    if new[10 + line.anchor] >> line.index_width - 1:
        new = turned(line, new)
    values = list(record.values)
    for end in range(2):
        for channel in line.channels:
            values[4 * line.ends[end] + channel] = new[4 * end + channel]
        if line.p:
            values[line.p[end]] = new[8 + end]
    for pixel in line.pixels:
        values[line.indexes + pixel] = new[10 + pixel]
    refusal, changed = pack(record._replace(values=tuple(values)))
    assert refusal == 0  # the anchor's top bit is clear now, and all else was within its width
    return 0, changed


# ---------------------------------------------------------------------------------------------------------------------
# M-100: which index of a line gives a wanted colour at a pixel.
def drawn_with(record, line, pixel, index):
    """What the line as it stands draws at that pixel with that index: the value of each shown channel that it draws."""
    held = line_of(record, line)
    held[10 + pixel] = index
    pixels = bytearray(64)
    paint(pixels, record.mode, record.split, line._replace(pixels=(pixel,)), held)
    shown = [rotated(record.split, channel) for channel in line.channels]
    return {channel: pixels[4 * pixel + channel] for channel in shown}


def distances(block, number, pixel, wanted):
    """refusal, the sum of squared differences of every index of the line's full width"""
    if mode_of(block) == RESERVED:
        return 1, []
    record = take_apart(block)
    if number >= MODES[record.mode].lines:
        return 2, []
    line = lines(record.mode, record.split)[number]
    if pixel not in line.pixels:
        return 13, []
    found = []
    for index in range(1 << line.index_width):
        drawn = drawn_with(record, line, pixel, index)
        found.append(sum((value - wanted[channel]) ** 2 for channel, value in drawn.items()))
    return 0, found


def nearest_index(block, number, pixel, wanted):
    """refusal, the index: of equal ones the lowest"""
    refusal, found = distances(block, number, pixel, wanted)
    return (refusal, 0) if refusal else (0, found.index(min(found)))


def exact_index(block, number, pixel, wanted):
    refusal, found = distances(block, number, pixel, wanted)
    if refusal:
        return refusal, 0
    return (0, found.index(0)) if 0 in found else (14, 0)


# ---------------------------------------------------------------------------------------------------------------------
# M-101: does every shown pixel of a block have alpha 255?
def is_opaque(block, columns, rows):
    """The full answer: no pixel in one of the first `columns` columns and one of the first `rows` rows has another alpha."""
    pixels = decode(block)
    return all(pixels[4 * (4 * y + x) + 3] == 255 for y in range(min(4, rows)) for x in range(min(4, columns)))


# ---------------------------------------------------------------------------------------------------------------------
# The sheet.
LARGEST_SIDE, GROUPS = 16384, 3
ROWS, TILES = FORMS = 1, 2  # the forms of a sheet, by the order of its blocks
UNSPECIFIED, LINEAR, SRGB = COLOUR_SPACES = 0, 1, 2
Head = namedtuple("Head", "width height start colour_space form")
NO_HEAD = Head(0, 0, 0, UNSPECIFIED, 0)


def write_number(value):
    groups = []
    while value > 127:
        groups.append(value & 127 | 128)
        value >>= 7
    return bytes(groups + [value])


def read_number(data, at):
    """(value, where it ends), or None: cut off, not shortest, or over three groups."""
    value = 0
    for group in range(GROUPS):
        if at + group >= len(data):
            return None
        byte = data[at + group]
        value |= (byte & 127) << 7 * group
        if byte < 128:
            shortest = byte > 0 or group == 0
            return (value, at + group + 1) if shortest else None
    return None


def size_fits(width, height):
    return 1 <= width <= LARGEST_SIDE and 1 <= height <= LARGEST_SIDE


def read_head(data, forms=FORMS):
    """refusal, the head. Form 2 has a number more, the colour space; form 1 has no room for one. A call that takes one form alone gives 8
    for the other where the form is read, before anything that stands behind it."""
    form = read_number(data, 0)
    if form is None:
        return 7, NO_HEAD
    if form[0] not in forms:
        return 8, NO_HEAD
    found, at = [], form[1]
    for _ in range(3 if form[0] == TILES else 2):
        number = read_number(data, at)
        if number is None:
            return 7, NO_HEAD
        found.append(number[0])
        at = number[1]
    width, height, colour_space = (*found, UNSPECIFIED)[:3]
    if colour_space not in COLOUR_SPACES:
        return 18, NO_HEAD
    if not size_fits(width, height):
        return 9, NO_HEAD
    return 0, Head(width, height, at, colour_space, form[0])


def write_head(width, height):
    """refusal, the head's bytes (the call answers them with their count): form 1"""
    if not size_fits(width, height):
        return 9, b""
    return 0, write_number(ROWS) + write_number(width) + write_number(height)


def write_tile_head(width, height, colour_space=UNSPECIFIED):
    """The bytes of a head of form 2."""
    return b"".join(map(write_number, (TILES, width, height, colour_space)))


def in_blocks(side):
    """Columns or rows of blocks, rounded up."""
    return (side + 3) // 4


def decode_row(width, height, row, blocks, out):
    """refusal, the output afterwards"""
    if not size_fits(width, height):
        return 9, bytes(out)
    if row >= in_blocks(height):
        return 12, bytes(out)
    if len(blocks) != 16 * in_blocks(width):
        return 10, bytes(out)
    pixel_rows = min(4, height - 4 * row)
    if len(out) != pixel_rows * width * 4:
        return 11, bytes(out)
    drawn = [decode(blocks[at : at + 16]) for at in range(0, len(blocks), 16)]
    shown = []
    for y in range(pixel_rows):
        line = b"".join(pixels[16 * y : 16 * y + 16] for pixels in drawn)
        shown.append(line[: 4 * width])
    return 0, b"".join(shown)


# ---------------------------------------------------------------------------------------------------------------------
# A whole sheet, of either form. M-108: form 2 stores blocks in tiles. Their numbers count row by row in both forms.
TILE = 8  # blocks on a side of a tile
# Row and column of each place in a tile. Its six bits, the highest first: the row's are at 5, 3 and 1, the column's at 4, 2 and 0.
PLACES = [(int(bits[0::2], 2), int(bits[1::2], 2)) for bits in (format(place, "06b") for place in range(TILE * TILE))]


def stored_order(columns, rows, form):
    """The numbers of a sheet's blocks, one after the other as they are stored."""
    if form == ROWS:
        yield from range(columns * rows)
        return
    for tile_row in range(0, rows, TILE):
        for tile_column in range(0, columns, TILE):
            for row, column in PLACES:
                if tile_row + row < rows and tile_column + column < columns:
                    yield (tile_row + row) * columns + tile_column + column


def order_of(head):
    return stored_order(in_blocks(head.width), in_blocks(head.height), head.form)


def count_of(head):
    return in_blocks(head.width) * in_blocks(head.height)


def read_sheet(sheet, forms=FORMS):
    """refusal, the head: 10 among the refusals"""
    refusal, head = read_head(sheet, forms)
    if refusal == 0 and len(sheet) - head.start != 16 * count_of(head):
        return 10, NO_HEAD
    return refusal, head


def blocks_of(sheet, head):
    """The blocks of a whole sheet, by their numbers."""
    found = [b""] * count_of(head)
    for stored, number in enumerate(order_of(head)):
        at = head.start + 16 * stored
        found[number] = bytes(sheet[at : at + 16])
    return found


def laid_out(head, blocks):
    """The sheet with that head, of these blocks by their numbers."""
    if head.form == TILES:
        first = write_tile_head(head.width, head.height, head.colour_space)
    else:
        first = write_head(head.width, head.height)[1]
    return first + b"".join(blocks[number] for number in order_of(head))


def replace_in_sheet(sheet, block, line, new):
    """refusal, the sheet afterwards"""
    sheet = bytes(sheet)
    refusal, head = read_sheet(sheet)
    if refusal:
        return refusal, sheet
    if block >= count_of(head):
        return 12, sheet
    blocks = blocks_of(sheet, head)
    refusal, blocks[block] = replace(blocks[block], line, new)
    return refusal, laid_out(head, blocks)


# ---------------------------------------------------------------------------------------------------------------------
# M-109: counts kept beside the sheet. Ten numbers: how many blocks have mode 0, 1, .., 8, and how many are opaque.
COUNTED_MODES = 9
NO_COUNTS = (0,) * (COUNTED_MODES + 1)


def is_opaque_in(head, number, block):
    """By the pixels that the sheet shows of it: by the column and row of its number, in either form."""
    row, column = divmod(number, in_blocks(head.width))
    return is_opaque(block, head.width - 4 * column, head.height - 4 * row)


def tally(head, number, block):
    """What the block adds to the counts."""
    return [int(mode_of(block) == mode) for mode in range(COUNTED_MODES)] + [int(is_opaque_in(head, number, block))]


def count(sheet):
    """refusal, the counts"""
    refusal, head = read_sheet(sheet)
    if refusal:
        return refusal, NO_COUNTS
    tallies = [tally(head, number, block) for number, block in enumerate(blocks_of(sheet, head))]
    return 0, tuple(map(sum, zip(*tallies)))


def counts_are_false(head, number, block, counts):
    """The four grounds of 19."""
    *modes, opaque = counts
    if sum(modes) != count_of(head) or modes[mode_of(block)] == 0:
        return True
    return opaque == 0 if is_opaque_in(head, number, block) else opaque >= count_of(head)


def change_counted(sheet, counts, number, change):
    """refusal, the sheet and the counts afterwards; `change` answers a refusal and a block for a block"""
    sheet, counts = bytes(sheet), tuple(counts)
    refusal, head = read_sheet(sheet)
    if refusal == 0 and number >= count_of(head):
        refusal = 12
    if refusal:
        return refusal, sheet, counts
    blocks = blocks_of(sheet, head)
    old = blocks[number]
    if counts_are_false(head, number, old, counts):
        return 19, sheet, counts
    refusal, new = change(old)
    if refusal:
        return refusal, sheet, counts
    blocks[number] = new
    out, into = tally(head, number, old), tally(head, number, new)
    return 0, laid_out(head, blocks), tuple(n - o + i for n, o, i in zip(counts, out, into))


def replace_line_counted(sheet, counts, block, line, new):
    return change_counted(sheet, counts, block, lambda old: replace(old, line, new))


def replace_block_counted(sheet, counts, block, new):
    return change_counted(sheet, counts, block, lambda old: (0, bytes(new)))


def block_in_sheet(sheet, block):
    """refusal, the block's sixteen bytes"""
    refusal, head = read_sheet(sheet)
    if refusal == 0 and block >= count_of(head):
        refusal = 12
    return (refusal, ZERO_BLOCK) if refusal else (0, blocks_of(sheet, head)[block])


def open_sheet(sheet):
    """refusal, eight numbers: a head is enough for it"""
    refusal, head = read_head(sheet)
    columns, rows = in_blocks(head.width), in_blocks(head.height)
    return refusal, (*head, columns, rows, columns * rows)


def decode_sheet_row(sheet, row, out):
    """refusal, the output afterwards: as row decoding has it of that row's blocks"""
    refusal, head = read_sheet(sheet)
    if refusal == 0 and row >= in_blocks(head.height):
        refusal = 12
    if refusal:
        return refusal, bytes(out)
    columns = in_blocks(head.width)
    blocks = blocks_of(sheet, head)[columns * row : columns * (row + 1)]
    return decode_row(head.width, head.height, row, b"".join(blocks), out)


def move(sheet, form, out):
    """refusal, the output afterwards: a sheet of the other form moved to that form, where no stated colour space is lost by it"""
    refusal, head = read_sheet(sheet, [other for other in FORMS if other != form])
    if refusal:
        return refusal, bytes(out)
    moved = laid_out(head._replace(form=form), blocks_of(sheet, head))
    if len(out) != len(moved):
        return 11, bytes(out)
    if form == ROWS and head.colour_space != UNSPECIFIED:
        return 16, bytes(out)
    return 0, moved


def state_colour(number, sheet):
    """refusal, the sheet afterwards: of form 2 alone, its colour space as the number says and all else as it was"""
    refusal, head = read_sheet(sheet, [TILES])
    if refusal == 0 and number not in COLOUR_SPACES:
        refusal = 18
    if refusal:
        return refusal, bytes(sheet)
    return 0, laid_out(head._replace(colour_space=number), blocks_of(sheet, head))


def to_tiles(sheet, out):
    return move(sheet, TILES, out)


def to_rows(sheet, out):
    return move(sheet, ROWS, out)


# ---------------------------------------------------------------------------------------------------------------------
# M-103: DDS files with the DX10 extension, laid out as the structs of Microsoft's guide: the magic; DDS_HEADER up to the mip
# count, and eleven reserved numbers; its DDS_PIXELFORMAT (size, flags, code; bit count and four masks); its four caps and
# a reserved number; DDS_HEADER_DXT10 (format, dimension, misc, array size, misc 2).
DDS_STRUCT = struct.Struct("<4s7I44x2I4s5I5I5I")
DDS_HEADER = DDS_STRUCT.size
BC7_UNORM, BC7_SRGB, TEXTURE_2D, CUBE = 98, 99, 3, 4


def read_dds(data):
    """refusal, width, height: whatever the output is, so without 11"""
    if len(data) < DDS_HEADER:
        return 15, 0, 0
    numbers = DDS_STRUCT.unpack_from(data)
    magic, size, _, height, width, _, _, mips, format_size, _, code = numbers[:11]
    pixels, dimension, misc, array, _ = numbers[-5:]
    right = magic == b"DDS " and size == 124 and format_size == 32 and code == b"DX10" and mips in (0, 1)
    right = right and pixels in (BC7_UNORM, BC7_SRGB) and dimension == TEXTURE_2D and array == 1 and not misc & CUBE
    if not right:
        return 15, 0, 0
    if not size_fits(width, height):
        return 9, 0, 0
    if len(data) - DDS_HEADER != 16 * in_blocks(width) * in_blocks(height):
        return 10, 0, 0
    return 0, width, height


def import_length(data):
    """refusal, the bytes of the sheet"""
    refusal, width, height = read_dds(data)
    return (refusal, 0) if refusal else (0, len(write_head(width, height)[1]) + len(data) - DDS_HEADER)


def import_dds(data, out):
    """refusal, the output afterwards"""
    refusal, needed = import_length(data)
    if refusal or len(out) != needed:
        return refusal or 11, bytes(out)
    _, width, height = read_dds(data)
    return 0, write_head(width, height)[1] + bytes(data[DDS_HEADER:])


def dds_header(width, height):
    linear = 16 * in_blocks(width) * in_blocks(height)
    return DDS_STRUCT.pack(
        *(b"DDS ", 124, 0x81007, height, width, linear, 0, 1),
        *(32, 4, b"DX10", 0, 0, 0, 0, 0),
        *(0x1000, 0, 0, 0, 0),
        *(BC7_UNORM, TEXTURE_2D, 0, 1, 0),
    )


def export_length(sheet):
    """refusal, the bytes of the file: of form 1 alone"""
    refusal, head = read_sheet(sheet, [ROWS])
    return (refusal, 0) if refusal else (0, DDS_HEADER + len(sheet) - head.start)


def export_dds(sheet, out):
    """refusal, the output afterwards"""
    refusal, needed = export_length(sheet)
    if refusal or len(out) != needed:
        return refusal or 11, bytes(out)
    _, head = read_sheet(sheet)
    return 0, dds_header(head.width, head.height) + bytes(sheet[head.start :])


# ---------------------------------------------------------------------------------------------------------------------
# M-107: the colour space. A head in memory has one; form 1 has no room for it, so of such a sheet it is unspecified, and of a file what the
# format says. Nothing else of import and export depends on it.
def import_colour(data, out):
    """refusal, the head, the output afterwards: the head as it is read of that output, but for the colour space"""
    refusal, sheet = import_dds(data, out)
    if refusal:
        return refusal, NO_HEAD, sheet
    says = {BC7_UNORM: LINEAR, BC7_SRGB: SRGB}
    return 0, read_head(sheet)[1]._replace(colour_space=says[DDS_STRUCT.unpack_from(data)[-5]]), sheet


def export_colour(colour_space, sheet, out):
    """refusal, the output afterwards"""
    refusal, file = export_dds(sheet, out)
    if refusal == 0 and colour_space == SRGB:
        numbers = DDS_STRUCT.unpack_from(file)
        file = DDS_STRUCT.pack(*numbers[:-5], BC7_SRGB, *numbers[-4:]) + file[DDS_HEADER:]
    return refusal, file


# ---------------------------------------------------------------------------------------------------------------------
# M-111: pixels as floats. An f32 that isn't below 2^-126 is 24 digits, the first of them a one that isn't stored, over a power of two: its bits are
# 150 less the power, in eight bits, then 23 digits. The quotient by 255 is rounded once, to the nearest, at a tie to the even one. By whole
# numbers and fractions: no float of Python's, or of the machine's, has a part in it.
@lru_cache(256)
def float_bits(channel):
    """The bits of the channel's float."""
    if channel == 0:
        return 0
    quotient, power = Fraction(channel, 255), 0
    while quotient * 2**power < 1 << 23:
        power += 1
    digits = round(quotient * 2**power)
    if digits == 1 << 24:
        digits, power = 1 << 23, power - 1
    return 150 - power << 23 | digits - (1 << 23)


def pixel_floats(pixel):
    return b"".join(float_bits(channel).to_bytes(4, "little") for channel in pixel)


def channel_of_bits(bits):
    """refusal, the channel whose float has these bits"""
    found = [channel for channel in range(256) if float_bits(channel) == bits]
    return (0, found[0]) if found else (23, 0)


def row_floats(pixels, out):
    """refusal, the output afterwards: four bytes for each float"""
    return (0, pixel_floats(pixels)) if len(out) == 4 * len(pixels) else (11, bytes(out))


# ---------------------------------------------------------------------------------------------------------------------
# The listing.
@lru_cache(100_000)
def listed(block, columns, rows):
    """A block's line without its number, where so many columns and rows of it are shown."""
    mark = "o" if is_opaque(block, columns, rows) else "-"
    return "%d %d %d %d %d %s" % (mode_of(block), *decode(block)[:4], mark)


def listing(data):
    """In stored order, each block with its number; what is shown of it goes by its column and row."""
    refusal, head = read_head(data)
    if refusal:
        return "refused %d\n" % refusal
    present = min(count_of(head), (len(data) - head.start) // 16)
    text = ["sheet %d %d\n" % (head.width, head.height)]
    for stored, number in enumerate(islice(order_of(head), present)):
        at = head.start + 16 * stored
        row, column = divmod(number, in_blocks(head.width))
        shown = min(4, head.width - 4 * column), min(4, head.height - 4 * row)
        text.append("%d %s\n" % (number, listed(bytes(data[at : at + 16]), *shown)))
    if len(data) - head.start != 16 * count_of(head):
        text.append("refused 10\n")
    return "".join(text)
