"""BC6H read a second time, from the public descriptions and not from the code that it is compared with: what a block shows, in both signs, and
the table of its fourteen modes bit by bit.

The fields have the names that the OpenGL extension for the format gives them: r0 is red of the first endpoint of the first line, r1 of its second,
r2 and r3 of the second line's. Values are plain integers with their sign."""
import re
from functools import lru_cache

import partitions

WEIGHTS = {
    3: (0, 9, 18, 27, 37, 46, 55, 64),
    4: (0, 4, 9, 13, 17, 21, 26, 30, 34, 38, 43, 47, 51, 55, 60, 64),
}
RESERVED = (0x13, 0x17, 0x1B, 0x1F)
SIGNS = ("unsigned", "signed")  # by the number of the sign
BARE = (0x03, 0x1E)  # the modes whose endpoints are all stored as they are; the others store differences from the first

# What stands behind the mode's number, in stored order; modes with two lines have five bits of partition behind it, and all have indexes then.
STORED = {
    0x00: "g2[4] b2[4] b3[4] r0[9:0] g0[9:0] b0[9:0] r1[4:0] g3[4] g2[3:0] g1[4:0] b3[0] g3[3:0] b1[4:0] b3[1] b2[3:0] r2[4:0] b3[2] r3[4:0] b3[3]",
    0x01: "g2[5] g3[4] g3[5] r0[6:0] b3[0] b3[1] b2[4] g0[6:0] b2[5] b3[2] g2[4] b0[6:0] b3[3] b3[5] b3[4] r1[5:0] g2[3:0] g1[5:0] g3[3:0] b1[5:0]"
    " b2[3:0] r2[5:0] r3[5:0]",
    0x02: "r0[9:0] g0[9:0] b0[9:0] r1[4:0] r0[10] g2[3:0] g1[3:0] g0[10] b3[0] g3[3:0] b1[3:0] b0[10] b3[1] b2[3:0] r2[4:0] b3[2] r3[4:0] b3[3]",
    0x06: "r0[9:0] g0[9:0] b0[9:0] r1[3:0] r0[10] g3[4] g2[3:0] g1[4:0] g0[10] g3[3:0] b1[3:0] b0[10] b3[1] b2[3:0] r2[3:0] b3[0] b3[2] r3[3:0] g2[4]"
    " b3[3]",
    0x0A: "r0[9:0] g0[9:0] b0[9:0] r1[3:0] r0[10] b2[4] g2[3:0] g1[3:0] g0[10] b3[0] g3[3:0] b1[4:0] b0[10] b2[3:0] r2[3:0] b3[1] b3[2] r3[3:0] b3[4]"
    " b3[3]",
    0x0E: "r0[8:0] b2[4] g0[8:0] g2[4] b0[8:0] b3[4] r1[4:0] g3[4] g2[3:0] g1[4:0] b3[0] g3[3:0] b1[4:0] b3[1] b2[3:0] r2[4:0] b3[2] r3[4:0] b3[3]",
    0x12: "r0[7:0] g3[4] b2[4] g0[7:0] b3[2] g2[4] b0[7:0] b3[3] b3[4] r1[5:0] g2[3:0] g1[4:0] b3[0] g3[3:0] b1[4:0] b3[1] b2[3:0] r2[5:0] r3[5:0]",
    0x16: "r0[7:0] b3[0] b2[4] g0[7:0] g2[5] g2[4] b0[7:0] g3[5] b3[4] r1[4:0] g3[4] g2[3:0] g1[5:0] g3[3:0] b1[4:0] b3[1] b2[3:0] r2[4:0] b3[2]"
    " r3[4:0] b3[3]",
    0x1A: "r0[7:0] b3[1] b2[4] g0[7:0] b2[5] g2[4] b0[7:0] b3[5] b3[4] r1[4:0] g3[4] g2[3:0] g1[4:0] b3[0] g3[3:0] b1[5:0] b2[3:0] r2[4:0] b3[2]"
    " r3[4:0] b3[3]",
    0x1E: "r0[5:0] g3[4] b3[0] b3[1] b2[4] g0[5:0] g2[5] b2[5] b3[2] g2[4] b0[5:0] g3[5] b3[3] b3[5] b3[4] r1[5:0] g2[3:0] g1[5:0] g3[3:0] b1[5:0]"
    " b2[3:0] r2[5:0] r3[5:0]",
    0x03: "r0[9:0] g0[9:0] b0[9:0] r1[9:0] g1[9:0] b1[9:0]",
    0x07: "r0[9:0] g0[9:0] b0[9:0] r1[8:0] r0[10] g1[8:0] g0[10] b1[8:0] b0[10]",
    0x0B: "r0[9:0] g0[9:0] b0[9:0] r1[7:0] r0[10:11] g1[7:0] g0[10:11] b1[7:0] b0[10:11]",
    0x0F: "r0[9:0] g0[9:0] b0[9:0] r1[3:0] r0[10:15] g1[3:0] g0[10:15] b1[3:0] b0[10:15]",
}


def mode_of(block):
    return block[0] & 3 if block[0] & 3 < 2 else block[0] & 31


def lines_of(mode):
    return 1 if mode & 3 == 3 else 2


@lru_cache(None)
def bits_of(mode):
    """(field, bit of the field) for each bit of the block from bit 0 to the last before the indexes; of the mode's own bits the field is "m"."""
    found = [("m", bit) for bit in range(2 if mode < 2 else 5)]
    for name, first, last in re.findall(r"(\w+)\[(\d+)(?::(\d+))?\]", STORED[mode]):
        high, low = int(first), int(last or first)
        found += [(name, bit) for bit in (range(low, high + 1) if low <= high else range(low, high - 1, -1))]
    if lines_of(mode) == 2:
        found += [("d", bit) for bit in range(5)]
    return tuple(found)


@lru_cache(None)
def widths(mode):
    """How many bits each field of a mode has."""
    found = {}
    for name, bit in bits_of(mode):
        found[name] = max(found.get(name, 0), bit + 1)
    assert sum(found.values()) == len(bits_of(mode)) == len(set(bits_of(mode)))
    assert len(bits_of(mode)) + (46 if lines_of(mode) == 2 else 63) == 128
    return found


def fields_of(mode, number):
    found = dict.fromkeys(widths(mode), 0)
    for place, (name, bit) in enumerate(bits_of(mode)):
        found[name] |= (number >> place & 1) << bit
    return found


def with_sign(value, bits):
    return value - (1 << bits) if value >> bits - 1 else value


def endpoints_of(mode, number, signed):
    """{name: value}: each field put together, a difference added to the first endpoint of its channel and wrapped, and then read with its sign."""
    held, bits, found = fields_of(mode, number), widths(mode), {}
    for name, value in held.items():
        if name in "md":
            continue
        first = name[0] + "0"
        if mode not in BARE and name != first:
            value = held[first] + with_sign(value, bits[name]) & (1 << bits[first]) - 1
        found[name] = with_sign(value, bits[first]) if signed else value
    return found


def widen(value, bits, signed):
    if not signed:
        if bits >= 15 or value == 0:
            return value
        return 0xFFFF if value == (1 << bits) - 1 else (value << 16) + 0x8000 >> bits
    if bits >= 16 or value == 0:
        return value
    size = abs(value)
    size = 0x7FFF if size >= (1 << bits - 1) - 1 else (size << 15) + 0x4000 >> bits - 1
    return -size if value < 0 else size


def finish(value, signed):
    """The bits of the half float: the size scaled by 31/32 or 31/64, and the sign above it. A size that scales to zero has no sign."""
    if not signed:
        return value * 31 >> 6
    size = abs(value) * 31 >> 5
    return 0x8000 | size if value < 0 and size else size


def decode(block, signed):
    """96 bytes: red, green and blue of the pixels 0 to 15, each a half's sixteen bits, the low byte first."""
    mode, number = mode_of(block), int.from_bytes(block, "little")
    if mode in RESERVED:
        return bytes(96)
    ends, base = endpoints_of(mode, number, signed), widths(mode)["r0"]
    wide = {name: widen(value, base, signed) for name, value in ends.items()}
    rest = number >> len(bits_of(mode))
    if lines_of(mode) == 2:
        partition = fields_of(mode, number)["d"]
        line_of, anchors, bits = partitions.subsets("two", partition), partitions.anchors("two", partition), 3
    else:
        line_of, anchors, bits = (0,) * 16, (0,), 4
    shown = bytearray()
    for pixel in range(16):
        width = bits - (pixel in anchors)
        weight = WEIGHTS[bits][rest & (1 << width) - 1]
        rest >>= width
        for channel in "rgb":
            first, second = (wide[channel + str(2 * line_of[pixel] + end)] for end in range(2))
            drawn = (first * (64 - weight) + second * weight + 32) >> 6
            shown += finish(drawn, signed).to_bytes(2, "little")
    assert rest == 0
    return bytes(shown)


def pixel(block, signed, number):
    """One pixel of a block: its three halves; 21 for 16 and up, whatever the block."""
    if number >= 16:
        return 21, bytes(6)
    return 0, decode(block, signed)[6 * number : 6 * number + 6]


# ---------------------------------------------------------------------------------------------------------------------
# The same table in other hands.
def table():
    """{mode: (lines, stores differences, bits of the fields r0 r1 g1 b1, bits_of(mode))}"""
    return {mode: (lines_of(mode), mode not in BARE, *(widths(mode)[name] for name in ("r0", "r1", "g1", "b1")), bits_of(mode)) for mode in STORED}


def named_alike(items):
    """Items of Microsoft's notation, in which the endpoints are w, x, y and z, as the bits above."""
    found = []
    for name, first, last in re.findall(r"(\w+)\[(\d+)(?::(\d+))?\]", items):
        high, low = int(first), int(last or first)
        name = name if name in "md" else name[0] + str("wxyz".index(name[1]))
        found += [(name, bit) for bit in (range(low, high + 1) if low <= high else range(low, high - 1, -1))]
    return tuple(found)


def table_of_definitions(text):
    """The rows of crates/bc6h_format/specs/Modes.antt."""
    rows = re.findall(r'row 0b(\d+) (\d) (\w+) (\d+) (\d+) (\d+) (\d+)\s+"([^"]*)"\s+"([^"]*)"', text)
    return {int(m, 2): (int(n), d == "true", *map(int, b), named_alike(one + " " + two)) for m, n, d, *b, one, two in rows}


def table_of_rust(text):
    """What bc6.rs reads, from its source: a list of reads for each mode with two lines; one rule for those with one, in which each channel has
    20 - w bits of the second endpoint and then the w - 10 high bits of the first, the highest first."""
    numbers = {name: int(number, 2) for name, number in re.findall(r"(M\d+_\d{3}) = 0b(\d+),", text)}
    body = text[text.index("fn extract_compressed_endpoints_two") : text.index("fn decompress_endpoints_two")]
    found = {}
    for name, reads in re.findall(r"ModeTwo::(M\d+_\d+) => \{(.*?)\n        \}", body, re.S):
        items = "".join(" %s%s[%s%s]" % (c, e, high, low and ":0") for c, e, high, low in re.findall(r"consume!\((\w), (\w), (\d+)(\.\.0)?\)", reads))
        widths_in = [int(width) for width in re.fullmatch(r"M(\d+)_(\d)(\d)(\d)", name).groups()]
        mode = numbers[name]
        found[mode] = (2, name != "M6_666", *widths_in, named_alike("m[%d:0]%s d[4:0]" % (1 if mode < 2 else 4, items)))
    assert "consume_bits_rev(a0_extension)" in text and "20 - self.a0_bit_count()" in text
    for mode, base in ((0x03, 10), (0x07, 11), (0x0B, 12), (0x0F, 16)):
        items = "m[4:0] rw[9:0] gw[9:0] bw[9:0]"
        items += "".join(" %sx[%d:0]" % (c, 19 - base) + (" %sw[10:%d]" % (c, base - 1) if base > 10 else "") for c in "rgb")
        found[mode] = (1, mode != 0x03, base, 20 - base, 20 - base, 20 - base, named_alike(items))
    return found
