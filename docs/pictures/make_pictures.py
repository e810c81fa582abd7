#!/usr/bin/env python3
"""make_pictures.py [--check] CLIENT: makes the pictures of README.md beside this file; with --check it only compares. CLIENT is the command
that client/ was built to (`tests/client` builds one and checks the pictures by it).

map.png        the sample map, and the neighbourhood of one block enlarged
corrected.png  the same after one correction: `nearest` says the index for what was measured at pixel 0, and `set` puts it there
lost_turn.png  what a packer makes of it that turns the indexes and forgets the pair: of the corrected line the endpoints are exchanged
               and the indexes are not, by `line` and `replace`
bits.svg       the bits of the README's block C before and after its correction

All that is shown of a map comes from the client's `picture`. What has alpha below 255 lies over a grey ground. Colours are rounded, so that
the files are small.
"""
import struct
import subprocess
import sys
import tempfile
import zlib
from pathlib import Path

HERE = Path(__file__).resolve().parent
ROOT = HERE.parent.parent
sys.path.insert(0, str(ROOT / "compare"))
import model

BLOCK, LINE, PIXEL = 1798, 0, 0  # a block at the edge of a tower's shadow
MEASURED = (40, 30, 95, 170)  # red, green, blue, alpha of a weak margin, half masked
BLOCK_C = bytes.fromhex("40C01F00000000000E00000000000000")

# ---------------------------------------------------------------------------------------------------------------------
# The client.


def client(*words, given=""):
    done = subprocess.run([CLIENT, *map(str, words)], input=given, stdout=subprocess.PIPE, check=True, text=True)
    return done.stdout


def picture(sheet):
    """The scanlines, over the grey ground."""
    pam = sheet.with_suffix(".pam")
    client("picture", sheet, pam)
    header, _, pixels = pam.read_bytes().partition(b"ENDHDR\n")
    width, height = (int(header.split(name)[1].split()[0]) for name in (b"WIDTH", b"HEIGHT"))
    scanlines = []
    for y in range(height):
        scanline = []
        for at in range(4 * width * y, 4 * width * (y + 1), 4):
            alpha = pixels[at + 3]
            scanline.append(tuple(rounded((channel * alpha + GROUND * (255 - alpha)) // 255) for channel in pixels[at : at + 3]))
        scanlines.append(scanline)
    return scanlines


def three_maps(folder):
    """The map before, after, and as a lost turn leaves it."""
    sheet = folder / "map.sheet"
    sheet.write_bytes((ROOT / "samples/map.sheet").read_bytes())
    yield picture(sheet)
    index = client("nearest", sheet, BLOCK, LINE, PIXEL, *MEASURED).split()[1]
    assert "pair turned" in client("set", sheet, BLOCK, LINE, PIXEL, index)
    yield picture(sheet)
    first, second, p, *indexes = [row.partition("#")[0].split() for row in client("line", sheet, BLOCK, LINE).splitlines()[1:]]
    exchanged = [["first", *second[1:]], ["second", *first[1:]], ["p", p[2], p[1]], *indexes]
    client("replace", sheet, BLOCK, LINE, given="\n".join(map(" ".join, exchanged)))
    yield picture(sheet)


# ---------------------------------------------------------------------------------------------------------------------
# The pictures of the map.

GROUND = 225
INK = (20, 20, 20)
PAPER = (255, 255, 255)
STEP = 24  # of a channel
CUT_LEFT, CUT_TOP, CUT_WIDTH, CUT_HEIGHT, SCALE = 190, 85, 25, 17, 12  # what is enlarged, and how many times


def rounded(channel):
    return min(channel // STEP * STEP + STEP // 2, 255)


def framed(scanlines, left, top, width, height):
    """A frame around these pixels."""
    for x in range(left - 1, left + width + 1):
        scanlines[top - 1][x] = scanlines[top + height][x] = INK
    for y in range(top - 1, top + height + 1):
        scanlines[y][left - 1] = scanlines[y][left + width] = INK


def composed(scanlines):
    """The map, and below it the cutout enlarged, with a frame around the block."""
    across = (len(scanlines[0]) + 3) // 4
    column, row = BLOCK % across * 4, BLOCK // across * 4
    cut = [scanline[CUT_LEFT : CUT_LEFT + CUT_WIDTH] for scanline in scanlines[CUT_TOP : CUT_TOP + CUT_HEIGHT]]
    wide = [[colour for colour in scanline for _ in range(SCALE)] for scanline in cut]
    large = [scanline + [scanline[-1]] * (len(scanlines[0]) - len(scanline)) for scanline in wide for _ in range(SCALE)]
    framed(large, (column - CUT_LEFT) * SCALE, (row - CUT_TOP) * SCALE, 4 * SCALE, 4 * SCALE)
    framed(scanlines, CUT_LEFT, CUT_TOP, CUT_WIDTH, CUT_HEIGHT)
    return scanlines + [[PAPER] * len(scanlines[0])] * 4 + large


def png(scanlines):
    palette = sorted({colour for scanline in scanlines for colour in scanline})
    assert len(palette) <= 256
    number = {colour: i for i, colour in enumerate(palette)}

    def chunk(name, data):
        return struct.pack(">I", len(data)) + name + data + struct.pack(">I", zlib.crc32(name + data))

    header = struct.pack(">IIBBBBB", len(scanlines[0]), len(scanlines), 8, 3, 0, 0, 0)
    unpacked = b"".join(b"\0" + bytes(number[colour] for colour in scanline) for scanline in scanlines)
    return b"\x89PNG\r\n\x1a\n" + chunk(b"IHDR", header) + chunk(b"PLTE", bytes(c for colour in palette for c in colour)) + chunk(
        b"IDAT", zlib.compress(unpacked, 9)) + chunk(b"IEND", b"")


# ---------------------------------------------------------------------------------------------------------------------
# The bits of block C.

CELL, LEFT, TALL = 15, 66, 18  # pixels of the drawing: a bit, what stands before the first, a row


def fields():
    """Name, first bit and width of each field of mode 6 in stored order."""
    yield "mode", 0, 7
    names = ["%s-%d" % (channel, end) for end in range(2) for channel in ("red", "green", "blue", "alpha")]
    for number, bit, width in model.layout(6, ("whole",)):
        yield names[number] if number < 8 else "p" if number < model.FIRST else "index-%d" % (number - model.FIRST), bit, width


def corrected_c(folder):
    """Block C as `set` leaves it, with index 8 at pixel 0."""
    sheet = folder / "c.sheet"
    sheet.write_bytes(bytes((1, 4, 4)) + BLOCK_C)
    assert "pair turned" in client("set", sheet, 0, 0, 0, 8)
    return sheet.read_bytes()[3:]


def svg(before, after):
    """Both halves of the block below each other; the bits that changed are marked, and of each field that changed its values stand below."""
    numbers = [int.from_bytes(block, "little") for block in (before, after)]
    drawn = []

    def text(x, y, words, more=""):
        drawn.append('<text x="%g" y="%g"%s>%s</text>' % (x, y, more, words))

    for half in range(2):
        top = 8 + half * 7 * TALL
        for row, words in enumerate(("byte", "field", "before", "after", "changed")):
            text(4, top + row * TALL + 13, words)
        for byte in range(8):
            text(LEFT + byte * 8 * CELL + 4 * CELL, top + 13, str(8 * half + byte), ' text-anchor="middle" fill="#666"')
        for name, first, width in fields():
            start, end = max(first, 64 * half), min(first + width, 64 * half + 64)
            if start >= end:
                continue
            x, wide = LEFT + (start - 64 * half) * CELL, (end - start) * CELL
            values = [number >> first & (1 << width) - 1 for number in numbers]
            fill = "#ffd9a0" if values[0] != values[1] else "#eef0f4"
            drawn.append('<rect x="%g" y="%g" width="%g" height="%g" fill="%s" stroke="#888"/>' % (x, top + TALL, wide, 3 * TALL, fill))
            text(x + wide / 2, top + TALL + 13, name, ' text-anchor="middle" font-size="10.5"')
            for bit in range(start, end):
                both = [number >> bit & 1 for number in numbers]
                for row, value in enumerate(both):
                    more = ' font-weight="bold" fill="#a02000"' if both[0] != both[1] else ""
                    text(LEFT + (bit - 64 * half) * CELL + CELL / 2, top + (2 + row) * TALL + 13, str(value), ' text-anchor="middle"' + more)
            if values[0] != values[1]:
                text(x + wide / 2, top + 4 * TALL + 13, "%d to %d" % tuple(values), ' text-anchor="middle" font-size="11" fill="#a02000"')
    wide, high = LEFT + 64 * CELL + 8, 13 * TALL
    return ('<svg xmlns="http://www.w3.org/2000/svg" viewBox="0 0 %d %d" width="%d" height="%d" font-family="monospace" font-size="12" fill="#111">\n'
            '<title>Block C before and after the correction: the bits that changed</title>\n'
            '<rect width="%d" height="%d" fill="#fff"/>\n%s\n</svg>\n' % (wide, high, wide, high, wide, high, "\n".join(drawn))).encode()


# ---------------------------------------------------------------------------------------------------------------------


def held(data):
    """What is compared of a file: of a PNG its chunks with the pixels as they were before packing, which no version of zlib changes."""
    if not data.startswith(b"\x89PNG"):
        return data
    at, chunks = 8, []
    while at < len(data):
        (length,) = struct.unpack(">I", data[at : at + 4])
        name, body = data[at + 4 : at + 8], data[at + 8 : at + 8 + length]
        chunks.append((name, zlib.decompress(body) if name == b"IDAT" else body))
        at += 12 + length
    return chunks


if __name__ == "__main__":
    check = sys.argv[1:2] == ["--check"]
    if len(sys.argv) != 2 + check:
        sys.exit("usage: make_pictures.py [--check] CLIENT")
    CLIENT = str(Path(sys.argv[-1]).resolve())
    with tempfile.TemporaryDirectory() as name:
        made = dict(zip(("map.png", "corrected.png", "lost_turn.png"), (png(composed(scanlines)) for scanlines in three_maps(Path(name)))))
        made["bits.svg"] = svg(BLOCK_C, corrected_c(Path(name)))
    for name, data in made.items():
        if not check:
            (HERE / name).write_bytes(data)
        elif held((HERE / name).read_bytes()) != held(data):
            sys.exit("make_pictures.py: %s is another" % name)
