"""The bit chart of a block (document 02, M-106) as the model reads it, fed to the program `bitchart` and compared."""
import itertools

import model
import partitions
from cases import some_block
from dice import Dice
from listing import difference, printed

REFUSED = "refused %d\n"
LEAD = ("mode", "partition", "rotation", "index-mode")
CHANNELS = ("red", "green", "blue", "alpha")


def anchors(mode, number):
    """The pixels whose index is a bit short in a block of a mode: pixel 0, and one for each further subset."""
    m = model.MODES[mode]
    if m.kind in ("whole", "vector"):
        return {0}
    return set(partitions.anchors(m.kind, model.field(number, mode + 1, m.split_bits[0])))


def fields(mode, number):
    """(name, width) of the fields of a block that is this number, in stored order."""
    m = model.MODES[mode]
    yield "mode", mode + 1
    yield from zip(("rotation", "index-mode") if m.kind == "vector" else ("partition",), m.split_bits)
    for channel in CHANNELS:
        for end in range(2 if m.kind == "vector" else 2 * m.lines):
            yield "%s-%d" % (channel, end), m.alpha if channel == "alpha" else m.colour
    for p in range(m.p):
        yield "p-%d" % p, 1
    for name, width in zip(("index", "second"), m.index_widths):
        for pixel in range(16):
            yield "%s-%d" % (name, pixel), max(0, width - (pixel in anchors(mode, number)))


def chart(data):
    """What is printed of an input."""
    if len(data) != 16:
        return REFUSED % 10
    mode = model.mode_of(data)
    if mode == model.RESERVED:
        return REFUSED % 1
    lines, bit = [], 0
    for name, width in fields(mode, int.from_bytes(data, "little")):
        if width > 0:
            lines.append("%s %d %d\n" % (name, bit, width))
        bit += width
    assert bit == 128, (data, bit)
    return "".join(lines)


def with_split(mode, split, rest):
    """The block of a mode with these split bits, and the bits of `rest` behind them."""
    behind = mode + 1 + sum(model.MODES[mode].split_bits)
    number = rest >> behind << behind | split << mode + 1 | 1 << mode
    return number.to_bytes(16, "little")


def every_split(dice):
    """Every mode with every partition, rotation and index mode; behind them zeros, ones, and random bits."""
    for mode, m in enumerate(model.MODES):
        for split in range(1 << sum(m.split_bits)):
            for rest in (0, (1 << 128) - 1, int.from_bytes(dice.bytes(16), "little")):
                yield with_split(mode, split, rest)


def inputs(seed):
    """(what it is about, the inputs)"""
    dice = Dice(seed)
    yield "every mode with every partition, rotation and index mode", list(every_split(dice))
    lengths = [bytes(length) for length in range(41)] + [dice.bytes(length) for length in range(41) for _ in range(3)]
    lengths += [some_block(dice) + bytes(more) for more in (1, 16, 1000, 4096, 70000)]
    yield "0 to 40 bytes, and many more", lengths
    yield "every first byte", [bytes([first]) + dice.bytes(15) for first in range(256)]
    yield "random blocks", [some_block(dice) for _ in range(300)]


def in_pieces(seed):
    dice = Dice(seed)
    for length in itertools.chain(range(20), (32, 33, 1000)):
        yield (some_block(dice) + dice.bytes(1000))[:length]
    for mode in range(8):
        yield with_split(mode, 0, int.from_bytes(dice.bytes(16), "little"))


def compare(command, seed):
    """Rows of (what, number of inputs, difference or None)."""
    for what, many in inputs(seed):
        yield row(what, [(data, printed(command, data)) for data in many])
    dice = Dice(seed + 1)
    yield row("input in small pieces", [(data, printed(command, data, dice)) for data in in_pieces(seed)])


def row(what, pairs):
    wrong = next(((data, got) for data, got in pairs if got != chart(data)), None)
    return what, len(pairs), wrong and difference(wrong[0], chart(wrong[0]), wrong[1])
