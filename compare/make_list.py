#!/usr/bin/env python3
"""make_list.py LETTERS.. OUT [--shared DIR]: writes OUT/stdin and OUT/stdout, the fixed list of calls of the program
`replay` and its answers. LETTERS are the calls to include, as `D` or `D UP R HWOSl`.

The list is the same each time (dice.py with a fixed seed for each letter). Its answers are the model's; those of D and G are
the Rust's, and the model must agree with each. Every call is there for a reason: the functions below say which."""
import sys

sys.dont_write_bytecode = True  # the folder is under version control

import argparse
from collections import Counter
from pathlib import Path

import document_01
import halves
import model
import protocol
import tools
from cases import (
    DDS_ARRAY,
    DDS_FORMAT,
    DDS_HEIGHT,
    DDS_IGNORED,
    DDS_MIPS,
    DDS_MISC,
    DDS_NUMBERS,
    DDS_WIDTH,
    LARGE,
    READS,
    bits_of_style,
    block_of,
    either_form,
    false_counts,
    extreme_fields,
    fitting_replacement,
    halves_block,
    halves_fields,
    nearly_opaque,
    sheet_of,
    shown_length,
    some_block,
    some_bits,
    some_dds,
    some_float_row,
    some_head,
    some_block_number,
    some_counted_block,
    some_counted_call,
    some_counted_sheet,
    some_listed,
    some_move,
    some_opacity,
    some_reads,
    some_record,
    some_replacement,
    some_row,
    some_sheet,
    some_sheet_call,
    some_shown_row,
    some_stating,
    some_tile_head,
    some_tile_sheet,
    some_wanted,
    with_number,
)
from dice import Dice

SEED = 0xBC7
STYLES = ("random", "random", "sparse", "dense", "one set", "zeros", "ones")


def all_splits():
    return [(mode, split) for mode in range(8) for split in model.splits(mode)]


def outside(shared, every):
    """The eight piglit blocks and every so many-th block of each outside file."""
    piglit = (shared / "outside/piglit/bc7_blocks.bin").read_bytes()
    blocks = [piglit[at : at + 16] for at in range(0, len(piglit), 16)]
    for path in sorted((shared / "outside/bc7").glob("*.dds")):
        data = tools.outside_blocks(path)[2]
        blocks += [data[at : at + 16] for at in range(0, len(data), 16 * every)]
    return blocks


def document_calls(letter):
    return [call for call, _, _ in document_01.calls() if call[0] == letter]


# ---------------------------------------------------------------------------------------------------------------------
def decoding(dice, shared):
    """Every mode with every split, with random and extreme bits; modes with few splits more often; reserved blocks."""
    calls = document_calls("D")
    for mode, split in all_splits():
        again = max(1, 16 // len(model.splits(mode)))
        for style in STYLES * again:
            calls.append(("D", block_of(mode, split, bits_of_style(dice, style))))
    for style in STYLES:
        calls.append(("D", block_of(model.RESERVED, None, bits_of_style(dice, style))))
    return calls + [("D", block) for block in outside(shared, 24)]


# ---------------------------------------------------------------------------------------------------------------------
def taking_apart(dice, shared):
    """Every mode with every split; reserved blocks; the outside blocks."""
    calls = document_calls("U") + [("U", block) for block, _, _ in document_01.DRAWN]
    for style in STYLES:
        calls.append(("U", block_of(model.RESERVED, None, bits_of_style(dice, style))))
    for mode, split in all_splits():
        calls.append(("U", block_of(mode, split, bits_of_style(dice, "random"))))
    for mode in range(8):
        for style in STYLES:
            calls.append(("U", block_of(mode, dice.one_of(model.splits(mode)), bits_of_style(dice, style))))
    return calls + [("U", block) for block in outside(shared, 120)]


def with_value(record, place, value):
    values = list(record.values)
    values[place] = value
    return record._replace(values=tuple(values))


def packing(dice, shared):
    records = [model.ZERO_RECORD]
    # What taking apart answers, for every split; and the same with the top bit of each anchor set (refusal 6).
    for mode, split in all_splits():
        record = model.take_apart(block_of(mode, split, bits_of_style(dice, "random")))
        records.append(record)
        widths = model.full_widths(mode)
        anchors = sorted(model.anchor_places(mode, split))
        if mode in (0, 2, 7) or len(model.splits(mode)) < 10:
            for place in anchors:
                records.append(with_value(record, place, record.values[place] | 1 << widths[place] - 1))
    records += [model.take_apart(block) for block in outside(shared, 120)]
    for mode in range(8):
        m, widths = model.MODES[mode], model.full_widths(mode)
        split = dice.one_of(model.splits(mode))
        anchors = model.anchor_places(mode, split)
        zero = model.Record(mode, split, (0,) * model.VALUES)
        full = zero._replace(values=tuple((1 << w - (i in anchors)) - 1 for i, w in enumerate(widths)))
        records += [zero, full]
        # Each value at its largest (for an anchor's index that is refusal 6) and one above, alone in a zero record or
        # with all others at their largest. What the mode hasn't got has 0 for its largest.
        for place, width in enumerate(widths):
            base = dice.one_of((zero, full))
            records.append(with_value(base, place, (1 << width) - 1))
            records.append(with_value(base, place, (1 << width) & 255 or 255))
            if width == 0:
                records.append(with_value(base, place, 255))
        # The split's values at their largest and one above; mode 5 has no index mode.
        for position, width in enumerate(m.split_bits):
            for value in ((1 << width) - 1, 1 << width, 1 << width | 1, 255):
                changed = list(zero.split)
                changed[1 + position] = value
                records.append(zero._replace(split=tuple(changed)))
        # Every kind, those of other modes among them, with each pair of refusals that can meet.
        wide = dice.below(8)
        top = sorted(anchors)[-1]
        for kind in protocol.KINDS:
            for values in ((0,) * (1 if kind in ("two", "three") else 2), (200, 200)):
                split_given = (kind, *values[: {"whole": 0, "vector": 2}.get(kind, 1)])
                other = zero._replace(split=split_given)
                both = with_value(other, top, 1 << widths[top] - 1)
                records += [other, with_value(other, wide, 255), both, with_value(both, wide, 255)]
        for top in sorted(anchors):
            turned = with_value(full, top, 1 << widths[top] - 1)
            records += [turned, with_value(turned, model.P_BITS + 5, 2), with_value(turned, wide, 255)]
        # Both anchors at once.
        both = full
        for place in anchors:
            both = with_value(both, place, 1 << widths[place] - 1)
        records.append(both)
    # Modes above 7 (5), with every kind, and with values that would be refusal 3.
    for mode in (8, 9, 15, 16, 128, 255):
        for kind in protocol.KINDS:
            split = (kind, *(0,) * {"whole": 0, "vector": 2}.get(kind, 1))
            records += [model.Record(mode, split, (value,) * model.VALUES) for value in (0, 255)]
    calls = [("P", protocol.record_bytes(record)) for record in records]
    # Bytes that a kind hasn't got: 3, after 5 and before 6.
    for mode in (0, 1, 2, 3, 6, 7):
        record = model.take_apart(block_of(mode, dice.one_of(model.splits(mode)), bits_of_style(dice, "random")))
        top = sorted(model.anchor_places(mode, record.split))[-1]
        turned = with_value(record, top, 1 << model.full_widths(mode)[top] - 1)
        for given in (record, turned, record._replace(mode=5)):
            calls += [("P", protocol.record_bytes(given, spare)) for spare in ((1, 1), (255, 255), (64, 2), (0, 1), (0, 0))]
    return calls + [("P", some_record(dice)) for _ in range(150)]


# ---------------------------------------------------------------------------------------------------------------------
def replacing(dice, shared):
    calls = document_calls("R")
    # Every mode, split and line, with the anchor's top bit clear and set: among them the three-subset partitions whose
    # anchors stand in the other order (2, 3, 6, 7, ..).
    for mode, split in all_splits():
        block = block_of(mode, split, bits_of_style(dice, "random"))
        for line in range(model.MODES[mode].lines):
            for top in (0, 1):
                calls.append(("R", block, line, bytes(fitting_replacement(dice, mode, split, line, top))))
    for mode in range(8):
        count = model.MODES[mode].lines
        for line in range(count):
            split = dice.one_of(model.splits(mode))
            block = block_of(mode, split, bits_of_style(dice, "random"))
            widths = model.replacement_widths(mode, split, line)
            # Equal endpoints are turned as others are.
            for top in (0, 1, 0, 1):
                calls.append(("R", block, line, bytes(fitting_replacement(dice, mode, split, line, top, True))))
            # Each value at its largest and one above; in mode 1 a p bit alone at 1 is refusal 4.
            for place, width in enumerate(widths):
                for value in ((1 << width) - 1, (1 << width) & 255 or 255):
                    new = [0] * 26
                    new[place] = value
                    calls.append(("R", block, line, bytes(new)))
            calls.append(("R", block, line, bytes((1 << width) - 1 for width in widths)))
            calls.append(("R", block, line, bytes(26)))
            # p bits that differ: refusal 4 in mode 1, accepted where a line has two, 3 where it has none.
            for p in ((0, 1), (1, 0), (1, 1), (2, 2), (2, 3), (0, 2), (255, 0)):
                new = fitting_replacement(dice, mode, split, line)
                new[8], new[9] = p
                calls.append(("R", block, line, bytes(new)))
        # Line numbers from the mode's count on, with all else right (2), with a value too large (2 before 3), with
        # p bits that differ (2 before 4), and with both.
        for number in (*range(count, 5), *LARGE):
            right = fitting_replacement(dice, mode, split, 0)
            calls.append(("R", block, number, bytes(right)))
        for number in (count, 3, 256, (1 << 32) - 1):
            for p in ((0, 0), (0, 1)):
                for red in (0, 255):
                    new = [red] + [0] * 7 + list(p) + [0] * 16
                    calls.append(("R", block, number, bytes(new)))
                    # A value too large comes before p bits that differ (3 before 4).
                    calls.append(("R", block, 0, bytes(new)))
    # A reserved block is refusal 1 whatever else is wrong.
    for style in ("zeros", "random", "ones"):
        block = block_of(model.RESERVED, None, bits_of_style(dice, style))
        for number in (0, 1, 3, (1 << 32) - 1):
            for p in ((0, 0), (0, 1)):
                for red in (0, 255):
                    calls.append(("R", block, number, bytes([red] + [0] * 7 + list(p) + [0] * 16)))
    # Sequences on one block: each call is given the block that the one before answers.
    for mode in range(8):
        block = block_of(mode, dice.one_of(model.splits(mode)), bits_of_style(dice, "random"))
        for _ in range(20):
            number, new = some_replacement(dice, block)
            calls.append(("R", block, number, new))
            block = model.replace(block, number, new)[1]
    for block in outside(shared, 240):
        calls.append(("R", block, *some_replacement(dice, block, wrong_percent=0)))
    return calls


# ---------------------------------------------------------------------------------------------------------------------
def reading_lines(dice, shared):
    del shared
    # Every mode and split, each line and the first that there isn't; line numbers that only look small.
    calls = []
    for mode, split in all_splits():
        block = block_of(mode, split, bits_of_style(dice, dice.one_of(("random", "sparse", "dense"))))
        lines = model.MODES[mode].lines
        calls += [("r", block, line) for line in (*range(lines + 1), dice.one_of((256, 65536, 1 << 31, (1 << 32) - 1)))]
    reserved = bytes(16), bytes(1) + b"\xff" * 15
    return calls + [("r", block, line) for block in reserved for line in (0, 1, 2, 3, 255, 256)]


# ---------------------------------------------------------------------------------------------------------------------
def wanted_colours(dice):
    """(block, line, pixel, wanted). Block C at its anchor, hit, missed and halfway. Limits and each pair of refusals that
    can meet. Then every mode and split: a line at its anchor or another pixel, for what an index draws there; a pixel that
    isn't the line's, or another colour. At last every rotation with a wanted value in one channel alone."""
    calls = [(document_01.C, 0, 0, (red, 0, 0, 0)) for red in (135, 130, 127, 119, 254, 255, 0)]
    reserved = bytes(16), bytes(1) + b"\xff" * 15
    for number in (0, 1, 2, 3, 256, LARGE[-1]):
        for pixel in (0, 15, 16, 256, LARGE[-1]):
            blocks = reserved[number % 2], document_01.C, document_01.D
            calls += [(block, number, pixel, (0, 0, 0, 0)) for block in blocks]
    for turn, (mode, split) in enumerate(all_splits()):
        block = block_of(mode, split, bits_of_style(dice, dice.one_of(("random", "sparse", "dense"))))
        lines = model.lines(mode, split)
        number = turn % len(lines)
        line = lines[number]
        pixel = dice.one_of((line.anchor, dice.one_of(line.pixels)))
        wanted = list(dice.bytes(4))
        drawn = model.drawn_with(model.take_apart(block), line, pixel, dice.below(1 << line.index_width))
        for channel, value in drawn.items():
            wanted[channel] = value
        calls.append((block, number, pixel, wanted))
        if turn % 8 == 0:
            calls.append((block, number, next((q for q in range(16) if q not in line.pixels), 16), wanted))
        elif turn % 8 == 4:
            calls.append((block, *some_wanted(dice, block)))
    for mode in (4, 5):
        for split in model.splits(mode):
            block = block_of(mode, split, bits_of_style(dice, "random"))
            alone = [[255 * (each == channel) for each in range(4)] for channel in range(4)]
            calls += [(block, number, 5, wanted) for number in (0, 1) for wanted in alone]
    return calls


def finding_nearest(dice, shared):
    del shared
    return [("N", *asked) for asked in wanted_colours(dice)]


def finding_exact(dice, shared):
    del shared
    return [("E", *asked) for asked in wanted_colours(dice)]


def telling_opaque(dice, shared):
    """One pixel that isn't 255, at each place, just hidden and just shown. Every mode, split and rotation: opaque, and with two pixels that
    aren't; modes 0 to 3 and reserved blocks under every columns and rows to 5; large numbers; document 01's and outside blocks."""
    calls = []
    for pixel in range(16):
        mode = 4 + pixel % 4
        block = nearly_opaque(dice, mode, dice.one_of(model.splits(mode)), [pixel])
        x, y = pixel % 4, pixel // 4
        for columns, rows in ((x, y), (x, 4), (4, y), (x + 1, y + 1), (4, 4), (1, 1)):
            calls.append(("A", block, columns, rows))
    for mode, split in all_splits():
        if mode > 3:
            calls.append(("A", nearly_opaque(dice, mode, split, []), 4, 4))
            two = [dice.below(16), dice.below(16)]
            calls.append(("A", nearly_opaque(dice, mode, split, two), dice.within(1, 4), dice.within(1, 4)))
    some = [block_of(mode, model.splits(mode)[0], bits_of_style(dice, "random")) for mode in range(4)]
    some += [bytes(16), bytes(1) + b"\xff" * 15, document_01.C, document_01.D]
    for block in some:
        calls += [("A", block, columns, rows) for columns in range(6) for rows in (0, 1, 4, 5)]
    corner = nearly_opaque(dice, 6, ("whole",), [15])
    for large in LARGE:
        calls += [("A", corner, large, 4), ("A", corner, 3, large), ("A", corner, large, large)]
    calls += [("A", block, dice.within(1, 4), dice.within(1, 4)) for block in outside(shared, 96)]
    return calls + [("A", *some_opacity(dice)) for _ in range(60)]


def reading_bits(dice, shared):
    del shared
    calls, ones = [], b"\xff" * 16

    def add(*kinds, block=None):
        calls.append(("B", block or dice.bytes(16), bytes(kinds)))

    # At 128 every read is short, and each leaves the reader there; at 127 all but one bit.
    for block in (ones, None):
        add(192, 192, *READS, block=block)
        add(192, 191, *READS[2:9], *READS[10:], 0, 0, block=block)
    # From every place: a read one bit too wide, then one that just fits (by each of the calls that has the width), then one bit more.
    for at in range(64, 128):
        start, left = (192, 128 + at - 64) if at > 64 else (192,), 128 - at
        if left < 64:
            add(*start, 128 + left + 1, 128 + left, 0)
        add(*start, 192, 128 + left, 0, 192)
        if left <= 8:
            add(*start, *(width for width in range(left + 1, 9)), left, 0, 1)
    # 64 bits across the halves from every place, and what is left; a refused read before one that takes the rest.
    for at in range(1, 64):
        add(128 + at, 192, 192, 128 + 64 - at, 0)
    # The widths of each kind one after the other, and the bits one by one.
    for width in range(1, 9):
        add(*(width for _ in range(128 // width + 3)))
    for width in range(1, 65):
        add(*(128 + width for _ in range(128 // width + 2)))
    add(*(0 for _ in range(131)))
    add(*(0 for _ in range(131)), block=ones)
    add()
    add(0)
    # The fields of each mode, marker and split as one: they take all bits. Then one bit more.
    for mode, split in all_splits():
        if split in model.splits(mode)[:2]:
            fields = model.layout(mode, split)
            add(128 + fields[0][1], *(128 + width for _, _, width in fields), 0, block=block_of(mode, split, bits_of_style(dice, "random")))
    return calls + [("B", *some_reads(dice)) for _ in range(60)]


# ---------------------------------------------------------------------------------------------------------------------
WIDE_SIDES = (0, *range(1, 10), 127, 128, 129, 4095, 4096, 4097, 16383, 16384, 16385, (1 << 21) - 1)
# Not numbers: a needless last group, a cut-off group, too many groups.
NOT_NUMBERS = ("8000", "8100", "808000", "818000", "80", "8080", "ff", "80808000", "80808001", "ffffff7f", "81808000")


def reading_heads(dice, shared):
    del shared
    calls = document_calls("H")
    for width in WIDE_SIDES:
        for height in (1, 4, 128, 4096, 4097, 16384, 16385, 0):
            calls.append(("H", b"\x01" + model.write_number(width) + model.write_number(height)))
    for height in WIDE_SIDES:
        calls.append(("H", b"\x01\x05" + model.write_number(height) + dice.bytes(16)))
    # Every beginning of a head, each number cut off among them.
    for head in ("010504", "0180018001", "0180208020", "01808001808001", "01ff7fff7f", "01ffff7fffff7f"):
        head = bytes.fromhex(head)
        calls += [("H", head[:count]) for count in range(len(head) + 1)]
    # Forms: only 1, and 7 before 8 only on the form itself.
    for form in (0, 2, 3, 127, 128, 129, 257, 16384, 16385, (1 << 21) - 1):
        for rest in ("", "0504", "80", "0004", "05", "808080", "050480"):
            calls.append(("H", model.write_number(form) + bytes.fromhex(rest)))
    # Wrong numbers at each place, alone and beside a side of 0 or above 16,384 (7 before 9).
    for wrong in map(bytes.fromhex, NOT_NUMBERS):
        for head in (wrong, wrong + b"\x05\x04", b"\x01" + wrong, b"\x01" + wrong + b"\x04", b"\x01\x05" + wrong):
            calls.append(("H", head))
        for side in (0, 16385):
            calls.append(("H", b"\x01" + model.write_number(side) + wrong))
            calls.append(("H", b"\x01" + wrong + model.write_number(side)))
    calls.append(("H", (b"\x01\x05\x04" + dice.bytes(252))))
    calls.append(("H", b"\xff" * 255))
    return calls + [("H", some_head(dice)) for _ in range(60)]


def writing_heads(dice, shared):
    del dice, shared
    calls = document_calls("W")
    sides = (0, *range(1, 10), 127, 128, 129, 4096, 4097, 16383, 16384, 16385, 65536, 65537, 1 << 31, (1 << 32) - 1)
    return calls + [("W", width, height) for width in sides for height in sides]


def blocks_for(dice, length):
    return b"".join(some_block(dice) for _ in range(length // 16)) + dice.bytes(length % 16)


def decoding_rows(dice, shared):
    del shared
    calls = []

    def add(width, height, row, blocks, out):
        calls.append(("O", width, height, row, blocks_for(dice, blocks), dice.bytes(out)))

    def right(width, height, row):
        return 16 * model.in_blocks(width), 4 * width * min(4, height - 4 * row)

    # Every width and height from 1 to 9, every row of blocks, and the first row beyond.
    for width in range(1, 10):
        for height in range(1, 10):
            rows = model.in_blocks(height)
            for row in range(rows):
                add(width, height, row, *right(width, height, row))
            if width in (1, 4, 9) or height in (1, 4, 8):
                add(width, height, rows, *right(width, height, rows - 1))
    # Block bytes and output beside the right length, one at a time and both (10 before 11).
    for width, height, row in ((1, 1, 0), (4, 4, 0), (5, 6, 1), (8, 8, 1), (9, 3, 0)):
        blocks, out = right(width, height, row)
        for more in (-16, -15, -1, 1, 15, 16, -blocks):
            if blocks + more >= 0:
                add(width, height, row, blocks + more, out)
        for more in (-out, -4 * width, -4, -1, 1, 4, 4 * width, 16):
            if out + more >= 0:
                add(width, height, row, blocks, out + more)
        for more in (-1, 1):
            add(width, height, row, blocks + more, out + more)
        add(width, height, row, 0, 0)
    # Sizes refused (9), with a row beyond, block bytes or an output that would be refused too.
    for width, height in ((0, 1), (1, 0), (0, 0), (16385, 1), (1, 16385), (16385, 16385), (65536, 1), (1, 1 << 31)):
        for row in (0, 5000):
            for blocks, out in ((16, 16), (0, 16), (16, 0), (0, 0)):
                add(width, height, row, blocks, out)
    # Rows beyond the sheet (12), with block bytes or an output that would be refused too.
    for height, rows in ((1, (1, 2)), (4, (1,)), (5, (2,)), (4096, (1024, 1025)), (16384, (4096, 4097)), (16381, (4096,))):
        for row in (*rows, 65536, 1 << 30, (1 << 32) - 1):
            for blocks, out in ((16, 16), (0, 16), (16, 0), (0, 0)):
                add(3, height, row, blocks, out)
    # Each pair in its order once more at the largest sizes; the last rows of the tallest sheets.
    for height in (4096, 4097, 16383, 16384, 16382, 16381, 16380):
        row = model.in_blocks(height) - 1
        add(2, height, row, *right(2, height, row))
        add(2, height, row, right(2, height, row)[0], right(2, height, row)[1] + 8)
        add(7, height, 0, *right(7, height, 0))
    for width in (4095, 4096):
        add(width, 4093, 1023, *right(width, 4093, 1023))
        add(width, 1, 0, 16 * 1024 - 16, 4)
    # The widest row, of which one scanline has room here; and the same without its last block.
    add(16384, 16381, 4095, *right(16384, 16381, 4095))
    add(16384, 1, 0, 16 * 4096 - 16, 4 * 16384)
    return calls + [("O", *some_row(dice, 12)) for _ in range(40)]


def replacing_in_sheets(dice, shared):
    del shared
    calls = document_calls("S")
    no_change = bytes(26)

    def accepted(sheet, start, block):
        """A line and a replacement that the block accepts, where it isn't reserved."""
        at = start + 16 * block
        return some_replacement(dice, sheet[at : at + 16], wrong_percent=0)

    # Each block of sheets of every width, and the first numbers beyond.
    for width in range(1, 10):
        for height in (1, 4, 5, 9) if width in (4, 5, 9) else (3,):
            head = model.write_head(width, height)[1]
            count = model.in_blocks(width) * model.in_blocks(height)
            sheet = head + b"".join(some_block(dice) for _ in range(count))
            for block in range(count):
                calls.append(("S", sheet, block, *accepted(sheet, len(head), block)))
            for block in (count, count + 1):
                calls.append(("S", sheet, block, 0, no_change))
    # Block numbers that wrap when multiplied by sixteen, and every refusal of a block, alone and behind the sheet's.
    head = model.write_head(6, 7)[1]
    four = (document_01.C, bytes(16), block_of(1, ("two", 13), bits_of_style(dice, "random")), document_01.D)
    sheet = head + b"".join(four)
    wrong_value = bytes([255] + [0] * 25)
    wrong_p = bytes([0] * 8 + [0, 1] + [0] * 16)
    for block in (0, 1, 2, 3, 4, 5, *LARGE):
        for line in (0, 1, 2, (1 << 32) - 1):
            for new in (no_change, wrong_value, wrong_p):
                if block < 4 or line in (0, 2):
                    calls.append(("S", sheet, block, line, new))
    calls.append(("S", sheet, 0, 0, document_01.C_NEW))
    # Block bytes missing and surplus (10), with a block number beyond (10 before 12) and a refused replacement.
    for more in (-64, -63, -17, -16, -15, -1, 1, 15, 16, 17, 64):
        changed = sheet[: len(sheet) + more] if more < 0 else sheet + dice.bytes(more)
        for block, line, new in ((0, 0, no_change), (4, 0, no_change), (1, 0, wrong_value), (3, 9, no_change)):
            calls.append(("S", changed, block, line, new))
    # Every length of a sheet of one block.
    one = b"\x01\x01\x01" + document_01.C
    for length in range(len(one) + 1):
        calls.append(("S", one[:length], 0, 0, document_01.C_NEW))
    calls.append(("S", one + b"\0", 0, 0, document_01.C_NEW))
    # Heads refused (7, 8, 9) before too few block bytes and a number beyond.
    heads = ["", "01", "0105", "018000", "8000", "81000504", "018080800004", "02", "020504", "000504", "020004", "8101"]
    heads += ["0280", "010004", "010400", "01812004", "01048120", "0100", "01008000", "010080", "01812080"]
    heads += ["0181800104", "0104818001", "0181800180"]
    for head in heads:
        head = bytes.fromhex(head)
        for rest in (b"", document_01.C, document_01.C + document_01.D):
            calls.append(("S", head + rest, 0, 0, document_01.C_NEW))
            calls.append(("S", head + rest, 9, 9, wrong_value))
    # The largest sides: too few bytes for 16,384 by 16,384 and for 4,096 by 4,096, whole sheets one block high.
    calls.append(("S", model.write_head(16384, 16384)[1] + document_01.C, 0, 0, document_01.C_NEW))
    wide = model.write_head(16380, 4)[1] + document_01.C * 4095
    calls += [("S", wide, block, 0, document_01.C_NEW) for block in (4094, 4095)]
    calls.append(("S", model.write_head(4096, 4096)[1] + document_01.C, 0, 0, document_01.C_NEW))
    calls.append(("S", model.write_head(4096, 4)[1] + document_01.C * 1023, 0, 0, document_01.C_NEW))
    long = model.write_head(4095, 4)[1] + document_01.C * 1024
    calls.append(("S", long, 1023, 0, document_01.C_NEW))
    # A sequence on one sheet.
    head, blocks = some_sheet(dice, 9)
    sheet = head + blocks
    for _ in range(30):
        block = dice.below(len(blocks) // 16)
        call = ("S", sheet, block, *accepted(sheet, len(head), block))
        calls.append(call)
        sheet = model.replace_in_sheet(*call[1:])[1]
    return calls + [("S", *some_sheet_call(dice, 9)) for _ in range(80)]


def listing_sheets(dice, shared):
    del shared
    sheets = [document_01.SHEET]

    def whole(width, height):
        count = model.in_blocks(width) * model.in_blocks(height)
        return model.write_head(width, height)[1] + b"".join(some_block(dice) for _ in range(count))

    # Every width to 9 with one to four rows of blocks, and numbers of two, three and four digits.
    for width in range(1, 10):
        sheets += [whole(width, height) for height in (1, 4, 5, 9, 13)]
    sheets += [whole(44, 5), whole(404, 3), whole(3, 404)]
    # A sheet of three rows cut at every place, and with bytes too many.
    sheet = whole(5, 9)
    sheets += [sheet[:length] for length in range(len(sheet))]
    sheets += [sheet + dice.bytes(more) for more in (1, 2, 15, 16, 17, 31, 32, 33, 1000)]
    # The widest rows, which fill the buffer: whole, and cut within, at and after a row.
    wide = whole(4093, 7)
    row = len(wide) - 2 * 16384
    sheets += [wide] + [wide[: row + end] for end in (16384 - 1, 16384, 16384 + 1)]
    # Heads refused, with nothing behind them, a block, and several.
    heads = ["", "01", "0105", "010580", "018000", "80", "8000", "81000504", "0180808001", "ffffff7f", "02", "020504"]
    heads += ["000504", "8001", "8101", "0280", "010004", "010400", "01812004", "01048120", "01ffff7f04", "010080"]
    heads += ["018020", "01802004", "0104", "01048020", "01808080", "0101808001"]
    for head in heads:
        sheets += [bytes.fromhex(head) + rest for rest in (b"", document_01.C, document_01.C + document_01.D)]
    return [("l", sheet) for sheet in sheets] + [("l", some_listed(dice)) for _ in range(80)]


# ---------------------------------------------------------------------------------------------------------------------
def dds_files(dice):
    """Files to import. Every number of a header changed, alone; every length up to the first block; sides and what is refused
    before and after them; and files by chance."""
    sheet = model.write_head(5, 3)[1] + blocks_for(dice, 32)
    right = model.dds_header(5, 3) + sheet[3:]
    files = [right] + [right[:length] for length in range(150)]
    files += [right[: len(right) + more] if more < 0 else right + dice.bytes(more) for more in (-17, -16, -1, 1, 15, 16, 17)]
    for at in DDS_NUMBERS:
        held = int.from_bytes(right[at : at + 4], "little")
        files += [with_number(right, at, value) for value in (held + 1, held ^ 1 << 31, held ^ 1 << 8)]
    for at, values in (
        (DDS_FORMAT, (0, 71, 95, 96, 97, 98, 99, 100, 98 + (1 << 16), (1 << 32) - 1)),
        (DDS_MIPS, (0, 1, 2, 3, 256, (1 << 32) - 1)),
        (DDS_ARRAY, (0, 1, 2, 6, 257, (1 << 32) - 1)),
        (DDS_MISC, (0, 1, 2, 3, 4, 5, 6, 7, 8, 12, 16, 1 << 31, (1 << 32) - 5, (1 << 32) - 1)),
        (132, (0, 1, 2, 3, 4, 259)),
    ):
        files += [with_number(right, at, value) for value in values]
    # As nvcompress writes it; and the others that aren't looked at, all at once.
    files.append(with_number(with_number(right, 8, 0x1007), 20, 0))
    other = right
    for at in DDS_IGNORED:
        other = with_number(other, at, dice.number(32))
    files.append(other)
    # Sides refused (9), beside an array of 0 (15), and with as many blocks as the others need or none (10).
    sides = (0, 1, 4, 5, 128, 4096, 4097, 16383, 16384, 16385, 65535, 65536, 65537, 1 << 30, 1 << 31, (1 << 32) - 1)
    for width in sides:
        for height in (3, width):
            sized = with_number(with_number(right, DDS_WIDTH, width), DDS_HEIGHT, height)
            files += [sized, with_number(sized, DDS_ARRAY, 0), sized[: model.DDS_HEADER]]
    # Width and height apart, and the widest and the tallest that are accepted.
    for width, height in ((9, 2), (2, 9), (127, 5), (5, 128), (4096, 3), (3, 4093)):
        count = model.in_blocks(width) * model.in_blocks(height)
        files.append(model.dds_header(width, height) + blocks_for(dice, 16 * count))
    return files + [some_dds(dice, 9) for _ in range(60)]


def dds_sheets(dice):
    """Sheets to export: every width and height from 1 to 9, cut off and too long, refused heads, the largest sides."""
    sheets = []
    for width in range(1, 10):
        for height in range(1, 10):
            count = model.in_blocks(width) * model.in_blocks(height)
            sheets.append(model.write_head(width, height)[1] + blocks_for(dice, 16 * count))
    right = model.write_head(5, 6)[1] + blocks_for(dice, 64)
    sheets += [right[:length] for length in range(len(right))] + [right + dice.bytes(more) for more in (1, 15, 16, 17)]
    heads = ["", "01", "0105", "018000", "8000", "81000504", "018080800004", "02", "020504", "000504", "020004", "8101"]
    heads += ["0280", "010004", "010400", "01812004", "01048120", "0100", "01008000", "010080", "01812080", "01802080"]
    heads += ["0181800104", "0104818001", "0180800104"]
    for head in map(bytes.fromhex, heads):
        sheets += [head + rest for rest in (b"", document_01.C, document_01.C + document_01.D)]
    for width, height in ((127, 5), (5, 128), (4096, 3), (3, 4093), (3, 16384), (4096, 4096), (16384, 16384)):
        count = model.in_blocks(width) * model.in_blocks(height)
        sheets.append(model.write_head(width, height)[1] + blocks_for(dice, 16 * (1 if count > 4080 else count)))
    return sheets + [some_listed(dice, 9) for _ in range(80)]


def outputs(dice, needed):
    """What stands in the output before: exactly as long as needed; and now and then one that isn't (11), or none."""
    lengths = [needed] if needed else [dice.one_of((0, 3, 35, 148, 180))]
    if 0 < needed < 1000 and dice.chance(25):
        lengths += [needed + more for more in (-1, 1)] + [0]
    return [dice.bytes(length) for length in lengths]


def importing(dice, shared):
    calls = []
    for data in dds_files(dice):
        calls += [("I", data, out) for out in outputs(dice, model.import_length(data)[1])]
    # The outside file whose header is not as export writes it.
    data = (shared / "outside/bc7/nvtt_pil123rgba.dds").read_bytes()
    return calls + [("I", data, dice.bytes(model.import_length(data)[1]))]


def exporting(dice, shared):
    del shared
    calls = []
    for sheet in dds_sheets(dice):
        calls += [("X", sheet, out) for out in outputs(dice, model.export_length(sheet)[1])]
    return calls


def reading_colour_heads(dice, shared):
    """As `H`, with what chance adds there: nothing of form 1 says a colour space."""
    return [("h", *given) for _, *given in reading_heads(dice, shared)]


def importing_colours(dice, shared):
    """Limits and refusals of `I`; every file that is accepted under both formats; the formats beside 98 and 99."""
    calls = []
    for data in dds_files(dice):
        for made in (data, *(with_number(data, DDS_FORMAT, 99 + more) for more in (0, 1) if model.read_dds(data)[0] == 0)):
            calls += [("i", made, out) for out in outputs(dice, model.import_length(made)[1])]
    data = (shared / "outside/bc7/nvtt_pil123rgba.dds").read_bytes()
    return calls + [("i", data, dice.bytes(model.import_length(data)[1]))]


def exporting_colours(dice, shared):
    """The sheets of `X`, each under one of the three colour spaces and every seventh under all."""
    del shared
    calls = []
    for turn, sheet in enumerate(dds_sheets(dice)):
        for colour in range(3) if turn % 7 == 0 else (turn % 3,):
            calls += [("x", colour, sheet, out) for out in outputs(dice, model.export_length(sheet)[1])]
    return calls


def needing_for_import(dice, shared):
    del shared
    return [("d", data) for data in dds_files(dice)]


def needing_for_export(dice, shared):
    del shared
    return [("s", sheet) for sheet in dds_sheets(dice)]


def reading_pixels(dice, shared):
    """The last pixel and the first that is none, 256 and 256 + p, which are none either, the largest number: on a block of each mode and on
    reserved ones, for nothing else is refused. Every mode, partition, rotation and index mode: at each anchor, behind it and anywhere."""
    numbers = (0, 15, 16, 17, 31, 32, 255, 256, 257, 271, 272, 65536, 65541, 1 << 31, (1 << 32) - 16, (1 << 32) - 1)
    calls = []
    for mode in (*range(8), model.RESERVED):
        split = None if mode == model.RESERVED else dice.one_of(model.splits(mode))
        block = block_of(mode, split, bits_of_style(dice, "random"))
        calls += [("Q", block, number) for number in numbers]
    for style in STYLES:
        calls.append(("Q", block_of(model.RESERVED, None, bits_of_style(dice, style)), dice.below(16)))
    for block, _, _ in document_01.DRAWN:
        calls += [("Q", block, number) for number in range(16)]
    for mode, split in all_splits():
        block = block_of(mode, split, bits_of_style(dice, "random"))
        anchors = sorted({line.anchor for line in model.lines(mode, split)})
        asked = {*anchors, *(min(15, anchor + 1) for anchor in anchors), dice.below(16)}
        calls += [("Q", block, number) for number in sorted(asked)]
    for block in outside(shared, 240):
        calls.append(("Q", block, dice.below(16)))
    return calls


# ---------------------------------------------------------------------------------------------------------------------
# M-108: two forms.
COLOUR_NUMBERS = (0, 1, 2, 3, 4, 127, 128, 129, 130, 256, 258, 16384, 16385, (1 << 21) - 1)
# Heads, in this order: form 2 with a number that is cut off, missing or not shortest (7); a colour space that there isn't (18), alone and beside
# sides that there aren't; such sides (9), alone and beside a broken colour space (7); other forms (8), with every fault behind them; form 1.
TILE_HEADS = """02 8000 8200 0205 0280 028000 020580 02058000 020504 02050480 0205048000 0205048080 020504808000 02050480808001
    020504ffffff7f 0205048001 0205048101 0205048201 02050403 020504ff7f 02050404 02000403 02040003 0200048001 02000400 02000401 02000402
    02040000 02000000 02818001040002 02048180010002 0281800104 028180010403 0204818001 020481800103 02000480 0200048000 020004808080 0200
    020080 02008000 02ffff7f0400 0204ffff7f00 02808001808001 0280800180800100 0280800180800103 0203 020503 0300 030504 03050400 03050403
    0305048000 8101050400 8201050400 000504 00050400 82000504 82800005 01 0105 0100 018000 010504 01050400 01050403 0105048000 01000403""".split()
TILE_SIDES = (1, 3, 4, 5, 8, 9, 16, 17, 28, 29, 31, 32, 33, 36, 37, 40)  # a tile is 32 pixels wide: below, at and above its blocks


def marked(count):
    """Blocks of which no two are alike, so that each shows where it went; cheap to keep."""
    return b"".join(b"\x40" + number.to_bytes(3, "little") + bytes(12) for number in range(count))


def tile_heads(dice):
    """Every head of TILE_HEADS. Sides with each colour space; colour spaces with right and wrong sides. Every beginning of heads of one, two
    and three groups. What isn't a number at each of the four places, alone and beside sides and a colour space that are refused (7 before
    18 before 9). Form 1 with what form 2 has behind the height: its blocks start there. And heads by chance."""
    heads = [bytes.fromhex(head) for head in TILE_HEADS]
    for turn, width in enumerate(WIDE_SIDES):
        heads += [model.write_tile_head(width, height, (turn + height) % 4) for height in (1, 4, 128, 16384, 16385, 0)]
    for colour in COLOUR_NUMBERS:
        heads += [model.write_tile_head(width, height, colour) + dice.bytes(3) for width, height in ((5, 4), (0, 4), (5, 16385), (16384, 16384))]
    for head in ("02050402", "028001800101", "02808001808001ff7f", "02ff7fff7f03"):
        head = bytes.fromhex(head)
        heads += [head[:count] for count in range(len(head) + 1)]
    for wrong in map(bytes.fromhex, NOT_NUMBERS):
        heads += [wrong + b"\x05\x04\x00", b"\x02" + wrong, b"\x02" + wrong + b"\x04\x03", b"\x02\x05" + wrong + b"\x00", b"\x02\x05\x04" + wrong]
        for side in (0, 16385):
            heads += [b"\x02" + model.write_number(side) + b"\x04" + wrong, b"\x02\x04" + model.write_number(side) + wrong]
            heads += [b"\x02" + model.write_number(side) + wrong + b"\x03", b"\x02" + wrong + model.write_number(side) + b"\x03"]
    heads += [b"\x01\x05\x04" + bytes([more]) for more in (0, 1, 2, 3, 128, 255)]
    return heads + [some_tile_head(dice) for _ in range(60)]


def reading_tile_heads(letter):
    return lambda dice, shared: [(letter, head) for head in tile_heads(dice)]


def opening(dice, shared):
    """The heads of `H`, and those of both forms; and whole sheets, of which only the head is looked at."""
    calls = [("o", *given) for _, *given in reading_heads(dice, shared)] + [("o", head) for head in tile_heads(dice)]
    for form in model.FORMS:
        calls += [("o", sheet_of(form, width, height, dice_blocks(dice), dice.below(3))) for width in TILE_SIDES for height in (1, 5, 33)]
    calls.append(("o", sheet_of(model.TILES, 252, 256, marked)))
    return calls


def dice_blocks(dice):
    return lambda count: dice.bytes(16 * count)


def drawn_blocks(dice):
    return lambda count: blocks_for(dice, 16 * count)


def edge_blocks(dice):
    """Opaque but at one pixel of the last column or row: the mark goes by how many of them are shown."""
    hidden = (3, 7, 11, 12, 13, 14, 15)
    return lambda count: b"".join(nearly_opaque(dice, 6, ("whole",), [dice.one_of(hidden)]) for _ in range(count))


def refused_sheets(dice):
    """Sheets that no call takes, or that only some take: every head of TILE_HEADS with nothing behind it, a block and two; whole sheets of
    both forms under each colour space with bytes missing and too many."""
    rests = b"", document_01.C, document_01.C + document_01.D
    sheets = [bytes.fromhex(head) + rest for head in TILE_HEADS for rest in rests]
    for form in model.FORMS:
        for colour in range(3 if form == model.TILES else 1):
            sheet = sheet_of(form, 6, 7, dice_blocks(dice), colour)
            sheets += [sheet[: len(sheet) + more] if more < 0 else sheet + dice.bytes(more) for more in (-64, -17, -16, -1, 1, 16, 17)]
    return sheets


def moving(letter, form):
    """Moves to that form. Every pair of sides below, at and above a tile's blocks. One block high and one wide, to many tiles. What is refused,
    with outputs that are as long as needed and that aren't (11 before 16), and under each colour space. Sheets as large as a call takes, one
    tile high and with tiles cut on both sides. And by chance."""
    other, more = (model.ROWS, 1) if form == model.TILES else (model.TILES, -1)

    def calls(dice, shared):
        del shared
        made = []
        for width in TILE_SIDES:
            made += [sheet_of(other, width, height, dice_blocks(dice)) for height in TILE_SIDES]
        for long in (64, 127, 128, 129, 255, 256, 260, 1024):
            made += [sheet_of(other, *sides, dice_blocks(dice)) for sides in ((long, 1), (2, long))]
        found = [(letter, sheet, dice.bytes(len(sheet) + more)) for sheet in made]
        # Each colour space, in each form; outputs beside the right length, none, and as long as the sheet.
        for each in model.FORMS:
            for colour in range(3 if each == model.TILES else 1):
                for width, height in ((1, 1), (5, 4), (33, 5), (9, 36)):
                    sheet = sheet_of(each, width, height, dice_blocks(dice), colour)
                    lengths = {0, *(max(0, len(sheet) + beside) for beside in (-17, -16, -2, -1, 0, 1, 2, 16))}
                    found += [(letter, sheet, dice.bytes(length)) for length in sorted(lengths)]
        for sheet in refused_sheets(dice):
            for length in {max(0, len(sheet) + more), len(sheet)} if len(sheet) % 3 else {max(0, len(sheet) + more)}:
                found.append((letter, sheet, dice.bytes(length)))
        for width, height in ((16380, 1), (252, 256)):
            sheet = sheet_of(other, width, height, marked)
            found.append((letter, sheet, b"\xa5" * (len(sheet) + more)))
        return found + [(letter, *some_move(dice, form, 44)) for _ in range(60)]

    return calls


def showing_rows(dice, shared):
    """Every pair of sides, in each form by turns, at some row, the last ones too. Each pair of refusals: bytes missing or too many (10), rows
    beyond (12), outputs beside the right length (11), in both forms; heads that are refused, with a row beyond. The widest output that a call
    takes, and the largest sheets. And by chance."""
    del shared
    calls = []
    for turn, (width, height) in enumerate((width, height) for width in TILE_SIDES for height in TILE_SIDES):
        form, rows = model.FORMS[turn % 2], model.in_blocks(height)
        for each in (form, 3 - form) if turn % 5 == 0 else (form,):
            sheet = sheet_of(each, width, height, drawn_blocks(dice), dice.below(3))
            row = dice.one_of((0, rows - 1, dice.below(rows)))
            calls.append(("V", row, sheet, dice.bytes(shown_length(width, height, row))))
    for form in model.FORMS:
        for width, height in ((6, 7), (37, 33)):
            sheet = sheet_of(form, width, height, drawn_blocks(dice), 2 if width == 37 else 0)
            rows = model.in_blocks(height)
            for row in (0, rows - 1, rows, rows + 1, 256, 1 << 30, (1 << 32) - 1):
                right = shown_length(width, height, min(row, rows - 1))
                for length in (right, right - 1, right + 1, 0):
                    for more in (0, -16, -1, 1) if width == 6 or length == right else (0,):
                        given = sheet[: len(sheet) + more] if more < 0 else sheet + dice.bytes(more)
                        calls.append(("V", row, given, dice.bytes(length)))
    for sheet in refused_sheets(dice):
        calls += [("V", row, sheet, dice.bytes(length)) for row, length in ((0, 64), (9, 3))[: 1 + len(sheet) % 2]]
    tall = sheet_of(model.TILES, 4, 16380, marked)
    calls.append(("V", 4094, tall, dice.bytes(64)))
    wide = sheet_of(model.TILES, 4096, 4, lambda count: document_01.D * (count - 1) + document_01.C)
    calls.append(("V", 0, wide, b"\xa5" * protocol.LARGEST_LENGTH))
    return calls + [("V", *some_shown_row(dice, 44)) for _ in range(60)]


def taking_blocks(dice, shared):
    """Every block of a sheet of four cut tiles, and one of every pair of sides, in both forms; the first numbers beyond, and ones that wrap when
    multiplied by sixteen; bytes missing and too many with a number beyond (10 before 12); heads that are refused; the largest sheets."""
    del shared
    calls = []
    sheet = sheet_of(model.TILES, 36, 38, dice_blocks(dice), 1)
    calls += [("b", sheet, number) for number in range(92)]
    for form in model.FORMS:
        for width in TILE_SIDES:
            for height in (1, 5, 32, 37):
                sheet = sheet_of(form, width, height, dice_blocks(dice), dice.below(3))
                count = model.in_blocks(width) * model.in_blocks(height)
                calls += [("b", sheet, number) for number in (dice.below(count), dice.one_of((count - 1, count)))]
        sheet = sheet_of(form, 6, 7, dice_blocks(dice), 2)
        for more in (0, -64, -17, -16, -1, 1, 16, 17):
            given = sheet[: len(sheet) + more] if more < 0 else sheet + dice.bytes(more)
            calls += [("b", given, number) for number in (0, 3, 4, 5, *(LARGE if more == 0 else LARGE[-1:]))]
    for sheet in refused_sheets(dice):
        calls += [("b", sheet, number) for number in (0, 9)[: 1 + len(sheet) % 2]]
    wide, high = sheet_of(model.TILES, 16380, 1, marked), sheet_of(model.TILES, 252, 256, marked)
    calls += [("b", wide, 4094), ("b", high, 1000)]
    for _ in range(60):
        sheet = some_listed(dice, 44, either_form(dice))
        calls.append(("b", sheet, some_block_number(dice, sheet)))
    return calls


def stating(dice, shared):
    """Each colour space over each, at sides of one, two and three groups; numbers that there aren't (18), also ones whose low byte there is. What
    is refused before: heads, form 1 (8) with any number, bytes missing and too many (10 before 18); a stored number above 2 (18). The largest
    sheets, and by chance."""
    del shared
    calls = []
    for width, height in ((1, 1), (5, 4), (33, 5), (9, 36), (128, 1), (2, 200), (127, 9)):
        for colour in range(3):
            sheet = sheet_of(model.TILES, width, height, dice_blocks(dice), colour)
            numbers = (0, 1, 2, 3, 4, 128, 256, 257, 258, *LARGE) if (width, colour) == (5, 1) else (0, 1, 2, 3)
            calls += [("c", number, sheet) for number in numbers]
        calls += [("c", number, sheet_of(model.ROWS, width, height, dice_blocks(dice))) for number in (0, 1, 3)]
    for turn, sheet in enumerate(refused_sheets(dice)):
        calls += [("c", number, sheet) for number in ((1, 3), (2,), (0,))[turn % 3]]
    for colour in COLOUR_NUMBERS:
        calls += [("c", 1, model.write_tile_head(3, 4, colour) + document_01.C)]
    calls += [("c", 2, sheet_of(model.TILES, *sides, marked)) for sides in ((16380, 1), (252, 256))]
    return calls + [("c", *some_stating(dice, 44)) for _ in range(60)]


def replacing_in_tiles(dice, shared):
    """Replacement in form 2: each block of a sheet of cut tiles, and the first beyond; every refusal of a block and of the sheet, and of heads;
    a sheet of as many blocks as a call takes. A sequence on one sheet, and by chance."""
    del shared
    calls = []
    for sides, step in (((37, 9), 1), ((39, 35), 7)):
        sheet = sheet_of(model.TILES, *sides, drawn_blocks(dice), 2)
        count = model.in_blocks(sides[0]) * model.in_blocks(sides[1])
        for number in range(0, count, step):
            calls.append(("S", sheet, number, *some_replacement(dice, model.block_in_sheet(sheet, number)[1], wrong_percent=0)))
        calls += [("S", sheet, number, 0, bytes(26)) for number in (count, count + 1, *(LARGE if step == 1 else ()))]
    wrong_value, wrong_p = bytes([255] + [0] * 25), bytes([0] * 8 + [0, 1] + [0] * 16)
    two = block_of(1, ("two", 13), bits_of_style(dice, "random"))
    sheet = model.write_tile_head(7, 6, 1) + document_01.C + bytes(16) + two + document_01.D
    for block in (0, 1, 2, 3, 4):
        calls += [("S", sheet, block, line, new) for line in (0, 1, 2) for new in (bytes(26), wrong_value, wrong_p)]
    for more in (-64, -17, -16, -1, 1, 16, 17):
        given = sheet[: len(sheet) + more] if more < 0 else sheet + dice.bytes(more)
        calls += [("S", given, block, line, new) for block, line, new in ((0, 0, bytes(26)), (4, 0, bytes(26)), (1, 0, wrong_value))]
    for sheet in refused_sheets(dice):
        calls.append(("S", sheet, len(sheet) % 5, 0, document_01.C_NEW))
    large = sheet_of(model.TILES, 252, 256, lambda count: document_01.C * count)
    calls.append(("S", large, 4030, 0, document_01.C_NEW))
    head, blocks = some_tile_sheet(dice, 44)
    sheet = head + blocks
    for _ in range(30):
        block = dice.below(len(blocks) // 16)
        call = ("S", sheet, block, *some_replacement(dice, model.block_in_sheet(sheet, block)[1], wrong_percent=0))
        calls.append(call)
        sheet = model.replace_in_sheet(*call[1:])[1]
    return calls + [("S", *some_sheet_call(dice, 44, model.TILES)) for _ in range(60)]


def listing_tiles(dice, shared):
    """Form 2 listed: pairs of sides; a sheet of cut tiles with every length up to the end of its third block and around each later one, and with
    bytes too many; marks at the edges, by column and row; 1,024 blocks and one more, cut there; refused heads, and by chance."""
    del shared
    sheets = []
    for turn, (width, height) in enumerate((width, height) for width in TILE_SIDES for height in (1, 7, 29, 33, 38)):
        sheets.append(sheet_of(model.TILES, width, height, (drawn_blocks, edge_blocks)[turn % 2](dice), dice.below(3)))
    sheet = sheet_of(model.TILES, 9, 10, drawn_blocks(dice), 1)
    sheets += [sheet[:length] for length in range(len(sheet)) if length < 56 or length % 16 in (3, 4, 5)]
    sheets += [sheet + dice.bytes(more) for more in (1, 15, 16, 17, 1000)]
    sheets += [sheet_of(model.TILES, *sides, edge_blocks(dice)) for sides in ((5, 6), (34, 3), (3, 35), (33, 33), (35, 34))]
    wide = sheet_of(model.TILES, 132, 128, drawn_blocks(dice))
    sheets += [wide] + [wide[: len(wide) - 32 * 16 + end] for end in (-17, -16, -1, 0, 1, 16)]
    sheets += refused_sheets(dice)
    return [("l", sheet) for sheet in sheets] + [("l", some_listed(dice, 44, model.TILES)) for _ in range(40)]


def tiles_to_export(dice):
    """Sheets of form 2 for calls that take form 1 alone: 8 at the form, whatever stands behind it."""
    sheets = [sheet_of(model.TILES, width, height, dice_blocks(dice), colour) for width, height in ((1, 1), (5, 4), (33, 5)) for colour in range(3)]
    return sheets + refused_sheets(dice)


def exporting_tiles(letter):
    """With an output as long as the file of form 1 would be, and with none."""

    def calls(dice, shared):
        del shared
        found = []
        for turn, sheet in enumerate(tiles_to_export(dice)):
            colour = [turn % 3] if letter == "x" else []
            needed = model.DDS_HEADER + max(0, len(sheet) - 4)
            found += [(letter, *colour, sheet, dice.bytes(length)) for length in (needed, 0)[: 1 + turn % 2]]
        return found

    return calls


def needing_for_tiles(dice, shared):
    del shared
    return [("s", sheet) for sheet in tiles_to_export(dice)]


def some_of(dice, mode):
    """A block of that mode, under the first of its splits."""
    return block_of(mode, list(model.splits(mode))[0], bits_of_style(dice, "random"))


def counting(dice, shared):
    """Every pair of sides around a tile, in both forms, with blocks that are opaque but at the edge. One sheet of each mode alone, and of reserved
    blocks. What is refused: heads, bytes missing and too many, under each colour space. The largest sheets, and by chance."""
    del shared
    sheets = []
    for turn, (width, height) in enumerate((width, height) for width in TILE_SIDES for height in (1, 2, 5, 8, 33, 38)):
        for form in model.FORMS:
            blocks = (edge_blocks, drawn_blocks, edge_blocks, dice_blocks)[turn % 4](dice)
            sheets.append(sheet_of(form, width, height, blocks, turn % 3))
    for form in model.FORMS:
        for mode in range(9):
            alone = bytes(16) if mode == model.RESERVED else some_of(dice, mode)
            sheets.append(sheet_of(form, 7, 6, lambda count, block=alone: block * count))
        for blocks in ((document_01.C, document_01.D), (document_01.D, document_01.C)):
            sheets.append(sheet_of(form, 5, 4, lambda count, pair=blocks: b"".join(pair)))
    sheets += refused_sheets(dice)
    sheets += [sheet_of(model.TILES, *sides, marked) for sides in ((16380, 1), (252, 256))]
    sheets.append(sheet_of(model.ROWS, 1, 16380, marked))
    return [("C", sheet) for sheet in sheets] + [("C", some_listed(dice, 44, either_form(dice))) for _ in range(60)]


def grounds(counts, blocks):
    """Counts beside true ones: each ground of 19 alone and with others, and what is false and not asked about. `blocks` is how many there are."""
    found = [counts]
    for mode in range(model.COUNTED_MODES):
        for more in (-1, 1):
            if counts[mode] + more >= 0:
                found.append((*counts[:mode], counts[mode] + more, *counts[mode + 1 :]))
        for other in range(model.COUNTED_MODES):
            if other != mode and counts[mode]:  # the sum stays
                moved = list(counts)
                moved[other] += moved[mode]
                moved[mode] = 0
                found.append(tuple(moved))
    for opaque in (0, 1, blocks - 1, blocks, blocks + 1, 2**32 - 1):
        found.append((*counts[: model.COUNTED_MODES], opaque))
    round_about = list(counts)  # sums to 2 ** 32 more
    round_about[0], round_about[1] = 2**32 - 1, round_about[0] + round_about[1] + 1
    return found + [tuple(round_about), model.NO_COUNTS, (2**32 - 1,) * 10]


def changing_counted(letter):
    """Every ground of 19 over a sheet of four blocks, one of them reserved and one at the edge, in both forms, for a block that is opaque, one that isn't
    and the reserved one; 19 together with 12 before it, and with 1, 2, 3, 4 behind it. Each mode put over each, opaque or not; every block of a
    sheet of cut tiles. What is refused before: heads, bytes missing and too many, numbers beyond. Sequences on one sheet that hand the counts on,
    and by chance."""

    def given(dice, block):
        return [some_counted_block(dice)] if letter == "K" else some_replacement(dice, block, wrong_percent=0)

    def calls(dice, shared):
        del shared
        found = []
        edge = nearly_opaque(dice, 6, ("whole",), [7])
        mode1 = block_of(1, ("two", 13), bits_of_style(dice, "random"))
        four = bytes(16) + mode1 + nearly_opaque(dice, 6, ("whole",), [0]) + edge
        wrong_value, wrong_p = bytes([255] + [0] * 25), bytes([0] * 8 + [0, 1] + [0] * 16)
        for form in model.FORMS:
            sheet = sheet_of(form, 7, 6, lambda count: four, 1)
            counts = model.count(sheet)[1]
            blocks = model.blocks_of(sheet, model.read_head(sheet)[1])
            for turn, came in enumerate(grounds(counts, 4)):
                found += [(letter, sheet, came, block, *given(dice, blocks[block])) for block in (0, 1, 2, 3)[turn % 2 :: 2]]
                found += [(letter, sheet, came, block, *given(dice, mode1)) for block in (4, *LARGE)[turn % 3 :: 9]]
            for came in (counts, model.NO_COUNTS):
                for more in (-64, -17, -16, -1, 1, 16, 17):
                    cut = sheet[: len(sheet) + more] if more < 0 else sheet + dice.bytes(more)
                    found += [(letter, cut, came, block, *given(dice, mode1)) for block in (0, 4)]
                if letter == "L":
                    for block in range(5):
                        found += [("L", sheet, came, block, line, new) for line in (0, 1, 2) for new in (bytes(26), wrong_value, wrong_p)]
            if letter == "K":
                of_each = [bytes(16), *(some_of(dice, mode) for mode in range(8)), edge]
                for old in of_each:
                    sheet = sheet_of(form, 5, 4, lambda count: old + edge)
                    found += [("K", sheet, model.count(sheet)[1], 0, new) for new in of_each]
            sheet = sheet_of(form, 37, 9, edge_blocks(dice), 2)
            counts = model.count(sheet)[1]
            found += [(letter, sheet, counts, block, *given(dice, model.block_in_sheet(sheet, block)[1])) for block in range(30)]
            head, blocks = some_counted_sheet(dice, 30, form)
            sheet, counts = head + blocks, model.count(head + blocks)[1]
            for turn in range(40):
                block = dice.below(len(blocks) // 16 + 1)
                came = false_counts(dice, counts) if turn % 8 == 7 else counts
                call = (letter, sheet, came, block, *given(dice, model.block_in_sheet(sheet, block)[1]))
                found.append(call)
                if came == counts:
                    _, sheet, counts = (model.replace_line_counted if letter == "L" else model.replace_block_counted)(*call[1:])
                    assert counts == model.count(sheet)[1]
        for sheet in refused_sheets(dice):
            found.append((letter, sheet, (1,) * 10, len(sheet) % 5, *given(dice, mode1)))
        large = sheet_of(model.TILES, 252, 256, lambda count: edge * count)
        found.append((letter, large, model.count(large)[1], 4030, *given(dice, edge)))
        return found + [(letter, *some_counted_call(dice, letter == "K", 44, either_form(dice))) for _ in range(80)]

    return calls


# ---------------------------------------------------------------------------------------------------------------------
# M-110: BC6H. Each block is decoded in both signs.
def decoding_halves(dice, shared):
    """Every mode with bits of every style and, with two lines, every partition, under indexes that go up; each field alone at each end of its range
    over zeros, which shows a bit that is exchanged; differences that wrap over either end; values that scale to zero; the lowest and the highest
    value; reserved blocks; the outside blocks."""
    blocks = []
    for mode in halves.STORED:
        blocks += [halves_block(mode, bits_of_style(dice, style)) for style in STYLES]
        blocks += [halves_block(mode, bits_of_style(dice, "random"), **extreme_fields(dice, mode)) for _ in range(6)]
        width = halves.widths(mode)
        low, top = {}, {}
        for name in halves_fields(mode):
            half = 1 << width[name] - 1
            first = name[1] == "0"
            # the first endpoint at an end of its range, and the differences as far over it as they reach
            low[name], top[name] = (half if first else half), (2 * half - 1 if first else half - 1)
            for value in (1, half, half - 1, 2 * half - 1):
                blocks.append(halves_block(mode, dice.number(46) << 82, **{**dict.fromkeys(halves_fields(mode), 0), name: value}))
        blocks += [halves_block(mode, dice.number(128), **low), halves_block(mode, dice.number(128), **top)]
        if halves.lines_of(mode) == 2:
            blocks += [halves_block(mode, dice.number(128), d=partition) for partition in range(32)]
    # mode 0f, whose values are as wide as a half: those about zero, the lowest and the highest, without a difference
    for value in (0, 1, 2, 3, 0x7FFE, 0x7FFF, 0x8000, 0x8001, 0xFFFD, 0xFFFE, 0xFFFF):
        blocks.append(halves_block(0x0F, dice.number(128), r0=value, g0=value, b0=value, r1=0, g1=0xF, b1=1))
    for mode in halves.RESERVED:
        blocks += [halves_block(mode, bits_of_style(dice, style)) for style in STYLES]
    piglit = (shared / "outside/piglit/bc6h_blocks.bin").read_bytes()
    blocks += [piglit[at : at + 16] for at in range(0, len(piglit), 16)]
    data = tools.outside_blocks(shared / "outside/bc6h/pillow_bc6h.dds")[2]
    blocks += [data[at : at + 16] for at in range(0, len(data), 16 * 16)]
    return [("G", sign, block) for block in blocks for sign in (0, 1)]


def floats_of_pixels(dice, shared):
    """Every channel in each of the four places, with three others that are none like it."""
    del shared
    calls = [("F", bytes((channel, 255 - channel, (channel + 85) % 256, channel ^ 1))) for channel in range(256)]
    return calls + [("F", dice.bytes(4)) for _ in range(64)]


def channels_of_floats(dice, shared):
    """Every channel's bits, both beside them, and both with the sign set; 0.0 and -0.0; the least above zero; the powers of two; 0.5, 255.0;
    the infinities and NaNs of either kind and sign; each bit alone; then what chance adds."""
    del shared
    calls = []
    for channel in range(256):
        bits = model.float_bits(channel)
        calls += [("Y", bits), ("Y", bits - 1 if bits else 1 << 31), ("Y", bits + 1), ("Y", bits | 1 << 31)]
    calls += [("Y", exponent << 23) for exponent in range(256)]
    for sign in (0, 1 << 31):
        for digits in (0, 1, 1 << 22, (1 << 22) - 1, (1 << 22) + 1, (1 << 23) - 1):
            calls += [("Y", sign | 255 << 23 | digits), ("Y", sign | digits)]
    calls += [("Y", 0x437F0000), ("Y", 0xFFFFFFFF)] + [("Y", 1 << bit) for bit in range(32)]
    return calls + [("Y", some_bits(dice)) for _ in range(500)]


def floats_of_rows(dice, shared):
    """Every length to 70, so that each remainder of a vector is there, with as many floats, one less and one more, over NaNs and over zeros; none
    at all; all channels; the longest; then what chance adds."""
    del shared
    calls = [("f", b"", b""), ("f", b"", bytes(4)), ("f", bytes(4), b""), ("f", bytes(4), bytes(4))]
    for length in range(1, 71):
        pixels = dice.bytes(length)
        calls += [("f", pixels, before * count) for before, count in ((b"\xff" * 4, length), (bytes(4), length - 1), (b"\1\0\xa0\x7f", length + 1))]
    every = bytes(range(256))
    calls += [("f", every, dice.bytes(4 * count)) for count in (64, 255, 256, 257, 1024)]
    calls += [("f", bytes(protocol.LARGEST_LENGTH), bytes(4)), ("f", bytes(1), b"\xa5" * 4 * 4096)]
    calls += [("f", every * 16, bytes(4 * 4096))]
    return calls + [("f", *some_float_row(dice)) for _ in range(100)]


# Who makes the calls of a letter, in the order of the list. What a request adds for letters that are there stands behind, so that the
# older calls keep their places and their bytes.
MAKERS = (
    ("D", decoding),
    ("U", taking_apart),
    ("P", packing),
    ("R", replacing),
    ("H", reading_heads),
    ("W", writing_heads),
    ("O", decoding_rows),
    ("S", replacing_in_sheets),
    ("l", listing_sheets),
    ("r", reading_lines),
    ("N", finding_nearest),
    ("E", finding_exact),
    ("A", telling_opaque),
    ("I", importing),
    ("X", exporting),
    ("d", needing_for_import),
    ("s", needing_for_export),
    ("Q", reading_pixels),
    ("B", reading_bits),
    ("h", reading_colour_heads),
    ("i", importing_colours),
    ("x", exporting_colours),
    ("T", moving("T", model.TILES)),
    ("Z", moving("Z", model.ROWS)),
    ("V", showing_rows),
    ("o", opening),
    ("b", taking_blocks),
    ("H", reading_tile_heads("H")),
    ("h", reading_tile_heads("h")),
    ("S", replacing_in_tiles),
    ("l", listing_tiles),
    ("X", exporting_tiles("X")),
    ("x", exporting_tiles("x")),
    ("s", needing_for_tiles),
    ("c", stating),
    ("C", counting),
    ("L", changing_counted("L")),
    ("K", changing_counted("K")),
    ("G", decoding_halves),
    ("F", floats_of_pixels),
    ("Y", channels_of_floats),
    ("f", floats_of_rows),
)


def made(asked, shared):
    """(letter, its fixed calls), for the letters that are asked for. Each has its own dice, so that adding one leaves the others as they are."""
    seen = Counter()
    for letter, maker in MAKERS:
        if letter in asked:
            yield letter, maker(Dice(SEED * 256 + ord(letter) + (seen[letter] << 32)), shared)
        seen[letter] += 1


def answers(letter, calls, oracle):
    found = [protocol.model_answer(call) for call in calls]
    if letter == "D":
        pixels = tools.through(oracle, b"".join(call[1] for call in calls))
        for number, call in enumerate(calls):
            drawn = pixels[64 * number : 64 * number + 64]
            assert drawn == found[number], "the Rust and the model differ: " + call[1].hex()
    if letter == "G":
        for sign, name in enumerate(halves.SIGNS):
            asked = [number for number, call in enumerate(calls) if call[1] == sign]
            drawn = tools.through([*oracle, name], b"".join(calls[number][2] for number in asked))
            for at, number in enumerate(asked):
                assert drawn[96 * at : 96 * at + 96] == found[number], "the Rust and the model differ: %s %s" % (name, calls[number][2].hex())
    return found


def main():
    words = argparse.ArgumentParser(description=__doc__.split("\n\n")[0])
    words.add_argument("letters", nargs="+", help="calls to include, of " + protocol.LETTERS)
    words.add_argument("out", help="the folder that gets stdin and stdout, as crates/replay")
    words.add_argument("--shared", help="folder with docs/ and outside/ (default: $SHARED, or ../shared)")
    given = words.parse_args()
    asked = set("".join(given.letters))
    if not asked <= set(protocol.LETTERS):
        sys.exit("letters are of %s; the last argument is the folder" % protocol.LETTERS)
    shared = tools.shared_folder(given.shared)
    oracles = {"D": tools.build_oracle(shared / "docs/src") if "D" in asked else None}
    oracles["G"] = tools.build_halves_oracle(shared / "outside/bc6h/rust") if "G" in asked else None
    stdin, stdout = [], []
    for letter, calls in made(asked, shared):
        replies = answers(letter, calls, oracles.get(letter))
        stdin += map(protocol.call_bytes, calls)
        stdout += replies
        counts = Counter(protocol.refusal_in(letter, reply) for reply in replies)
        tally = ["%s %d" % ("refusal %d:" % n if n else "accepted:", counts[n]) for n in sorted(counts)]
        print("%s: %d calls; %s" % (letter, len(calls), "; ".join(tally)))
    out = Path(given.out)
    out.mkdir(parents=True, exist_ok=True)
    (out / "stdin").write_bytes(b"".join(stdin))
    (out / "stdout").write_bytes(b"".join(stdout))
    print("%d calls, %d bytes in, %d bytes out" % (len(stdin), sum(map(len, stdin)), sum(map(len, stdout))))


if __name__ == "__main__":
    main()
