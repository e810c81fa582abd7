"""Inputs for the calls, made with Dice: blocks, records, replacements, heads, rows and sheets, right ones and ones
that are wrong in one or two places. Used by make_list.py for the fixed list and by run for comparison at scale."""
import halves
import model
import protocol

# Line, block and size numbers that a call must not shorten to fewer bits or multiply into an overflow.
LARGE = (255, 256, 257, 65535, 65536, 65537, 1 << 27, 1 << 28, (1 << 28) + 1, 1 << 31, (1 << 32) - 1)


# ---------------------------------------------------------------------------------------------------------------------
# Blocks.
BIT_STYLES = ("random", "random", "random", "sparse", "dense", "one set", "one clear", "zeros", "ones")


def bits_of_style(dice, style):
    if style == "random":
        return dice.number(128)
    if style == "sparse":
        return dice.number(128) & dice.number(128) & dice.number(128)
    if style == "dense":
        return dice.number(128) | dice.number(128) | dice.number(128)
    if style == "one set":
        return 1 << dice.below(128)
    if style == "one clear":
        return (1 << 128) - 1 ^ 1 << dice.below(128)
    return 0 if style == "zeros" else (1 << 128) - 1


def block_of(mode, split, rest):
    """The block of that mode and split whose other bits are those of the number `rest`."""
    if mode == model.RESERVED:
        return (rest >> 8 << 8).to_bytes(16, "little")
    above, number = mode + 1, 1 << mode
    for width, value in zip(model.MODES[mode].split_bits, split[1:]):
        number |= value << above
        above += width
    return (number | rest >> above << above).to_bytes(16, "little")


def some_split(dice, mode):
    return ("whole",) if mode == model.RESERVED else dice.one_of(model.splits(mode))


def some_block(dice, reserved_percent=3):
    mode = model.RESERVED if dice.chance(reserved_percent) else dice.below(8)
    return block_of(mode, some_split(dice, mode), bits_of_style(dice, dice.one_of(BIT_STYLES)))


# ---------------------------------------------------------------------------------------------------------------------
# BC6H blocks.
def halves_block(mode, rest, **fields):
    """The BC6H block of that mode whose fields are as given, by their names in halves.py, and whose other bits are those of the number `rest`."""
    if mode in halves.RESERVED:
        return (rest >> 5 << 5 | mode).to_bytes(16, "little")
    number = rest
    for place, (name, bit) in enumerate(halves.bits_of(mode)):
        value = mode if name == "m" else fields.get(name)
        if value is not None:
            number = number & ~(1 << place) | (value >> bit & 1) << place
    return number.to_bytes(16, "little")


def halves_fields(mode):
    """The names of a mode's endpoint fields, in the order of the channels."""
    return [channel + end for channel in "rgb" for end in "0123"[: 2 * halves.lines_of(mode)]]


def extreme_fields(dice, mode):
    """Each field at an end of its range, beside one, or anywhere: 0, 1, all bits, the sign bit alone, all but it."""
    found = {}
    for name in halves_fields(mode):
        top = 1 << halves.widths(mode)[name] - 1
        found[name] = dice.one_of((0, 1, 2 * top - 1, 2 * top - 2, top, top + 1, top - 1, top - 2, dice.below(2 * top)))
    return found


def some_halves_block(dice, reserved_percent=3):
    mode = dice.one_of(halves.RESERVED) if dice.chance(reserved_percent) else dice.one_of(sorted(halves.STORED))
    rest = bits_of_style(dice, dice.one_of(BIT_STYLES))
    if mode in halves.RESERVED or dice.chance(60):
        return halves_block(mode, rest)
    return halves_block(mode, rest, **extreme_fields(dice, mode))


# ---------------------------------------------------------------------------------------------------------------------
# Records.
def some_record(dice):
    """66 bytes: well-formed, nearly so, or anything."""
    sort = dice.below(10)
    if sort == 0:
        return bytes((dice.below(10), dice.below(4))) + dice.bytes(64)
    record = model.take_apart(some_block(dice, reserved_percent=0))
    if sort < 4:
        # Every value drawn within its full width, so that anchors have their top bit set more often than not.
        values = tuple(dice.below(1 << width) for width in model.full_widths(record.mode))
        record = record._replace(values=values)
    if sort in (1, 2):
        cleared = list(record.values)
        for place in model.anchor_places(record.mode, record.split):
            cleared[place] &= (1 << model.full_widths(record.mode)[place] - 1) - 1
        record = record._replace(values=tuple(cleared))
    if sort >= 6:
        for _ in range(dice.within(1, 2)):
            record = spoiled_record(dice, record)
    # Now and then something where the kind has nothing.
    return protocol.record_bytes(record, tuple(dice.bytes(2)) if dice.chance(10) else (0, 0))


def spoiled_record(dice, record):
    """One thing of a record changed, most often so that it is refused."""
    mode, split, values = record
    what = dice.below(12)
    if what == 0:
        return record._replace(mode=dice.one_of((8, 9, 16, 128, 255)))
    if what == 1:
        return record._replace(mode=dice.below(8))
    if what == 2:
        kind = dice.one_of(protocol.KINDS)
        return record._replace(split=(kind, *dice.bytes({"whole": 0, "vector": 2}.get(kind, 1))))
    if what == 3 and len(split) > 1:
        return record._replace(split=(split[0], *(dice.one_of((value, 1, 4, 16, 64, 255)) for value in split[1:])))
    changed = list(values)
    if what < 8 and mode < 8 and split in model.splits(mode):
        place = dice.one_of(sorted(model.anchor_places(mode, split)))
        changed[place] |= 1 << model.full_widths(mode)[place] - 1
    else:
        place = dice.below(model.VALUES)
        width = model.full_widths(mode)[place] if mode < 8 else 4
        changed[place] = dice.one_of((1 << width, (1 << width) - 1, 255, dice.below(256))) & 255
    return record._replace(values=tuple(changed))


# ---------------------------------------------------------------------------------------------------------------------
# Replacements.
def fitting_replacement(dice, mode, split, number, anchor_top=None, equal_ends=False):
    """Every value within its width; the anchor's top bit as asked, or by chance."""
    widths = model.replacement_widths(mode, split, number)
    extreme = dice.below(8)
    new = [((1 << width) - 1) * (extreme & 1) if extreme < 2 else dice.below(1 << width) for width in widths]
    line = model.lines(mode, split)[number]
    if equal_ends:
        new[4:8], new[9] = new[0:4], new[8]
    if mode == 1:
        new[9] = new[8]
    if anchor_top is not None:
        top = 1 << line.index_width - 1
        new[10 + line.anchor] = new[10 + line.anchor] & ~top | top * anchor_top
    return new


def some_replacement(dice, block, wrong_percent=30):
    """(line, 26 bytes) for the block, mostly accepted."""
    mode = model.mode_of(block)
    if mode == model.RESERVED:
        return dice.one_of((0, 1, 2, 3, *LARGE)), bytes(26) if dice.chance(50) else dice.bytes(26)
    split = model.split_of(mode, int.from_bytes(block, "little"))
    count = model.MODES[mode].lines
    number = dice.below(count)
    new = fitting_replacement(dice, mode, split, number, equal_ends=dice.chance(10))
    wrong = dice.below(100)
    if wrong < wrong_percent:
        if wrong % 3 == 0:
            number = dice.one_of((count, count + 1, 3, *LARGE))
        if wrong % 3 < 2:
            place = dice.below(26)
            widths = model.replacement_widths(mode, split, min(number, count - 1))
            new[place] = dice.one_of((1 << widths[place], 255)) & 255
        if wrong % 2 == 0:
            new[8], new[9] = dice.below(2), dice.below(2)
    elif mode == 1 and wrong >= 85:
        new[9] = 1 - new[8]
    return number, bytes(new)


# ---------------------------------------------------------------------------------------------------------------------
# Wanted colours.
def some_wanted(dice, block):
    """(line, pixel, 4 bytes) for the block: most often a colour that an index draws, one near it, or one halfway between
    two, where both may be as near; the channels that the line doesn't draw by chance."""
    mode = model.mode_of(block)
    number, pixel, wanted = dice.below(3), dice.below(16), list(dice.bytes(4))
    if mode != model.RESERVED:
        record = model.take_apart(block)
        number = dice.below(model.MODES[mode].lines)
        line = model.lines(mode, record.split)[number]
        pixel, sort = dice.one_of(line.pixels), dice.below(8)
        drawn, other = (model.drawn_with(record, line, pixel, dice.below(1 << line.index_width)) for _ in range(2))
        for channel in drawn:
            if sort < 5:
                wanted[channel] = drawn[channel]
            if sort in (3, 4):
                wanted[channel] = (drawn[channel] + other[channel]) // 2
            if sort == 2:
                wanted[channel] = min(255, max(0, drawn[channel] + dice.within(-9, 9)))
    wrong = dice.below(50)
    if wrong < 3:
        number = dice.one_of((1, 2, 3, *LARGE))
    if wrong in (2, 3, 4):
        pixel = dice.one_of((*range(16), 16, 17, *LARGE))
    return number, pixel, bytes(wanted)


# ---------------------------------------------------------------------------------------------------------------------
# Opacity.
def nearly_opaque(dice, mode, split, others):
    """A block of a mode from 4 to 7 with alpha 255 but at these pixels: what is shown as alpha starts at 255, and all indexes that
    choose it are 0, elsewhere not."""
    record = model.take_apart(block_of(mode, split, bits_of_style(dice, "random")))
    values = list(record.values)
    for line in model.lines(mode, split):
        channel = next((each for each in line.channels if model.rotated(split, each) == 3), None)
        if channel is not None:
            values[4 * line.ends[0] + channel] = (1 << model.channel_width(mode, channel)) - 1
            values[4 * line.ends[1] + channel] = 0
            if line.p:
                values[line.p[0]] = 1
            for pixel in line.pixels:
                most = (1 << line.index_width - (pixel == line.anchor)) - 1
                values[line.indexes + pixel] = dice.within(1, most) if pixel in others else 0
    return model.put_together(record._replace(values=tuple(values)))


def some_opacity(dice):
    """The arguments of telling an opaque block: most often one that is nearly so."""
    block = some_block(dice, reserved_percent=10)
    if dice.chance(75):
        mode = dice.within(4, 7)
        others = [dice.below(16) for _ in range(dice.below(3))]
        block = nearly_opaque(dice, mode, some_split(dice, mode), others)
    return block, *(dice.within(1, 4) if dice.chance(90) else dice.one_of((0, 5, *LARGE)) for _ in range(2))


# ---------------------------------------------------------------------------------------------------------------------
# Reads of the bit reader.
READS = (0, *range(1, 9), *range(129, 193))


def some_reads(dice):
    """A block, and reads until a few were asked for behind the last bit."""
    kinds, asked, wide = [], 0, dice.chance(50)
    while asked < 128 + dice.below(64) and len(kinds) < 255:
        kinds.append(dice.one_of(READS) if wide else dice.below(9))
        asked += max(1, kinds[-1] % 128)
    return dice.bytes(16), bytes(kinds)


# ---------------------------------------------------------------------------------------------------------------------
# Heads, rows and sheets.
SIDES = (*range(1, 10), 127, 128, 129, 4095, 4096, 4097, 8192, 16380, 16381, 16382, 16383, 16384)
WRONG_SIDES = (0, 16385, 16386, 32768, 65535, (1 << 21) - 1)
WRONG_COLOURS = (3, 4, 5, 127, 128, 129, 130, 256, 258, 16384, 16385, (1 << 21) - 1)


def some_number_bytes(dice, value):
    """A number's bytes, now and then wrong: with a needless group, cut off, or with too many groups."""
    right = model.write_number(value)
    wrong = dice.below(24)
    if wrong == 0:
        return right[:-1] + bytes([right[-1] | 128, 0])
    if wrong == 1:
        return right[:-1]
    if wrong == 2:
        return right[:-1] + bytes([right[-1] | 128]) + dice.bytes(dice.below(4))
    if wrong == 3:
        return bytes(byte | 128 for byte in dice.bytes(dice.within(1, 3))) + dice.bytes(1)
    return right


def some_head(dice):
    form = 1 if dice.chance(92) else dice.one_of((0, 2, 3, 127, 128, 129, 257, 16385))
    sides = [dice.one_of(SIDES) if dice.chance(85) else dice.one_of(WRONG_SIDES) for _ in range(2)]
    if dice.chance(30):
        sides = [dice.within(0, 16500) for _ in range(2)]
    head = b"".join(some_number_bytes(dice, value) for value in (form, *sides))
    if dice.chance(8):
        head = head[: dice.below(len(head) + 1)]
    if dice.chance(5):
        head = dice.bytes(dice.below(12))
    return (head + dice.bytes(dice.below(20)))[:255]


def some_tile_head(dice):
    """A head of form 2, right or wrong: its colour space too."""
    sides = [dice.one_of(SIDES) if dice.chance(85) else dice.one_of(WRONG_SIDES) for _ in range(2)]
    if dice.chance(30):
        sides = [dice.within(0, 16500) for _ in range(2)]
    colour_space = dice.below(3) if dice.chance(80) else dice.one_of(WRONG_COLOURS)
    head = b"".join(some_number_bytes(dice, value) for value in (model.TILES, *sides, colour_space))
    if dice.chance(8):
        head = head[: dice.below(len(head) + 1)]
    return (head + dice.bytes(dice.below(20)))[:255]


def near(dice, right, wrong_percent=8):
    """A length: the right one, or one beside it."""
    if dice.chance(wrong_percent):
        return max(0, right + dice.one_of((-17, -16, -15, -4, -1, 1, 4, 15, 16, 17, -right)))
    return right


def some_output(dice, needed, wrong_percent=10):
    return dice.bytes(min(near(dice, needed, wrong_percent), protocol.LARGEST_LENGTH))


def shown_length(width, height, row):
    """How long the output of a row is."""
    return 4 * width * max(0, min(4, height - 4 * row))


def some_row(dice, largest=40):
    """The arguments of row decoding."""
    width, height = dice.within(1, largest), dice.within(1, largest)
    if dice.chance(20):
        width = largest
    row = dice.below(model.in_blocks(height))
    blocks = near(dice, 16 * model.in_blocks(width))
    out = near(dice, 4 * width * min(4, height - 4 * row))
    if dice.chance(6):
        row = dice.one_of((model.in_blocks(height), model.in_blocks(height) + 1, *LARGE))
    if dice.chance(4):
        width = dice.one_of((0, 16385, *LARGE))
    if dice.chance(4):
        height = dice.one_of((0, 16385, *LARGE))
    data = b"".join(some_block(dice) for _ in range(blocks // 16)) + dice.bytes(blocks % 16)
    return width, height, row, data, dice.bytes(min(out, protocol.LARGEST_LENGTH))


def some_sheet(dice, largest=20):
    width, height = dice.within(1, largest), dice.within(1, largest)
    count = model.in_blocks(width) * model.in_blocks(height)
    head = model.write_head(width, height)[1]
    return head, b"".join(some_block(dice) for _ in range(count))


def some_tile_sheet(dice, largest=20):
    """The same in form 2, under any colour space."""
    head, blocks = some_sheet(dice, largest)
    width, height, *_ = model.read_head(head)[1]
    return model.write_tile_head(width, height, dice.one_of((0, 0, 1, 2))), blocks


def sheet_of(form, width, height, blocks, colour=model.UNSPECIFIED):
    """That head before the blocks as they stand; `blocks` makes so many of them."""
    count = model.in_blocks(width) * model.in_blocks(height)
    head = model.write_tile_head(width, height, colour) if form == model.TILES else model.write_head(width, height)[1]
    return head + blocks(count)


def of_form(form):
    """What makes heads and sheets of that form."""
    return (some_tile_head, some_tile_sheet) if form == model.TILES else (some_head, some_sheet)


def some_listed(dice, largest=20, form=model.ROWS):
    """A sheet to list: whole, cut off, with bytes too many, or with some other head."""
    head_of, sheet_of = of_form(form)
    head, blocks = sheet_of(dice, largest)
    sort = dice.below(8)
    if sort == 0:
        return head_of(dice) + blocks
    sheet = head + blocks
    if sort < 3:
        return sheet[: dice.below(len(sheet) + 1)]
    return sheet + dice.bytes(dice.below(20)) if sort == 3 else sheet


def some_block_number(dice, sheet):
    """The number of a block of the sheet, now and then beyond it."""
    count = model.count_of(model.read_head(sheet)[1])
    return dice.below(count) if count and dice.chance(90) else dice.one_of((count, count + 1, *LARGE))


def some_sheet_call(dice, largest=20, form=model.ROWS):
    """The arguments of replacement in a sheet."""
    head_of, sheet_of = of_form(form)
    head, blocks = sheet_of(dice, largest)
    count = len(blocks) // 16
    block = dice.below(count)
    line, new = some_replacement(dice, model.block_in_sheet(head + blocks, block)[1])
    wrong = dice.below(100)
    if wrong < 6:
        block = dice.one_of((count, count + 1, *LARGE))
    if wrong % 20 == 3:
        head = head_of(dice)
    if wrong % 20 == 4:
        length = near(dice, len(blocks), 100)
        blocks = blocks[:length] + dice.bytes(max(0, length - len(blocks)))
    return head + blocks, block, line, new


def some_counted_block(dice):
    """A block whose opacity is easily told and easily changed, or any."""
    return some_opacity(dice)[0] if dice.chance(70) else some_block(dice, reserved_percent=10)


def some_counted_sheet(dice, largest=20, form=model.ROWS):
    head, blocks = of_form(form)[1](dice, largest)
    return head, b"".join(some_counted_block(dice) for _ in range(len(blocks) // 16))


def false_counts(dice, counts):
    """One or two of the ten changed: by one, to the other end, or so that the nine sum to the same, also modulo 2 ** 32."""
    counts = list(counts)
    sort = dice.below(6)
    if sort == 0:  # one mode's blocks said to be another's
        source = dice.one_of([mode for mode in range(model.COUNTED_MODES) if counts[mode]] or [0])
        moved, counts[source] = counts[source], 0
        counts[dice.below(model.COUNTED_MODES)] += moved
    elif sort == 1:  # a sum that comes round
        first, second = dice.below(model.COUNTED_MODES), dice.below(model.COUNTED_MODES)
        counts[first] = 2**32 - 1
        counts[second] = min(2**32 - 1, counts[second] + 1)
    elif sort == 2:
        counts[model.COUNTED_MODES] = dice.one_of((0, sum(counts[: model.COUNTED_MODES]), sum(counts[: model.COUNTED_MODES]) + 1, *LARGE))
    elif sort == 3:
        counts = [dice.below(4) for _ in counts]
    else:
        at = dice.below(model.COUNTED_MODES + 1)
        counts[at] = max(0, counts[at] + dice.one_of((-1, 1)))
    return tuple(counts)


def some_counted_call(dice, whole, largest=20, form=model.ROWS):
    """The arguments of a replacement with counts: of a whole block, or of a line."""
    head_of = of_form(form)[0]
    head, blocks = some_counted_sheet(dice, largest, form)
    count = len(blocks) // 16
    counts = model.count(head + blocks)[1]
    if dice.chance(25):
        counts = false_counts(dice, counts)
    block = dice.below(count)
    rest = [some_counted_block(dice)] if whole else some_replacement(dice, model.block_in_sheet(head + blocks, block)[1])
    wrong = dice.below(100)
    if wrong < 6:
        block = dice.one_of((count, count + 1, *LARGE))
    if wrong % 20 == 3:
        head = head_of(dice)
    if wrong % 20 == 4:
        length = near(dice, len(blocks), 100)
        blocks = blocks[:length] + dice.bytes(max(0, length - len(blocks)))
    return head + blocks, counts, block, *rest


def either_form(dice, percent=50):
    return model.TILES if dice.chance(percent) else model.ROWS


def some_move(dice, form, largest=20):
    """The arguments of moving a sheet to that form: mostly of the other one, with an output that is as long as needed."""
    sheet = some_listed(dice, largest, either_form(dice, 5 if form == model.TILES else 95))
    return sheet, some_output(dice, max(0, len(sheet) + (1 if form == model.TILES else -1)))


def some_stating(dice, largest=20):
    """The arguments of stating a colour space: mostly of a sheet of form 2."""
    number = dice.below(3) if dice.chance(85) else dice.one_of((3, 4, 258, *LARGE))
    return number, some_listed(dice, largest, either_form(dice, 92))


def some_shown_row(dice, largest=20):
    """The arguments of showing a row of a whole sheet."""
    sheet = some_listed(dice, largest, either_form(dice))
    width, height, *_ = model.read_head(sheet)[1]
    rows = model.in_blocks(height)
    row = dice.below(rows) if rows and dice.chance(90) else dice.one_of((rows, rows + 1, *LARGE))
    return row, sheet, some_output(dice, shown_length(width, height, row))


# ---------------------------------------------------------------------------------------------------------------------
# DDS files.
DDS_NUMBERS = tuple(range(0, model.DDS_HEADER, 4))  # where the 37 numbers of a header stand
DDS_HEIGHT, DDS_WIDTH, DDS_MIPS, DDS_FORMAT, DDS_MISC, DDS_ARRAY = 12, 16, 28, 128, 136, 140
DDS_LOOKED_AT = (0, 4, DDS_HEIGHT, DDS_WIDTH, DDS_MIPS, 76, 84, DDS_FORMAT, 132, DDS_MISC, DDS_ARRAY)
DDS_IGNORED = tuple(at for at in DDS_NUMBERS if at not in DDS_LOOKED_AT)


def with_number(data, at, value):
    return data[:at] + protocol.number(value) + data[at + 4 :]


def some_dds(dice, largest=20):
    """A file: one that is accepted, with anything in the numbers that aren't looked at; or one that is wrong in one or two
    places, or that is cut off or too long."""
    head, blocks = some_sheet(dice, largest)
    width, height, *_ = model.read_head(head)[1]
    data = model.dds_header(width, height) + blocks
    for _ in range(dice.below(4)):
        data = with_number(data, dice.one_of(DDS_IGNORED), dice.number(32))
    if dice.chance(30):
        data = with_number(data, DDS_MIPS, 0)
    if dice.chance(30):
        data = with_number(data, DDS_FORMAT, 99)
    if dice.chance(30):
        data = with_number(data, DDS_MISC, dice.number(32) & ~4)
    for _ in range(dice.below(3) if dice.chance(50) else 0):
        sort = dice.below(8)
        if sort < 3:
            data = with_number(data, dice.one_of(DDS_LOOKED_AT), dice.one_of((0, 1, 2, 3, 4, 31, 97, 100, *LARGE)))
        elif sort == 3:
            data = with_number(data, dice.one_of((DDS_HEIGHT, DDS_WIDTH)), dice.one_of((0, 4097, 16384, 16385, *LARGE)))
        elif sort == 4:
            at = dice.below(model.DDS_HEADER)
            data = data[:at] + dice.bytes(1) + data[at + 1 :]
        elif sort == 5:
            data = data[: dice.below(len(data) + 1)]
        elif sort == 6:
            data += dice.bytes(dice.within(1, 33))
        else:
            data = with_number(data, DDS_MISC, dice.number(32) | 4)
        if len(data) < model.DDS_HEADER:
            break
    return data


def some_import(dice, largest=20):
    """The arguments of importing a DDS file."""
    data = some_dds(dice, largest)
    return data, some_output(dice, model.import_length(data)[1] or dice.below(60))


def some_export(dice, largest=20, form=model.ROWS):
    """The arguments of exporting a sheet."""
    sheet = some_listed(dice, largest, form)
    return sheet, some_output(dice, model.export_length(sheet)[1] or dice.below(200))


def some_bits(dice):
    """Bits of a float: a channel's, beside one, one of its bits turned, or its float made by a product with 1 / 255 rounded twice; NaNs and
    infinities; what lies below 2^-126; any."""
    bits = model.float_bits(dice.below(256))
    kind = dice.below(8)
    if kind < 2:
        return bits
    if kind == 2:
        return (bits + dice.one_of((-1, 1, -2, 2, dice.within(-300, 300)))) % (1 << 32)
    if kind == 3:
        return bits ^ 1 << dice.below(32)
    if kind == 4:
        return dice.below(2) << 31 | 255 << 23 | dice.one_of((0, 1, 1 << 22, dice.number(23)))
    if kind == 5:
        return dice.below(2) << 31 | dice.one_of((0, 1, dice.number(23)))
    if kind == 6:
        return dice.within(119, 127) << 23 | dice.number(23)
    return dice.number(32)


def some_float_row(dice, largest=40):
    """Bytes, and what stands in the floats before: any bits, NaNs too; now and then one too few or too many."""
    pixels = dice.bytes(dice.below(largest + 1))
    return pixels, dice.bytes(4 * min(near(dice, len(pixels)), protocol.LARGEST_LENGTH))
