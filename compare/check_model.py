"""Holds the model itself against document 01's list, against document 002's tables, and against what must be true of
any right reading: round trips, lines that keep to themselves, the last call of a line deciding, a pixel that shows the
colour whose distance was measured, marks that go by what a picture shows, and sheets that show the same in both forms."""
import struct
from collections import Counter

import chart
import document_01
import halves
import model
import partitions
import protocol
from cases import block_of, bits_of_style, some_block, some_opacity, some_record, some_replacement, some_sheet, some_split, some_wanted
from dice import Dice


def check_document_01():
    count = document_01.drawn_as_printed(model.decode)
    for call, refusal, rest in document_01.calls():
        answer = protocol.model_answer(call)
        assert refusal is None or answer[0] == refusal, protocol.words(call)
        assert rest is None or answer[1:] == rest, protocol.words(call)
        count += 1
    for value, form in document_01.NUMBERS:
        assert model.write_number(value) == bytes.fromhex(form)
        count += 1
    assert model.read_number(bytes.fromhex("8000"), 0) is None
    assert model.listing(document_01.SHEET) == document_01.LISTING
    return count + 2


def check_tables(bcn_data):
    """Partitions and anchors against document 002's strings, and one anchor in every subset."""
    marks = partitions.marks_of_002(bcn_data)
    for kind in ("two", "three"):
        assert len(marks[kind]) == 64
        for partition in range(64):
            subsets, anchors = partitions.subsets(kind, partition), partitions.anchors(kind, partition)
            assert marks[kind][partition] == (subsets, anchors), (kind, partition)
            assert [subsets[anchor] for anchor in anchors] == list(range(len(anchors)))
    for mode in range(8):
        for split in model.splits(mode):
            model.layout(mode, split)  # asserts that the widths sum to 128
    return 128


def check_halves_tables(definitions, rust):
    """The table of BC6H's modes in the three places where it was written down apart: every bit of every mode, and the widths."""
    own, defined, read = halves.table(), halves.table_of_definitions(definitions), halves.table_of_rust(rust)
    assert own.keys() == defined.keys() == read.keys() and len(own) == 14
    for mode in own:
        assert own[mode] == defined[mode], "mode %02x: the model has %s, the definitions %s" % (mode, own[mode], defined[mode])
        assert read[mode] == defined[mode], "mode %02x: the Rust has %s, the definitions %s" % (mode, read[mode], defined[mode])
    return sum(len(halves.bits_of(mode)) for mode in own)


def check_round_trips(seed, count):
    dice, packed = Dice(seed), 0
    for _ in range(count):
        block = some_block(dice, reserved_percent=0)
        refusal, record = model.unpack(block)
        assert refusal == 0 and model.pack(record) == (0, block), block.hex()
        record, spare = protocol.record_from(some_record(dice))
        refusal, block = model.pack(record, spare)
        if refusal == 0:
            assert model.unpack(block) == (0, record)
            packed += 1
        else:
            assert block == bytes(16)
    assert packed > count // 4
    return count + packed


def check_lines(seed, count):
    """Sequences of calls: the pixels that each accepted call means, drawn from the given values and not from the
    stored ones; and the block that only the last accepted call of each line makes, in both orders."""
    dice, calls = Dice(seed), 0
    for _ in range(count // 20):
        mode = dice.below(8)
        split = some_split(dice, mode)
        first = block_of(mode, split, bits_of_style(dice, "random"))
        block, meant, last = first, bytearray(model.decode(first)), {}
        for _ in range(20):
            number, new = some_replacement(dice, block)
            refusal, after = model.replace(block, number, new)
            assert refusal == 0 or after == block
            if refusal == 0:
                model.paint(meant, mode, split, model.lines(mode, split)[number], new)
                last[number] = new
            assert model.decode(after) == meant, (block.hex(), number, new.hex())
            block, calls = after, calls + 1
        for order in (sorted(last), sorted(last, reverse=True)):
            again = first
            for number in order:
                refusal, again = model.replace(again, number, last[number])
                assert refusal == 0
            assert again == block
    return calls


def check_nearest(seed, count):
    """The line as it stands with any one index at the pixel is accepted, and the pixel then shows a colour at that
    index's distance; an exact index is where the distance is 0; and what the line shows as it stands is hit."""
    dice, measured = Dice(seed), 0
    for _ in range(count):
        block = some_block(dice, reserved_percent=1)
        number, pixel, wanted = some_wanted(dice, block)
        refusal, found = model.distances(block, number, pixel, wanted)
        nearest, exact = (call(block, number, pixel, wanted) for call in (model.nearest_index, model.exact_index))
        if refusal:
            assert nearest == exact == (refusal, 0), block.hex()
            continue
        index = dice.below(len(found))
        assert (found[nearest[1]], nearest[1]) <= (found[index], index), block.hex()
        assert exact == (nearest if found[nearest[1]] == 0 else (14, 0)), block.hex()
        _, held, _ = model.read_line(block, number)
        held[10 + pixel] = index
        refused, after = model.replace(block, number, held)
        mode, split, _ = model.take_apart(block)
        shown = model.decode(after)[4 * pixel :]
        channels = [model.rotated(split, channel) for channel in model.lines(mode, split)[number].channels]
        assert refused == 0 and sum((shown[each] - wanted[each]) ** 2 for each in channels) == found[index], block.hex()
        assert model.exact_index(block, number, pixel, model.decode(block)[4 * pixel :][:4])[0] == 0, block.hex()
        measured += 1
    return measured


def check_block_c():
    """Document 01's block C, the other way round: red is 119 with index 7 and 135 with index 8, also at its anchor."""
    for red, nearest, hit in ((135, 8, True), (130, 8, False), (127, 7, False), (254, 15, True), (0, 0, True)):
        asked = document_01.C, 0, 0, (red, 0, 0, 0)
        assert model.nearest_index(*asked) == (0, nearest), red
        assert model.exact_index(*asked) == ((0, nearest) if hit else (14, 0)), red
    return 10


def check_marks(seed, count):
    """Sheets of one row: a block is marked `o` exactly where every alpha that the decoded row shows of it is 255."""
    dice, marked = Dice(seed), Counter()
    for _ in range(count // 4):
        width, height = dice.within(1, 17), dice.within(1, 4)
        blocks = b"".join(some_opacity(dice)[0] for _ in range(model.in_blocks(width)))
        refusal, shown = model.decode_row(width, height, 0, blocks, bytes(4 * width * height))
        said = model.listing(model.write_head(width, height)[1] + blocks).splitlines()[1:]
        for column, line in enumerate(said):
            alphas = [shown[4 * (y * width + x) + 3] for y in range(height) for x in range(4 * column, min(width, 4 * column + 4))]
            assert refusal == 0 and line[-1] == ("o" if set(alphas) == {255} else "-"), (width, height, blocks.hex())
            marked[line[-1]] += 1
    assert min(marked["o"], marked["-"]) > count // 10
    return sum(marked.values())


def check_charts():
    """Every mode with every split: behind the lead the chart has the bits that the model takes a record's values from."""
    charts = 0
    for block in chart.every_split(Dice(0)):
        mode = model.mode_of(block)
        lines = [line.split() for line in chart.chart(block).splitlines()]
        behind = [(int(bit), int(width)) for name, bit, width in lines if name not in chart.LEAD]
        split = model.split_of(mode, int.from_bytes(block, "little"))
        assert behind == [(bit, width) for _, bit, width in model.layout(mode, split)], block.hex()
        charts += 1
    return charts


# Heads of form 2 and what they are refused with, on paper.
ON_PAPER = {"02000403": 18, "02000400": 9, "020004": 7, "0205048000": 7, "0205048001": 18, "0205048101": 18, "02050403": 18, "02050402": 0}


def check_order():
    """Numbers on paper. Then the order by another way: sorted by tile, row by row, and by the bits of column and row in turn; each number once."""
    assert list(model.stored_order(3, 2, model.TILES)) == [0, 1, 3, 4, 2, 5]
    for head, refusal in ON_PAPER.items():
        assert model.read_head(bytes.fromhex(head))[0] == refusal, head
        assert model.read_head(bytes.fromhex(head), [model.ROWS])[0] == 8, head
    assert model.read_head(bytes.fromhex("01"), [model.TILES])[0] == 8
    assert model.open_sheet(bytes.fromhex("02090502")) == (0, (9, 5, 4, 2, 2, 3, 2, 6))
    checked = 0
    for columns in range(1, 41):
        for rows in range(1, 41):
            def place(number):
                row, column = divmod(number, columns)
                inside = sum((column >> bit & 1) << 2 * bit | (row >> bit & 1) << 2 * bit + 1 for bit in range(3))
                return row // 8, column // 8, inside

            order = list(model.stored_order(columns, rows, model.TILES))
            assert order == sorted(range(columns * rows), key=place), (columns, rows)
            checked += 1
    return checked


def check_moves(seed, count):
    """Sheets moved and moved back: the bytes as they were, every row and the listing's lines the same in both forms, every block under its number,
    and a line replaced before or after the move."""
    dice = Dice(seed)
    for _ in range(count):
        head, blocks = some_sheet(dice, 80)
        rows = head + blocks
        refusal, tiles = model.to_tiles(rows, bytes(len(rows) + 1))
        assert refusal == 0 and model.to_rows(tiles, bytes(len(rows))) == (0, rows), rows.hex()
        width, height, start, *_ = model.read_head(rows)[1]
        columns = 16 * model.in_blocks(width)
        for row in range(model.in_blocks(height)):
            out = bytes(4 * width * min(4, height - 4 * row))
            shown = model.decode_row(width, height, row, blocks[columns * row : columns * (row + 1)], out)
            assert shown == model.decode_sheet_row(rows, row, out) == model.decode_sheet_row(tiles, row, out), rows.hex()
        number = dice.below(len(blocks) // 16)
        block = blocks[16 * number : 16 * number + 16]
        assert model.block_in_sheet(rows, number) == model.block_in_sheet(tiles, number) == (0, block)
        lines = [model.listing(sheet).splitlines() for sheet in (rows, tiles)]
        assert lines[0] == [lines[1][0]] + sorted(lines[1][1:], key=lambda line: int(line.split()[0]))
        line, new = some_replacement(dice, block)
        refusals, sheets = zip(*(model.replace_in_sheet(sheet, number, line, new) for sheet in (rows, tiles)))
        assert refusals[0] == refusals[1] and model.to_tiles(sheets[0], bytes(len(tiles))) == (0, sheets[1])
        for colour_space in (model.LINEAR, model.SRGB):
            stated = model.write_tile_head(width, height, colour_space) + tiles[start + 1 :]
            assert model.state_colour(colour_space, tiles) == (0, stated) and model.state_colour(0, stated) == (0, tiles)
            assert model.to_rows(stated, bytes(len(rows)))[0] == 16 and model.to_rows(stated, b"")[0] == 11
    return count


def check_floats():
    """Python divides in 53 digits, and rounding its quotient of two small numbers to 24 is the one rounding: so its own packing says the same."""
    for channel in range(256):
        bits = model.float_bits(channel)
        assert struct.pack("<I", bits) == struct.pack("<f", channel / 255), channel
        assert model.channel_of_bits(bits) == (0, channel)
        assert channel == 0 or bits > model.float_bits(channel - 1)
    for bits, answer in ((0, (0, 0)), (0x3F800000, (0, 255)), (0x3E4CCCCD, (0, 51)), (0x3E4CCCCC, (23, 0)), (1 << 31, (23, 0)), (0x7FC00000, (23, 0))):
        assert model.channel_of_bits(bits) == answer, hex(bits)
    return 256 + 6
