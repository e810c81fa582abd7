"""Feeds sheets to the program `sheetlist` and compares what it prints with the model's listing."""
import os
import subprocess
import threading
import time

import document_01
import model
from cases import sheet_of, some_block, some_head, some_listed, some_opacity, some_sheet, some_tile_head, some_tile_sheet
from dice import Dice

TIMEOUT = 300


def printed(command, data, pieces=None):
    """What the program prints for the input. With `pieces` (Dice) the input comes through the pipe in small pieces
    with pauses, so that reads return less than they ask for."""
    running = subprocess.Popen(command, stdin=subprocess.PIPE, stdout=subprocess.PIPE, bufsize=0)

    def feed():
        at = 0
        try:
            while at < len(data):
                count = pieces.within(1, 40) if pieces else 1 << 16
                at += os.write(running.stdin.fileno(), data[at : at + count])
                if pieces and pieces.chance(15):
                    time.sleep(0.0005)
        except BrokenPipeError:
            pass  # it may stop reading once the head is refused or bytes are surplus
        running.stdin.close()

    feeder = threading.Thread(target=feed)
    feeder.start()
    deadline = threading.Timer(TIMEOUT, running.kill)
    deadline.start()
    text = running.stdout.read()
    status = running.wait()
    deadline.cancel()
    feeder.join()
    running.stdout.close()
    if status < 0:
        return "ended by signal %d after: %s" % (-status, text[-200:].decode("latin-1"))
    return text.decode("latin-1")


def inputs(seed):
    """(what it is about, the inputs)"""
    dice = Dice(seed)
    yield "document 01's example", [document_01.SHEET]
    yield "an empty input", [b""]
    heads = ["01", "0105", "010580", "018000", "80", "8000", "81000504", "0180808001", "ffffff7f", "02", "020504"]
    heads += ["000504", "8001", "8101", "0280", "010004", "010400", "0181800104", "0104818001", "0184800101", "01ffff7f04", "010080"]
    refused = [bytes.fromhex(head) + rest for head in heads for rest in (b"", dice.bytes(7), dice.bytes(64))]
    assert {model.read_head(head)[0] for head in refused} >= {7, 8, 9}
    yield "refused heads", refused + [some_head(dice) for _ in range(100)]
    head = model.write_head(5, 9)[1]
    sheet = head + b"".join(some_block(dice) for _ in range(6))
    cut = [sheet[:length] for length in range(len(sheet))]
    surplus = [sheet + dice.bytes(more) for more in (*range(1, 34), 1000, 16384, 16385, 70000)]
    yield "bytes missing at each place, and surplus", cut + [sheet] + surplus
    sizes = [(width, height) for width in (1, 3, 4, 5, 8, 9, 17) for height in (1, 2, 4, 5, 7, 12, 13)]
    sizes += [(4096, 1), (1, 4096), (4095, 6), (129, 127), (4093, 9), (4097, 5), (16384, 4), (4, 16384), (16383, 6)]
    whole = []
    for width, height in sizes:
        count = model.in_blocks(width) * model.in_blocks(height)
        whole.append(model.write_head(width, height)[1] + b"".join(some_block(dice) for _ in range(count)))
    yield "odd sizes and several rows", whole
    # A run of 1,024 blocks fills the buffer of 16,384 bytes, and the widest row has four: ends within, at and after each run.
    for what, width, runs in (("rows of one run", 4096, 3), ("the widest rows, of four runs", 16384, 8), ("rows of a run and a block", 4100, 3)):
        wide = model.write_head(width, 9)[1] + b"".join(some_block(dice) for _ in range(3 * model.in_blocks(width)))
        head = len(wide) - 48 * model.in_blocks(width)
        ends = [head + 16384 * run + more for run in range(1, runs + 1) for more in (-17, -16, -1, 0, 1, 16)]
        yield what + ", cut and surplus", [(wide + bytes(16))[:end] for end in (*ends, len(wide), len(wide) + 1)]
    some = []
    for _ in range(60):
        head, blocks = some_sheet(dice, 30)
        data = head + blocks
        some.append(data[: dice.below(len(data) + 1)] if dice.chance(30) else data + dice.bytes(dice.below(3)))
    yield "random sheets", some
    edges = []
    for width in range(1, 10):
        for height in range(1, 10):
            count = model.in_blocks(width) * model.in_blocks(height)
            edges.append(model.write_head(width, height)[1] + b"".join(some_opacity(dice)[0] for _ in range(count)))
    yield "opacity marks at every edge", edges
    yield from tiles(dice)


def tiles(dice):
    """Sheets of form 2: (what it is about, the inputs)"""

    def whole(width, height, block=some_block):
        return sheet_of(model.TILES, width, height, lambda count: b"".join(block(dice) for _ in range(count)), dice.below(3))

    yield "form 2, sides 1 to 40", [whole(width, height, marked) for width in range(1, 41) for height in range(1, 41)]
    yield "form 2, refused heads", [some_tile_head(dice) for _ in range(150)]
    sheet = whole(38, 7)
    cut = [sheet[:length] for length in range(len(sheet))]
    yield "form 2, bytes missing at each place, and surplus", cut + [sheet + dice.bytes(more) for more in (*range(34), 16384, 16385)]
    # A run takes 1,024 blocks at the most: ends within, at and after each; one row of tiles with cut ones, and several.
    for what, *sides in (("four runs of tiles", 16384, 1), ("rows of tiles longer than a run", 600, 80), ("cut tiles on both sides", 1021, 250)):
        wide = whole(*sides)
        start = model.read_head(wide)[1].start
        ends = [start + 16384 * run + more for run in range(1, 4) for more in (-17, -16, -1, 0, 1, 16)]
        yield "form 2, %s, cut and surplus" % what, [(wide + bytes(16))[:end] for end in (*ends, len(wide), len(wide) + 1)]
    yield "form 2, the largest sides", [whole(*sides) for sides in ((16384, 40), (40, 16384), (1, 16384), (16383, 6))]
    yield "form 2, by chance", [some_listed(dice, 80, model.TILES) for _ in range(60)]


def marked(dice):
    """Blocks of which half are opaque, so that marks show what an edge hides."""
    return some_opacity(dice)[0] if dice.chance(50) else some_block(dice)


def in_pieces(seed):
    dice = Dice(seed)
    yield document_01.SHEET
    yield document_01.SHEET + b"\0"
    yield document_01.SHEET[:-1]
    yield bytes.fromhex("0181")
    for turn in range(40):
        head, blocks = (some_tile_sheet if turn % 2 else some_sheet)(dice, 44 if turn % 2 else 24)
        data = head + blocks
        yield data[: dice.below(len(data) + 1)] if dice.chance(30) else data + dice.bytes(dice.below(3))
    count = 1024 * 2
    yield model.write_head(4096, 8)[1] + b"".join(some_block(dice) for _ in range(count))


def largest(seed):
    """4,096 by 4,096 in both forms, of some thousand different blocks, so that the model's listing doesn't take minutes."""
    dice = Dice(seed)
    kinds = [some_block(dice) for _ in range(2000)]
    blocks = b"".join(dice.one_of(kinds) for _ in range(1024 * 1024))
    yield "4,096 by 4,096", model.write_head(4096, 4096)[1] + blocks
    yield "form 2, 4,096 by 4,096", model.write_tile_head(4096, 4096) + blocks


def difference(data, want, got):
    wanted, given = want.splitlines(), got.splitlines()
    for number in range(max(len(wanted), len(given))):
        pair = [lines[number] if number < len(lines) else "(nothing)" for lines in (wanted, given)]
        if pair[0] != pair[1]:
            shown = data[:80].hex() + (".. (%d bytes)" % len(data) if len(data) > 80 else "")
            return "input %s line %d: expected %r, printed %r" % (shown, number + 1, *pair)
    return "the last line has no end, or one too many"


def compare(command, seed, with_largest=True):
    """Rows of (what, number of inputs, difference or None, note)."""
    for what, many in inputs(seed):
        yield row(what, [(data, printed(command, data)) for data in many])
    dice = Dice(seed + 1)
    yield row("input in small pieces", [(data, printed(command, data, dice)) for data in in_pieces(seed)])
    if with_largest:
        for what, data in largest(seed):
            began = time.time()
            got = printed(command, data)
            took = time.time() - began
            yield row(what, [(data, got)], "listed in %.1f s" % took)


def row(what, pairs, note=""):
    wrong = None
    for data, got in pairs:
        want = model.listing(data)
        if got != want and wrong is None:
            wrong = difference(data, want, got)
    return what, len(pairs), wrong, note
