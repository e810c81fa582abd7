"""The blocks and numbers of document 01's own list, as calls with the answers that the document prints."""
import model

C = bytes.fromhex("40C01F00000000000E00000000000000")
D = bytes.fromhex("600000000000FC030000000000000000")

# (block, pixels): the pixels that aren't named are those under "others", or aren't printed in the document (None).
DRAWN = (
    (bytes(16), {}, (0, 0, 0, 0)),
    (bytes([0x01]) + bytes(15), {}, (0, 0, 0, 255)),
    (bytes([0x80]) + bytes(15), {}, (0, 0, 0, 0)),
    (bytes([0xC0]) + b"\xff" * 15, {}, (255, 255, 255, 255)),
    (C, {0: (119, 0, 0, 0)}, (0, 0, 0, 0)),
    (D, {}, (255, 0, 0, 0)),
    (bytes.fromhex("90E003") + bytes(7) + b"\x06" + bytes(5), {0: (108, 0, 0, 0)}, None),
    (bytes.fromhex("10E003") + bytes(7) + b"\x06" + bytes(5), {0: (0, 0, 0, 0)}, None),
    (bytes.fromhex("460000FC") + bytes(6) + b"\x80\x01" + bytes(4), {2: (107, 0, 0, 255), 0: (0, 0, 0, 255)}, None),
)


def replacement(red=(0, 0), indexes=None):
    """Red of both endpoints and some indexes, else zero."""
    new = bytearray(26)
    new[0], new[4] = red
    for pixel, index in (indexes or {}).items():
        new[10 + pixel] = index
    return bytes(new)


C_REPLACED = bytes.fromhex("C03F000000000000FEFFFFFFFFFFFFFF")
C_NEW = replacement((0, 127), {0: 8})

NUMBERS = ((127, "7F"), (128, "8001"), (4096, "8020"))

SHEET = bytes.fromhex("010504") + D + bytes(16)
LISTING = "sheet 5 4\n0 5 255 0 0 0 -\n1 8 0 0 0 0 -\n"


def drawn_as_printed(decode):
    """Whether a decoder (block to 64 bytes) draws what the document prints; gives the number of blocks."""
    blocks = DRAWN + ((C_REPLACED, {0: (135, None, None, None)}, (0, None, None, None)),)
    for block, named, others in blocks:
        pixels = decode(block)
        for pixel in range(16):
            want = named.get(pixel, others)
            if want is not None:
                for channel, value in enumerate(want):
                    assert value is None or pixels[4 * pixel + channel] == value, (block.hex(), pixel, channel)
    return len(blocks)


def calls():
    """Calls of the document's list whose refusal or answer it prints: (call, the answer's first byte, its rest or None).
    The first byte is the refusal, or of a listing the low byte of its length."""
    found = [(("D", block), None, None) for block, _, _ in DRAWN]
    found.append((("U", bytes(16)), 1, bytes(66)))
    found.append((("R", C, 0, C_NEW), 0, C_REPLACED))
    found.append((("D", C_REPLACED), None, None))
    found.append((("R", C, 1, C_NEW), 2, C))
    found.append((("R", C, 0, replacement((128, 0))), 3, C))
    found.append((("R", C, 0, replacement(indexes={0: 15})), 0, None))
    found.append((("R", C, 0, replacement(indexes={0: 16})), 3, C))
    for width, form in NUMBERS:
        head = b"\x01" + bytes.fromhex(form) + b"\x01"
        numbers = b"".join(value.to_bytes(4, "little") for value in (width, 1, len(head)))
        found.append((("H", head), 0, numbers))
        found.append((("W", width, 1), 0, bytes([len(head)]) + head.ljust(7, b"\0")))
    found.append((("H", bytes.fromhex("01800001")), 7, bytes(12)))
    # document 02, M-104: the limit that document 01 has at 4,096 is 16,384
    found.append((("W", 16385, 1), 9, bytes(8)))
    found.append((("H", b"\x01" + model.write_number(16385) + b"\x01"), 9, bytes(12)))
    found.append((("H", b""), 7, bytes(12)))
    found.append((("S", b"", 0, 0, bytes(26)), 7, b""))
    found.append((("l", SHEET), len(LISTING), bytes(3) + LISTING.encode()))
    return found
