"""The byte protocol of the program `replay`: calls from Python values, and the answer that the model gives to a
call.

A call is (letter, arguments..):
  D block            decode a block
  U block            take a block apart
  P record           pack a record; 66 bytes, as record_bytes makes them
  R block line new   replace a line; new is 26 bytes
  r block line       read a line
  H data             read a head
  W width height     write a head
  O width height row blocks out      decode a row
  S sheet block line new             replace a line in a sheet
  l sheet            list a sheet
  N block line pixel wanted          nearest index; wanted is 4 bytes
  E block line pixel wanted          exact index
  A block columns rows               opacity of a block
  I dds out          import a DDS file
  X sheet out        export a sheet as a DDS file
  d dds              the length that importing needs
  s sheet            the length that exporting needs
  Q block pixel      one pixel
  B block kinds      reads of the bit reader, a byte each
  h data             read a head, with its colour space
  i dds out          import a DDS file, with the head
  x colour sheet out export a sheet under a colour space, 0 to 2
  T sheet out        move a sheet to form 2
  Z sheet out        move a sheet back to form 1
  V row sheet out    show a row of a whole sheet
  o sheet            open a sheet: the eight numbers of its head
  b sheet block      a block of a sheet
  c colour sheet     state the colour space of a form 2 sheet; any number
  C sheet            count a sheet
  L sheet counts block line new      replace a line, with counts; ten numbers
  K sheet counts block new           replace a whole block, with counts; new is 16 bytes
  G sign block       decode a BC6H block; the sign is 0, unsigned, or 1
  F pixel            a pixel as floats; 4 bytes
  Y bits             the channel of a float
  f pixels out       a row as floats; out is 4 bytes for each
"""
import model

LETTERS = "DUPRHWOSlrNEA" + "IXds" + "Q" + "B" + "hix" + "TZVob" + "c" + "CLK" + "G" + "FYf"
KINDS = ("whole", "two", "three", "vector")
RECORD, REPLACEMENT, READ = 66, 26, 11
LARGEST_LENGTH = 65536  # a longer slice ends the run


def number(value):
    return value.to_bytes(4, "little")



def record_bytes(record, spare=(0, 0)):
    """`spare` stands where the split's kind has no value: anything but 0 there is refused."""
    split = (tuple(record.split[1:]) + spare[len(record.split) - 1 :])[:2]
    return bytes((record.mode, KINDS.index(record.split[0]), *split, *record.values))


def record_from(data):
    """The record, and the bytes that its kind hasn't got."""
    kind = KINDS[data[1]]
    own = 2 + {"whole": 0, "two": 1, "three": 1, "vector": 2}[kind]
    return model.Record(data[0], (kind, *data[2:own]), tuple(data[4:RECORD])), data[own:4]


def head_bytes(head):
    """Width, height, start, and one byte for the colour space."""
    return b"".join(map(number, head[:3])) + bytes([head.colour_space])


def call_bytes(call):
    letter, *given = call
    if letter == "R":
        block, line, new = given
        body = block + number(line) + bytes(new)
    elif letter in "rQ":
        body = given[0] + number(given[1])
    elif letter in "NE":
        block, line, pixel, wanted = given
        body = block + number(line) + number(pixel) + bytes(wanted)
    elif letter == "A":
        body = given[0] + number(given[1]) + number(given[2])
    elif letter == "G":
        body = bytes([given[0]]) + given[1]
    elif letter == "B":
        body = given[0] + bytes([len(given[1])]) + bytes(given[1])
    elif letter in "Hh":
        body = bytes([len(given[0])]) + given[0]
    elif letter == "W":
        body = number(given[0]) + number(given[1])
    elif letter == "O":
        width, height, row, blocks, out = given
        assert len(blocks) <= LARGEST_LENGTH and len(out) <= LARGEST_LENGTH
        body = b"".join(map(number, (width, height, row, len(blocks), len(out)))) + blocks + out
    elif letter == "S":
        sheet, block, line, new = given
        assert len(sheet) <= LARGEST_LENGTH
        body = number(len(sheet)) + sheet + number(block) + number(line) + bytes(new)
    elif letter in "LK":
        sheet, counts, block, *line, new = given
        assert len(sheet) <= LARGEST_LENGTH and len(counts) == model.COUNTED_MODES + 1
        body = number(len(sheet)) + sheet + b"".join(map(number, (*counts, block, *line))) + bytes(new)
    elif letter in "IXixTZV":
        *first, data, out = given
        assert len(data) <= LARGEST_LENGTH and len(out) <= LARGEST_LENGTH
        body = number(*first) if letter == "V" else bytes(first)
        body += number(len(data)) + number(len(out)) + data + out
    elif letter == "c":
        assert len(given[1]) <= LARGEST_LENGTH
        body = number(given[0]) + number(len(given[1])) + given[1]
    elif letter == "Y":
        body = number(given[0])
    elif letter == "f":
        data, out = given
        assert len(data) <= LARGEST_LENGTH and len(out) % 4 == 0 and len(out) // 4 <= LARGEST_LENGTH
        body = number(len(data)) + number(len(out) // 4) + data + out
    elif letter in "ldsobC":
        assert len(given[0]) <= LARGEST_LENGTH
        body = number(len(given[0])) + given[0] + b"".join(map(number, given[1:]))
    else:  # D, U, P, F
        body = bytes(given[0])
    return letter.encode() + body



def model_answer(call):
    """The bytes that a right `replay` writes for the call."""
    letter, *given = call
    if letter == "D":
        return model.decode(given[0])
    if letter == "G":
        return model.decode_bc6h(given[1], given[0] == 1)
    if letter == "U":
        refusal, record = model.unpack(given[0])
        return bytes([refusal]) + record_bytes(record)
    if letter == "A":
        return bytes([model.is_opaque(*given)])
    if letter == "F":
        return model.pixel_floats(given[0])
    if letter == "B":
        return b"".join(bytes([r]) + value.to_bytes(8, "little") + bytes([first, left]) for r, value, first, left in model.reads(*given))
    if letter == "l":
        text = model.listing(given[0]).encode()
        return number(len(text)) + text
    if letter == "P":
        refusal, rest = model.pack(*record_from(given[0]))
    elif letter == "R":
        refusal, rest = model.replace(*given)
    elif letter == "r":
        refusal, held, widths = model.read_line(*given)
        rest = bytes(held) + bytes(widths)
    elif letter in "NE":
        refusal, index = (model.nearest_index if letter == "N" else model.exact_index)(*given)
        rest = bytes([index])
    elif letter == "Q":
        refusal, rest = model.pixel(*given)
    elif letter in "Hh":
        refusal, head = model.read_head(given[0])
        rest = head_bytes(head) if letter == "h" else head_bytes(head)[:12]
    elif letter == "o":
        refusal, numbers = model.open_sheet(given[0])
        rest = b"".join(map(number, numbers))
    elif letter == "b":
        refusal, rest = model.block_in_sheet(*given)
    elif letter == "c":
        refusal, rest = model.state_colour(*given)
    elif letter == "C":
        refusal, counts = model.count(given[0])
        rest = b"".join(map(number, counts))
    elif letter in "LK":
        refusal, sheet, counts = (model.replace_line_counted if letter == "L" else model.replace_block_counted)(*given)
        rest = sheet + b"".join(map(number, counts))
    elif letter in "TZ":
        refusal, rest = (model.to_tiles if letter == "T" else model.to_rows)(*given)
    elif letter == "V":
        row, sheet, out = given
        refusal, rest = model.decode_sheet_row(sheet, row, out)
    elif letter == "W":
        refusal, head = model.write_head(*given)
        rest = bytes([len(head)]) + head.ljust(7, b"\0")
    elif letter == "O":
        refusal, rest = model.decode_row(*given)
    elif letter in "IX":
        refusal, rest = (model.import_dds if letter == "I" else model.export_dds)(*given)
    elif letter == "i":
        refusal, head, out = model.import_colour(*given)
        rest = head_bytes(head) + out
    elif letter == "x":
        refusal, rest = model.export_colour(*given)
    elif letter == "Y":
        refusal, channel = model.channel_of_bits(given[0])
        rest = bytes([channel])
    elif letter == "f":
        refusal, rest = model.row_floats(*given)
    elif letter in "ds":
        refusal, length = (model.import_length if letter == "d" else model.export_length)(*given)
        rest = number(length)
    else:
        refusal, rest = model.replace_in_sheet(*given)
    return bytes([refusal]) + rest



def refusal_in(letter, reply):
    """The refusal number that an answer gives: 0 where there is none. A listing's stands in its last line."""
    if letter in "DAGF":
        return 0
    if letter == "B":  # of any of its reads
        return max(reply[::READ], default=0)
    if letter == "l":
        last = reply.splitlines()[-1].split()
        return int(last[-1]) if b"refused" in last[0] else 0
    return reply[0]


def words(call, most=400):
    """A call for a person to read and to try again."""
    shown = [call[0]]
    for given in call[1:]:
        text = given.hex() if isinstance(given, bytes) else str(given)
        shown.append(text if len(text) <= most else "%s.. (%d bytes)" % (text[:most], len(given)))
    return " ".join(shown)
