#!/usr/bin/python3
"""16-byte BC7 blocks on standard input, their pixels as Pillow decodes them on standard output (64 bytes each).

The blocks become one DDS picture four pixels wide, so that the picture's raster has the blocks' pixels in order.
Debian's python3-pil belongs to /usr/bin/python3, whichever python3 comes first elsewhere."""
import io
import struct
import sys

from PIL import Image

Image.MAX_IMAGE_PIXELS = None
BC7_UNORM, TEXTURE_2D = 98, 3
blocks = sys.stdin.buffer.read()
width, height = 4, len(blocks) // 16 * 4
if height:
    header = b"DDS " + struct.pack("<7I", 124, 0x81007, height, width, len(blocks), 0, 1) + bytes(44)
    header += struct.pack("<2I4s5I", 32, 4, b"DX10", 0, 0, 0, 0, 0) + struct.pack("<5I", 0x1000, 0, 0, 0, 0)
    header += struct.pack("<5I", BC7_UNORM, TEXTURE_2D, 0, 1, 0)
    picture = Image.open(io.BytesIO(header + blocks))
    assert (picture.mode, picture.size) == ("RGBA", (width, height))
    sys.stdout.buffer.write(picture.tobytes())
