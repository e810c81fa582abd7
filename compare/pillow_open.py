#!/usr/bin/python3
"""A DDS file on standard input; its width and height (four bytes each) and its pixels as Pillow opens it on standard output.
Debian's python3-pil belongs to /usr/bin/python3, whichever python3 comes first elsewhere."""
import io
import struct
import sys

from PIL import Image

picture = Image.open(io.BytesIO(sys.stdin.buffer.read()))
assert picture.mode == "RGBA"
sys.stdout.buffer.write(struct.pack("<2I", *picture.size) + picture.tobytes())
