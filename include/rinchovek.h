/* rinchovek.h: BC7 blocks, and sheets of them, decoded, taken apart, packed and corrected; which index gives a wanted colour,
 * which blocks are opaque, and what one pixel shows; sheets stored row by row or in tiles, and moved between the two; counts kept beside a
 * sheet; DDS files in and out; BC6H blocks, decoded; and pixels as floats.
 *
 * WORDS
 * A block is 16 bytes that draw 4 by 4 pixels. A pixel is 4 bytes: red, green, blue, alpha. The pixel in column x and row y of a
 * block has the number 4 * y + x, row 0 at the top. Any 16 bytes are a block. A block whose first byte is 0 is reserved: it draws
 * sixteen times 0 0 0 0, and has neither a record nor lines.
 * A line of a block is a pair of endpoints, their p bits, and the indexes by which its pixels choose between the two. It is a
 * subset of the pixels, except in the modes 4 and 5: there line 0 is the vector (red, green and blue before rotation) and line 1
 * the scalar (alpha before rotation), both with all sixteen pixels.
 * A sheet is a head and behind it the blocks of a picture. There are (width + 3) / 4 columns and (height + 3) / 4 rows of blocks; what
 * they draw beyond the edge of the picture is not shown. Blocks are numbered row by row from 0, in every sheet: block n is in column
 * n % columns and row n / columns. The form of a sheet says in which order its blocks are stored. Form 1 stores them as they are numbered.
 * Form 2 stores them in tiles of 8 by 8, the tiles row by row; a tile has 64 slots, and the bits of a block's column in the tile are the
 * bits 0, 2 and 4 of its slot, those of its row the bits 1, 3 and 5. For a slot beyond the sheet nothing is stored. So 3 by 2 blocks are
 * stored in the order 0 1 3 4 2 5, and a sheet has as many bytes of blocks in the one form as in the other.
 * The head has three numbers: the form, the width and the height in pixels; and in form 2 a fourth, the colour space. A number is
 * written in groups of seven bits, the low group first, a byte each, whose high bit is set in all but the last; in its shortest form, and
 * in at most three groups: 127 is 7F, 128 is 80 01, 16,384 is 80 80 01.
 *
 * HOW TO LINK
 * librinchovek.a is made for one of three processors, under Linux with the usual calling convention of each: x86-64 (System V), aarch64, and
 * armv7, which has 32 bits (NEON, hard float). It needs no other extension. It wants memcpy, memmove and memset, and nothing else. It exports the
 * functions that are declared here and no other name. `./install PREFIX` puts it there for the machine that it runs on, with this file, a shared
 * library, a file for pkg-config and a selftest; `./install --for PROCESSOR PREFIX` does for another. For wasm32, as in a browser, there is a
 * module with the same functions, and a JavaScript that takes arrays.
 * Code, calls and answers are the same on all of them. A length is a uint64_t, also where an address has 32 bits: hand a size_t over as it is.
 *
 * WHAT HOLDS FOR EVERY CALL
 * - It answers 0, RINCHOVEK_ACCEPTED, or the number of a refusal: of those that its comment lists, the first that applies, in that
 *   order. Five calls refuse nothing: rinchovek_version answers the version, rinchovek_bc7_decode_block, rinchovek_bc6h_decode_block and
 *   rinchovek_pixel_floats nothing, and rinchovek_bc7_is_opaque yes or no.
 * - A refused call writes nothing at all. An accepted one writes what its comment says, all of it, and no other byte.
 * - Of the arguments an input stands before an output, what is changed in place stands first of all, and a length behind its pointer.
 * - An array has the length that is shown, also where the call is refused. A pointer has the length that is given behind it. Where
 *   that must be exact the comment says so, and any other length is refused.
 * - NULL is allowed where the length behind it is 0, and nowhere else.
 * - What one call is lent must not overlap. Bytes need no alignment, uint16_t, uint32_t and float the usual one. No pointer is kept.
 * - A float has the 32 bits of IEEE 754, and divisions round to the nearest: the processor's rounding is as a program finds it at its start.
 * - There is no state: no variable outside the stack, no heap, no lock, no file, no errno. Any number of threads may call, and signal
 *   handlers too, as long as what one call writes no other reads or writes at the same time.
 * - A call takes less than RINCHOVEK_STACK_BYTES of stack, whatever it is given, and what memcpy, memmove and memset take.
 */
#ifndef RINCHOVEK_H
#define RINCHOVEK_H

#include <stddef.h>
#include <stdint.h>

/* The version of this file. The major number is raised where a call goes, or answers otherwise what it accepted before; the minor
 * one where a call comes, or accepts what it refused before; the patch where neither is so. */
#define RINCHOVEK_VERSION_MAJOR 1
#define RINCHOVEK_VERSION_MINOR 11
#define RINCHOVEK_VERSION_PATCH 0
#define RINCHOVEK_VERSION (10000 * RINCHOVEK_VERSION_MAJOR + 100 * RINCHOVEK_VERSION_MINOR + RINCHOVEK_VERSION_PATCH)

/* Sizes, in bytes where nothing else is said. */
#define RINCHOVEK_BLOCK_BYTES 16
#define RINCHOVEK_PIXEL_BYTES 4
#define RINCHOVEK_BLOCK_PIXELS 16 /* pixels */
#define RINCHOVEK_PIXELS_BYTES 64
#define RINCHOVEK_HALVES 48 /* uint16_t, of a BC6H block: three of each pixel */
#define RINCHOVEK_RECORD_BYTES 66
#define RINCHOVEK_LINE_BYTES 26
#define RINCHOVEK_HEAD_BYTES 7 /* the most that a head of form 1 has */
#define RINCHOVEK_OPEN_BYTES 10 /* of a sheet of either form, as many as rinchovek_sheet_open looks at */
#define RINCHOVEK_HEAD_NUMBERS 3 /* uint32_t */
#define RINCHOVEK_COLOUR_HEAD_NUMBERS 4 /* uint32_t: those three, and the colour space */
#define RINCHOVEK_OPEN_NUMBERS 8 /* uint32_t: those four, the form, and how many columns, rows and blocks there are */
#define RINCHOVEK_COUNTS 10 /* uint32_t: the counts of a sheet */
#define RINCHOVEK_LARGEST_SIDE 16384 /* pixels, of a sheet; 4,096 before version 1.4.0 */
#define RINCHOVEK_DDS_HEADER_BYTES 148
#define RINCHOVEK_PIXEL_FLOATS 4 /* float */
#define RINCHOVEK_STACK_BYTES 4096 /* found on x86-64: 984 in rinchovek_sheet_replace_line_counted, the most; below 2,048 before 1.5.0 */

/* A channel in a pixel and in an endpoint. */
enum rinchovek_channel { RINCHOVEK_RED = 0, RINCHOVEK_GREEN = 1, RINCHOVEK_BLUE = 2, RINCHOVEK_ALPHA = 3 };

/* How a block is split, by its mode. */
enum rinchovek_kind {
    RINCHOVEK_WHOLE = 0,            /* mode 6 */
    RINCHOVEK_TWO_SUBSETS = 1,      /* modes 1, 3, 7 */
    RINCHOVEK_THREE_SUBSETS = 2,    /* modes 0, 2 */
    RINCHOVEK_VECTOR_AND_SCALAR = 3 /* modes 4, 5 */
};

/* The 66 bytes of a record: where each part starts. A part that the mode hasn't got has width 0: it is 0 in an answer, and refused
 * with 3 where it is anything else. Widths in bits, anchors' indexes at their full width:
 *
 *   mode                              0   1   2   3   4   5   6   7
 *   lines                             3   2   3   2   2   2   1   2
 *   partition                         4   6   6   6               6
 *   rotation, index mode                              2,1 2,0
 *   endpoints                         6   4   6   4   2   2   2   4
 *   red, green, blue                  4   6   5   7   5   7   7   5
 *   alpha                                             6   8   7   5
 *   p bits (how many)                 6   2       4           2   4
 *   first indexes                     3   3   2   2   2   2   4   2
 *   second indexes                                    3   2
 *
 * Endpoint 2 * s is the first of subset s, 2 * s + 1 the second. Mode 1 has one p bit for each subset, the other modes with p
 * bits one for each endpoint. A mode without alpha draws 255. An anchor's index has its top bit clear: pixel 0 is an anchor, and so is
 * one pixel of each further subset, by the partition. In mode 4 the first indexes serve red, green and blue where the index mode is
 * 0, and alpha where it is 1; in mode 5 they serve red, green and blue. */
enum rinchovek_record_offset {
    RINCHOVEK_RECORD_MODE = 0,            /* 0 to 7 */
    RINCHOVEK_RECORD_KIND = 1,            /* enum rinchovek_kind */
    RINCHOVEK_RECORD_PARTITION = 2,       /* with two or three subsets */
    RINCHOVEK_RECORD_ROTATION = 2,        /* with vector and scalar: 1, 2, 3 exchange alpha with red, green, blue, last of all */
    RINCHOVEK_RECORD_INDEX_MODE = 3,      /* mode 4 */
    RINCHOVEK_RECORD_ENDPOINTS = 4,       /* + 4 * endpoint + channel: 24 values as stored */
    RINCHOVEK_RECORD_P_BITS = 28,         /* + 0 to 5, in stored order */
    RINCHOVEK_RECORD_FIRST_INDEXES = 34,  /* + pixel: the set that is stored first */
    RINCHOVEK_RECORD_SECOND_INDEXES = 50  /* + pixel */
};

/* The 26 bytes of a line, as it is read and as its replacement is given: where each part starts. What the line hasn't got has width
 * 0 and must be 0: channels, p bits, and the indexes of pixels that are in another line. Indexes are at their full width, an
 * anchor's too. */
enum rinchovek_line_offset {
    RINCHOVEK_LINE_FIRST_ENDPOINT = 0,  /* + channel: 4 values as stored */
    RINCHOVEK_LINE_SECOND_ENDPOINT = 4, /* + channel */
    RINCHOVEK_LINE_P_BITS = 8,          /* the first endpoint's, the second's; in mode 1 both are the subset's one */
    RINCHOVEK_LINE_INDEXES = 10         /* + pixel */
};

/* The numbers of a head that was read as form 1. The calls whose names have `colour` in them write all four, the others the first three. */
enum rinchovek_head_number {
    RINCHOVEK_HEAD_WIDTH = 0,       /* pixels */
    RINCHOVEK_HEAD_HEIGHT = 1,      /* pixels */
    RINCHOVEK_HEAD_START = 2,       /* where the first block starts in the sheet */
    RINCHOVEK_HEAD_COLOUR_SPACE = 3 /* enum rinchovek_colour_space */
};

/* What is known of a sheet's colours. A sheet of form 1 has no room for it: read, it is always unspecified. One of form 2 states it, which
 * is linear or sRGB, or leaves it unspecified. */
enum rinchovek_colour_space { RINCHOVEK_UNSPECIFIED = 0, RINCHOVEK_LINEAR = 1, RINCHOVEK_SRGB = 2 };

/* In which order a sheet stores its blocks. */
enum rinchovek_form { RINCHOVEK_FORM_ROWS = 1, RINCHOVEK_FORM_TILES = 2 };

/* The numbers of a sheet of either form that was opened. */
enum rinchovek_open_number {
    RINCHOVEK_OPEN_WIDTH = 0,        /* pixels */
    RINCHOVEK_OPEN_HEIGHT = 1,       /* pixels */
    RINCHOVEK_OPEN_START = 2,        /* where the first stored block starts in the sheet */
    RINCHOVEK_OPEN_COLOUR_SPACE = 3, /* enum rinchovek_colour_space */
    RINCHOVEK_OPEN_FORM = 4,         /* enum rinchovek_form */
    RINCHOVEK_OPEN_COLUMNS = 5,      /* of blocks: (width + 3) / 4 */
    RINCHOVEK_OPEN_ROWS = 6,         /* of blocks: (height + 3) / 4 */
    RINCHOVEK_OPEN_BLOCKS = 7        /* columns * rows; the whole sheet has start + 16 * blocks bytes */
};

/* The counts of a sheet: how many of its blocks have each mode, and how many are opaque. Mode m is counted at RINCHOVEK_COUNT_MODE_0 + m, where
 * a reserved block has mode 8; opaque is a block whose every pixel that the sheet shows has alpha 255 (rinchovek_bc7_is_opaque). The nine counts
 * of modes sum to the number of blocks. */
enum rinchovek_count {
    RINCHOVEK_COUNT_MODE_0 = 0,   /* + mode: 0 to 7 */
    RINCHOVEK_COUNT_RESERVED = 8, /* blocks whose first byte is 0 */
    RINCHOVEK_COUNT_OPAQUE = 9
};

/* What a call answers. */
enum rinchovek_refusal {
    RINCHOVEK_ACCEPTED = 0,
    RINCHOVEK_RESERVED_BLOCK = 1,       /* the block is reserved, and a record or a line is asked for */
    RINCHOVEK_NO_SUCH_LINE = 2,         /* the line number is not below the count of the block's mode */
    RINCHOVEK_VALUE_TOO_WIDE = 3,       /* a value needs more bits than it has; what a mode or a line hasn't got has none */
    RINCHOVEK_P_BITS_DIFFER = 4,        /* mode 1, and the two p bits of the replacement differ */
    RINCHOVEK_WRONG_KIND = 5,           /* the record's mode is above 7, or its kind is none, or not the mode's */
    RINCHOVEK_ANCHOR_BIT_SET = 6,       /* the index at an anchor of the record has its top bit set */
    RINCHOVEK_BAD_NUMBER = 7,           /* a number of the head is cut off, not in its shortest form, or has over three groups */
    RINCHOVEK_UNKNOWN_FORM = 8,         /* the form isn't one that the call takes: 1 or 2, or the one that its comment names */
    RINCHOVEK_BAD_SIDE = 9,             /* the width or the height is 0 or above RINCHOVEK_LARGEST_SIDE */
    RINCHOVEK_WRONG_BLOCK_BYTES = 10,   /* there are not exactly as many bytes of blocks as the sheet, the row or the file needs */
    RINCHOVEK_WRONG_OUTPUT_LENGTH = 11, /* the output isn't exactly as long as needed */
    RINCHOVEK_BEYOND_SHEET = 12,        /* the row or the block number is beyond the sheet */
    RINCHOVEK_PIXEL_NOT_IN_LINE = 13,   /* the pixel is of another line's subset, or 16 and up */
    RINCHOVEK_NO_EXACT_INDEX = 14,      /* no index of the line gives the pixel exactly what is wanted */
    RINCHOVEK_NOT_A_BC7_TEXTURE = 15,   /* the DDS file isn't one texture of two dimensions in BC7 with one level */
    RINCHOVEK_COLOUR_SPACE_STATED = 16, /* the sheet states a colour space, and the form that it is moved to has no room for it */
    RINCHOVEK_BAD_COLOUR_SPACE = 18,    /* the number of a colour space, in a head or given to a call, is above 2 */
    RINCHOVEK_FALSE_COUNTS = 19,        /* the counts can't be those of the sheet, by what the named block shows of it: see the calls */
    RINCHOVEK_NO_SUCH_PIXEL = 21,       /* the pixel number isn't below 16 */
    RINCHOVEK_NOT_A_CHANNEL = 23        /* the bits are those of no channel's float */
};

#ifdef __cplusplus
extern "C" {
#endif

/* The version of the archive, as RINCHOVEK_VERSION is put together. One of the same major number that isn't below RINCHOVEK_VERSION
 * does what this file says. */
uint32_t rinchovek_version(void);

/* Writes the sixteen pixels of a block: pixel p in pixels[4 * p ..], red, green, blue, alpha. */
void rinchovek_bc7_decode_block(const uint8_t block[RINCHOVEK_BLOCK_BYTES], uint8_t pixels[RINCHOVEK_PIXELS_BYTES]);

/* Writes the sixteen pixels of a BC6H block, in which backdrops of high range are stored: pixel p in halves[3 * p ..], red, green, blue, each
 * the sixteen bits of a half float. The same 16 bytes are a signed or an unsigned block, as the file that they come from says (BC6H_SF16 or
 * BC6H_UF16): is_signed 0 is unsigned, any other number signed. An unsigned pixel is never negative or infinite; a signed one may be FC00, minus
 * infinity, in the mode 0F alone; neither is ever something that isn't a number. A block of the reserved modes (13, 17, 1B and 1F in its low five
 * bits) gives 0 in all 48. Nothing else in this file takes BC6H: a BC7 call draws such a block as if it were BC7.
 * Refusals: none. */
void rinchovek_bc6h_decode_block(const uint8_t block[RINCHOVEK_BLOCK_BYTES], uint32_t is_signed, uint16_t halves[RINCHOVEK_HALVES]);

/* Takes a block apart: writes the 66 bytes of its record. Packing them again gives the block.
 * Refusals: 1. */
uint32_t rinchovek_bc7_unpack(const uint8_t block[RINCHOVEK_BLOCK_BYTES], uint8_t record[RINCHOVEK_RECORD_BYTES]);

/* Packs a record: writes the 16 bytes of its block. Taking them apart gives the record.
 * Refusals: 5, 3, 6. */
uint32_t rinchovek_bc7_pack(const uint8_t record[RINCHOVEK_RECORD_BYTES], uint8_t block[RINCHOVEK_BLOCK_BYTES]);

/* Reads one line of a block: writes its 26 bytes, and how many bits each of them has, 0 where the line hasn't got it. So a pixel is in
 * the line where widths[RINCHOVEK_LINE_INDEXES + pixel] isn't 0, and its index may be anything below 1 << that. To change an
 * index, read the line, set replacement[RINCHOVEK_LINE_INDEXES + pixel], and replace the line.
 * Refusals: 1, 2. */
uint32_t rinchovek_bc7_read_line(const uint8_t block[RINCHOVEK_BLOCK_BYTES], uint32_t line, uint8_t replacement[RINCHOVEK_LINE_BYTES],
                                 uint8_t widths[RINCHOVEK_LINE_BYTES]);

/* Replaces one line of a block by these 26 bytes. The block then draws them, and its other lines as before, whether or not the pair
 * had to be stored turned (where the index that is given at the line's anchor has its top bit set): read again, the line may
 * have its endpoints exchanged and its indexes counted from the other end, which draws the same.
 * Refusals: 1, 2, 3, 4. */
uint32_t rinchovek_bc7_replace_line(uint8_t block[RINCHOVEK_BLOCK_BYTES], uint32_t line, const uint8_t replacement[RINCHOVEK_LINE_BYTES]);

/* Finds the index of one line whose colour at one of its pixels is nearest to the wanted one, and writes it. `wanted` is 4 bytes: red,
 * green, blue, alpha as the pixel is shown, so after rotation. Nearest is the least sum of squared differences over the channels that
 * the line draws there; of several the lowest index. What is wanted in another channel is not looked at: alpha in the modes 0 to 3, and
 * in the modes 4 and 5 what the other line draws. Every index of the line's width counts, at an anchor too: put it at
 * replacement[RINCHOVEK_LINE_INDEXES + pixel] of the line as it was read, replace the line, and the pixel shows the colour that was
 * measured. BEWARE: line and pixel stand side by side and have one type. Hand them over in variables of these names.
 * Refusals: 1, 2, 13. */
uint32_t rinchovek_bc7_nearest_index(const uint8_t block[RINCHOVEK_BLOCK_BYTES], uint32_t line, uint32_t pixel,
                                     const uint8_t wanted[RINCHOVEK_PIXEL_BYTES], uint32_t *index);

/* The same, and only an exact hit is accepted: writes the lowest index at which no channel that the line draws there differs.
 * Refusals: 1, 2, 13, 14. */
uint32_t rinchovek_bc7_exact_index(const uint8_t block[RINCHOVEK_BLOCK_BYTES], uint32_t line, uint32_t pixel,
                                   const uint8_t wanted[RINCHOVEK_PIXEL_BYTES], uint32_t *index);

/* Tells whether a block is opaque: answers 1 where every shown pixel has alpha 255, and 0 otherwise. Shown are the pixels in the first
 * `columns` columns and the first `rows` rows of the block; the others don't count. Above 4 counts as 4; where nothing is shown the answer
 * is 1. Alpha is as drawn, after rotation. Block n of a sheet shows rinchovek_shown(width, n % across) columns and
 * rinchovek_shown(height, n / across) rows, where across is (width + 3) / 4; a reserved block is never opaque there. BEWARE: columns and
 * rows stand side by side and have one type. Hand them over in variables of these names.
 * Refusals: none. */
uint32_t rinchovek_bc7_is_opaque(const uint8_t block[RINCHOVEK_BLOCK_BYTES], uint32_t columns, uint32_t rows);

/* Writes one pixel of a block: red, green, blue, alpha as it is shown. It is what rinchovek_bc7_decode_block writes at pixels[4 * pixel ..],
 * found by a second decoder that has no code in common with the first: each bit by its number, the partition from its string. So the one
 * checks the other, and a cursor reads its pixel; a whole block is decoded by
 * the other call in less than a tenth of what one pixel costs here. The number is taken whole: 256 + p isn't pixel p. A reserved block is
 * accepted, and shows 0 0 0 0.
 * Refusals: 21. */
uint32_t rinchovek_bc7_pixel(const uint8_t block[RINCHOVEK_BLOCK_BYTES], uint32_t pixel, uint8_t rgba[RINCHOVEK_PIXEL_BYTES]);

/* Opens a sheet of either form: writes its eight numbers (enum rinchovek_open_number). Its rows are drawn by rinchovek_sheet_show_row then,
 * and its blocks read by rinchovek_sheet_block, whatever the form. What stands behind the head isn't looked at: the first
 * RINCHOVEK_OPEN_BYTES bytes of a sheet are enough. (An accepted head has at most 8 bytes. But 02 80 80 01 80 80 01 80 01, whose colour
 * space is 128, is refused with 18, and with 7 where it is cut to 8 bytes.) An empty sheet is refused with 7.
 * Refusals: 7 and 8 on the form, 7 on width, height and (in form 2) the number of the colour space, 18, 9. */
uint32_t rinchovek_sheet_open(const uint8_t *sheet, uint64_t length, uint32_t numbers[RINCHOVEK_OPEN_NUMBERS]);

/* Reads the head of a sheet of form 1: writes width, height and start (enum rinchovek_head_number). What stands behind the head isn't
 * looked at: the first RINCHOVEK_HEAD_BYTES bytes of a sheet are enough. An empty sheet is refused with 7. A sheet of form 2 is refused
 * with 8, as it was before version 1.7.0: three numbers don't say the form, and a program that knows no more would show tiles as rows.
 * Call rinchovek_sheet_open, which takes either form and says which it is.
 * Refusals: 7 and 8 on the form, 7 on width and height, 9. */
uint32_t rinchovek_sheet_read_head(const uint8_t *sheet, uint64_t length, uint32_t head[RINCHOVEK_HEAD_NUMBERS]);

/* The same with four numbers: behind the start stands the colour space, which is RINCHOVEK_UNSPECIFIED for every sheet of form 1. A sheet
 * of form 2 is refused with 8 here too: call rinchovek_sheet_open, which says its colour space.
 * Refusals: 7 and 8 on the form, 7 on width and height, 9. */
uint32_t rinchovek_sheet_read_colour_head(const uint8_t *sheet, uint64_t length, uint32_t head[RINCHOVEK_COLOUR_HEAD_NUMBERS]);

/* Writes the head of a sheet of form 1 of this size, zeros behind it to all 7 bytes, and how many of them are the head's.
 * Refusals: 9. */
uint32_t rinchovek_sheet_write_head(uint32_t width, uint32_t height, uint8_t head[RINCHOVEK_HEAD_BYTES], uint32_t *count);

/* Decodes one row of blocks: writes its lines of pixels, the top one first, each width * 4 bytes, pixel by pixel from the left, red,
 * green, blue, alpha. Rows count from 0. Both lengths are exact: blocks_length is rinchovek_row_blocks(width), which is 16 for each
 * block of the row, and out_length rinchovek_row_pixels(width, height, row), which is width * 4 for each line that is shown: 4 lines,
 * or in the last row as many as are left. In a sheet of form 1 the blocks of a row stand side by side, row 0 at the start and each
 * further row rinchovek_row_blocks(width) behind; in one of form 2 they do not: rinchovek_sheet_show_row takes the whole sheet, of either
 * form.
 * Refusals: 9, 12, 10, 11. */
uint32_t rinchovek_sheet_decode_row(uint32_t width, uint32_t height, uint32_t row, const uint8_t *blocks, uint64_t blocks_length,
                                    uint8_t *out, uint64_t out_length);

/* Decodes one row of blocks of a whole sheet, of either form: writes what rinchovek_sheet_decode_row writes for that row's blocks. Both
 * lengths are exact: the sheet has its head and 16 bytes for each block, and out_length is rinchovek_row_pixels(width, height, row).
 * Refusals: 7 and 8 on the form, 7 on width, height and (in form 2) the number of the colour space, 18, 9, 10, 12, 11. */
uint32_t rinchovek_sheet_show_row(const uint8_t *sheet, uint64_t length, uint32_t row, uint8_t *out, uint64_t out_length);

/* Writes the 16 bytes of one block of a whole sheet, of either form: the block of this number, which counts row by row from 0 also where
 * blocks are stored in tiles. So no program has to know where a block is stored. The length is exact: the head and 16 bytes for each
 * block of the sheet.
 * Refusals: 7 and 8 on the form, 7 on width, height and (in form 2) the number of the colour space, 18, 9, 10, 12. */
uint32_t rinchovek_sheet_block(const uint8_t *sheet, uint64_t length, uint32_t block, uint8_t bytes[RINCHOVEK_BLOCK_BYTES]);

/* Replaces one line of one block in a whole sheet, of either form, as rinchovek_bc7_replace_line does; only that block's 16 bytes are
 * written. The block is named by its number, as for rinchovek_sheet_block. The length is exact: the head and 16 bytes for each block of
 * the sheet. BEWARE: block and line stand side by side and have one type, so that no compiler sees them exchanged. Hand them over in
 * variables of these names.
 * Refusals: 7 and 8 on the form, 7 on width, height and (in form 2) the number of the colour space, 18, 9, 10, 12; then the block's 1, 2,
 * 3, 4. */
uint32_t rinchovek_sheet_replace_line(uint8_t *sheet, uint64_t length, uint32_t block, uint32_t line,
                                      const uint8_t replacement[RINCHOVEK_LINE_BYTES]);

/* COUNTS KEPT BESIDE A SHEET, so that a status line needn't count a large map again after each correction. Count once; then hand the counts to the
 * two calls that follow, which change sheet and counts together. Whatever calls of these two follow each other, refused ones among them, the
 * counts are those that counting the sheet again would write, as long as nothing else writes to it; and 19 is never answered on the way.
 *
 * Counts a whole sheet, of either form: writes its counts (enum rinchovek_count). A sheet that was moved to the other form has the same. The
 * length is exact: the head and 16 bytes for each block of the sheet.
 * Refusals: 7 and 8 on the form, 7 on width, height and (in form 2) the number of the colour space, 18, 9, 10. */
uint32_t rinchovek_sheet_count(const uint8_t *sheet, uint64_t length, uint32_t counts[RINCHOVEK_COUNTS]);

/* Replaces one line of one block in a whole sheet, as rinchovek_sheet_replace_line does, and changes the counts with it; refused, it writes
 * neither. 19 where the counts can't be true: the nine counts of modes don't sum to the number of blocks; or the count of the mode that the named
 * block has is 0; or that of opaque blocks is 0 while the block is opaque, or not below the number of blocks while it isn't. Counts that are false
 * in any other way are not found out, and carried along. BEWARE: block and line stand side by side and have one type. Hand them over in variables of
 * these names.
 * Refusals: 7 and 8 on the form, 7 on width, height and (in form 2) the number of the colour space, 18, 9, 10, 12, 19; then the block's 1, 2,
 * 3, 4. */
uint32_t rinchovek_sheet_replace_line_counted(uint8_t *sheet, uint64_t length, uint32_t counts[RINCHOVEK_COUNTS], uint32_t block, uint32_t line,
                                              const uint8_t replacement[RINCHOVEK_LINE_BYTES]);

/* Replaces one whole block in a whole sheet by any 16 bytes, also by a reserved block, also where a reserved block stands, and changes the counts
 * with it: the 16 bytes are the named block then, and no other byte of the sheet has changed. 19 as above.
 * Refusals: 7 and 8 on the form, 7 on width, height and (in form 2) the number of the colour space, 18, 9, 10, 12, 19. */
uint32_t rinchovek_sheet_replace_block_counted(uint8_t *sheet, uint64_t length, uint32_t counts[RINCHOVEK_COUNTS], uint32_t block,
                                               const uint8_t bytes[RINCHOVEK_BLOCK_BYTES]);

/* Moves a sheet of form 1 to form 2, which leaves the colour space unspecified: writes the whole sheet in tiles. It shows the same
 * picture, and every call by the number of a row or a block answers the same for both. Both lengths are exact: the sheet has its head
 * and 16 bytes for each block (10 otherwise), and the output is one byte longer than the sheet (11 otherwise). A sheet of form 2 is refused
 * with 8.
 * Refusals: 7 and 8 on the form, 7 on width and height, 9, 10, 11. */
uint32_t rinchovek_sheet_to_tiles(const uint8_t *sheet, uint64_t length, uint8_t *out, uint64_t out_length);

/* Moves a sheet of form 2 back to form 1: writes the whole sheet row by row. A sheet that was moved to tiles comes back byte for byte. Both
 * lengths are exact: the sheet has its head and 16 bytes for each block (10 otherwise), and the output is one byte shorter than the
 * sheet (11 otherwise). A sheet that states a colour space would lose it, and is refused with 16, until rinchovek_sheet_state_colour has
 * taken it back; a sheet of form 1 is refused with 8.
 * Refusals: 7 and 8 on the form, 7 on width, height and the number of the colour space, 18, 9, 10, 11, 16. */
uint32_t rinchovek_sheet_to_rows(const uint8_t *sheet, uint64_t length, uint8_t *out, uint64_t out_length);

/* States the colour space of a whole sheet of form 2, in place: writes its number (enum rinchovek_colour_space) where the head has it, into
 * the byte before the first block, and no other byte. What was stated before is lost; RINCHOVEK_UNSPECIFIED takes it back, so that the
 * sheet can be moved to rows. The length is exact: the head and 16 bytes for each block of the sheet. A sheet of form 1 has no room for a
 * colour space, and is refused with 8.
 * Refusals: 7 and 8 on the form, 7 on width, height and the number of the colour space, 18, 9, 10; then 18 for the number that is given. */
uint32_t rinchovek_sheet_state_colour(uint8_t *sheet, uint64_t length, uint32_t colour_space);

/* DDS FILES, as office tools exchange them: RINCHOVEK_DDS_HEADER_BYTES of header with the DX10 extension, by Microsoft's guide, and behind
 * it the blocks row by row. So a file is exchanged with a sheet of form 1: importing writes form 1, and the three calls that export refuse
 * form 2 with 8 at the form, before they look at anything behind it, the colour space that is given included; a sheet in tiles goes through
 * rinchovek_sheet_to_rows first. Both ways the blocks are copied as they stand, so a sheet that was exported and imported again is the same
 * byte for byte. What stands in a file's header and has no place in a sheet is lost by importing. Whether its colours are sRGB has none
 * either: rinchovek_dds_import_colour says it beside the sheet, and rinchovek_dds_export_colour takes it.
 *
 * Refusal 15 says that a file isn't what can be imported: there are fewer than 148 bytes; or at a byte of the header stands another number
 * (32 bits, low byte first) than here. Nothing else in the header is looked at.
 *
 *   byte 0     "DDS "                        byte 128   98 or 99: BC7, linear or sRGB
 *   byte 4     124, the header's size        byte 132   3: two dimensions
 *   byte 28    0 or 1, levels                byte 136   the bit of value 4 is clear: no cube; other bits are not looked at
 *   byte 76    32, the pixel format's size   byte 140   1, the array's size
 *   byte 84    "DX10"
 *
 * Writes the sheet of a DDS file, in form 1: its head, which has the file's sides (height at byte 12, width at byte 16), then its blocks.
 * Both lengths are exact: the file has 148 bytes and 16 for each block, no more behind them (10 otherwise), and the sheet as many as
 * rinchovek_dds_import_length writes (11 otherwise).
 * Refusals: 15, 9, 10, 11. */
uint32_t rinchovek_dds_import(const uint8_t *dds, uint64_t dds_length, uint8_t *sheet, uint64_t sheet_length);

/* The same, and writes the head too: width, height and start as they are read of the sheet that was written, and the colour space that the
 * file's format says, RINCHOVEK_LINEAR for 98 and RINCHOVEK_SRGB for 99.
 * Refusals: 15, 9, 10, 11. */
uint32_t rinchovek_dds_import_colour(const uint8_t *dds, uint64_t dds_length, uint8_t *sheet, uint64_t sheet_length,
                                     uint32_t head[RINCHOVEK_COLOUR_HEAD_NUMBERS]);

/* Writes the DDS file of a sheet of form 1: a header that says format 98 and has all that the table above asks for, then the sheet's
 * blocks. Both lengths are exact: the sheet has its head and 16 bytes for each block (10 otherwise), and the file as many as
 * rinchovek_dds_export_length writes, which is 148 and 16 for each block (11 otherwise).
 * Refusals: 7 and 8 on the form, 7 on width and height, 9, 10, 11. */
uint32_t rinchovek_dds_export(const uint8_t *sheet, uint64_t sheet_length, uint8_t *dds, uint64_t dds_length);

/* The same under a colour space: the header says format 99 for RINCHOVEK_SRGB, and 98 for the two others. Imported again, the file says
 * what was given here; but RINCHOVEK_UNSPECIFIED comes back as RINCHOVEK_LINEAR, for 98 was written.
 * Refusals: 7 and 8 on the form, 7 on width and height, 18, 9, 10, 11. */
uint32_t rinchovek_dds_export_colour(const uint8_t *sheet, uint64_t sheet_length, uint32_t colour_space, uint8_t *dds, uint64_t dds_length);

/* How long the output has to be: of importing this file the sheet, of exporting this sheet the file. Refused for what the call itself is
 * refused for, but for 11.
 * Refusals: 15, 9, 10; and 7 and 8 on the form, 7 on width and height, 9, 10. */
uint32_t rinchovek_dds_import_length(const uint8_t *dds, uint64_t dds_length, uint32_t *sheet_length);
uint32_t rinchovek_dds_export_length(const uint8_t *sheet, uint64_t sheet_length, uint32_t *dds_length);

/* PIXELS AS FLOATS, as blending code takes them. The float of a channel is the channel divided by 255 in one division of two floats, so 0 gives
 * 0.0 and 255 gives 1.0: the same bits on every processor. No two channels have the same float, and the floats rise with the channel. (A product
 * with 1 / 255 is rounded twice, and is another float for 126 of the 256.)
 *
 * Writes the four floats of a pixel: red, green, blue, alpha.
 * Refusals: none. */
void rinchovek_pixel_floats(const uint8_t pixel[RINCHOVEK_PIXEL_BYTES], float floats[RINCHOVEK_PIXEL_FLOATS]);

/* The way back from the bits of one float: writes the channel, 0 to 255, whose float has exactly these bits. Any other float is refused: -0.0,
 * every NaN, infinities, what lies beside a channel's float or would only round to it. rinchovek_channel_of takes the float itself.
 * Refusals: 23. */
uint32_t rinchovek_float_channel(uint32_t bits, uint32_t *channel);

/* Writes the floats of a row of pixels, or of any number of bytes: one for each byte, in their order. `count` is how many floats there is room
 * for, and is exact: length of them (11 otherwise). What rinchovek_sheet_show_row wrote can be handed over as it is.
 * Refusals: 11. */
uint32_t rinchovek_row_floats(const uint8_t *pixels, uint64_t length, float *floats, uint64_t count);

#ifdef __cplusplus
}
#endif

/* What follows is plain C, beside the archive and not proved. */

/* How many columns of a width the column n of blocks shows, and how many lines of a height the row n of blocks, for sides from 1 to
 * RINCHOVEK_LARGEST_SIDE and n below (side + 3) / 4. */
static inline uint32_t rinchovek_shown(uint32_t side, uint32_t n) { return side - 4 * n < 4 ? side - 4 * n : 4; }

/* The lengths of a row, for the same sides and rows: of its blocks, as form 1 stores them side by side, and of its pixels. */
static inline size_t rinchovek_row_blocks(uint32_t width) { return (size_t)RINCHOVEK_BLOCK_BYTES * ((width + 3) / 4); }

static inline size_t rinchovek_row_pixels(uint32_t width, uint32_t height, uint32_t row) {
    return (size_t)RINCHOVEK_PIXEL_BYTES * width * rinchovek_shown(height, row);
}

/* The bits of a float, and by them the way back from the float itself. */
static inline uint32_t rinchovek_float_bits(float value) {
    uint32_t bits = 0;
    for (size_t i = 0; i < sizeof bits; i++) ((unsigned char *)&bits)[i] = ((const unsigned char *)&value)[i];
    return bits;
}

static inline uint32_t rinchovek_channel_of(float value, uint32_t *channel) {
    return rinchovek_float_channel(rinchovek_float_bits(value), channel);
}

/* What a refusal means, in a few words that last as long as the program. */
static inline const char *rinchovek_refusal_text(uint32_t refusal) {
    switch (refusal) {
    case RINCHOVEK_ACCEPTED: return "accepted";
    case RINCHOVEK_RESERVED_BLOCK: return "the block is reserved";
    case RINCHOVEK_NO_SUCH_LINE: return "the block has no such line";
    case RINCHOVEK_VALUE_TOO_WIDE: return "a value needs more bits than it has";
    case RINCHOVEK_P_BITS_DIFFER: return "the p bits differ, and mode 1 has one for both endpoints";
    case RINCHOVEK_WRONG_KIND: return "no such mode, or a kind of split that is not the mode's";
    case RINCHOVEK_ANCHOR_BIT_SET: return "the index at an anchor has its top bit set";
    case RINCHOVEK_BAD_NUMBER: return "a number of the head is cut off, too long or not in its shortest form";
    case RINCHOVEK_UNKNOWN_FORM: return "the form of the sheet is not one that the call takes";
    case RINCHOVEK_BAD_SIDE: return "the width or the height is 0 or too large";
    case RINCHOVEK_WRONG_BLOCK_BYTES: return "too few or too many bytes of blocks";
    case RINCHOVEK_WRONG_OUTPUT_LENGTH: return "the output is too short or too long";
    case RINCHOVEK_BEYOND_SHEET: return "the row or the block is beyond the sheet";
    case RINCHOVEK_PIXEL_NOT_IN_LINE: return "the pixel is not in the line";
    case RINCHOVEK_NO_EXACT_INDEX: return "no index of the line gives exactly this colour";
    case RINCHOVEK_NOT_A_BC7_TEXTURE: return "the file is not a DDS file of one BC7 texture with one level";
    case RINCHOVEK_COLOUR_SPACE_STATED: return "the sheet states a colour space, and form 1 has no room for it";
    case RINCHOVEK_BAD_COLOUR_SPACE: return "there is no such colour space";
    case RINCHOVEK_FALSE_COUNTS: return "the counts are not those of the sheet";
    case RINCHOVEK_NO_SUCH_PIXEL: return "the block has no such pixel";
    case RINCHOVEK_NOT_A_CHANNEL: return "no channel has this float";
    default: return "no refusal of this version";
    }
}

#endif
