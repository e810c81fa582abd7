/* Every call of include/rinchovek.h, from C: a row of a small sheet is decoded, one of its blocks is corrected, and the row is
 * decoded again; the other way round, which index gives a red; the same correction on the block alone; what happens to calls that
 * are refused; records and heads; which blocks are opaque; single pixels; a block of a backdrop in both signs; the sheet as a DDS file and
 * back, in sRGB too; a sheet moved to tiles and back, and counted; pixels as floats and back. */
#include "rinchovek.h"

int printf(const char *format, ...);

/* A sheet of 8 by 4 pixels: the block of the README's worked correction, then a reserved block. */
enum { WIDTH = 8, HEIGHT = 4, HEAD = 3 };
static uint8_t sheet[HEAD + 2 * RINCHOVEK_BLOCK_BYTES] = {
    0x01, WIDTH, HEIGHT,
    0x40, 0xC0, 0x1F, 0, 0, 0, 0, 0, 0x0E, 0, 0, 0, 0, 0, 0, 0,
};

static void show_bytes(const char *what, const uint8_t *bytes, uint32_t count) {
    printf("%s", what);
    for (uint32_t i = 0; i < count; i++) printf(" %02X", bytes[i]);
    printf("\n");
}

static void show_refusal(const char *what, uint32_t refusal) {
    printf("%s: %u, %s\n", what, refusal, rinchovek_refusal_text(refusal));
}

/* The first pixel of the row, and the first of its second block. */
static void show_row(void) {
    uint32_t head[RINCHOVEK_HEAD_NUMBERS] = {0};
    uint8_t pixels[WIDTH * HEIGHT * RINCHOVEK_PIXEL_BYTES] = {0};
    uint32_t refusal = rinchovek_sheet_read_head(sheet, sizeof sheet, head);
    if (refusal == RINCHOVEK_ACCEPTED) {
        const uint32_t width = head[RINCHOVEK_HEAD_WIDTH], height = head[RINCHOVEK_HEAD_HEIGHT], row = 0;
        const uint8_t *blocks = sheet + head[RINCHOVEK_HEAD_START] + row * rinchovek_row_blocks(width);
        refusal = rinchovek_sheet_decode_row(width, height, row, blocks, rinchovek_row_blocks(width), pixels,
                                             rinchovek_row_pixels(width, height, row));
    }
    printf("row: %u, pixel 0: %u %u %u %u, pixel 4: %u %u %u %u\n", refusal, pixels[0], pixels[1], pixels[2], pixels[3],
           pixels[16], pixels[17], pixels[18], pixels[19]);
}

static void show_pixel(const uint8_t block[RINCHOVEK_BLOCK_BYTES]) {
    uint8_t pixels[RINCHOVEK_PIXELS_BYTES];
    rinchovek_bc7_decode_block(block, pixels);
    printf("pixel 0: %u %u %u %u\n", pixels[RINCHOVEK_RED], pixels[RINCHOVEK_GREEN], pixels[RINCHOVEK_BLUE], pixels[RINCHOVEK_ALPHA]);
}

/* Which index of line 0 gives pixel 0 this red, and which is nearest. */
static void show_indexes(const uint8_t block[RINCHOVEK_BLOCK_BYTES], uint8_t red) {
    const uint8_t wanted[RINCHOVEK_PIXEL_BYTES] = {red, 0, 0, 0};
    const uint32_t line = 0, pixel = 0;
    uint32_t exact = 0, nearest = 0;
    const uint32_t refusal = rinchovek_bc7_exact_index(block, line, pixel, wanted, &exact);
    printf("red %u, exactly: %u, %s", red, refusal, rinchovek_refusal_text(refusal));
    if (refusal == RINCHOVEK_ACCEPTED) printf(", index %u", exact);
    if (rinchovek_bc7_nearest_index(block, line, pixel, wanted, &nearest) == RINCHOVEK_ACCEPTED) printf("; nearest: index %u", nearest);
    printf("\n");
}

/* Whether block n of a sheet of this size is opaque. */
static void show_opaque(const uint8_t block[RINCHOVEK_BLOCK_BYTES], uint32_t width, uint32_t height, uint32_t n) {
    const uint32_t across = (width + 3) / 4;
    const uint32_t columns = rinchovek_shown(width, n % across), rows = rinchovek_shown(height, n / across);
    printf("block %u of %u by %u shows %u by %u: %s\n", n, width, height, columns, rows,
           rinchovek_bc7_is_opaque(block, columns, rows) ? "opaque" : "not opaque");
}

/* One pixel, as a cursor reads it. */
static void show_one(const uint8_t block[RINCHOVEK_BLOCK_BYTES], uint32_t pixel) {
    uint8_t rgba[RINCHOVEK_PIXEL_BYTES] = {0};
    const uint32_t refusal = rinchovek_bc7_pixel(block, pixel, rgba);
    printf("pixel %u: %u, %s", pixel, refusal, rinchovek_refusal_text(refusal));
    if (refusal == RINCHOVEK_ACCEPTED)
        printf(", %u %u %u %u", rgba[RINCHOVEK_RED], rgba[RINCHOVEK_GREEN], rgba[RINCHOVEK_BLUE], rgba[RINCHOVEK_ALPHA]);
    printf("\n");
}

/* The first pixel of a BC6H block, as the bits of three half floats, unsigned and signed. */
static void show_halves(const char *what, const uint8_t block[RINCHOVEK_BLOCK_BYTES]) {
    uint16_t unsigned_halves[RINCHOVEK_HALVES], signed_halves[RINCHOVEK_HALVES];
    rinchovek_bc6h_decode_block(block, 0, unsigned_halves);
    rinchovek_bc6h_decode_block(block, 1, signed_halves);
    printf("%s: unsigned %04X %04X %04X, signed %04X %04X %04X\n", what, unsigned_halves[RINCHOVEK_RED], unsigned_halves[RINCHOVEK_GREEN],
           unsigned_halves[RINCHOVEK_BLUE], signed_halves[RINCHOVEK_RED], signed_halves[RINCHOVEK_GREEN], signed_halves[RINCHOVEK_BLUE]);
}

/* The numbers of a sheet of either form. */
static void show_opened(const uint8_t *bytes, size_t length) {
    uint32_t numbers[RINCHOVEK_OPEN_NUMBERS] = {0};
    const uint32_t refusal = rinchovek_sheet_open(bytes, length, numbers);
    printf("opened: %u, %u by %u, blocks from %u, colour space %u, form %u, %u columns, %u rows, %u blocks\n", refusal,
           numbers[RINCHOVEK_OPEN_WIDTH], numbers[RINCHOVEK_OPEN_HEIGHT], numbers[RINCHOVEK_OPEN_START],
           numbers[RINCHOVEK_OPEN_COLOUR_SPACE], numbers[RINCHOVEK_OPEN_FORM], numbers[RINCHOVEK_OPEN_COLUMNS],
           numbers[RINCHOVEK_OPEN_ROWS], numbers[RINCHOVEK_OPEN_BLOCKS]);
}

/* The counts of a sheet: modes 0 to 8, and the opaque blocks. */
static void show_counts(const uint32_t counts[RINCHOVEK_COUNTS]) {
    printf("counts");
    for (int i = 0; i < RINCHOVEK_COUNTS; i++) printf(" %u", counts[i]);
    printf("\n");
}

static void show_floats(const char *what, const float *floats, uint32_t count) {
    printf("%s", what);
    for (uint32_t i = 0; i < count; i++) printf(" %08X", rinchovek_float_bits(floats[i]));
    printf("\n");
}

/* Which channel a float is. */
static void show_channel(const char *what, float value) {
    uint32_t channel = 0;
    const uint32_t refusal = rinchovek_channel_of(value, &channel);
    printf("%s: %u, %s", what, refusal, rinchovek_refusal_text(refusal));
    if (refusal == RINCHOVEK_ACCEPTED) printf(", channel %u", channel);
    printf("\n");
}

int main(void) {
    const uint32_t version = rinchovek_version();
    if (version / 10000 != RINCHOVEK_VERSION_MAJOR || version < RINCHOVEK_VERSION) return 1; /* an archive of another header */
    printf("version %u.%u.%u\n", version / 10000, version / 100 % 100, version % 100);

    uint8_t alone[RINCHOVEK_BLOCK_BYTES];
    for (int i = 0; i < RINCHOVEK_BLOCK_BYTES; i++) alone[i] = sheet[HEAD + i];

    /* Red from 0 to 127, index 8 at pixel 0 and 0 elsewhere. */
    uint8_t replacement[RINCHOVEK_LINE_BYTES] = {0};
    replacement[RINCHOVEK_LINE_SECOND_ENDPOINT + RINCHOVEK_RED] = 127;
    replacement[RINCHOVEK_LINE_INDEXES + 0] = 8;
    /* Both are uint32_t and stand side by side in the call: with their names nobody exchanges them. */
    uint32_t block = 0, line = 0;
    show_row();
    show_refusal("replaced in the sheet", rinchovek_sheet_replace_line(sheet, sizeof sheet, block, line, replacement));
    show_bytes("block", sheet + HEAD, RINCHOVEK_BLOCK_BYTES);
    show_row();

    show_pixel(alone);
    show_indexes(alone, 135);
    show_indexes(alone, 130);
    show_refusal("replaced", rinchovek_bc7_replace_line(alone, line, replacement));
    show_bytes("block", alone, RINCHOVEK_BLOCK_BYTES);
    show_pixel(alone);

    /* 128 needs eight bits where the line has seven; block 1 is reserved; mode 6 has no line 1. */
    replacement[RINCHOVEK_LINE_SECOND_ENDPOINT + RINCHOVEK_RED] = 128;
    show_refusal("red 128", rinchovek_sheet_replace_line(sheet, sizeof sheet, block, line, replacement));
    block = 1;
    show_refusal("block 1", rinchovek_sheet_replace_line(sheet, sizeof sheet, block, line, replacement));
    line = 1;
    show_refusal("line 1", rinchovek_bc7_replace_line(alone, line, replacement));
    show_bytes("block", alone, RINCHOVEK_BLOCK_BYTES);

    /* The record of the block, packed again; and a kind that isn't the mode's. */
    uint8_t record[RINCHOVEK_RECORD_BYTES] = {0}, packed[RINCHOVEK_BLOCK_BYTES] = {0};
    uint32_t refusal = rinchovek_bc7_unpack(alone, record);
    printf("unpacked: %u, mode %u, red %u and %u\n", refusal, record[RINCHOVEK_RECORD_MODE],
           record[RINCHOVEK_RECORD_ENDPOINTS + RINCHOVEK_RED], record[RINCHOVEK_RECORD_ENDPOINTS + 4 + RINCHOVEK_RED]);
    show_refusal("packed", rinchovek_bc7_pack(record, packed));
    show_bytes("block", packed, RINCHOVEK_BLOCK_BYTES);
    record[RINCHOVEK_RECORD_KIND] = RINCHOVEK_TWO_SUBSETS;
    show_refusal("two subsets", rinchovek_bc7_pack(record, packed));

    /* The line as it stands, for the pair was stored turned; one index of it changed. */
    uint8_t held[RINCHOVEK_LINE_BYTES] = {0}, widths[RINCHOVEK_LINE_BYTES] = {0};
    line = 0;
    refusal = rinchovek_bc7_read_line(alone, line, held, widths);
    printf("line 0: %u, pixel 0 has index %u of %u bits\n", refusal, held[RINCHOVEK_LINE_INDEXES], widths[RINCHOVEK_LINE_INDEXES]);
    held[RINCHOVEK_LINE_INDEXES + 0] = 3;
    show_refusal("index 3", rinchovek_bc7_replace_line(alone, line, held));
    show_pixel(alone);

    uint8_t head[RINCHOVEK_HEAD_BYTES] = {0};
    uint32_t count = 0;
    show_refusal("head", rinchovek_sheet_write_head(RINCHOVEK_LARGEST_SIDE, 5, head, &count));
    show_bytes("head", head, count);
    show_refusal("head", rinchovek_sheet_write_head(RINCHOVEK_LARGEST_SIDE + 1, 5, head, &count));

    /* Mode 6 from alpha 255 to 0: every pixel has index 0 but the last one, in column 3 and row 3, which has 15. */
    static const uint8_t corner[RINCHOVEK_BLOCK_BYTES] = {0x40, 0, 0, 0, 0, 0, 0xFE, 0x80, 0, 0, 0, 0, 0, 0, 0, 0xF0};
    show_opaque(corner, 7, 4, 0);
    show_opaque(corner, 7, 4, 1);
    show_opaque(sheet + HEAD + RINCHOVEK_BLOCK_BYTES, WIDTH, HEIGHT, 1);
    for (uint32_t pixel = 14; pixel <= 16; pixel++) show_one(corner, pixel);

    /* BC6H, mode 03: red 512 of ten bits, which signed is the lowest value, and all else 0; and a reserved mode. */
    static const uint8_t backdrop[RINCHOVEK_BLOCK_BYTES] = {0x03, 0x40}, reserved_backdrop[RINCHOVEK_BLOCK_BYTES] = {0xF3, 0xFF};
    show_halves("backdrop", backdrop);
    show_halves("reserved", reserved_backdrop);

    /* The sheet as a DDS file, of which the sides are shown, height first; the file as a sheet again; and what is no such file. */
    uint8_t file[RINCHOVEK_DDS_HEADER_BYTES + 2 * RINCHOVEK_BLOCK_BYTES] = {0}, again[sizeof sheet] = {0};
    uint32_t needed = 0;
    refusal = rinchovek_dds_export_length(sheet, sizeof sheet, &needed);
    if (refusal == RINCHOVEK_ACCEPTED && needed <= sizeof file) refusal = rinchovek_dds_export(sheet, sizeof sheet, file, needed);
    printf("exported: %u, %u bytes\n", refusal, needed);
    show_bytes("sides", file + 12, 8);
    refusal = rinchovek_dds_import_length(file, sizeof file, &needed);
    if (refusal == RINCHOVEK_ACCEPTED && needed <= sizeof again) refusal = rinchovek_dds_import(file, sizeof file, again, needed);
    printf("imported: %u, %u bytes\n", refusal, needed);
    show_bytes("sheet", again, HEAD + RINCHOVEK_BLOCK_BYTES);
    show_refusal("a sheet for a file", rinchovek_dds_import(sheet, sizeof sheet, again, sizeof again));

    /* In sRGB the format is 99. Importing says so beside the sheet, which has no room for it. There is no colour space 3. */
    uint32_t numbers[RINCHOVEK_COLOUR_HEAD_NUMBERS] = {0};
    refusal = rinchovek_dds_export_colour(sheet, sizeof sheet, RINCHOVEK_SRGB, file, sizeof file);
    printf("exported in sRGB: %u, format %u\n", refusal, file[128]);
    refusal = rinchovek_dds_import_colour(file, sizeof file, again, sizeof again, numbers);
    printf("imported: %u, %u by %u, blocks from %u, colour space %u\n", refusal, numbers[RINCHOVEK_HEAD_WIDTH],
           numbers[RINCHOVEK_HEAD_HEIGHT], numbers[RINCHOVEK_HEAD_START], numbers[RINCHOVEK_HEAD_COLOUR_SPACE]);
    refusal = rinchovek_sheet_read_colour_head(again, sizeof again, numbers);
    printf("its head: %u, colour space %u\n", refusal, numbers[RINCHOVEK_HEAD_COLOUR_SPACE]);
    show_refusal("colour space 3", rinchovek_dds_export_colour(sheet, sizeof sheet, 3, file, sizeof file));

    /* A sheet of three by two blocks of mode 6, block n all in red 4 * n. In tiles they are stored in the order 0 1 3 4 2 5; rows and blocks
     * are asked for by their numbers as before. Who knows three numbers only is refused, and so is the way back once a colour space is stated. */
    enum { TILED_HEAD = 4, COLUMNS = 3, BLOCKS = 6 };
    static uint8_t in_rows[HEAD + BLOCKS * RINCHOVEK_BLOCK_BYTES] = {RINCHOVEK_FORM_ROWS, 12, 8}, back[sizeof in_rows];
    static uint8_t in_tiles[sizeof in_rows + 1], scanlines[12 * 4 * RINCHOVEK_PIXEL_BYTES], one[RINCHOVEK_BLOCK_BYTES];
    for (uint32_t n = 0; n < BLOCKS; n++) {
        in_rows[HEAD + n * RINCHOVEK_BLOCK_BYTES] = 0x40;
        in_rows[HEAD + n * RINCHOVEK_BLOCK_BYTES + 1] = (uint8_t)n;
    }
    show_opened(in_rows, sizeof in_rows);
    show_refusal("to tiles", rinchovek_sheet_to_tiles(in_rows, sizeof in_rows, in_tiles, sizeof in_tiles));
    show_opened(in_tiles, sizeof in_tiles);
    printf("stored");
    for (uint32_t n = 0; n < BLOCKS; n++) printf(" %u", in_tiles[TILED_HEAD + n * RINCHOVEK_BLOCK_BYTES + 1]);
    printf("\n");
    block = 2;
    show_refusal("block 2", rinchovek_sheet_block(in_tiles, sizeof in_tiles, block, one));
    show_bytes("block", one, 2);
    block = BLOCKS;
    show_refusal("block 6", rinchovek_sheet_block(in_tiles, sizeof in_tiles, block, one));
    refusal = rinchovek_sheet_show_row(in_tiles, sizeof in_tiles, 1, scanlines, sizeof scanlines);
    printf("row 1: %u, red", refusal);
    for (uint32_t n = 0; n < COLUMNS; n++) printf(" %u", scanlines[n * 4 * RINCHOVEK_PIXEL_BYTES + RINCHOVEK_RED]);
    printf("\n");
    show_refusal("tiles in three numbers", rinchovek_sheet_read_head(in_tiles, sizeof in_tiles, numbers));
    show_refusal("to rows", rinchovek_sheet_to_rows(in_tiles, sizeof in_tiles, back, sizeof back));
    uint32_t same = 1;
    for (uint32_t i = 0; i < sizeof back; i++) same &= back[i] == in_rows[i];
    printf("the same bytes: %s\n", same ? "yes" : "no");
    show_refusal("sRGB stated", rinchovek_sheet_state_colour(in_tiles, sizeof in_tiles, RINCHOVEK_SRGB));
    show_opened(in_tiles, sizeof in_tiles);
    show_refusal("3 stated", rinchovek_sheet_state_colour(in_tiles, sizeof in_tiles, 3));
    show_refusal("sRGB to rows", rinchovek_sheet_to_rows(in_tiles, sizeof in_tiles, back, sizeof back));

    /* counts kept beside the sheet: six blocks of mode 6, none of them opaque; block 2 becomes reserved, and a line of block 3 stays as it is */
    static const uint8_t reserved[RINCHOVEK_BLOCK_BYTES];
    uint32_t counts[RINCHOVEK_COUNTS];
    show_refusal("counted", rinchovek_sheet_count(in_tiles, sizeof in_tiles, counts));
    show_counts(counts);
    block = 2;
    show_refusal("block 2 replaced", rinchovek_sheet_replace_block_counted(in_tiles, sizeof in_tiles, counts, block, reserved));
    show_counts(counts);
    block = 3;
    line = 0;
    rinchovek_sheet_block(in_tiles, sizeof in_tiles, block, one);
    rinchovek_bc7_read_line(one, line, held, widths);
    show_refusal("line 0 of block 3 replaced", rinchovek_sheet_replace_line_counted(in_tiles, sizeof in_tiles, counts, block, line, held));
    show_counts(counts);
    counts[RINCHOVEK_COUNT_MODE_0 + 6]++;
    show_refusal("one too many", rinchovek_sheet_replace_line_counted(in_tiles, sizeof in_tiles, counts, block, line, held));

    /* Two pixels as floats, by their bits: one alone, and both as a row. -0.0 and 0.5 are no channel's; by its bits neither is a NaN. */
    static const uint8_t two[2 * RINCHOVEK_PIXEL_BYTES] = {135, 0, 51, 255, 254, 1, 2, 3};
    float floats[2 * RINCHOVEK_PIXEL_FLOATS] = {0};
    rinchovek_pixel_floats(two, floats);
    show_floats("floats", floats, RINCHOVEK_PIXEL_FLOATS);
    show_refusal("room for 7", rinchovek_row_floats(two, sizeof two, floats, 7));
    show_refusal("room for 8", rinchovek_row_floats(two, sizeof two, floats, 8));
    show_floats("row", floats, 8);
    show_channel("0.2", 0.2f);
    show_channel("-0.0", -0.0f);
    show_channel("0.5", 0.5f);
    uint32_t channel = 0;
    show_refusal("bits 7FC00000", rinchovek_float_channel(0x7FC00000, &channel));

    for (uint32_t number = RINCHOVEK_RESERVED_BLOCK; number <= RINCHOVEK_COLOUR_SPACE_STATED; number++)
        printf("%u: %s\n", number, rinchovek_refusal_text(number));
    printf("%u: %s\n", RINCHOVEK_BAD_COLOUR_SPACE, rinchovek_refusal_text(RINCHOVEK_BAD_COLOUR_SPACE));
    printf("%u: %s\n", RINCHOVEK_FALSE_COUNTS, rinchovek_refusal_text(RINCHOVEK_FALSE_COUNTS));
    printf("%u: %s\n", RINCHOVEK_NO_SUCH_PIXEL, rinchovek_refusal_text(RINCHOVEK_NO_SUCH_PIXEL));
    printf("%u: %s\n", RINCHOVEK_NOT_A_CHANNEL, rinchovek_refusal_text(RINCHOVEK_NOT_A_CHANNEL));
    return 0;
}
