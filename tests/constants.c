/* Holds every constant and enumerator of include/rinchovek.h against the archive, by its name and through a call: sizes by how much a call
 * writes, offsets by what stands there, kinds, refusals and colour spaces by what is answered. `.ci/header` says which of them isn't
 * here; tests/run raises each by one, and this must fail then. Exit status 1 where something isn't so. */
#include "rinchovek.h"

int printf(const char *format, ...);

static int wrong;

static void expect(const char *what, uint32_t answer, uint32_t expected) {
    if (answer == expected) return;
    printf("constants: %s: %u, not %u\n", what, answer, expected);
    wrong = 1;
}

/* mode 4, rotation 2, index mode 1: red 1 and 2, green 3 and 4, blue 5 and 6, alpha 7 and 8; the first indexes go 1 2 3 0 and so on, the
 * second 3 4 5 6 7 0 1 2 and so on */
static const uint8_t block4[] = {0xD0, 0x41, 0x0C, 0x52, 0xCC, 0x81, 0x74, 0x72, 0x72, 0x72, 0x66, 0x7D, 0x44, 0x63, 0x7D, 0x44};

/* mode 7, partition 13, the upper half and the lower: endpoint 0 is 1 2 3 4, endpoint 1 is 5 6 7 8 and so on to 16; p 1 0 1 1; the
 * indexes go 1 2 3 0 twice, then 0 3 2 1 twice */
static const uint8_t block7[] = {0x80, 0x4D, 0x28, 0xA9, 0x09, 0xA3, 0xDC, 0x38, 0xEB, 0x11, 0xC4, 0x60, 0x77, 0x72, 0xD8, 0xD8};

/* What a call leaves where everything was this before. A byte that is written is the same both times. */
enum { ROOM = 256 };
static uint8_t zeros[ROOM], ones[ROOM], other_zeros[ROOM], other_ones[ROOM];

static void clear(void) {
    for (int i = 0; i < ROOM; i++) {
        zeros[i] = other_zeros[i] = 0;
        ones[i] = other_ones[i] = 0xFF;
    }
}

static uint32_t written(const uint8_t *from_zeros, const uint8_t *from_ones) {
    uint32_t count = 0;
    for (int i = 0; i < ROOM; i++)
        if (from_zeros[i] == from_ones[i]) count++;
    return count;
}

/* of 32 bits each */
static uint32_t numbers_written(uint32_t (*call)(const uint8_t *, uint64_t, uint32_t *), const uint8_t *sheet, size_t length) {
    uint32_t from_zeros[16] = {0}, from_ones[16], count = 0;
    for (int i = 0; i < 16; i++) from_ones[i] = 0xFFFFFFFF;
    call(sheet, length, from_zeros);
    call(sheet, length, from_ones);
    for (int i = 0; i < 16; i++)
        if (from_zeros[i] == from_ones[i]) count++;
    return count;
}

static void try_sizes(void) {
    clear();
    rinchovek_bc7_decode_block(block7, zeros);
    rinchovek_bc7_decode_block(block7, ones);
    expect("pixels of a block, in bytes", written(zeros, ones), RINCHOVEK_PIXELS_BYTES);
    clear();
    rinchovek_bc7_unpack(block7, zeros);
    rinchovek_bc7_unpack(block7, ones);
    expect("a record", written(zeros, ones), RINCHOVEK_RECORD_BYTES);
    uint8_t record[RINCHOVEK_RECORD_BYTES];
    rinchovek_bc7_unpack(block7, record);
    clear();
    rinchovek_bc7_pack(record, zeros);
    rinchovek_bc7_pack(record, ones);
    expect("a block", written(zeros, ones), RINCHOVEK_BLOCK_BYTES);
    clear();
    rinchovek_bc7_read_line(block7, 0, zeros, other_zeros);
    rinchovek_bc7_read_line(block7, 0, ones, other_ones);
    expect("a line", written(zeros, ones), RINCHOVEK_LINE_BYTES);
    expect("a line's widths", written(other_zeros, other_ones), RINCHOVEK_LINE_BYTES);
    clear();
    expect("the last pixel", rinchovek_bc7_pixel(block7, RINCHOVEK_BLOCK_PIXELS - 1, zeros), RINCHOVEK_ACCEPTED);
    rinchovek_bc7_pixel(block7, RINCHOVEK_BLOCK_PIXELS - 1, ones);
    expect("a pixel", written(zeros, ones), RINCHOVEK_PIXEL_BYTES);
    expect("a pixel more", rinchovek_bc7_pixel(block7, RINCHOVEK_BLOCK_PIXELS, zeros), RINCHOVEK_NO_SUCH_PIXEL);

    uint16_t half_zeros[64] = {0}, half_ones[64];
    uint32_t halves = 0;
    for (int i = 0; i < 64; i++) half_ones[i] = 0xFFFF;
    rinchovek_bc6h_decode_block(block7, 0, half_zeros);
    rinchovek_bc6h_decode_block(block7, 0, half_ones);
    for (int i = 0; i < 64; i++)
        if (half_zeros[i] == half_ones[i]) halves++;
    expect("halves of a block", halves, RINCHOVEK_HALVES);

    clear();
    uint32_t count = 0;
    const uint32_t side = RINCHOVEK_LARGEST_SIDE;
    expect("the largest sheet", rinchovek_sheet_write_head(side, side, zeros, &count), RINCHOVEK_ACCEPTED);
    rinchovek_sheet_write_head(side, side, ones, &count);
    expect("the longest head", count, RINCHOVEK_HEAD_BYTES);
    expect("a head's bytes", written(zeros, ones), RINCHOVEK_HEAD_BYTES);
    expect("too wide", rinchovek_sheet_write_head(side + 1, 1, zeros, &count), RINCHOVEK_BAD_SIDE);
    expect("too high", rinchovek_sheet_write_head(1, side + 1, zeros, &count), RINCHOVEK_BAD_SIDE);

    static const uint8_t head[] = {0x01, 5, 6};
    expect("a head's numbers", numbers_written(rinchovek_sheet_read_head, head, sizeof head), RINCHOVEK_HEAD_NUMBERS);
    expect("with its colour space", numbers_written(rinchovek_sheet_read_colour_head, head, sizeof head), RINCHOVEK_COLOUR_HEAD_NUMBERS);

    static const uint8_t counted[3 + RINCHOVEK_BLOCK_BYTES] = {0x01, 4, 4};
    expect("counts", numbers_written(rinchovek_sheet_count, counted, sizeof counted), RINCHOVEK_COUNTS);

    static const uint8_t sheet[3 + 16] = {0x01, 4, 4};
    expect("a file's length", rinchovek_dds_export_length(sheet, sizeof sheet, &count), RINCHOVEK_ACCEPTED);
    expect("a file's header", count - RINCHOVEK_BLOCK_BYTES, RINCHOVEK_DDS_HEADER_BYTES);
}

static void try_version(void) {
    expect("version", rinchovek_version(), RINCHOVEK_VERSION);
    expect("major", rinchovek_version() / 10000, RINCHOVEK_VERSION_MAJOR);
    expect("minor", rinchovek_version() / 100 % 100, RINCHOVEK_VERSION_MINOR);
    expect("patch", rinchovek_version() % 100, RINCHOVEK_VERSION_PATCH);
}

/* ---- a record: a part that the mode hasn't got is 0 */
static uint8_t taken_apart[ROOM];

static void take_apart(const uint8_t *block, uint32_t mode, uint32_t kind, uint32_t partition_or_rotation, uint32_t index_mode) {
    for (int i = 0; i < ROOM; i++) taken_apart[i] = 0xFF;
    expect("taken apart", rinchovek_bc7_unpack(block, taken_apart), RINCHOVEK_ACCEPTED);
    expect("mode", taken_apart[RINCHOVEK_RECORD_MODE], mode);
    expect("kind", taken_apart[RINCHOVEK_RECORD_KIND], kind);
    expect("partition", taken_apart[RINCHOVEK_RECORD_PARTITION], partition_or_rotation);
    expect("rotation", taken_apart[RINCHOVEK_RECORD_ROTATION], partition_or_rotation);
    expect("index mode", taken_apart[RINCHOVEK_RECORD_INDEX_MODE], index_mode);
}

static void endpoint(const uint8_t *four, uint32_t red, uint32_t green, uint32_t blue, uint32_t alpha) {
    expect("red", four[RINCHOVEK_RED], red);
    expect("green", four[RINCHOVEK_GREEN], green);
    expect("blue", four[RINCHOVEK_BLUE], blue);
    expect("alpha", four[RINCHOVEK_ALPHA], alpha);
}

static void try_records(void) {
    static const uint8_t whole[16] = {0x40}, three[16] = {0x04};
    take_apart(whole, 6, RINCHOVEK_WHOLE, 0, 0);
    take_apart(three, 2, RINCHOVEK_THREE_SUBSETS, 0, 0);

    take_apart(block4, 4, RINCHOVEK_VECTOR_AND_SCALAR, 2, 1);
    endpoint(taken_apart + RINCHOVEK_RECORD_ENDPOINTS, 1, 3, 5, 7);
    endpoint(taken_apart + RINCHOVEK_RECORD_ENDPOINTS + 4, 2, 4, 6, 8);
    for (uint32_t pixel = 0; pixel < RINCHOVEK_BLOCK_PIXELS; pixel++) {
        expect("a first index of mode 4", taken_apart[RINCHOVEK_RECORD_FIRST_INDEXES + pixel], (1 + pixel) % 4);
        expect("a second index of mode 4", taken_apart[RINCHOVEK_RECORD_SECOND_INDEXES + pixel], (3 + pixel) % 8);
    }

    take_apart(block7, 7, RINCHOVEK_TWO_SUBSETS, 13, 0);
    for (uint32_t e = 0; e < 4; e++) endpoint(taken_apart + RINCHOVEK_RECORD_ENDPOINTS + 4 * e, 4 * e + 1, 4 * e + 2, 4 * e + 3, 4 * e + 4);
    static const uint8_t p_bits[] = {1, 0, 1, 1, 0, 0};
    for (uint32_t k = 0; k < 6; k++) expect("a p bit", taken_apart[RINCHOVEK_RECORD_P_BITS + k], p_bits[k]);
    for (uint32_t pixel = 0; pixel < RINCHOVEK_BLOCK_PIXELS; pixel++) {
        expect("a first index of mode 7", taken_apart[RINCHOVEK_RECORD_FIRST_INDEXES + pixel], (pixel < 8 ? 1 + pixel : 16 - pixel) % 4);
        expect("a second index of mode 7", taken_apart[RINCHOVEK_RECORD_SECOND_INDEXES + pixel], 0);
    }
}

static void try_lines(void) {
    uint8_t line[ROOM], widths[ROOM];
    expect("the upper half", rinchovek_bc7_read_line(block7, 0, line, widths), RINCHOVEK_ACCEPTED);
    endpoint(line + RINCHOVEK_LINE_FIRST_ENDPOINT, 1, 2, 3, 4);
    endpoint(line + RINCHOVEK_LINE_SECOND_ENDPOINT, 5, 6, 7, 8);
    expect("the first endpoint's p bit", line[RINCHOVEK_LINE_P_BITS], 1);
    expect("the second endpoint's", line[RINCHOVEK_LINE_P_BITS + 1], 0);
    for (uint32_t pixel = 0; pixel < RINCHOVEK_BLOCK_PIXELS; pixel++) {
        expect("an index of the line", line[RINCHOVEK_LINE_INDEXES + pixel], pixel < 8 ? (1 + pixel) % 4 : 0);
        expect("its width", widths[RINCHOVEK_LINE_INDEXES + pixel], pixel < 8 ? 2 : 0);
    }
    /* as it is shown: index 0 of the lower half is 77 85 93 101, and pixel 8 has it */
    uint8_t shown[ROOM];
    rinchovek_bc7_pixel(block7, 8, shown);
    endpoint(shown, 77, 85, 93, 101);
}

/* 4 by 4 pixels: one block. The file says format 98, linear; at byte 128 it may say 99, sRGB. */
static void try_heads(void) {
    static const uint8_t oblong[] = {0x01, 5, 6};
    static uint8_t sheet[3 + RINCHOVEK_BLOCK_BYTES] = {0x01, 4, 4}, file[RINCHOVEK_DDS_HEADER_BYTES + RINCHOVEK_BLOCK_BYTES];
    uint32_t head[16];
    for (int i = 0; i < 16; i++) head[i] = 99;
    expect("a head", rinchovek_sheet_read_colour_head(oblong, sizeof oblong, head), RINCHOVEK_ACCEPTED);
    expect("width", head[RINCHOVEK_HEAD_WIDTH], 5);
    expect("height", head[RINCHOVEK_HEAD_HEIGHT], 6);
    expect("start", head[RINCHOVEK_HEAD_START], 3);
    expect("colour space", head[RINCHOVEK_HEAD_COLOUR_SPACE], RINCHOVEK_UNSPECIFIED);
    static const struct { uint32_t given, format, back; } tries[] = {
        {RINCHOVEK_UNSPECIFIED, 98, RINCHOVEK_LINEAR}, {RINCHOVEK_LINEAR, 98, RINCHOVEK_LINEAR}, {RINCHOVEK_SRGB, 99, RINCHOVEK_SRGB}};
    for (int i = 0; i < 3; i++) {
        expect("exported", rinchovek_dds_export_colour(sheet, sizeof sheet, tries[i].given, file, sizeof file), RINCHOVEK_ACCEPTED);
        expect("format", file[128], tries[i].format);
        expect("imported", rinchovek_dds_import_colour(file, sizeof file, sheet, sizeof sheet, head), RINCHOVEK_ACCEPTED);
        expect("colour space of a file", head[RINCHOVEK_HEAD_COLOUR_SPACE], tries[i].back);
    }
    expect("no colour space", rinchovek_dds_export_colour(sheet, sizeof sheet, RINCHOVEK_SRGB + 1, file, sizeof file), RINCHOVEK_BAD_COLOUR_SPACE);
    expect("no file", rinchovek_dds_import(sheet, sizeof sheet, file, sizeof file), RINCHOVEK_NOT_A_BC7_TEXTURE);
}

/* 5 by 9 pixels, so two columns and three rows: first as rows, then as tiles in sRGB. */
static void try_forms(void) {
    static const uint8_t sheets[][4] = {{RINCHOVEK_FORM_ROWS, 5, 9}, {RINCHOVEK_FORM_TILES, 5, 9, RINCHOVEK_SRGB}};
    static const uint32_t spaces[] = {RINCHOVEK_UNSPECIFIED, RINCHOVEK_SRGB}, forms[] = {RINCHOVEK_FORM_ROWS, RINCHOVEK_FORM_TILES};
    for (uint32_t i = 0; i < 2; i++) {
        uint32_t numbers[16];
        for (int k = 0; k < 16; k++) numbers[k] = 99;
        expect("opened", rinchovek_sheet_open(sheets[i], sizeof sheets[i], numbers), RINCHOVEK_ACCEPTED);
        expect("width of an opened sheet", numbers[RINCHOVEK_OPEN_WIDTH], 5);
        expect("height of an opened sheet", numbers[RINCHOVEK_OPEN_HEIGHT], 9);
        expect("start of an opened sheet", numbers[RINCHOVEK_OPEN_START], 3 + i);
        expect("colour space of an opened sheet", numbers[RINCHOVEK_OPEN_COLOUR_SPACE], spaces[i]);
        expect("form of an opened sheet", numbers[RINCHOVEK_OPEN_FORM], forms[i]);
        expect("columns of an opened sheet", numbers[RINCHOVEK_OPEN_COLUMNS], 2);
        expect("rows of an opened sheet", numbers[RINCHOVEK_OPEN_ROWS], 3);
        expect("blocks of an opened sheet", numbers[RINCHOVEK_OPEN_BLOCKS], 6);
    }
    expect("an opened sheet's numbers", numbers_written(rinchovek_sheet_open, sheets[0], 3), RINCHOVEK_OPEN_NUMBERS);

    /* the longest numbers, of which the last is no colour space */
    static const uint8_t longest[] = {RINCHOVEK_FORM_TILES, 0x80, 0x80, 1, 0x80, 0x80, 1, 0x80, 0x80, 1, 0};
    uint32_t none[RINCHOVEK_OPEN_NUMBERS];
    expect("a byte less", rinchovek_sheet_open(longest, RINCHOVEK_OPEN_BYTES - 1, none), RINCHOVEK_BAD_NUMBER);
    expect("all that is looked at", rinchovek_sheet_open(longest, RINCHOVEK_OPEN_BYTES, none), RINCHOVEK_BAD_COLOUR_SPACE);

    uint8_t rows[3 + RINCHOVEK_BLOCK_BYTES] = {1, 4, 4}, tiles[4 + RINCHOVEK_BLOCK_BYTES];
    expect("to tiles", rinchovek_sheet_to_tiles(rows, sizeof rows, tiles, sizeof tiles), RINCHOVEK_ACCEPTED);
    expect("the form of tiles", tiles[0], RINCHOVEK_FORM_TILES);
    expect("to rows", rinchovek_sheet_to_rows(tiles, sizeof tiles, rows, sizeof rows), RINCHOVEK_ACCEPTED);
    expect("the form of rows", rows[0], RINCHOVEK_FORM_ROWS);
    tiles[3] = RINCHOVEK_SRGB;
    expect("16", rinchovek_sheet_to_rows(tiles, sizeof tiles, rows, sizeof rows), RINCHOVEK_COLOUR_SPACE_STATED);
}

/* How many lines of a height a row of blocks shows: the output of a row has to be so long. */
static void try_rows(void) {
    for (uint32_t height = 1; height <= 9; height++)
        for (uint32_t row = 0; row < (height + 3) / 4; row++) {
            uint8_t out[ROOM];
            const size_t room = (size_t)RINCHOVEK_PIXEL_BYTES * 4 * rinchovek_shown(height, row);
            expect("a row", rinchovek_sheet_decode_row(4, height, row, block7, RINCHOVEK_BLOCK_BYTES, out, room), RINCHOVEK_ACCEPTED);
        }
}

/* Two blocks, of mode 4 and of mode 1, which is opaque; then the first is reserved. */
static void try_counts(void) {
    static const uint8_t reserved[RINCHOVEK_BLOCK_BYTES];
    uint8_t sheet[3 + 2 * RINCHOVEK_BLOCK_BYTES] = {RINCHOVEK_FORM_ROWS, 8, 4};
    for (int i = 0; i < RINCHOVEK_BLOCK_BYTES; i++) sheet[3 + i] = block4[i];
    sheet[3 + RINCHOVEK_BLOCK_BYTES] = 0x02;
    uint32_t counts[RINCHOVEK_COUNTS];
    expect("counted", rinchovek_sheet_count(sheet, sizeof sheet, counts), RINCHOVEK_ACCEPTED);
    expect("of mode 4", counts[RINCHOVEK_COUNT_MODE_0 + 4], 1);
    expect("of mode 1", counts[RINCHOVEK_COUNT_MODE_0 + 1], 1);
    expect("reserved", counts[RINCHOVEK_COUNT_RESERVED], 0);
    expect("opaque", counts[RINCHOVEK_COUNT_OPAQUE], 1);
    uint32_t block = 0;
    expect("a block", rinchovek_sheet_replace_block_counted(sheet, sizeof sheet, counts, block, reserved), RINCHOVEK_ACCEPTED);
    expect("no more of mode 4", counts[RINCHOVEK_COUNT_MODE_0 + 4], 0);
    expect("one reserved", counts[RINCHOVEK_COUNT_RESERVED], 1);
    expect("one opaque", counts[RINCHOVEK_COUNT_OPAQUE], 1);
    uint8_t held[RINCHOVEK_LINE_BYTES], widths[RINCHOVEK_LINE_BYTES];
    const uint32_t line = 0;
    block = 1;
    rinchovek_bc7_read_line(sheet + 3 + RINCHOVEK_BLOCK_BYTES, line, held, widths);
    counts[RINCHOVEK_COUNT_OPAQUE] = 0;
    expect("19", rinchovek_sheet_replace_line_counted(sheet, sizeof sheet, counts, block, line, held), RINCHOVEK_FALSE_COUNTS);
    counts[RINCHOVEK_COUNT_OPAQUE] = 1;
    expect("a line", rinchovek_sheet_replace_line_counted(sheet, sizeof sheet, counts, block, line, held), RINCHOVEK_ACCEPTED);
}

/* A pixel's floats by their bits: how many are written, and each channel's in its place. 0.2, 1.0, 0.0, 0.6. */
static void try_floats(void) {
    static const uint8_t pixel[RINCHOVEK_PIXEL_BYTES] = {51, 255, 0, 153};
    float ones[16], twos[16];
    uint32_t count = 0, channel = 0;
    for (int i = 0; i < 16; i++) ones[i] = 1.0f, twos[i] = 2.0f;
    rinchovek_pixel_floats(pixel, ones);
    rinchovek_pixel_floats(pixel, twos);
    for (int i = 0; i < 16; i++)
        if (rinchovek_float_bits(ones[i]) == rinchovek_float_bits(twos[i])) count++;
    expect("a pixel's floats", count, RINCHOVEK_PIXEL_FLOATS);
    expect("red as a float", rinchovek_float_bits(ones[RINCHOVEK_RED]), 0x3E4CCCCD);
    expect("green as a float", rinchovek_float_bits(ones[RINCHOVEK_GREEN]), 0x3F800000);
    expect("blue as a float", rinchovek_float_bits(ones[RINCHOVEK_BLUE]), 0);
    expect("alpha as a float", rinchovek_float_bits(ones[RINCHOVEK_ALPHA]), 0x3F19999A);
    expect("23", rinchovek_float_channel(0x80000000, &channel), RINCHOVEK_NOT_A_CHANNEL);
}

/* Each refusal by a call that is refused for this alone. */
static void try_refusals(void) {
    static const uint8_t reserved[16], mode1[16] = {0x46}, half[2] = {0x01, 0x80}, form9[3] = {9, 4, 4}, no_width[3] = {1, 0, 4};
    static const uint8_t black[RINCHOVEK_PIXEL_BYTES], sheet[3 + 16] = {0x01, 4, 4, 0x40};
    uint8_t record[RINCHOVEK_RECORD_BYTES], line[RINCHOVEK_LINE_BYTES], widths[RINCHOVEK_LINE_BYTES], block[RINCHOVEK_BLOCK_BYTES], out[64];
    uint32_t head[RINCHOVEK_HEAD_NUMBERS], index = 0;
    expect("1", rinchovek_bc7_unpack(reserved, record), RINCHOVEK_RESERVED_BLOCK);
    expect("2", rinchovek_bc7_read_line(block7, 2, line, widths), RINCHOVEK_NO_SUCH_LINE);

    rinchovek_bc7_unpack(block7, record);
    record[RINCHOVEK_RECORD_ENDPOINTS + RINCHOVEK_GREEN] = 32;
    expect("3", rinchovek_bc7_pack(record, block), RINCHOVEK_VALUE_TOO_WIDE);
    record[RINCHOVEK_RECORD_ENDPOINTS + RINCHOVEK_GREEN] = 0;
    record[RINCHOVEK_RECORD_FIRST_INDEXES] = 2;
    expect("6", rinchovek_bc7_pack(record, block), RINCHOVEK_ANCHOR_BIT_SET);
    record[RINCHOVEK_RECORD_FIRST_INDEXES] = 0;
    record[RINCHOVEK_RECORD_KIND] = RINCHOVEK_WHOLE;
    expect("5", rinchovek_bc7_pack(record, block), RINCHOVEK_WRONG_KIND);

    for (int i = 0; i < RINCHOVEK_BLOCK_BYTES; i++) block[i] = mode1[i];
    rinchovek_bc7_read_line(block, 0, line, widths);
    line[RINCHOVEK_LINE_P_BITS + 1] = 1;
    expect("4", rinchovek_bc7_replace_line(block, 0, line), RINCHOVEK_P_BITS_DIFFER);

    expect("7", rinchovek_sheet_read_head(half, sizeof half, head), RINCHOVEK_BAD_NUMBER);
    expect("8", rinchovek_sheet_read_head(form9, sizeof form9, head), RINCHOVEK_UNKNOWN_FORM);
    expect("9", rinchovek_sheet_read_head(no_width, sizeof no_width, head), RINCHOVEK_BAD_SIDE);
    expect("10", rinchovek_sheet_decode_row(4, 4, 0, sheet + 3, 15, out, 64), RINCHOVEK_WRONG_BLOCK_BYTES);
    expect("11", rinchovek_sheet_decode_row(4, 4, 0, sheet + 3, 16, out, 63), RINCHOVEK_WRONG_OUTPUT_LENGTH);
    expect("12", rinchovek_sheet_decode_row(4, 4, 1, sheet + 3, 16, out, 64), RINCHOVEK_BEYOND_SHEET);
    expect("13", rinchovek_bc7_nearest_index(block7, 1, 7, black, &index), RINCHOVEK_PIXEL_NOT_IN_LINE);
    expect("14", rinchovek_bc7_exact_index(block7, 1, 8, black, &index), RINCHOVEK_NO_EXACT_INDEX);

    /* every number has a text of its own, and no number that is none has one */
    for (uint32_t a = RINCHOVEK_ACCEPTED; a < 64; a++)
        for (uint32_t b = a + 1; b < 64; b++) {
            const char *one = rinchovek_refusal_text(a), *other = rinchovek_refusal_text(b), *none = rinchovek_refusal_text(64);
            if (one == other && one != none) expect("a refusal's text", a, b);
        }
}

int main(void) {
    try_version();
    try_sizes();
    try_records();
    try_lines();
    try_heads();
    try_forms();
    try_rows();
    try_counts();
    try_floats();
    try_refusals();
    return wrong;
}
