/* Holds the archive against what include/rinchovek.h says and no proof does: the version, the lengths of a row, NULL where a length
 * is 0, and how much stack a call takes; and that a program which knows form 1 alone is shown nothing of form 2. Exit status 1 where
 * something isn't so. */
#include "rinchovek.h"

int printf(const char *format, ...);

static int wrong;

static void expect(const char *what, uint32_t answer, uint32_t expected) {
    if (answer == expected) return;
    printf("header: %s: %u, not %u\n", what, answer, expected);
    wrong = 1;
}

enum { COLUMNS = 6, WIDEST = 4 * COLUMNS };
static uint8_t blocks[RINCHOVEK_BLOCK_BYTES * COLUMNS + 1], out[RINCHOVEK_PIXEL_BYTES * WIDEST * 4 + 1];

/* A row is accepted with the lengths that the header computes, and with a byte less or more in neither. */
static void try_rows(void) {
    for (uint32_t width = 1; width <= WIDEST; width++)
        for (uint32_t height = 1; height <= 9; height++)
            for (uint32_t row = 0; row < (height + 3) / 4; row++) {
                const size_t given = rinchovek_row_blocks(width), room = rinchovek_row_pixels(width, height, row);
                expect("a row", rinchovek_sheet_decode_row(width, height, row, blocks, given, out, room), RINCHOVEK_ACCEPTED);
                for (size_t off = 0; off <= 2; off += 2) {
                    expect("block bytes", rinchovek_sheet_decode_row(width, height, row, blocks, given - 1 + off, out, room),
                           RINCHOVEK_WRONG_BLOCK_BYTES);
                    expect("output", rinchovek_sheet_decode_row(width, height, row, blocks, given, out, room - 1 + off),
                           RINCHOVEK_WRONG_OUTPUT_LENGTH);
                }
            }
}

static void try_null(void) {
    uint32_t head[RINCHOVEK_HEAD_NUMBERS], colour_head[RINCHOVEK_COLOUR_HEAD_NUMBERS], numbers[RINCHOVEK_OPEN_NUMBERS];
    static const uint8_t replacement[RINCHOVEK_LINE_BYTES];
    static uint8_t block[RINCHOVEK_BLOCK_BYTES];
    static const uint8_t one[3 + RINCHOVEK_BLOCK_BYTES] = {RINCHOVEK_FORM_ROWS, 4, 4};
    expect("no sheet", rinchovek_sheet_open(NULL, 0, numbers), RINCHOVEK_BAD_NUMBER);
    expect("no sheet", rinchovek_sheet_show_row(NULL, 0, 0, NULL, 0), RINCHOVEK_BAD_NUMBER);
    expect("no sheet", rinchovek_sheet_block(NULL, 0, 0, block), RINCHOVEK_BAD_NUMBER);
    expect("no sheet", rinchovek_sheet_to_tiles(NULL, 0, NULL, 0), RINCHOVEK_BAD_NUMBER);
    expect("no sheet", rinchovek_sheet_to_rows(NULL, 0, NULL, 0), RINCHOVEK_BAD_NUMBER);
    expect("no sheet", rinchovek_sheet_state_colour(NULL, 0, 3), RINCHOVEK_BAD_NUMBER);
    uint32_t counts[RINCHOVEK_COUNTS] = {0};
    expect("no sheet", rinchovek_sheet_count(NULL, 0, counts), RINCHOVEK_BAD_NUMBER);
    expect("no sheet", rinchovek_sheet_replace_line_counted(NULL, 0, counts, 0, 0, replacement), RINCHOVEK_BAD_NUMBER);
    expect("no sheet", rinchovek_sheet_replace_block_counted(NULL, 0, counts, 0, block), RINCHOVEK_BAD_NUMBER);
    expect("no output", rinchovek_sheet_show_row(one, sizeof one, 0, NULL, 0), RINCHOVEK_WRONG_OUTPUT_LENGTH);
    expect("no output", rinchovek_sheet_to_tiles(one, sizeof one, NULL, 0), RINCHOVEK_WRONG_OUTPUT_LENGTH);
    expect("no sheet", rinchovek_sheet_read_head(NULL, 0, head), RINCHOVEK_BAD_NUMBER);
    expect("no sheet", rinchovek_sheet_read_colour_head(NULL, 0, colour_head), RINCHOVEK_BAD_NUMBER);
    expect("no sheet", rinchovek_sheet_replace_line(NULL, 0, 0, 0, replacement), RINCHOVEK_BAD_NUMBER);
    expect("no blocks", rinchovek_sheet_decode_row(4, 4, 0, NULL, 0, out, 64), RINCHOVEK_WRONG_BLOCK_BYTES);
    expect("no output", rinchovek_sheet_decode_row(4, 4, 0, blocks, 16, NULL, 0), RINCHOVEK_WRONG_OUTPUT_LENGTH);
    expect("no file", rinchovek_dds_import(NULL, 0, NULL, 0), RINCHOVEK_NOT_A_BC7_TEXTURE);
    expect("no file", rinchovek_dds_import_colour(NULL, 0, NULL, 0, colour_head), RINCHOVEK_NOT_A_BC7_TEXTURE);
    expect("no file", rinchovek_dds_import_length(NULL, 0, head), RINCHOVEK_NOT_A_BC7_TEXTURE);
    expect("no sheet", rinchovek_dds_export(NULL, 0, NULL, 0), RINCHOVEK_BAD_NUMBER);
    expect("no sheet", rinchovek_dds_export_colour(NULL, 0, 3, NULL, 0), RINCHOVEK_BAD_NUMBER);
    expect("no sheet", rinchovek_dds_export_length(NULL, 0, head), RINCHOVEK_BAD_NUMBER);
    expect("no row", rinchovek_row_floats(NULL, 0, NULL, 0), RINCHOVEK_ACCEPTED);
    expect("no floats", rinchovek_row_floats(one, sizeof one, NULL, 0), RINCHOVEK_WRONG_OUTPUT_LENGTH);
}

/* Every channel there and back, by the float and by its bits: the float is the compiler's own division, alone and in a row; what has the bits
 * beside is no channel's, and writes nothing. A row of every length from 0 on, with room for one less and one more, and what stands behind. */
static void try_floats(void) {
    enum { CHANNELS = 256 };
    static uint8_t all[CHANNELS];
    static float row[CHANNELS + 1];
    for (uint32_t c = 0; c < CHANNELS; c++) {
        const uint8_t pixel[RINCHOVEK_PIXEL_BYTES] = {(uint8_t)c, 0, (uint8_t)(255 - c), 255};
        float floats[RINCHOVEK_PIXEL_FLOATS];
        const float divided = (float)c / 255.0f;
        const uint32_t bits = rinchovek_float_bits(divided);
        all[c] = (uint8_t)c;
        rinchovek_pixel_floats(pixel, floats);
        expect("a float", rinchovek_float_bits(floats[RINCHOVEK_RED]), bits);
        for (uint32_t off = 0; off <= 2; off++) {
            uint32_t channel = 999;
            expect("a channel", rinchovek_float_channel(bits - 1 + off, &channel), off == 1 ? RINCHOVEK_ACCEPTED : RINCHOVEK_NOT_A_CHANNEL);
            expect("the channel", channel, off == 1 ? c : 999);
        }
        uint32_t channel = 999;
        expect("a float's channel", rinchovek_channel_of(divided, &channel), RINCHOVEK_ACCEPTED);
        expect("the float's channel", channel, c);
    }
    for (uint32_t length = 0; length < CHANNELS; length++) {
        for (uint32_t i = 0; i <= CHANNELS; i++) row[i] = 9.0f;
        expect("a row", rinchovek_row_floats(all, length, row, length + 1), RINCHOVEK_WRONG_OUTPUT_LENGTH);
        if (length > 0) expect("a row", rinchovek_row_floats(all, length, row, length - 1), RINCHOVEK_WRONG_OUTPUT_LENGTH);
        for (uint32_t i = 0; i <= CHANNELS; i++) expect("a refused row", rinchovek_float_bits(row[i]), rinchovek_float_bits(9.0f));
        expect("a row", rinchovek_row_floats(all, length, row, length), RINCHOVEK_ACCEPTED);
        for (uint32_t i = 0; i <= CHANNELS; i++)
            expect("a row's float", rinchovek_float_bits(row[i]), rinchovek_float_bits(i < length ? (float)i / 255.0f : 9.0f));
    }
}

/* A sheet is exported and imported with the lengths that the calls for them write, and with a byte less or more in neither. */
static void try_files(void) {
    static uint8_t sheet[RINCHOVEK_HEAD_BYTES + 2 * RINCHOVEK_BLOCK_BYTES] = {0x01, 5, 3}, file[256];
    const size_t length = 3 + 2 * RINCHOVEK_BLOCK_BYTES;
    uint32_t needed = 0;
    expect("export's length", rinchovek_dds_export_length(sheet, length, &needed), RINCHOVEK_ACCEPTED);
    expect("a file's bytes", needed, RINCHOVEK_DDS_HEADER_BYTES + 2 * RINCHOVEK_BLOCK_BYTES);
    for (uint32_t off = 0; off <= 2; off++)
        expect("export", rinchovek_dds_export(sheet, length, file, needed - 1 + off),
               off == 1 ? RINCHOVEK_ACCEPTED : RINCHOVEK_WRONG_OUTPUT_LENGTH);
    const size_t whole = needed;
    expect("import's length", rinchovek_dds_import_length(file, whole, &needed), RINCHOVEK_ACCEPTED);
    expect("a sheet's bytes", needed, (uint32_t)length);
    for (uint32_t off = 0; off <= 2; off++)
        expect("import", rinchovek_dds_import(file, whole, sheet, needed - 1 + off),
               off == 1 ? RINCHOVEK_ACCEPTED : RINCHOVEK_WRONG_OUTPUT_LENGTH);
    expect("a file cut off", rinchovek_dds_import(file, whole - 1, sheet, needed), RINCHOVEK_WRONG_BLOCK_BYTES);
}

/* Numbers that a call must leave. */
enum { UNTOUCHED = 0x5A5A5A5A };

static void leave(const char *what, const uint32_t *numbers, int count) {
    for (int i = 0; i < count; i++) expect(what, numbers[i], UNTOUCHED);
}

/* The calls of three and four numbers refuse form 2, whatever stands behind it, and write nothing: who knows no form would show tiles as
 * rows. The calls that export refuse it too. rinchovek_sheet_open takes it, and looks at no more bytes than the header says. */
static void try_tiles(void) {
    static const uint8_t tiles[4 + 2 * RINCHOVEK_BLOCK_BYTES] = {RINCHOVEK_FORM_TILES, 5, 3, RINCHOVEK_SRGB};
    static uint8_t file[RINCHOVEK_DDS_HEADER_BYTES + 2 * RINCHOVEK_BLOCK_BYTES];
    for (size_t length = 1; length <= sizeof tiles; length++) {
        uint32_t head[RINCHOVEK_COLOUR_HEAD_NUMBERS] = {UNTOUCHED, UNTOUCHED, UNTOUCHED, UNTOUCHED};
        expect("tiles in three numbers", rinchovek_sheet_read_head(tiles, length, head), RINCHOVEK_UNKNOWN_FORM);
        expect("tiles in four numbers", rinchovek_sheet_read_colour_head(tiles, length, head), RINCHOVEK_UNKNOWN_FORM);
        expect("tiles as a file", rinchovek_dds_export(tiles, length, file, sizeof file), RINCHOVEK_UNKNOWN_FORM);
        expect("tiles as a file", rinchovek_dds_export_colour(tiles, length, 3, file, sizeof file), RINCHOVEK_UNKNOWN_FORM);
        expect("tiles as a file", rinchovek_dds_export_length(tiles, length, head), RINCHOVEK_UNKNOWN_FORM);
        leave("a head of tiles", head, RINCHOVEK_COLOUR_HEAD_NUMBERS);
    }
    static const uint32_t said[RINCHOVEK_OPEN_NUMBERS] = {5, 3, 4, RINCHOVEK_SRGB, RINCHOVEK_FORM_TILES, 2, 1, 2};
    uint32_t numbers[RINCHOVEK_OPEN_NUMBERS] = {0};
    expect("open", rinchovek_sheet_open(tiles, RINCHOVEK_OPEN_BYTES, numbers), RINCHOVEK_ACCEPTED);
    for (int i = 0; i < RINCHOVEK_OPEN_NUMBERS; i++) expect("a number of an opened sheet", numbers[i], said[i]);

    /* The longest sides, and a colour space of three groups: refused for it by the first RINCHOVEK_OPEN_BYTES bytes, and by fewer for a
     * number that is cut off. */
    static const uint8_t longest[RINCHOVEK_OPEN_BYTES + 1] = {RINCHOVEK_FORM_TILES, 0x80, 0x80, 1, 0x80, 0x80, 1, 0x80, 0x80, 1};
    for (size_t length = 1; length <= sizeof longest; length++) {
        for (int i = 0; i < RINCHOVEK_OPEN_NUMBERS; i++) numbers[i] = UNTOUCHED;
        expect("open", rinchovek_sheet_open(longest, length, numbers),
               length < RINCHOVEK_OPEN_BYTES ? RINCHOVEK_BAD_NUMBER : RINCHOVEK_BAD_COLOUR_SPACE);
        leave("a refused sheet", numbers, RINCHOVEK_OPEN_NUMBERS);
    }
}

/* Every size of up to 3 by 3 tiles: a sheet is a byte longer in tiles, both moves take exactly that, and it comes back; each row is shown out
 * of the one form as out of the other, with the length that the header computes, each block is read by its number, and a colour space that is
 * stated changes its own byte. */
static void try_moves(void) {
    enum { SIDE = 68, MOST = (SIDE / 4) * (SIDE / 4) };
    static uint8_t rows[RINCHOVEK_HEAD_BYTES + MOST * RINCHOVEK_BLOCK_BYTES + 1], tiles[sizeof rows + 1], back[sizeof rows];
    static uint8_t stated[sizeof tiles];
    static uint8_t shown[RINCHOVEK_PIXEL_BYTES * SIDE * 4 + 1], again[sizeof shown];
    for (uint32_t width = 1; width <= SIDE; width += 3)
        for (uint32_t height = 1; height <= SIDE; height += 5) {
            uint32_t count = 0, numbers[RINCHOVEK_OPEN_NUMBERS] = {0};
            expect("a head", rinchovek_sheet_write_head(width, height, rows, &count), RINCHOVEK_ACCEPTED);
            expect("open", rinchovek_sheet_open(rows, count, numbers), RINCHOVEK_ACCEPTED);
            const uint32_t many = numbers[RINCHOVEK_OPEN_BLOCKS];
            const size_t length = count + many * (size_t)RINCHOVEK_BLOCK_BYTES;
            for (uint32_t i = 0; i < many * RINCHOVEK_BLOCK_BYTES; i++)
                rows[count + i] = (uint8_t)(i % RINCHOVEK_BLOCK_BYTES == 0 ? 1u << i / 16 % 8 : i * 37 + i / 16 * 11);
            for (uint32_t off = 0; off <= 2; off++) {
                const uint32_t answer = off == 1 ? RINCHOVEK_ACCEPTED : RINCHOVEK_WRONG_OUTPUT_LENGTH;
                expect("to tiles", rinchovek_sheet_to_tiles(rows, length, tiles, length + off), answer);
            }
            for (uint32_t off = 0; off <= 2; off++) {
                const uint32_t answer = off == 1 ? RINCHOVEK_ACCEPTED : RINCHOVEK_WRONG_OUTPUT_LENGTH;
                expect("to rows", rinchovek_sheet_to_rows(tiles, length + 1, back, length - 1 + off), answer);
            }
            for (size_t i = 0; i < length; i++) expect("there and back", back[i], rows[i]);
            for (size_t i = 0; i <= length; i++) stated[i] = tiles[i];
            expect("stated in rows", rinchovek_sheet_state_colour(back, length, RINCHOVEK_SRGB), RINCHOVEK_UNKNOWN_FORM);
            expect("stated", rinchovek_sheet_state_colour(stated, length + 1, RINCHOVEK_SRGB), RINCHOVEK_ACCEPTED);
            expect("no colour space", rinchovek_sheet_state_colour(stated, length + 1, RINCHOVEK_SRGB + 256), RINCHOVEK_BAD_COLOUR_SPACE);
            for (size_t i = 0; i <= length; i++) expect("a stated sheet", stated[i], i == count ? RINCHOVEK_SRGB : tiles[i]);
            expect("stated to rows", rinchovek_sheet_to_rows(stated, length + 1, back, length), RINCHOVEK_COLOUR_SPACE_STATED);
            for (uint32_t row = 0; row < numbers[RINCHOVEK_OPEN_ROWS]; row++) {
                const size_t room = rinchovek_row_pixels(width, height, row);
                const uint8_t *stored = rows + count + row * rinchovek_row_blocks(width);
                for (uint32_t off = 0; off <= 2; off += 2)
                    expect("a row", rinchovek_sheet_show_row(tiles, length + 1, row, shown, room - 1 + off),
                           RINCHOVEK_WRONG_OUTPUT_LENGTH);
                expect("a row", rinchovek_sheet_show_row(tiles, length + 1, row, shown, room), RINCHOVEK_ACCEPTED);
                expect("a row", rinchovek_sheet_show_row(rows, length, row, again, room), RINCHOVEK_ACCEPTED);
                for (size_t i = 0; i < room; i++) expect("a row of tiles", shown[i], again[i]);
                expect("a row", rinchovek_sheet_decode_row(width, height, row, stored, rinchovek_row_blocks(width), again, room),
                       RINCHOVEK_ACCEPTED);
                for (size_t i = 0; i < room; i++) expect("a row of rows", shown[i], again[i]);
            }
            for (uint32_t block = 0; block < many; block++) {
                uint8_t one[RINCHOVEK_BLOCK_BYTES];
                expect("a block", rinchovek_sheet_block(tiles, length + 1, block, one), RINCHOVEK_ACCEPTED);
                for (uint32_t i = 0; i < RINCHOVEK_BLOCK_BYTES; i++)
                    expect("a block of tiles", one[i], rows[count + block * RINCHOVEK_BLOCK_BYTES + i]);
            }
        }
}

/* Any number but 0 is signed, in every mode; and a reserved mode writes zeros. */
static void try_signs(void) {
    for (uint32_t low = 0; low < 32; low++) {
        uint8_t block[RINCHOVEK_BLOCK_BYTES];
        uint16_t with[RINCHOVEK_HALVES], without[RINCHOVEK_HALVES], again[RINCHOVEK_HALVES];
        for (int i = 0; i < RINCHOVEK_BLOCK_BYTES; i++) block[i] = (uint8_t)(i == 0 ? low : 0xFF);
        rinchovek_bc6h_decode_block(block, 0, without);
        rinchovek_bc6h_decode_block(block, 1, with);
        uint32_t differ = 0;
        for (int i = 0; i < RINCHOVEK_HALVES; i++) differ |= with[i] != without[i];
        expect("the signs differ", differ, low % 4 != 3 || low < 16);
        for (int i = 0; i < RINCHOVEK_HALVES && !differ; i++) expect("a reserved mode", with[i], 0);
        for (uint32_t number = 2; number != 0; number <<= 1) {
            rinchovek_bc6h_decode_block(block, number, again);
            for (int i = 0; i < RINCHOVEK_HALVES; i++) expect("signed", again[i], with[i]);
        }
    }
}

/* ---- the stack */

/* Every call, on a sheet of one block whose first byte is this, so of this mode, whose lines are read and put back. */
static __attribute__((noinline)) void make_calls(uint8_t first, uint8_t others) {
    uint8_t sheet[RINCHOVEK_HEAD_BYTES + RINCHOVEK_BLOCK_BYTES], record[RINCHOVEK_RECORD_BYTES];
    uint8_t held[RINCHOVEK_LINE_BYTES], widths[RINCHOVEK_LINE_BYTES];
    uint32_t head[RINCHOVEK_COLOUR_HEAD_NUMBERS], count = 0, index = 0;
    rinchovek_sheet_write_head(4, 3, sheet, &count);
    uint8_t *block = sheet + count;
    for (int i = 0; i < RINCHOVEK_BLOCK_BYTES; i++) block[i] = i == 0 ? first : others;
    rinchovek_bc7_decode_block(block, out);
    if (rinchovek_bc7_unpack(block, record) == RINCHOVEK_ACCEPTED) rinchovek_bc7_pack(record, block);
    for (uint32_t line = 0; rinchovek_bc7_read_line(block, line, held, widths) == RINCHOVEK_ACCEPTED; line++) {
        for (uint32_t pixel = 0; pixel < RINCHOVEK_BLOCK_PIXELS; pixel++) {
            rinchovek_bc7_nearest_index(block, line, pixel, block, &index);
            rinchovek_bc7_exact_index(block, line, pixel, block, &index);
        }
        rinchovek_bc7_replace_line(block, line, held);
        rinchovek_sheet_replace_line(sheet, count + RINCHOVEK_BLOCK_BYTES, 0, line, held);
    }
    for (uint32_t low = 0; low < 64; low++) {
        uint8_t backdrop[RINCHOVEK_BLOCK_BYTES];
        uint16_t halves[RINCHOVEK_HALVES];
        for (int i = 0; i < RINCHOVEK_BLOCK_BYTES; i++) backdrop[i] = i == 0 ? (uint8_t)(low % 32) : others;
        rinchovek_bc6h_decode_block(backdrop, low / 32, halves);
    }
    rinchovek_bc7_is_opaque(block, 4, 3);
    for (uint32_t pixel = 0; pixel <= RINCHOVEK_BLOCK_PIXELS; pixel++) rinchovek_bc7_pixel(block, pixel, widths);
    rinchovek_sheet_read_head(sheet, sizeof sheet, head);
    rinchovek_sheet_read_colour_head(sheet, sizeof sheet, head);
    rinchovek_sheet_decode_row(4, 3, 0, block, RINCHOVEK_BLOCK_BYTES, out, 48);
    uint8_t tiles[sizeof sheet + 1];
    uint32_t numbers[RINCHOVEK_OPEN_NUMBERS];
    if (rinchovek_sheet_to_tiles(sheet, count + RINCHOVEK_BLOCK_BYTES, tiles, count + RINCHOVEK_BLOCK_BYTES + 1) == RINCHOVEK_ACCEPTED) {
        rinchovek_sheet_open(tiles, sizeof tiles, numbers);
        rinchovek_sheet_show_row(tiles, count + RINCHOVEK_BLOCK_BYTES + 1, 0, out, 48);
        rinchovek_sheet_block(tiles, count + RINCHOVEK_BLOCK_BYTES + 1, 0, record);
        rinchovek_sheet_to_rows(tiles, count + RINCHOVEK_BLOCK_BYTES + 1, sheet, count + RINCHOVEK_BLOCK_BYTES);
        rinchovek_sheet_state_colour(tiles, count + RINCHOVEK_BLOCK_BYTES + 1, RINCHOVEK_SRGB);
    }
    uint32_t counts[RINCHOVEK_COUNTS];
    if (rinchovek_sheet_count(sheet, count + RINCHOVEK_BLOCK_BYTES, counts) == RINCHOVEK_ACCEPTED) {
        rinchovek_sheet_replace_line_counted(sheet, count + RINCHOVEK_BLOCK_BYTES, counts, 0, 0, widths);
        rinchovek_sheet_replace_block_counted(sheet, count + RINCHOVEK_BLOCK_BYTES, counts, 0, block);
    }
    uint8_t file[RINCHOVEK_DDS_HEADER_BYTES + RINCHOVEK_BLOCK_BYTES];
    if (rinchovek_dds_export_length(sheet, count + RINCHOVEK_BLOCK_BYTES, &index) == RINCHOVEK_ACCEPTED && index == sizeof file)
        rinchovek_dds_export(sheet, count + RINCHOVEK_BLOCK_BYTES, file, sizeof file);
    for (uint32_t colour_space = RINCHOVEK_UNSPECIFIED; colour_space <= RINCHOVEK_SRGB + 1; colour_space++)
        rinchovek_dds_export_colour(sheet, count + RINCHOVEK_BLOCK_BYTES, colour_space, file, sizeof file);
    if (rinchovek_dds_import_length(file, sizeof file, &index) == RINCHOVEK_ACCEPTED) {
        rinchovek_dds_import(file, sizeof file, sheet, count + RINCHOVEK_BLOCK_BYTES);
        rinchovek_dds_import_colour(file, sizeof file, sheet, count + RINCHOVEK_BLOCK_BYTES, head);
    }
    float floats[RINCHOVEK_PIXEL_FLOATS];
    rinchovek_pixel_floats(block, floats);
    for (int i = 0; i < RINCHOVEK_PIXEL_FLOATS; i++) rinchovek_channel_of(floats[i], &index);
    rinchovek_row_floats(block, RINCHOVEK_PIXEL_FLOATS, floats, RINCHOVEK_PIXEL_FLOATS);
    rinchovek_version();
}

/* How far down all of them reach, the frame of make_calls counted in: what lies below this frame is painted, they are made, and the
 * lowest byte that isn't paint is looked for. */
static __attribute__((noinline)) uint32_t deepest(void) {
    enum { ROOM = 16384, OWN = 256, PAINT = 0xA5 };
    make_calls(1, 0); /* the first call of memcpy may be the dynamic linker's, on this stack */
    volatile uint8_t *const below = (volatile uint8_t *)((size_t)__builtin_frame_address(0) - ROOM);
    for (int i = 0; i < ROOM - OWN; i++) below[i] = PAINT;
    for (int mode = 0; mode <= 8; mode++)
        for (int others = 0; others < 256; others += 51) make_calls((uint8_t)(1 << mode), (uint8_t)others);
    uint32_t left = 0;
    while (below[left] == PAINT) left++;
    return ROOM - left;
}

int main(void) {
    expect("version", rinchovek_version(), RINCHOVEK_VERSION);
    try_rows();
    try_null();
    try_files();
    try_tiles();
    try_moves();
    try_signs();
    try_floats();
    const uint32_t deep = deepest();
    if (deep >= RINCHOVEK_STACK_BYTES) {
        printf("header: the calls took %u bytes of stack\n", deep);
        wrong = 1;
    }
    return wrong;
}
