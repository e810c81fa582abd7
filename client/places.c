/* What stands where in a sheet, and what differs between two. Pixels are read by the second decoder, rinchovek_bc7_pixel, so that what is said
 * here doesn't hang on the one that draws the pictures. */
#include "client.h"

#include <stdio.h>
#include <string.h>

enum { MODES = 8, SIDE = 4 /* of a block, in pixels */ };

static const uint32_t no_mode = MODES; /* of a reserved block */

static uint32_t mode_of(const uint8_t block[RINCHOVEK_BLOCK_BYTES]) {
    uint8_t record[RINCHOVEK_RECORD_BYTES];
    return rinchovek_bc7_unpack(block, record) == RINCHOVEK_ACCEPTED ? record[RINCHOVEK_RECORD_MODE] : no_mode;
}

static const char *mode_in_words(const uint8_t block[RINCHOVEK_BLOCK_BYTES]) {
    static const char *const words[] = {"0", "1", "2", "3", "4", "5", "6", "7", "reserved"};
    return words[mode_of(block)];
}

struct colour seen(const uint8_t block[RINCHOVEK_BLOCK_BYTES], uint32_t pixel) {
    struct colour colour;
    uint8_t rgba[RINCHOVEK_PIXEL_BYTES] = {0};
    rinchovek_bc7_pixel(block, pixel, rgba); /* which takes any block, and the pixels 0 to 15 */
    snprintf(colour.words, sizeof colour.words, "%u %u %u %u", rgba[RINCHOVEK_RED], rgba[RINCHOVEK_GREEN], rgba[RINCHOVEK_BLUE], rgba[RINCHOVEK_ALPHA]);
    return colour;
}

struct place place_of(const struct sheet *sheet, uint32_t block, uint32_t pixel) {
    const uint32_t columns = sheet->numbers[RINCHOVEK_OPEN_COLUMNS];
    struct place place = {SIDE * (block % columns) + pixel % SIDE, SIDE * (block / columns) + pixel / SIDE, 0};
    place.is_shown = place.x < sheet->numbers[RINCHOVEK_OPEN_WIDTH] && place.y < sheet->numbers[RINCHOVEK_OPEN_HEIGHT];
    return place;
}

/* ---- the commands */

struct counts {
    uint32_t of[RINCHOVEK_COUNTS]; /* by enum rinchovek_count */
};

static struct counts count(const struct sheet *sheet) {
    struct counts counts;
    check_sheet(sheet->name, sheet->file, rinchovek_sheet_count(sheet->file.at, sheet->file.length, counts.of));
    return counts;
}

static void print_counts(struct counts counts) {
    for (uint32_t mode = 0; mode < MODES; mode++) printf("mode %u: %u\n", mode, counts.of[RINCHOVEK_COUNT_MODE_0 + mode]);
    printf("reserved: %u\nopaque: %u\n", counts.of[RINCHOVEK_COUNT_RESERVED], counts.of[RINCHOVEK_COUNT_OPAQUE]);
}

int show_counts(struct given given) {
    const struct sheet sheet = read_sheet(given.file[0]);
    print_counts(count(&sheet));
    release(sheet.file);
    return DONE;
}

/* A sheet that isn't whole is refused before anything is printed. */
int show_info(struct given given) {
    const struct sheet sheet = read_sheet(given.file[0]);
    const uint32_t *numbers = sheet.numbers;
    const struct counts counts = count(&sheet);
    printf("size %u %u\nform %u\ncolour space %s\nblocks %u, %u by %u\n", numbers[RINCHOVEK_OPEN_WIDTH], numbers[RINCHOVEK_OPEN_HEIGHT],
           numbers[RINCHOVEK_OPEN_FORM], colour_spaces[numbers[RINCHOVEK_OPEN_COLOUR_SPACE]], numbers[RINCHOVEK_OPEN_BLOCKS],
           numbers[RINCHOVEK_OPEN_COLUMNS], numbers[RINCHOVEK_OPEN_ROWS]);
    print_counts(counts);
    release(sheet.file);
    return DONE;
}

int show_place(struct given given) {
    const struct sheet sheet = read_sheet(given.file[0]);
    const uint32_t x = given.number[0], y = given.number[1];
    if (x >= sheet.numbers[RINCHOVEK_OPEN_WIDTH] || y >= sheet.numbers[RINCHOVEK_OPEN_HEIGHT])
        check_sheet(sheet.name, sheet.file, RINCHOVEK_BEYOND_SHEET);
    const uint32_t block = y / SIDE * sheet.numbers[RINCHOVEK_OPEN_COLUMNS] + x / SIDE, pixel = y % SIDE * SIDE + x % SIDE;
    uint8_t bytes[RINCHOVEK_BLOCK_BYTES], held[RINCHOVEK_LINE_BYTES], widths[RINCHOVEK_LINE_BYTES];
    read_block(&sheet, block, bytes);
    printf("block %u\npixel %u\nmode %s\n", block, pixel, mode_in_words(bytes));
    for (uint32_t line = 0; rinchovek_bc7_read_line(bytes, line, held, widths) == RINCHOVEK_ACCEPTED; line++) {
        const uint8_t *endpoints = widths + RINCHOVEK_LINE_FIRST_ENDPOINT, *p_bits = widths + RINCHOVEK_LINE_P_BITS;
        const size_t at = RINCHOVEK_LINE_INDEXES + (size_t)pixel;
        if (widths[at] != 0)
            printf("line %u: index %u, bits %u; bits of an endpoint %u %u %u %u, of p %u %u\n", line, held[at], widths[at], endpoints[RINCHOVEK_RED],
                   endpoints[RINCHOVEK_GREEN], endpoints[RINCHOVEK_BLUE], endpoints[RINCHOVEK_ALPHA], p_bits[0], p_bits[1]);
    }
    printf("colour %s\n", seen(bytes, pixel).words);
    release(sheet.file);
    return DONE;
}

int show_block(struct given given) {
    const struct sheet sheet = read_sheet(given.file[0]);
    const uint32_t block = given.number[0];
    uint8_t bytes[RINCHOVEK_BLOCK_BYTES], held[RINCHOVEK_LINE_BYTES], widths[RINCHOVEK_LINE_BYTES];
    read_block(&sheet, block, bytes);
    const struct place corner = place_of(&sheet, block, 0);
    uint32_t lines = 0;
    while (rinchovek_bc7_read_line(bytes, lines, held, widths) == RINCHOVEK_ACCEPTED) lines++;
    printf("block %u at %u %u\nmode %s\nlines %u\nbytes ", block, corner.x, corner.y, mode_in_words(bytes), lines);
    for (int at = 0; at < RINCHOVEK_BLOCK_BYTES; at++) printf("%02X", bytes[at]);
    printf("\n");
    for (uint32_t pixel = 0; pixel < RINCHOVEK_BLOCK_PIXELS; pixel++)
        printf("pixel %u: %s%s\n", pixel, seen(bytes, pixel).words, place_of(&sheet, block, pixel).is_shown ? "" : ", not shown");
    release(sheet.file);
    return DONE;
}

/* ---- what differs */

/* How much of it does. */
struct difference {
    uint32_t blocks, lines, pixels;
};

static void list_block(const struct sheet *sheet, uint32_t block, const uint8_t before[RINCHOVEK_BLOCK_BYTES], const uint8_t after[RINCHOVEK_BLOCK_BYTES],
                       struct difference *found) {
    uint8_t was[RINCHOVEK_LINE_BYTES], is[RINCHOVEK_LINE_BYTES], widths[RINCHOVEK_LINE_BYTES], widths_before[RINCHOVEK_LINE_BYTES];
    found->blocks++;
    if (mode_of(before) != mode_of(after)) printf("block %u: mode %s, was %s\n", block, mode_in_words(after), mode_in_words(before));
    else printf("block %u: mode %s\n", block, mode_in_words(after));
    for (uint32_t line = 0; rinchovek_bc7_read_line(after, line, is, widths) == RINCHOVEK_ACCEPTED; line++) {
        const int was_there = rinchovek_bc7_read_line(before, line, was, widths_before) == RINCHOVEK_ACCEPTED;
        if (was_there && memcmp(was, is, sizeof is) == 0 && memcmp(widths, widths_before, sizeof widths) == 0) continue;
        printf("block %u, line %u\n", block, line);
        found->lines++;
    }
    for (uint32_t pixel = 0; pixel < RINCHOVEK_BLOCK_PIXELS; pixel++) {
        const struct colour old = seen(before, pixel), new = seen(after, pixel);
        const struct place place = place_of(sheet, block, pixel);
        if (!place.is_shown || strcmp(old.words, new.words) == 0) continue;
        printf("block %u, pixel %u at %u %u: %s, was %s\n", block, pixel, place.x, place.y, new.words, old.words);
        found->pixels++;
    }
}

void check_same_size(const struct sheet *old, const struct sheet *new) {
    const uint32_t *before = old->numbers, *after = new->numbers;
    if (before[RINCHOVEK_OPEN_WIDTH] == after[RINCHOVEK_OPEN_WIDTH] && before[RINCHOVEK_OPEN_HEIGHT] == after[RINCHOVEK_OPEN_HEIGHT]) return;
    printf("size %u %u, was %u %u\n", after[RINCHOVEK_OPEN_WIDTH], after[RINCHOVEK_OPEN_HEIGHT], before[RINCHOVEK_OPEN_WIDTH], before[RINCHOVEK_OPEN_HEIGHT]);
    finish(REFUSED);
}

int show_difference(struct given given) {
    if (is_stream(given.file[0]) && is_stream(given.file[1])) fail("-", "can't be both sheets");
    if (given.picture != NULL && is_stream(given.picture)) fail("-", "can't be the picture: the list goes to standard output");
    const struct sheet old = read_sheet(given.file[0]), new = read_sheet(given.file[1]);
    struct difference found = {0, 0, 0};
    check_same_size(&old, &new);
    const uint32_t was = old.numbers[RINCHOVEK_OPEN_COLOUR_SPACE], is = new.numbers[RINCHOVEK_OPEN_COLOUR_SPACE];
    if (was != is) printf("colour space %s, was %s\n", colour_spaces[is], colour_spaces[was]);
    for (uint32_t block = 0; block < old.numbers[RINCHOVEK_OPEN_BLOCKS]; block++) {
        uint8_t before[RINCHOVEK_BLOCK_BYTES], after[RINCHOVEK_BLOCK_BYTES];
        read_block(&old, block, before);
        read_block(&new, block, after);
        if (memcmp(before, after, sizeof after) != 0) list_block(&new, block, before, after, &found);
        show_progress("compared", block + 1, old.numbers[RINCHOVEK_OPEN_BLOCKS]);
    }
    if (given.picture != NULL) paint(&new, &old, given.picture, given);
    const int is_same = was == is && found.blocks == 0;
    if (found.blocks > 0) printf("changed: %u blocks, %u lines, %u pixels\n", found.blocks, found.lines, found.pixels);
    release(old.file);
    release(new.file);
    return is_same ? DONE : REFUSED;
}
