/* The selftest: answers the calls of a fixed list through the functions of rinchovek.h alone, and holds the answers against those of the
 * list. So a maker qualifies his processor, compiler and linker. In C99, with the C library's stdio:
 *
 *     cc -Iinclude selftest.c librinchovek.a -o selftest
 *     ./selftest CALLS ANSWERS              prints 'N passed, 0 failed'; before that each of the first calls that failed
 *     ./selftest --answers <CALLS >ANSWERS  answers calls as they come, until they end, as the program replay does
 *
 * The bytes of calls and answers are those of docs/REPLAY.md. Exit status 0 where all passed, 1 where a call failed, 2 where a file couldn't
 * be read. A call passes where every byte of its answer is as listed and no byte beside what it was lent has changed. */
#include "rinchovek.h"

/* ---- what the two ways of running give: calls in, answers out */

/* Takes the next bytes of the calls: 1, or 0 where fewer are left. */
static int take(void *bytes, size_t count);

/* Gives the next bytes of the answer. */
static void give(const void *bytes, size_t count);

/* ---- what a call is lent, with a margin on both sides that has to stay as it is */

enum { LONGEST = 65536, MARGIN = 32, PAINT = 0xA5, MOST_LENT = 4 };
static uint8_t room[2 * LONGEST + 1024];
static float floats[1 + LONGEST + 1];
static struct { size_t at, count; } lent[MOST_LENT];
static size_t used;
static int lends, torn;

static void paint(size_t from, size_t to) {
    while (from < to) room[from++] = PAINT;
}

/* So many zeros. Each odd one starts at an odd address: bytes need no alignment. */
static uint8_t *lend(size_t count) {
    const size_t at = used + MARGIN + (size_t)(lends & 1);
    paint(used, at);
    for (size_t i = 0; i < count; i++) room[at + i] = 0;
    paint(at + count, at + count + MARGIN);
    lent[lends].at = at, lent[lends].count = count;
    lends++;
    used = at + count;
    return room + at;
}

/* What is lent with the next bytes of the calls in it, or NULL where fewer are left. */
static uint8_t *lend_taken(size_t count) {
    uint8_t *const bytes = lend(count);
    return take(bytes, count) ? bytes : NULL;
}

/* All is given back: the margins are looked at. */
static void give_back(void) {
    size_t at = 0;
    for (int i = 0; i < lends; i++) {
        for (; at < lent[i].at; at++) torn |= room[at] != PAINT;
        at += lent[i].count;
    }
    for (size_t end = at + MARGIN; lends > 0 && at < end; at++) torn |= room[at] != PAINT;
    used = 0, lends = 0;
}

/* ---- numbers */

static int take_number(uint32_t *number) {
    uint8_t bytes[4];
    if (!take(bytes, sizeof bytes)) return 0;
    *number = bytes[0] | (uint32_t)bytes[1] << 8 | (uint32_t)bytes[2] << 16 | (uint32_t)bytes[3] << 24;
    return 1;
}

/* A length that is not too long. */
static int take_length(uint32_t *length) { return take_number(length) && *length <= LONGEST; }

static void give_number(uint32_t number) {
    const uint8_t bytes[4] = {(uint8_t)number, (uint8_t)(number >> 8), (uint8_t)(number >> 16), (uint8_t)(number >> 24)};
    give(bytes, sizeof bytes);
}

/* A refusal, an index, a count or a yes: one byte, and 255 for what needs more, which is no answer. */
static void give_small(uint32_t number) {
    const uint8_t byte = number < 255 ? (uint8_t)number : 255;
    give(&byte, 1);
}

/* ---- the calls, each 1 where another may follow */

static int decode(void) {
    const uint8_t *const block = lend_taken(RINCHOVEK_BLOCK_BYTES);
    uint8_t *const pixels = lend(RINCHOVEK_PIXELS_BYTES);
    if (block == NULL) return 0;
    rinchovek_bc7_decode_block(block, pixels);
    give(pixels, RINCHOVEK_PIXELS_BYTES);
    return 1;
}

/* Halves have the alignment of a uint16_t, and margins of their own. Any number but 0 is signed: each of its bits in turn. */
static int decode_bc6h(void) {
    uint8_t sign;
    uint16_t halves[MARGIN + RINCHOVEK_HALVES + MARGIN];
    if (!take(&sign, 1) || sign > 1) return 0;
    const uint8_t *const block = lend_taken(RINCHOVEK_BLOCK_BYTES);
    if (block == NULL) return 0;
    for (int i = 0; i < MARGIN + RINCHOVEK_HALVES + MARGIN; i++) halves[i] = PAINT;
    rinchovek_bc6h_decode_block(block, sign ? (uint32_t)1 << block[RINCHOVEK_BLOCK_BYTES - 1] % 32 : 0, halves + MARGIN);
    for (int i = 0; i < MARGIN; i++) torn |= halves[i] != PAINT || halves[MARGIN + RINCHOVEK_HALVES + i] != PAINT;
    for (int i = 0; i < RINCHOVEK_HALVES; i++) {
        const uint8_t bytes[2] = {(uint8_t)halves[MARGIN + i], (uint8_t)(halves[MARGIN + i] >> 8)};
        give(bytes, sizeof bytes);
    }
    return 1;
}

static int unpack(void) {
    const uint8_t *const block = lend_taken(RINCHOVEK_BLOCK_BYTES);
    uint8_t *const record = lend(RINCHOVEK_RECORD_BYTES);
    if (block == NULL) return 0;
    give_small(rinchovek_bc7_unpack(block, record));
    give(record, RINCHOVEK_RECORD_BYTES);
    return 1;
}

static int pack(void) {
    const uint8_t *const record = lend_taken(RINCHOVEK_RECORD_BYTES);
    uint8_t *const block = lend(RINCHOVEK_BLOCK_BYTES);
    if (record == NULL || record[RINCHOVEK_RECORD_KIND] > RINCHOVEK_VECTOR_AND_SCALAR) return 0;
    give_small(rinchovek_bc7_pack(record, block));
    give(block, RINCHOVEK_BLOCK_BYTES);
    return 1;
}

static int read_line(void) {
    const uint8_t *const block = lend_taken(RINCHOVEK_BLOCK_BYTES);
    uint8_t *const held = lend(RINCHOVEK_LINE_BYTES), *const widths = lend(RINCHOVEK_LINE_BYTES);
    uint32_t line;
    if (block == NULL || !take_number(&line)) return 0;
    give_small(rinchovek_bc7_read_line(block, line, held, widths));
    give(held, RINCHOVEK_LINE_BYTES);
    give(widths, RINCHOVEK_LINE_BYTES);
    return 1;
}

static int replace_line(void) {
    uint8_t *const block = lend_taken(RINCHOVEK_BLOCK_BYTES);
    uint32_t line;
    if (block == NULL || !take_number(&line)) return 0;
    const uint8_t *const replacement = lend_taken(RINCHOVEK_LINE_BYTES);
    if (replacement == NULL) return 0;
    give_small(rinchovek_bc7_replace_line(block, line, replacement));
    give(block, RINCHOVEK_BLOCK_BYTES);
    return 1;
}

typedef uint32_t index_call(const uint8_t *block, uint32_t line, uint32_t pixel, const uint8_t *wanted, uint32_t *index);

static int find_index(index_call *find) {
    const uint8_t *const block = lend_taken(RINCHOVEK_BLOCK_BYTES);
    uint32_t line, pixel, index = 0;
    if (block == NULL || !take_number(&line) || !take_number(&pixel)) return 0;
    const uint8_t *const wanted = lend_taken(RINCHOVEK_PIXEL_BYTES);
    if (wanted == NULL) return 0;
    give_small(find(block, line, pixel, wanted, &index));
    give_small(index);
    return 1;
}

static int is_opaque(void) {
    const uint8_t *const block = lend_taken(RINCHOVEK_BLOCK_BYTES);
    uint32_t columns, rows;
    if (block == NULL || !take_number(&columns) || !take_number(&rows)) return 0;
    give_small(rinchovek_bc7_is_opaque(block, columns, rows));
    return 1;
}

static int read_pixel(void) {
    const uint8_t *const block = lend_taken(RINCHOVEK_BLOCK_BYTES);
    uint8_t *const rgba = lend(RINCHOVEK_PIXEL_BYTES);
    uint32_t pixel;
    if (block == NULL || !take_number(&pixel)) return 0;
    give_small(rinchovek_bc7_pixel(block, pixel, rgba));
    give(rgba, RINCHOVEK_PIXEL_BYTES);
    return 1;
}

/* A head of either form, and the two calls for form 1 beside it: they answer the same, but that they refuse form 2. Where they do not, the
 * answer is 254, which is no refusal. */
static uint32_t read_head(const uint8_t *sheet, size_t length, uint32_t head[RINCHOVEK_COLOUR_HEAD_NUMBERS]) {
    uint32_t numbers[RINCHOVEK_OPEN_NUMBERS] = {0}, three[RINCHOVEK_HEAD_NUMBERS] = {0}, four[RINCHOVEK_COLOUR_HEAD_NUMBERS] = {0};
    const uint32_t refusal = rinchovek_sheet_open(sheet, length, numbers);
    const int tiles = length > 0 && sheet[0] == RINCHOVEK_FORM_TILES;
    const uint32_t expected = tiles ? RINCHOVEK_UNKNOWN_FORM : refusal;
    int same = rinchovek_sheet_read_head(sheet, length, three) == expected && rinchovek_sheet_read_colour_head(sheet, length, four) == expected;
    for (int i = 0; i < RINCHOVEK_COLOUR_HEAD_NUMBERS; i++) {
        head[i] = numbers[i];
        same &= four[i] == (tiles ? 0 : numbers[i]) && (i == RINCHOVEK_HEAD_COLOUR_SPACE || three[i] == four[i]);
    }
    return same ? refusal : 254;
}

/* The numbers of a head, of which the colour space is one byte. */
static void give_head(const uint32_t head[RINCHOVEK_COLOUR_HEAD_NUMBERS], int colour) {
    for (int i = 0; i < RINCHOVEK_HEAD_NUMBERS; i++) give_number(head[i]);
    if (colour) give_small(head[RINCHOVEK_HEAD_COLOUR_SPACE]);
}

static int head_of(int colour) {
    uint8_t length;
    uint32_t head[RINCHOVEK_COLOUR_HEAD_NUMBERS] = {0};
    if (!take(&length, 1)) return 0;
    const uint8_t *const sheet = lend_taken(length);
    if (sheet == NULL) return 0;
    give_small(read_head(sheet, length, head));
    give_head(head, colour);
    return 1;
}

static int write_head(void) {
    uint8_t *const head = lend(RINCHOVEK_HEAD_BYTES);
    uint32_t width, height, count = 0;
    if (!take_number(&width) || !take_number(&height)) return 0;
    give_small(rinchovek_sheet_write_head(width, height, head, &count));
    give_small(count);
    give(head, RINCHOVEK_HEAD_BYTES);
    return 1;
}

static int decode_row(void) {
    uint32_t width, height, row, given, count;
    if (!take_number(&width) || !take_number(&height) || !take_number(&row) || !take_length(&given) || !take_length(&count)) return 0;
    const uint8_t *const blocks = lend_taken(given);
    uint8_t *const out = lend_taken(count);
    if (blocks == NULL || out == NULL) return 0;
    give_small(rinchovek_sheet_decode_row(width, height, row, blocks, given, out, count));
    give(out, count);
    return 1;
}

static int replace_in_sheet(void) {
    uint32_t length, block, line;
    if (!take_length(&length)) return 0;
    uint8_t *const sheet = lend_taken(length);
    if (sheet == NULL || !take_number(&block) || !take_number(&line)) return 0;
    const uint8_t *const replacement = lend_taken(RINCHOVEK_LINE_BYTES);
    if (replacement == NULL) return 0;
    give_small(rinchovek_sheet_replace_line(sheet, length, block, line, replacement));
    give(sheet, length);
    return 1;
}

/* From bytes to bytes: both lengths, then the input, then what stands in the output. What the letter names is called, with a number where it
 * takes one. */
static int from_to(uint8_t letter, uint32_t number) {
    uint32_t length, count, refusal, head[RINCHOVEK_COLOUR_HEAD_NUMBERS] = {0};
    if (!take_length(&length) || !take_length(&count)) return 0;
    const uint8_t *const from = lend_taken(length);
    uint8_t *const to = lend_taken(count);
    if (from == NULL || to == NULL) return 0;
    switch (letter) {
    case 'I': refusal = rinchovek_dds_import(from, length, to, count); break;
    case 'X': refusal = rinchovek_dds_export(from, length, to, count); break;
    case 'i': refusal = rinchovek_dds_import_colour(from, length, to, count, head); break;
    case 'x': refusal = rinchovek_dds_export_colour(from, length, number, to, count); break;
    case 'T': refusal = rinchovek_sheet_to_tiles(from, length, to, count); break;
    case 'Z': refusal = rinchovek_sheet_to_rows(from, length, to, count); break;
    case 'V': refusal = rinchovek_sheet_show_row(from, length, number, to, count); break;
    default: return 0;
    }
    give_small(refusal);
    if (letter == 'i') give_head(head, 1);
    give(to, count);
    return 1;
}

static int export_colour(void) {
    uint8_t colour_space;
    return take(&colour_space, 1) && colour_space <= RINCHOVEK_SRGB && from_to('x', colour_space);
}

static int length_needed(int export) {
    uint32_t length, needed = 0;
    if (!take_length(&length)) return 0;
    const uint8_t *const from = lend_taken(length);
    if (from == NULL) return 0;
    give_small(export ? rinchovek_dds_export_length(from, length, &needed) : rinchovek_dds_import_length(from, length, &needed));
    give_number(needed);
    return 1;
}

static int show_row(void) {
    uint32_t row;
    return take_number(&row) && from_to('V', row);
}

static int open_sheet(void) {
    uint32_t length, numbers[RINCHOVEK_OPEN_NUMBERS] = {0};
    if (!take_length(&length)) return 0;
    const uint8_t *const sheet = lend_taken(length);
    if (sheet == NULL) return 0;
    give_small(rinchovek_sheet_open(sheet, length, numbers));
    for (int i = 0; i < RINCHOVEK_OPEN_NUMBERS; i++) give_number(numbers[i]);
    return 1;
}

static int block_of_sheet(void) {
    uint32_t length, number;
    if (!take_length(&length)) return 0;
    const uint8_t *const sheet = lend_taken(length);
    uint8_t *const block = lend(RINCHOVEK_BLOCK_BYTES);
    if (sheet == NULL || !take_number(&number)) return 0;
    give_small(rinchovek_sheet_block(sheet, length, number, block));
    give(block, RINCHOVEK_BLOCK_BYTES);
    return 1;
}

static int state_colour(void) {
    uint32_t colour_space, length;
    if (!take_number(&colour_space) || !take_length(&length)) return 0;
    uint8_t *const sheet = lend_taken(length);
    if (sheet == NULL) return 0;
    give_small(rinchovek_sheet_state_colour(sheet, length, colour_space));
    give(sheet, length);
    return 1;
}

static void give_counts(const uint32_t counts[RINCHOVEK_COUNTS]) {
    for (int i = 0; i < RINCHOVEK_COUNTS; i++) give_number(counts[i]);
}

static int count_sheet(void) {
    uint32_t length, counts[RINCHOVEK_COUNTS] = {0};
    if (!take_length(&length)) return 0;
    const uint8_t *const sheet = lend_taken(length);
    if (sheet == NULL) return 0;
    give_small(rinchovek_sheet_count(sheet, length, counts));
    give_counts(counts);
    return 1;
}

/* A line or a whole block replaced in a sheet that comes with counts. */
static int replace_counted(int whole) {
    uint32_t length, counts[RINCHOVEK_COUNTS], block, line = 0;
    if (!take_length(&length)) return 0;
    uint8_t *const sheet = lend_taken(length);
    if (sheet == NULL) return 0;
    for (int i = 0; i < RINCHOVEK_COUNTS; i++)
        if (!take_number(&counts[i])) return 0;
    if (!take_number(&block) || (!whole && !take_number(&line))) return 0;
    const uint8_t *const given = lend_taken(whole ? RINCHOVEK_BLOCK_BYTES : RINCHOVEK_LINE_BYTES);
    if (given == NULL) return 0;
    give_small(whole ? rinchovek_sheet_replace_block_counted(sheet, length, counts, block, given)
                     : rinchovek_sheet_replace_line_counted(sheet, length, counts, block, line, given));
    give(sheet, length);
    give_counts(counts);
    return 1;
}

static float float_of(const uint8_t *bytes) {
    float value;
    for (size_t i = 0; i < sizeof value; i++) ((uint8_t *)&value)[i] = bytes[i];
    return value;
}

/* Floats as their bits. */
static void give_floats(const float *from, size_t count) {
    for (size_t i = 0; i < count; i++) give_number(rinchovek_float_bits(from[i]));
}

static int pixel_floats(void) {
    const uint8_t *const pixel = lend_taken(RINCHOVEK_PIXEL_BYTES);
    if (pixel == NULL) return 0;
    rinchovek_pixel_floats(pixel, floats);
    give_floats(floats, RINCHOVEK_PIXEL_FLOATS);
    return 1;
}

static int float_channel(void) {
    uint32_t bits, channel = 0;
    if (!take_number(&bits)) return 0;
    give_small(rinchovek_float_channel(bits, &channel));
    give_small(channel);
    return 1;
}

/* What stands in the floats before goes in and out as bytes, a NaN's too. A float on either side has to stay. */
static int row_floats(void) {
    static const uint8_t margin[4] = {PAINT, PAINT, PAINT, PAINT};
    uint32_t length, count;
    if (!take_length(&length) || !take_length(&count)) return 0;
    const uint8_t *const pixels = lend_taken(length);
    if (pixels == NULL || !take(floats + 1, count * sizeof *floats)) return 0;
    for (size_t i = 0; i < 2; i++) floats[i * (1 + count)] = float_of(margin);
    give_small(rinchovek_row_floats(pixels, length, floats + 1, count));
    give_floats(floats + 1, count);
    for (size_t i = 0; i < 2; i++) torn |= rinchovek_float_bits(floats[i * (1 + count)]) != rinchovek_float_bits(float_of(margin));
    return 1;
}

static int call(uint8_t letter) {
    switch (letter) {
    case 'D': return decode();
    case 'G': return decode_bc6h();
    case 'U': return unpack();
    case 'P': return pack();
    case 'R': return replace_line();
    case 'r': return read_line();
    case 'N': return find_index(rinchovek_bc7_nearest_index);
    case 'E': return find_index(rinchovek_bc7_exact_index);
    case 'A': return is_opaque();
    case 'Q': return read_pixel();
    case 'H': return head_of(0);
    case 'h': return head_of(1);
    case 'W': return write_head();
    case 'O': return decode_row();
    case 'S': return replace_in_sheet();
    case 'I':
    case 'X':
    case 'i': return from_to(letter, 0);
    case 'x': return export_colour();
    case 'd': return length_needed(0);
    case 's': return length_needed(1);
    case 'T':
    case 'Z': return from_to(letter, 0);
    case 'V': return show_row();
    case 'o': return open_sheet();
    case 'b': return block_of_sheet();
    case 'c': return state_colour();
    case 'C': return count_sheet();
    case 'L': return replace_counted(0);
    case 'K': return replace_counted(1);
    case 'F': return pixel_floats();
    case 'Y': return float_channel();
    case 'f': return row_floats();
    default: return 0;
    }
}

/* ---- the list, or calls as they come */

/* What the system has to give: bytes of standard input (how many there were), bytes to standard output (1 where they went). */
static size_t input(void *bytes, size_t count);
static int output(const void *bytes, size_t count);

static const uint8_t *calls, *answers;
static size_t calls_left, answers_left;
static int listed, differs;

static int take(void *bytes, size_t count) {
    if (!listed) return input(bytes, count) == count;
    if (calls_left < count) return 0;
    for (size_t i = 0; i < count; i++) ((uint8_t *)bytes)[i] = calls[i];
    calls += count, calls_left -= count;
    return 1;
}

static void give(const void *bytes, size_t count) {
    if (!listed) {
        differs |= !output(bytes, count);
        return;
    }
    const size_t there = count < answers_left ? count : answers_left;
    differs |= there < count;
    for (size_t i = 0; i < there; i++) differs |= ((const uint8_t *)bytes)[i] != answers[i];
    answers += there, answers_left -= there;
}

static void say(const char *text) {
    size_t length = 0;
    while (text[length] != 0) length++;
    output(text, length);
}

static void say_number(uint32_t number) {
    char digits[11];
    int at = 10;
    digits[at] = 0;
    do digits[--at] = (char)('0' + number % 10);
    while ((number /= 10) > 0);
    say(digits + at);
}

/* Calls as they come, until they end. */
static int answer_calls(void) {
    uint8_t letter;
    while (take(&letter, 1)) {
        const int more = call(letter);
        give_back();
        if (!more) break;
    }
    return differs || torn ? 2 : 0;
}

/* The calls of the list, each held against its answer; the first that fail are named, by their letter and their number from 1. */
static int hold_list(const uint8_t *from, size_t length, const uint8_t *expected, size_t count) {
    uint32_t passed = 0, failed = 0;
    uint8_t letter;
    listed = 1, calls = from, calls_left = length, answers = expected, answers_left = count;
    if (rinchovek_version() != RINCHOVEK_VERSION) {
        say("the archive is of another version than the header\n");
        failed++;
    }
    while (take(&letter, 1)) {
        differs = torn = 0;
        const int more = call(letter);
        give_back();
        if (more && !differs && !torn) passed++;
        else {
            const char name[2] = {(char)letter, 0};
            if (++failed <= 10) {
                say("call "), say_number(passed + failed), say(", "), say(name), say(": ");
                say(!more ? "is cut off, or unknown\n" : differs ? "another answer\n" : "a byte beside what it was lent has changed\n");
            }
            if (!more) break;
        }
    }
    if (answers_left > 0) {
        say("there are more answers than calls\n");
        failed++;
    }
    say_number(passed), say(" passed, "), say_number(failed), say(" failed\n");
    return failed > 0;
}

#ifndef SELFTEST_LINUX
#include <stdio.h>
#include <stdlib.h>
#include <string.h>

static size_t input(void *bytes, size_t count) { return fread(bytes, 1, count, stdin); }
static int output(const void *bytes, size_t count) { return fwrite(bytes, 1, count, stdout) == count; }

/* A whole file, or NULL. */
static uint8_t *file(const char *name, size_t *length) {
    FILE *const from = fopen(name, "rb");
    uint8_t *bytes = NULL;
    size_t size = 0;
    *length = 0;
    while (from != NULL && *length == size) {
        uint8_t *const larger = realloc(bytes, size = 2 * size + LONGEST);
        if (larger == NULL) break;
        *length += fread((bytes = larger) + *length, 1, size - *length, from);
    }
    if (from == NULL || ferror(from) || *length == size) {
        fprintf(stderr, "selftest: cannot read %s\n", name);
        exit(2);
    }
    fclose(from);
    return bytes;
}

int main(int count, char **words) {
    int status = 2;
    if (count == 2 && strcmp(words[1], "--answers") == 0) status = answer_calls();
    else if (count == 3) {
        size_t length, expected_length;
        uint8_t *const list = file(words[1], &length), *const expected = file(words[2], &expected_length);
        status = hold_list(list, length, expected, expected_length);
        free(list), free(expected);
    } else
        fputs("usage: selftest CALLS ANSWERS, or selftest --answers\n", stderr);
    return fflush(stdout) == 0 ? status : 2;
}
#endif
