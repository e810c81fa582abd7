/* Lines of blocks, looked at and replaced. */
#include "client.h"

#include <stdio.h>
#include <stdlib.h>
#include <string.h>

/* A line of a block of a sheet. */
struct found {
    struct sheet sheet;
    uint32_t block, line;
    uint8_t bytes[RINCHOVEK_BLOCK_BYTES]; /* of the block, as the sheet has it */
    uint8_t held[RINCHOVEK_LINE_BYTES], widths[RINCHOVEK_LINE_BYTES];
};

/* Ends the program where a call on a line was refused. */
static void check_line(const struct found *found, uint32_t refusal, uint32_t pixel, const uint8_t replacement[RINCHOVEK_LINE_BYTES]) {
    if (refusal != RINCHOVEK_ACCEPTED)
        refuse(found->sheet.name, refusal, reason_of_line(found->bytes, refusal, found->line, pixel, replacement).words);
}

static struct found find(struct sheet sheet, uint32_t block, uint32_t line) {
    struct found found = {.sheet = sheet, .block = block, .line = line};
    read_block(&sheet, block, found.bytes);
    check_line(&found, rinchovek_bc7_read_line(found.bytes, line, found.held, found.widths), 0, found.held);
    return found;
}

/* Replaces the line in the sheet, and the sheet in its file. Answers the line as it stands there now. */
static struct found replaced(struct given given, struct output *to, struct found found, const uint8_t replacement[RINCHOVEK_LINE_BYTES]) {
    const uint32_t block = found.block, line = found.line;
    const struct sheet sheet = found.sheet;
    const struct record record = open_record(&given, &sheet, to);
    struct call call = {.block = block, .line = line};
    const struct found before = find(sheet, block, line);
    check_line(&found, rinchovek_sheet_replace_line(sheet.file.at, sheet.file.length, block, line, replacement), 0, replacement);
    const struct found after = find(sheet, block, line);
    memcpy(call.before, before.held, sizeof call.before);
    memcpy(call.after, after.held, sizeof call.after);
    commit(to, &sheet, &record, &call, 1);
    free(record.journal.calls);
    return after;
}

/* Whether the pair was turned: read again, the line differs then. */
static const char *pair_in_words(struct found after, const uint8_t replacement[RINCHOVEK_LINE_BYTES]) {
    return memcmp(after.held, replacement, RINCHOVEK_LINE_BYTES) != 0 ? "turned" : "as given";
}

/* ---- the commands */

int show_line(struct given given) {
    const struct found found = find(read_sheet(given.file[0]), given.number[0], given.number[1]);
    uint8_t record[RINCHOVEK_RECORD_BYTES];
    check(found.sheet.name, rinchovek_bc7_unpack(found.bytes, record));
    printf("# block %u, line %u: mode %u\n", found.block, found.line, record[RINCHOVEK_RECORD_MODE]);
    print_line(found.held, found.widths);
    release(found.sheet.file);
    return DONE;
}

int show_nearest(struct given given) {
    struct found found = find(read_sheet(given.file[0]), given.number[0], given.number[1]);
    const uint32_t line = found.line, pixel = given.number[2];
    uint8_t wanted[RINCHOVEK_PIXEL_BYTES];
    uint32_t index = 0;
    for (int channel = 0; channel < RINCHOVEK_PIXEL_BYTES; channel++) wanted[channel] = (uint8_t)given.number[3 + channel];
    check_line(&found, rinchovek_bc7_nearest_index(found.bytes, line, pixel, wanted, &index), pixel, found.held);
    found.held[RINCHOVEK_LINE_INDEXES + pixel] = (uint8_t)index;
    check_line(&found, rinchovek_bc7_replace_line(found.bytes, line, found.held), pixel, found.held); /* in memory, to see what it draws */
    printf("index %u\npixel %s\n", index, seen(found.bytes, pixel).words);
    release(found.sheet.file);
    return DONE;
}

int set_index(struct given given) {
    struct output to = aim_at_present(given.file[0], given.may_own);
    struct found found = find(read_sheet(given.file[0]), given.number[0], given.number[1]);
    const uint32_t pixel = given.number[2], index = given.number[3];
    const size_t at = RINCHOVEK_LINE_INDEXES + (size_t)pixel;
    if (pixel >= RINCHOVEK_BLOCK_PIXELS || found.widths[at] == 0) check_line(&found, RINCHOVEK_PIXEL_NOT_IN_LINE, pixel, found.held);
    const uint32_t was = found.held[at];
    found.held[at] = (uint8_t)index;
    const struct found after = replaced(given, &to, found, found.held);
    printf("index %u, was %u\npair %s\npixel %s, was %s\n", index, was, pair_in_words(after, found.held), seen(after.bytes, pixel).words,
           seen(found.bytes, pixel).words);
    release(found.sheet.file);
    return DONE;
}

int replace_line(struct given given) {
    const struct line_in_words words = read_line(); /* before the sheet is locked and read: it may take its time */
    struct output to = aim_at_present(given.file[0], given.may_own);
    const struct found found = find(read_sheet(given.file[0]), given.number[0], given.number[1]);
    check_dots(&words, found.widths);
    printf("pair %s\n", pair_in_words(replaced(given, &to, found, words.numbers), words.numbers));
    release(found.sheet.file);
    return DONE;
}
