/* Sheets, brought in from DDS files and out to them, and moved from one form to the other. */
#include "client.h"

#include <stdio.h>
#include <stdlib.h>

struct sheet read_sheet(const char *name) {
    struct sheet sheet = {.name = shown_name(name), .file = read_file(name)};
    check_sheet(sheet.name, sheet.file, rinchovek_sheet_open(sheet.file.at, sheet.file.length, sheet.numbers));
    return sheet;
}

void read_block(const struct sheet *sheet, uint32_t block, uint8_t bytes[RINCHOVEK_BLOCK_BYTES]) {
    check_sheet(sheet->name, sheet->file, rinchovek_sheet_block(sheet->file.at, sheet->file.length, block, bytes));
}

static struct bytes room_of(size_t length) {
    struct bytes room = {room_for(NULL, length), length, 0};
    return room;
}

/* What is made of a file goes to another. */
static void write_made(const char *name, int may_own, struct bytes made) {
    struct output to = aim(name, may_own);
    write_file(&to, made);
}

/* Whether it is refused for its form, and is a sheet all the same: of the other form. */
static int has_other_form(struct bytes sheet, uint32_t refusal) {
    uint32_t numbers[RINCHOVEK_OPEN_NUMBERS];
    return refusal == RINCHOVEK_UNKNOWN_FORM && rinchovek_sheet_open(sheet.at, sheet.length, numbers) == RINCHOVEK_ACCEPTED;
}

/* The same sheet in its other form. */
static struct bytes in_tiles(const char *name, struct bytes sheet) {
    const struct bytes moved = room_of(sheet.length + 1);
    const uint32_t refusal = rinchovek_sheet_to_tiles(sheet.at, sheet.length, moved.at, moved.length);
    if (has_other_form(sheet, refusal)) refuse(name, refusal, "it is in tiles already");
    check_sheet(name, sheet, refusal);
    return moved;
}

static struct bytes in_rows(const char *name, struct bytes sheet) {
    const struct bytes moved = room_of(sheet.length > 0 ? sheet.length - 1 : 0);
    const uint32_t refusal = rinchovek_sheet_to_rows(sheet.at, sheet.length, moved.at, moved.length);
    if (has_other_form(sheet, refusal)) refuse(name, refusal, "its blocks stand row by row already");
    if (refusal == RINCHOVEK_COLOUR_SPACE_STATED) refuse(name, refusal, "`rinchovek colour` takes it back, with unspecified");
    check_sheet(name, sheet, refusal);
    return moved;
}

int import_dds(struct given given) {
    const char *name = shown_name(given.file[0]);
    const struct bytes dds = read_file(given.file[0]);
    uint32_t length = 0, head[RINCHOVEK_COLOUR_HEAD_NUMBERS] = {0};
    check_dds(name, dds, rinchovek_dds_import_length(dds.at, dds.length, &length));
    struct bytes sheet = room_of(length);
    check_dds(name, dds, rinchovek_dds_import_colour(dds.at, dds.length, sheet.at, sheet.length, head));
    release(dds);
    const uint32_t colour_space = head[RINCHOVEK_HEAD_COLOUR_SPACE];
    if (given.to_tiles) {
        const struct bytes tiles = in_tiles(name, sheet);
        check(name, rinchovek_sheet_state_colour(tiles.at, tiles.length, colour_space));
        release(sheet);
        sheet = tiles;
    }
    write_made(given.file[1], given.may_own, sheet);
    fprintf(is_stream(given.file[1]) ? stderr : stdout, "%s\n", colour_spaces[colour_space]);
    release(sheet);
    return DONE;
}

/* Under which colour space the sheet goes out: what it states, or what is said where it states nothing. */
static uint32_t colour_to_export(const struct sheet *sheet, struct given given) {
    const uint32_t stated = sheet->numbers[RINCHOVEK_OPEN_COLOUR_SPACE];
    if (stated == RINCHOVEK_UNSPECIFIED && !given.has_colour_space)
        fail(sheet->name, "states no colour space, and a DDS file has one: say linear or srgb behind the file");
    if (stated == RINCHOVEK_UNSPECIFIED) return given.number[0];
    if (given.has_colour_space && given.number[0] != stated) {
        fprintf(stderr, "rinchovek: %s states %s, and not %s\n", sheet->name, colour_spaces[stated], colour_spaces[given.number[0]]);
        stop(FAILED);
    }
    return stated;
}

int export_dds(struct given given) {
    struct sheet sheet = read_sheet(given.file[0]);
    const uint32_t colour_space = colour_to_export(&sheet, given);
    uint32_t length = 0;
    if (sheet.numbers[RINCHOVEK_OPEN_FORM] != RINCHOVEK_FORM_ROWS) { /* a file has its blocks row by row */
        const struct bytes tiles = sheet.file;
        check_sheet(sheet.name, tiles, rinchovek_sheet_state_colour(tiles.at, tiles.length, RINCHOVEK_UNSPECIFIED)); /* in memory */
        sheet.file = in_rows(sheet.name, tiles);
        release(tiles);
    }
    check_sheet(sheet.name, sheet.file, rinchovek_dds_export_length(sheet.file.at, sheet.file.length, &length));
    const struct bytes dds = room_of(length);
    check_sheet(sheet.name, sheet.file, rinchovek_dds_export_colour(sheet.file.at, sheet.file.length, colour_space, dds.at, dds.length));
    release(sheet.file);
    write_made(given.file[1], given.may_own, dds);
    release(dds);
    return DONE;
}

int move_to_tiles(struct given given) {
    const struct bytes sheet = read_file(given.file[0]), moved = in_tiles(shown_name(given.file[0]), sheet);
    release(sheet);
    write_made(given.file[1], given.may_own, moved);
    release(moved);
    return DONE;
}

int move_to_rows(struct given given) {
    const struct bytes sheet = read_file(given.file[0]), moved = in_rows(shown_name(given.file[0]), sheet);
    release(sheet);
    write_made(given.file[1], given.may_own, moved);
    release(moved);
    return DONE;
}

int state_colour(struct given given) {
    struct output to = aim_at_present(given.file[0], given.may_own);
    const struct bytes sheet = read_file(given.file[0]);
    const uint32_t colour_space = given.number[0];
    uint32_t before[RINCHOVEK_OPEN_NUMBERS] = {0};
    rinchovek_sheet_open(sheet.at, sheet.length, before); /* where this is refused, the next call is too */
    const uint32_t refusal = rinchovek_sheet_state_colour(sheet.at, sheet.length, colour_space);
    if (has_other_form(sheet, refusal)) refuse(given.file[0], refusal, "`rinchovek tiles` moves it to form 2, which has room for it");
    check_sheet(given.file[0], sheet, refusal);
    write_file(&to, sheet);
    printf("%s, was %s\n", colour_spaces[colour_space], colour_spaces[before[RINCHOVEK_OPEN_COLOUR_SPACE]]);
    release(sheet);
    return DONE;
}
