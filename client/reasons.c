/* How the client ends where something is wrong, and what it says then: of a refusal its number, its text, and what in the file or in the
 * arguments it is about. The archive alone decides what is refused; here is only said why. */
#define _XOPEN_SOURCE 700 /* isatty */
#include "client.h"

#include <errno.h>
#include <stdio.h>
#include <stdlib.h>
#include <string.h>
#include <time.h>
#include <unistd.h>

void stop(int status) {
    undo_unfinished();
    exit(status);
}

void finish(int status) {
    if (fflush(stdout) != 0) fail_by_system("standard output", "can't be written");
    stop(status);
}

void fail(const char *name, const char *what) {
    fprintf(stderr, "rinchovek: %s %s\n", name, what);
    stop(FAILED);
}

void fail_by_system(const char *name, const char *what) {
    fprintf(stderr, "rinchovek: %s %s: %s\n", name, what, strerror(errno));
    stop(FAILED);
}

void refuse(const char *name, uint32_t refusal, const char *reason) {
    fprintf(stderr, "rinchovek: %s: refused with %u, %s%s%s\n", name, refusal, rinchovek_refusal_text(refusal), *reason != '\0' ? "; " : "", reason);
    stop(REFUSED);
}

void check(const char *name, uint32_t refusal) {
    if (refusal != RINCHOVEK_ACCEPTED) refuse(name, refusal, "");
}

/* ---- what is taken for a sheet or a DDS file, and is something else */

static int starts_with(struct bytes file, const char *start) {
    const size_t length = strlen(start);
    return file.length >= length && memcmp(file.at, start, length) == 0;
}

/* What the file is by its first bytes, or NULL. */
static const char *other_kind(struct bytes file) {
    if (starts_with(file, "P7\n")) return "it is a PAM picture";
    if (starts_with(file, "\x89PNG")) return "it is a PNG picture";
    if (starts_with(file, JOURNAL_START)) return "it is a journal of corrections";
    return NULL;
}

static struct reason say_kind(const char *kind) {
    struct reason reason;
    snprintf(reason.words, sizeof reason.words, "%s", kind);
    return reason;
}

/* ---- sheets */

/* A number of a head, and whether it is all there; what is refused in it, only the archive says. */
static int is_head_number(struct bytes file, size_t *at, uint32_t *number) {
    *number = 0;
    for (unsigned shift = 0; shift < 21 && *at < file.length; shift += 7) {
        const uint8_t group = file.at[(*at)++];
        *number |= (uint32_t)(group & 0x7F) << shift;
        if (group < 0x80) return 1;
    }
    return 0;
}

struct reason reason_of_sheet(struct bytes file, uint32_t refusal) {
    struct reason reason = {""};
    uint32_t numbers[RINCHOVEK_OPEN_NUMBERS], form = 0, width = 0, height = 0;
    size_t at = 0;
    if (starts_with(file, "DDS ")) return say_kind("it is a DDS file, of which `rinchovek import` makes a sheet");
    if (other_kind(file) != NULL) return say_kind(other_kind(file));
    const int is_whole = is_head_number(file, &at, &form) && is_head_number(file, &at, &width) && is_head_number(file, &at, &height);
    if (file.length == 0) return say_kind("it is empty");
    if (refusal == RINCHOVEK_UNKNOWN_FORM) snprintf(reason.words, sizeof reason.words, "its form is %u", form);
    if (refusal == RINCHOVEK_BAD_SIDE && is_whole) snprintf(reason.words, sizeof reason.words, "it says %u by %u pixels", width, height);
    if (rinchovek_sheet_open(file.at, file.length, numbers) != RINCHOVEK_ACCEPTED) return reason;
    const uint64_t needed = numbers[RINCHOVEK_OPEN_START] + (uint64_t)RINCHOVEK_BLOCK_BYTES * numbers[RINCHOVEK_OPEN_BLOCKS];
    if (refusal == RINCHOVEK_WRONG_BLOCK_BYTES)
        snprintf(reason.words, sizeof reason.words, "it has %llu bytes, and %u by %u pixels in form %u need %llu", (unsigned long long)file.length, width,
                 height, form, (unsigned long long)needed);
    if (refusal == RINCHOVEK_BEYOND_SHEET)
        snprintf(reason.words, sizeof reason.words, "it has %u by %u pixels in %u blocks", width, height, numbers[RINCHOVEK_OPEN_BLOCKS]);
    return reason;
}

void check_sheet(const char *name, struct bytes file, uint32_t refusal) {
    if (refusal != RINCHOVEK_ACCEPTED) refuse(name, refusal, reason_of_sheet(file, refusal).words);
}

/* ---- blocks and their lines */

/* A few words that stand in a reason. */
struct term {
    char words[40];
};

/* Of the 26 numbers of a line, what one of them is called. */
static struct term name_of_number(int at) {
    static const char *const channels[] = {"red", "green", "blue", "alpha"};
    struct term name;
    if (at >= RINCHOVEK_LINE_INDEXES) snprintf(name.words, sizeof name.words, "the index of pixel %d", at - RINCHOVEK_LINE_INDEXES);
    else if (at >= RINCHOVEK_LINE_P_BITS) snprintf(name.words, sizeof name.words, "the %s p bit", at == RINCHOVEK_LINE_P_BITS ? "first" : "second");
    else
        snprintf(name.words, sizeof name.words, "%s of the %s endpoint", channels[at % RINCHOVEK_PIXEL_BYTES],
                 at < RINCHOVEK_LINE_SECOND_ENDPOINT ? "first" : "second");
    return name;
}

struct reason reason_of_line(const uint8_t block[RINCHOVEK_BLOCK_BYTES], uint32_t refusal, uint32_t line, uint32_t pixel,
                             const uint8_t replacement[RINCHOVEK_LINE_BYTES]) {
    struct reason reason = {""};
    uint8_t held[RINCHOVEK_LINE_BYTES], widths[RINCHOVEK_LINE_BYTES];
    uint32_t lines = 0, home = UINT32_MAX;
    for (; rinchovek_bc7_read_line(block, lines, held, widths) == RINCHOVEK_ACCEPTED; lines++)
        if (pixel < RINCHOVEK_BLOCK_PIXELS && widths[RINCHOVEK_LINE_INDEXES + pixel] != 0) home = lines;
    if (refusal == RINCHOVEK_NO_SUCH_LINE) snprintf(reason.words, sizeof reason.words, "it has %u, which count from 0", lines);
    if (refusal == RINCHOVEK_PIXEL_NOT_IN_LINE && home != UINT32_MAX) snprintf(reason.words, sizeof reason.words, "it is in line %u", home);
    if (refusal == RINCHOVEK_PIXEL_NOT_IN_LINE && home == UINT32_MAX) snprintf(reason.words, sizeof reason.words, "a block has the pixels 0 to 15");
    if (refusal != RINCHOVEK_VALUE_TOO_WIDE || rinchovek_bc7_read_line(block, line, held, widths) != RINCHOVEK_ACCEPTED) return reason;
    int at = 0;
    while (at + 1 < RINCHOVEK_LINE_BYTES && replacement[at] >> widths[at] == 0) at++;
    snprintf(reason.words, sizeof reason.words, "%s is %u, and %u bits are there for it", name_of_number(at).words, replacement[at], widths[at]);
    return reason;
}

/* ---- DDS files: the header's table in words */

static uint32_t number_at(struct bytes file, size_t at) {
    return file.at[at] | (uint32_t)file.at[at + 1] << 8 | (uint32_t)file.at[at + 2] << 16 | (uint32_t)file.at[at + 3] << 24;
}

static uint32_t letters(const char *four) {
    return (uint8_t)four[0] | (uint32_t)(uint8_t)four[1] << 8 | (uint32_t)(uint8_t)four[2] << 16 | (uint32_t)(uint8_t)four[3] << 24;
}

/* What a number of the header is, how it is shown, and the two values that it may have; of the flags of what it is the one bit alone that
 * may not be set. */
enum shown { AS_NUMBER, AS_LETTERS, AS_FORMAT };
static const struct field {
    size_t at;
    const char *what, *wanted;
    enum shown shown;
    const char *four;
    uint32_t one, other, mask;
} fields[] = {
    {0, "the file's first letters", "\"DDS \"", AS_LETTERS, "DDS ", 0, 0, UINT32_MAX},
    {4, "the header's size", "124", AS_NUMBER, NULL, 124, 124, UINT32_MAX},
    {28, "the number of levels", "0 or 1", AS_NUMBER, NULL, 0, 1, UINT32_MAX},
    {76, "the pixel format's size", "32", AS_NUMBER, NULL, 32, 32, UINT32_MAX},
    {84, "the pixel format's letters", "\"DX10\"", AS_LETTERS, "DX10", 0, 0, UINT32_MAX},
    {128, "the format", "98 or 99 (BC7, linear or sRGB)", AS_FORMAT, NULL, 98, 99, UINT32_MAX},
    {132, "the number that stands for its dimensions", "3 (two dimensions)", AS_NUMBER, NULL, 3, 3, UINT32_MAX},
    {136, "the flag of a cube", "0", AS_NUMBER, NULL, 0, 0, 4},
    {140, "the array's size", "1", AS_NUMBER, NULL, 1, 1, UINT32_MAX},
};

/* Some formats by their numbers, in the order of the numbers. */
static const char *format_name(uint32_t format) {
    static const struct {
        uint32_t first, last;
        const char *name;
    } formats[] = {{28, 29, "RGBA with 8 bits"}, {70, 72, "BC1"}, {73, 75, "BC2"},          {76, 78, "BC3"}, {79, 81, "BC4"},
                   {82, 84, "BC5"},              {87, 91, "BGRA with 8 bits"}, {94, 96, "BC6H"}, {97, 97, "BC7 of no type"}};
    for (size_t i = 0; i < sizeof formats / sizeof formats[0]; i++)
        if (format >= formats[i].first && format <= formats[i].last) return formats[i].name;
    return "another";
}

static struct term shown_field(const struct field *field, uint32_t held) {
    struct term shown;
    if (field->shown == AS_LETTERS) {
        char four[5] = "";
        for (int i = 0; i < 4; i++) {
            const uint8_t letter = (uint8_t)(held >> 8 * i);
            four[i] = letter >= ' ' && letter <= '~' ? (char)letter : '?';
        }
        snprintf(shown.words, sizeof shown.words, "\"%s\"", four);
    } else if (field->shown == AS_FORMAT) {
        snprintf(shown.words, sizeof shown.words, "%u (%s)", held, format_name(held));
    } else {
        snprintf(shown.words, sizeof shown.words, "%u", held);
    }
    return shown;
}

static struct reason reason_of_dds(struct bytes file, uint32_t refusal) {
    struct reason reason = {""};
    uint32_t numbers[RINCHOVEK_OPEN_NUMBERS];
    if (other_kind(file) != NULL) return say_kind(other_kind(file));
    if (!starts_with(file, "DDS ") && rinchovek_sheet_open(file.at, file.length, numbers) == RINCHOVEK_ACCEPTED)
        return say_kind("it is a sheet, of which `rinchovek export` makes a DDS file");
    if (file.length < RINCHOVEK_DDS_HEADER_BYTES) {
        snprintf(reason.words, sizeof reason.words, "it has %u bytes, and the header alone has %u", (unsigned)file.length, RINCHOVEK_DDS_HEADER_BYTES);
        return reason;
    }
    const uint32_t height = number_at(file, 12), width = number_at(file, 16);
    if (refusal == RINCHOVEK_BAD_SIDE) snprintf(reason.words, sizeof reason.words, "it says %u by %u pixels", width, height);
    if (refusal == RINCHOVEK_WRONG_BLOCK_BYTES) {
        const uint64_t blocks = (uint64_t)((width + 3) / 4) * ((height + 3) / 4);
        snprintf(reason.words, sizeof reason.words, "it has %llu bytes, and %u by %u pixels need %llu", (unsigned long long)file.length, width, height,
                 (unsigned long long)(RINCHOVEK_DDS_HEADER_BYTES + RINCHOVEK_BLOCK_BYTES * blocks));
    }
    if (refusal != RINCHOVEK_NOT_A_BC7_TEXTURE) return reason;
    for (size_t i = 0; i < sizeof fields / sizeof fields[0]; i++) {
        const struct field *field = fields + i;
        const uint32_t held = number_at(file, field->at) & field->mask;
        if (field->four != NULL ? held == letters(field->four) : held == field->one || held == field->other) continue;
        snprintf(reason.words, sizeof reason.words, "%s, at byte %u, is %s and not %s", field->what, (unsigned)field->at, shown_field(field, held).words,
                 field->wanted);
        break;
    }
    return reason;
}

void check_dds(const char *name, struct bytes file, uint32_t refusal) {
    if (refusal != RINCHOVEK_ACCEPTED) refuse(name, refusal, reason_of_dds(file, refusal).words);
}

/* ---- progress */

void show_progress(const char *what, uint64_t done, uint64_t all) {
    static time_t started, said;
    static int has_said;
    const time_t now = time(NULL);
    if (started == 0) started = said = now;
    if (has_said && done >= all) {
        fprintf(stderr, "\r%60s\r", "");
        has_said = 0;
    }
    if (done >= all || now - started < 2 || now == said || !isatty(STDERR_FILENO)) return; /* seconds are cut, so two of them are more than one */
    fprintf(stderr, "\rrinchovek: %u %% %s ", (unsigned)(100 * done / all), what);
    fflush(stderr);
    said = now;
    has_said = 1;
}
