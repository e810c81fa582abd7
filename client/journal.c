/* Journals: every correction of a sheet as a line of text, in the order in which they were made, behind a first line that names the sheet that
 * they start from. They are played, taken back, brought together, and held against what a sheet shows.
 *
 *   rinchovek-journal 1 WIDTH HEIGHT FORM SHA256
 *   TIME NAME line BLOCK LINE before 26 NUMBERS after 26 NUMBERS
 *
 * Both times the 26 numbers are as the line reads in the sheet (enum rinchovek_line_offset), so a pair that was stored turned is turned here.
 * Then what is put back gives the very bytes of before, and each correction of a line starts where the one before it ended. The word `line` leaves
 * room for other kinds of correction.
 *
 * A line is on the disk before the sheet is renamed. After a kill the journal may have calls that the sheet hasn't, never the other way round. */
#include "client.h"

#include <stdio.h>
#include <stdlib.h>
#include <string.h>
#include <time.h>

enum { VERSION = 1, LONGEST_NAME = 64, MOST_SAID = 10 };

static void decline(const char *name, const char *what, const char *other) {
    fprintf(stderr, "rinchovek: %s %s %s\n", name, what, other);
    stop(REFUSED);
}

/* ---- from text */

/* What is left of a line of text, and what was wanted where it is wrong. */
struct cursor {
    const uint8_t *at, *end;
    const char *wanted;
};

/* The next word, which ends at a space or with the line; empty, and never ending, is no word. */
static void take_word(struct cursor *cursor, char *word, size_t size, const char *wanted) {
    size_t length = 0;
    while (cursor->at < cursor->end && *cursor->at != ' ' && length + 1 < size) word[length++] = (char)*cursor->at++;
    word[length] = '\0';
    const int ends = cursor->at == cursor->end || *cursor->at == ' ';
    if (cursor->end - cursor->at > 1) cursor->at++; /* one space parts two words, and none ends the line */
    if ((length == 0 || !ends || strlen(word) != length) && cursor->wanted == NULL) cursor->wanted = wanted;
}

static void take_label(struct cursor *cursor, const char *label) {
    char word[LONGEST_NAME + 1];
    take_word(cursor, word, sizeof word, label);
    if (strcmp(word, label) != 0 && cursor->wanted == NULL) cursor->wanted = label;
}

static uint32_t take_decimal(struct cursor *cursor, uint32_t most) {
    const char *const wanted = most == UINT8_MAX ? "a number from 0 to 255" : "a number";
    char word[16];
    uint32_t number = 0;
    take_word(cursor, word, sizeof word, wanted);
    if (!is_number(word, most, &number) && cursor->wanted == NULL) cursor->wanted = wanted;
    return number;
}

static int is_time(const char *word) {
    static const char form[] = "0000-00-00T00:00:00Z";
    for (size_t i = 0; i < sizeof form; i++)
        if (form[i] == '0' ? word[i] < '0' || word[i] > '9' : word[i] != form[i]) return 0;
    return 1;
}

static int is_name(const char *word) {
    for (const char *letter = word; *letter != '\0'; letter++)
        if ((uint8_t)*letter <= ' ' || (uint8_t)*letter == 0x7F) return 0;
    return *word != '\0' && strlen(word) <= LONGEST_NAME;
}

static void take_call(struct cursor *cursor, struct call *call) {
    char word[LONGEST_NAME + 1];
    take_word(cursor, word, sizeof word, "a time");
    if (!is_time(word) && cursor->wanted == NULL) cursor->wanted = "a time";
    take_word(cursor, word, sizeof word, "a name");
    if (!is_name(word) && cursor->wanted == NULL) cursor->wanted = "a name";
    take_label(cursor, "line");
    call->block = take_decimal(cursor, UINT32_MAX);
    call->line = take_decimal(cursor, UINT32_MAX);
    take_label(cursor, "before");
    for (int at = 0; at < RINCHOVEK_LINE_BYTES; at++) call->before[at] = (uint8_t)take_decimal(cursor, UINT8_MAX);
    take_label(cursor, "after");
    for (int at = 0; at < RINCHOVEK_LINE_BYTES; at++) call->after[at] = (uint8_t)take_decimal(cursor, UINT8_MAX);
}

static void take_start(struct cursor *cursor, struct journal *journal) {
    char word[LONGEST_NAME + 1];
    take_label(cursor, "rinchovek-journal");
    if (take_decimal(cursor, UINT32_MAX) != VERSION && cursor->wanted == NULL) cursor->wanted = "version 1";
    journal->width = take_decimal(cursor, UINT32_MAX);
    journal->height = take_decimal(cursor, UINT32_MAX);
    journal->form = take_decimal(cursor, UINT32_MAX);
    take_word(cursor, word, sizeof word, "a SHA-256");
    if (strlen(word) + 1 != sizeof journal->base.hex && cursor->wanted == NULL) cursor->wanted = "a SHA-256";
    snprintf(journal->base.hex, sizeof journal->base.hex, "%s", word);
}

/* What is left behind the last whole line a kill has cut off: it isn't part of the journal. */
static size_t whole_lines(struct bytes text) {
    size_t length = text.length;
    while (length > 0 && text.at[length - 1] != '\n') length--;
    return length;
}

static struct journal parse(const char *name, struct bytes text) {
    struct journal journal = {.name = name, .length = whole_lines(text)};
    size_t wrong = 0, number = 0, room = 0;
    for (size_t at = 0; at < journal.length; number++) {
        const uint8_t *start = text.at + at, *end = memchr(start, '\n', journal.length - at);
        struct cursor cursor = {start, end, NULL};
        struct call call = {.order = (uint32_t)number};
        if (number == 0) take_start(&cursor, &journal);
        else take_call(&cursor, &call);
        if (cursor.at < cursor.end && cursor.wanted == NULL) cursor.wanted = "the end of the line";
        if (number == 0 && cursor.wanted != NULL) fail(name, "is no journal of corrections");
        if (cursor.wanted != NULL && wrong++ < MOST_SAID)
            fprintf(stderr, "rinchovek: %s:%lu: %s is wanted here\n", name, (unsigned long)number + 1, cursor.wanted);
        at = (size_t)(end - text.at) + 1;
        if (number == 0) continue;
        if (journal.count == room) journal.calls = room_for(journal.calls, (room = 2 * room + 64) * sizeof *journal.calls);
        journal.calls[journal.count++] = call;
    }
    if (wrong > MOST_SAID) fprintf(stderr, "rinchovek: %s: and %lu lines more\n", name, (unsigned long)(wrong - MOST_SAID));
    if (wrong > 0) stop(FAILED);
    return journal;
}

static struct journal read_journal(const char *name) {
    if (is_stream(name)) fail("-", "can't be a journal: only a file can be");
    const struct bytes text = read_file(name);
    const struct journal journal = parse(name, text);
    if (journal.length == 0) fail(name, "is no journal of corrections");
    if (journal.length < text.length) fprintf(stderr, "rinchovek: %s ends within a line, which is left out\n", name);
    release(text);
    return journal;
}

/* ---- calls on a sheet */

static void check_call(const struct sheet *sheet, const struct journal *journal, const struct call *call, uint32_t refusal) {
    if (refusal == RINCHOVEK_ACCEPTED) return;
    fprintf(stderr, "rinchovek: %s:%lu: refused with %u, %s, in %s\n", journal->name, (unsigned long)call->order + 1, refusal,
            rinchovek_refusal_text(refusal), sheet->name);
    stop(REFUSED);
}

static void read_called(const struct sheet *sheet, const struct journal *journal, const struct call *call, uint8_t held[RINCHOVEK_LINE_BYTES]) {
    uint8_t bytes[RINCHOVEK_BLOCK_BYTES], widths[RINCHOVEK_LINE_BYTES];
    const uint32_t block = call->block, line = call->line;
    check_call(sheet, journal, call, rinchovek_sheet_block(sheet->file.at, sheet->file.length, block, bytes));
    check_call(sheet, journal, call, rinchovek_bc7_read_line(bytes, line, held, widths));
}

static int is_held(const struct sheet *sheet, const struct journal *journal, const struct call *call, const uint8_t numbers[RINCHOVEK_LINE_BYTES]) {
    uint8_t held[RINCHOVEK_LINE_BYTES];
    read_called(sheet, journal, call, held);
    return memcmp(held, numbers, sizeof held) == 0;
}

static void put_numbers(const struct sheet *sheet, const struct journal *journal, const struct call *call, const uint8_t numbers[RINCHOVEK_LINE_BYTES]) {
    const uint32_t block = call->block, line = call->line;
    check_call(sheet, journal, call, rinchovek_sheet_replace_line(sheet->file.at, sheet->file.length, block, line, numbers));
}

/* Makes a call as the journal has it: it starts at what the line is, and ends at what it reads afterwards. */
static void play(const struct sheet *sheet, const struct journal *journal, const struct call *call) {
    if (is_held(sheet, journal, call, call->before)) {
        put_numbers(sheet, journal, call, call->after);
        if (is_held(sheet, journal, call, call->after)) return;
    }
    fprintf(stderr, "rinchovek: %s:%lu: the correction doesn't follow from those before it\n", journal->name, (unsigned long)call->order + 1);
    stop(REFUSED);
}

/* ---- the lines that calls are about */

static int compare_numbers(uint32_t left, uint32_t right) { return left < right ? -1 : left > right; }

static int by_line(const void *left, const void *right) {
    const struct called *one = left, *other = right;
    int compared = compare_numbers(one->call->block, other->call->block);
    if (compared == 0) compared = compare_numbers(one->call->line, other->call->line);
    if (compared == 0) compared = compare_numbers(one->desk, other->desk);
    return compared != 0 ? compared : compare_numbers(one->call->order, other->call->order);
}

/* The calls of the journals in the order of the lines that they are about; those of one line stand together, as they were made. */
static struct called *sorted(const struct journal *journals, uint32_t desks, size_t *count) {
    *count = 0;
    for (uint32_t desk = 0; desk < desks; desk++) *count += journals[desk].count;
    struct called *calls = room_for(NULL, *count * sizeof *calls);
    size_t at = 0;
    for (uint32_t desk = 0; desk < desks; desk++)
        for (size_t i = 0; i < journals[desk].count; i++) {
            const struct called called = {journals[desk].calls + i, journals + desk, desk};
            calls[at++] = called;
        }
    if (*count > 0) qsort(calls, *count, sizeof *calls, by_line);
    return calls;
}

/* Where the calls of the line end that start here. */
static size_t end_of_line(const struct called *calls, size_t count, size_t from) {
    size_t end = from + 1;
    while (end < count && calls[end].call->block == calls[from].call->block && calls[end].call->line == calls[from].call->line) end++;
    return end;
}

/* Whether the sheet has all calls of the journal in it. */
static int is_all_in(const struct sheet *sheet, const struct journal *journal) {
    size_t count = 0;
    int is_in = 1;
    struct called *calls = sorted(journal, 1, &count);
    for (size_t from = 0; from < count && is_in; from = end_of_line(calls, count, from)) {
        const struct call *last = calls[end_of_line(calls, count, from) - 1].call;
        is_in = is_held(sheet, journal, last, last->after);
    }
    free(calls);
    return is_in;
}

static void check_size(const struct sheet *sheet, const struct journal *journal) {
    if (journal->width == sheet->numbers[RINCHOVEK_OPEN_WIDTH] && journal->height == sheet->numbers[RINCHOVEK_OPEN_HEIGHT] &&
        journal->form == sheet->numbers[RINCHOVEK_OPEN_FORM])
        return;
    decline(sheet->name, "isn't the sheet of the journal", journal->name);
}

static void check_base(const struct sheet *sheet, const struct journal *journals, uint32_t desks) {
    const struct sha256 sum = sha256_of(sheet->file);
    for (uint32_t desk = 0; desk < desks; desk++)
        if (strcmp(sum.hex, journals[desk].base.hex) != 0) decline(sheet->name, "isn't the sheet of the journal", journals[desk].name);
}

/* ---- writing */

struct record open_record(const struct given *given, const struct sheet *sheet, const struct output *to) {
    struct record record = {.by = given->by != NULL ? given->by : "-"};
    if (given->journal == NULL) return record;
    if (!is_name(record.by)) fail(record.by, "can't stand in a journal: a name has no spaces, and at most 64 bytes");
    record.file = open_appended(given->journal, to);
    const struct bytes text = read_file(given->journal);
    const size_t start = strlen(JOURNAL_START), shown = text.length < start ? text.length : start;
    if (shown > 0 && memcmp(text.at, JOURNAL_START, shown) != 0) fail(given->journal, "is no journal of corrections");
    record.journal = parse(given->journal, text);
    release(text);
    record.is_on = 1;
    record.is_new = record.journal.length == 0;
    if (record.is_new) {
        record.journal.base = sha256_of(sheet->file);
        return record;
    }
    check_size(sheet, &record.journal);
    if (!is_all_in(sheet, &record.journal)) decline(sheet->name, "isn't where the journal ends, which `rinchovek apply` makes good:", given->journal);
    return record;
}

/* Text that grows. */
struct text {
    char *at;
    size_t length, room;
};

static void add(struct text *text, const char *words) {
    const size_t length = strlen(words);
    if (text->length + length + 1 > text->room) text->at = room_for(text->at, text->room = 2 * (text->length + length + 1));
    memcpy(text->at + text->length, words, length + 1);
    text->length += length;
}

static void add_numbers(struct text *text, const char *label, const uint8_t numbers[RINCHOVEK_LINE_BYTES]) {
    char word[16];
    add(text, label);
    for (int at = 0; at < RINCHOVEK_LINE_BYTES; at++) {
        snprintf(word, sizeof word, " %u", numbers[at]);
        add(text, word);
    }
}

static void append_calls(const struct record *record, const struct sheet *sheet, const struct call *calls, size_t count) {
    struct text text = {NULL, 0, 0};
    char words[160], when[32] = "";
    const time_t now = time(NULL);
    const struct tm *utc = gmtime(&now);
    if (utc != NULL) strftime(when, sizeof when, "%Y-%m-%dT%H:%M:%SZ", utc);
    if (record->is_new) {
        const uint32_t *numbers = sheet->numbers;
        snprintf(words, sizeof words, JOURNAL_START "%d %u %u %u %s\n", VERSION, numbers[RINCHOVEK_OPEN_WIDTH], numbers[RINCHOVEK_OPEN_HEIGHT],
                 numbers[RINCHOVEK_OPEN_FORM], record->journal.base.hex);
        add(&text, words);
    }
    for (size_t i = 0; i < count; i++) {
        snprintf(words, sizeof words, "%s %s line %u %u", when, record->by, calls[i].block, calls[i].line);
        add(&text, words);
        add_numbers(&text, " before", calls[i].before);
        add_numbers(&text, " after", calls[i].after);
        add(&text, "\n");
    }
    append(record->file, record->journal.length, text.at, text.length);
    free(text.at);
}

void commit(struct output *to, const struct sheet *sheet, const struct record *record, const struct call *calls, size_t count) {
    start_file(to);
    put(to, sheet->file.at, sheet->file.length);
    settle_file(to);
    if (record->is_on) append_calls(record, sheet, calls, count);
    name_file(to);
}

/* ---- playing journals */

/* The calls of one line, of one or two desks. */
struct group {
    const struct called *from, *end;
    int is_conflict;            /* both desks name the line */
    uint8_t found[RINCHOVEK_LINE_BYTES]; /* in the sheet, before anything is played */
};

static int is_of_group(const struct sheet *sheet, const struct group *group) {
    for (const struct called *called = group->from; called < group->end; called++)
        if (is_held(sheet, called->journal, called->call, called->call->before) || is_held(sheet, called->journal, called->call, called->call->after)) return 1;
    return 0;
}

static struct group *grouped(const struct sheet *sheet, const struct called *calls, size_t count, size_t *groups) {
    struct group *all = room_for(NULL, count * sizeof *all);
    *groups = 0;
    for (size_t from = 0, end; from < count; from = end) {
        end = end_of_line(calls, count, from);
        struct group *group = all + (*groups)++;
        group->from = calls + from;
        group->end = calls + end;
        group->is_conflict = calls[from].desk != calls[end - 1].desk;
        read_called(sheet, calls[from].journal, calls[from].call, group->found);
        if (!is_of_group(sheet, group)) {
            fprintf(stderr, "rinchovek: %s: block %u, line %u was changed otherwise than by %s\n", sheet->name, calls[from].call->block, calls[from].call->line,
                    calls[from].journal->name);
            stop(REFUSED);
        }
    }
    return all;
}

/* Plays journals of one base on a sheet that is at that base, or has some of their calls in it: each line that they name goes back to where the
 * first call found it, which has to give the base; then all calls are made. Of a line that two desks name, those of the desk `later` alone.
 * Answers what has changed, a call for each line. */
static struct call *play_all(const struct sheet *sheet, const struct journal *journals, uint32_t desks, uint32_t later, size_t *changed) {
    size_t count = 0, groups = 0;
    struct called *calls = sorted(journals, desks, &count);
    struct group *all = grouped(sheet, calls, count, &groups);
    uint8_t **skips = room_for(NULL, desks * sizeof *skips);
    struct call *net = room_for(NULL, groups * sizeof *net);
    for (uint32_t desk = 0; desk < desks; desk++) memset(skips[desk] = room_for(NULL, journals[desk].count), 0, journals[desk].count);
    for (size_t i = 0; i < groups; i++) {
        put_numbers(sheet, all[i].from->journal, all[i].from->call, all[i].from->call->before);
        for (const struct called *called = all[i].from; called < all[i].end; called++)
            if (all[i].is_conflict && called->desk != later) skips[called->desk][called->call - called->journal->calls] = 1;
    }
    check_base(sheet, journals, desks);
    for (uint32_t desk = 0; desk < desks; desk++)
        for (size_t i = 0; i < journals[desk].count; i++)
            if (!skips[desk][i]) play(sheet, journals + desk, journals[desk].calls + i);
    *changed = 0;
    for (size_t i = 0; i < groups; i++) {
        struct call call = {.block = all[i].from->call->block, .line = all[i].from->call->line};
        memcpy(call.before, all[i].found, sizeof call.before);
        read_called(sheet, all[i].from->journal, all[i].from->call, call.after);
        if (memcmp(call.before, call.after, sizeof call.after) != 0) net[(*changed)++] = call;
    }
    for (uint32_t desk = 0; desk < desks; desk++) free(skips[desk]);
    free(skips);
    free(all);
    free(calls);
    return net;
}

/* Lists the lines that both desks name, and answers how many there are. */
static size_t list_conflicts(const struct journal *journals) {
    size_t count = 0, conflicts = 0;
    struct called *calls = sorted(journals, 2, &count);
    for (size_t from = 0, end; from < count; from = end) {
        end = end_of_line(calls, count, from);
        if (calls[from].desk == calls[end - 1].desk) continue;
        printf("conflict: block %u, line %u\n", calls[from].call->block, calls[from].call->line);
        conflicts++;
    }
    free(calls);
    return conflicts;
}

static int play_journals(struct given given, uint32_t desks) {
    struct output to = aim_at_present(given.file[0], given.may_own);
    const struct sheet sheet = read_sheet(given.file[0]);
    const struct journal journals[] = {read_journal(given.file[1]), desks > 1 ? read_journal(given.file[2]) : (struct journal){.name = NULL}};
    const struct record record = open_record(&given, &sheet, &to);
    size_t changed = 0, calls = 0;
    for (uint32_t desk = 0; desk < desks; desk++) {
        check_size(&sheet, journals + desk);
        calls += journals[desk].count;
    }
    if (desks > 1 && list_conflicts(journals) > 0 && given.later == NO_DESK) finish(REFUSED);
    struct call *net = play_all(&sheet, journals, desks, given.later, &changed);
    if (changed > 0) commit(&to, &sheet, &record, net, changed);
    printf("corrections %lu, lines changed %lu\n", (unsigned long)calls, (unsigned long)changed);
    free(net);
    for (uint32_t desk = 0; desk < desks; desk++) free(journals[desk].calls);
    release(sheet.file);
    return DONE;
}

/* ---- the commands */

int apply_journal(struct given given) {
    if (given.journal != NULL) refuse_same(given.file[1], given.journal);
    return play_journals(given, 1);
}

int merge_journals(struct given given) { return play_journals(given, 2); }

int undo_corrections(struct given given) {
    const size_t wanted = given.has_number ? given.number[0] : 1;
    struct output to = aim_at_present(given.file[0], given.may_own);
    const struct sheet sheet = read_sheet(given.file[0]);
    given.journal = given.file[1];
    free(read_journal(given.file[1]).calls); /* it has to be there */
    const struct record record = open_record(&given, &sheet, &to);
    const struct journal *journal = &record.journal;
    if (wanted == 0 || wanted > journal->count) {
        fprintf(stderr, "rinchovek: %s has %lu corrections, of which %lu can't be taken back\n", journal->name, (unsigned long)journal->count,
                (unsigned long)wanted);
        stop(FAILED);
    }
    struct call *back = room_for(NULL, wanted * sizeof *back);
    for (size_t i = 0; i < wanted; i++) {
        const struct call *call = journal->calls + (journal->count - 1 - i);
        back[i] = *call;
        memcpy(back[i].before, call->after, sizeof call->after);
        memcpy(back[i].after, call->before, sizeof call->before);
        play(&sheet, journal, back + i);
    }
    commit(&to, &sheet, &record, back, wanted);
    printf("corrections taken back %lu\n", (unsigned long)wanted);
    free(back);
    free(journal->calls);
    release(sheet.file);
    return DONE;
}

/* What a block should show, and what it shows. */
static uint32_t list_otherwise(const struct sheet *sheet, uint32_t block, const uint8_t expected[RINCHOVEK_BLOCK_BYTES],
                               const uint8_t found[RINCHOVEK_BLOCK_BYTES]) {
    uint32_t pixels = 0;
    for (uint32_t pixel = 0; pixel < RINCHOVEK_BLOCK_PIXELS; pixel++) {
        const struct colour wanted = seen(expected, pixel), is = seen(found, pixel);
        const struct place place = place_of(sheet, block, pixel);
        if (!place.is_shown || strcmp(wanted.words, is.words) == 0) continue;
        printf("block %u, pixel %u at %u %u: %s, and not %s\n", block, pixel, place.x, place.y, is.words, wanted.words);
        pixels++;
    }
    return pixels;
}

int audit_sheet(struct given given) {
    if (is_stream(given.file[0]) && is_stream(given.file[1])) fail("-", "can't be both sheets");
    const struct sheet old = read_sheet(given.file[0]), new = read_sheet(given.file[1]);
    uint32_t pixels = 0;
    check_same_size(&old, &new);
    if (given.file[2] != NULL) { /* in memory the old sheet becomes what the new one should be */
        const struct journal journal = read_journal(given.file[2]);
        check_size(&old, &journal);
        check_base(&old, &journal, 1);
        for (size_t i = 0; i < journal.count; i++) play(&old, &journal, journal.calls + i);
        free(journal.calls);
    }
    for (uint32_t block = 0; block < old.numbers[RINCHOVEK_OPEN_BLOCKS]; block++) {
        uint8_t expected[RINCHOVEK_BLOCK_BYTES], found[RINCHOVEK_BLOCK_BYTES];
        read_block(&old, block, expected);
        read_block(&new, block, found);
        if (memcmp(expected, found, sizeof found) != 0) pixels += list_otherwise(&new, block, expected, found); /* the same bytes show the same */
        show_progress("audited", block + 1, old.numbers[RINCHOVEK_OPEN_BLOCKS]);
    }
    printf("pixels that show something else: %u\n", pixels);
    release(old.file);
    release(new.file);
    return pixels == 0 ? DONE : REFUSED;
}
