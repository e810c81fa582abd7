/* What the files of the client know of each other. Each has one job:
 *
 *   main.c         the commands, and how their arguments are taken
 *   reasons.c      how it ends where something is wrong, and what it says then
 *   files.c        files read, named, locked, and replaced whole
 *   words.c        numbers, and lines of blocks, as text
 *   sheets.c       sheets and their blocks, brought in and out and moved
 *   corrections.c  lines looked at and replaced
 *   places.c       what stands where, and what differs
 *   pictures.c     sheets drawn
 *   journal.c      corrections written down, played, taken back, brought together and audited
 *   sha256.c       the sum that names a sheet
 *
 * It is plain C99 over include/rinchovek.h and POSIX. Nothing here depends on the order of bytes or the width of a word. */
#ifndef CLIENT_H
#define CLIENT_H

#include "rinchovek.h"

#include <stddef.h>
#include <stdint.h>

/* What was read, or is to be written. */
struct bytes {
    uint8_t *at; /* ours to change: a file that was mapped keeps its own bytes */
    size_t length;
    int is_mapped;
};

/* ---- reasons.c */

enum status { DONE = 0, REFUSED = 1, FAILED = 2 };

#ifdef __GNUC__
#define DOES_NOT_RETURN __attribute__((noreturn))
#else
#define DOES_NOT_RETURN
#endif

/* A few words, which may be none. */
struct reason {
    char words[160];
};

/* Each ends the program with this status: the first has all done and printed, the second leaves nothing unfinished behind. */
DOES_NOT_RETURN void finish(int status);
DOES_NOT_RETURN void stop(int status);
DOES_NOT_RETURN void fail(const char *name, const char *what);
DOES_NOT_RETURN void fail_by_system(const char *name, const char *what);
/* Says the refusal with its reason, if there is one, and ends the program. */
DOES_NOT_RETURN void refuse(const char *name, uint32_t refusal, const char *reason);
/* Each ends the program where it was refused: the second says what in the sheet it is about, the third what in the DDS file. */
void check(const char *name, uint32_t refusal);
void check_sheet(const char *name, struct bytes file, uint32_t refusal);
void check_dds(const char *name, struct bytes file, uint32_t refusal);
struct reason reason_of_sheet(struct bytes file, uint32_t refusal);
/* What in a line of the block a refusal is about: its number, its pixel, or the 26 numbers that are given for it. */
struct reason reason_of_line(const uint8_t block[RINCHOVEK_BLOCK_BYTES], uint32_t refusal, uint32_t line, uint32_t pixel,
                             const uint8_t replacement[RINCHOVEK_LINE_BYTES]);
/* Where standard error is a terminal, and it takes more than a second. */
void show_progress(const char *what, uint64_t done, uint64_t all);

/* ---- files.c */

/* Where a command writes. */
struct output {
    const char *name;      /* as it was given, or "standard output" */
    char *target;          /* the file's path without links; NULL for standard output */
    int file, lock;        /* open: what is written, and the lock that is held */
    int is_new;            /* there was no file of this name; else it keeps: */
    unsigned mode, owner, group;
    int may_own;           /* its owner may change, where the system allows nothing else */
};

void *room_for(void *before, size_t length);
/* - is standard input where something is read, and standard output where something is written. */
int is_stream(const char *name);
/* What is read under this name. */
const char *shown_name(const char *name);
struct bytes read_file(const char *name);
void release(struct bytes file);
/* Ends the program where both names lead to one file. */
void refuse_same(const char *read, const char *written);
/* Finds out where the name leads, refuses what can't be replaced, and waits for the lock. The second is for what is corrected in place. */
struct output aim(const char *name, int may_own);
struct output aim_at_present(const char *name, int may_own);
/* The new file beside the old one: begun, written, brought to the disk, and brought to its name, by which the lock is given back. */
void start_file(struct output *to);
void put(const struct output *to, const void *bytes, size_t length);
void settle_file(struct output *to);
void name_file(struct output *to);
/* A journal, open and locked to be appended to; a new one gets the permissions of the file beside which it is kept. What is appended behind its
 * first `length` bytes is on the disk afterwards, and is taken back where the program stops before name_file. */
int open_appended(const char *name, const struct output *beside);
void append(int file, size_t length, const char *text, size_t text_length);
/* From beginning to name. */
void write_file(struct output *to, struct bytes file);
/* For stop. */
void undo_unfinished(void);

/* ---- words.c */

/* A line as text has it. */
struct line_in_words {
    uint8_t numbers[RINCHOVEK_LINE_BYTES];
    unsigned long dots[RINCHOVEK_LINE_BYTES]; /* 0, or where a dot stood in the place of a number: in which line of the text */
};

/* Whether the word is a number up to this: digits alone, and no zero before others. */
int is_number(const char *word, uint32_t most, uint32_t *number);
/* A line as `line` prints it. A dot stands for what the line hasn't got, and # before a remark. */
void print_line(const uint8_t held[RINCHOVEK_LINE_BYTES], const uint8_t widths[RINCHOVEK_LINE_BYTES]);
/* The same from standard input; a dot is 0. */
struct line_in_words read_line(void);
/* A dot may stand only where the line has no value. */
void check_dots(const struct line_in_words *line, const uint8_t widths[RINCHOVEK_LINE_BYTES]);

/* ---- main.c */

extern const char *const colour_spaces[]; /* by enum rinchovek_colour_space */

/* What a command was given: its files, its numbers in their order, and its options. */
enum { NO_DESK = 2 };
struct given {
    const char *file[3];
    uint32_t number[7];
    int has_colour_space; /* the last word, which may be left out, is number[0] */
    int to_tiles, may_own;
    /* of a picture */
    int has_mask, has_grid, has_region;
    uint32_t mask; /* 0 to 255; above that, what is masked stays masked */
    uint32_t region[4], scale;
    const char *picture; /* NULL, or what `diff` draws */
    /* of a journal */
    const char *journal, *by; /* or NULL */
    int has_number;           /* the last number, which may be left out, is number[0] */
    uint32_t later;           /* 0 or 1: the desk that decides where two have corrected one line */
};

/* ---- sheets.c: where a block stands in a sheet, only the archive knows */

struct sheet {
    const char *name;
    struct bytes file;
    uint32_t numbers[RINCHOVEK_OPEN_NUMBERS]; /* by enum rinchovek_open_number */
};

struct sheet read_sheet(const char *name);
void read_block(const struct sheet *sheet, uint32_t block, uint8_t bytes[RINCHOVEK_BLOCK_BYTES]);

int import_dds(struct given given);
int export_dds(struct given given);
int move_to_tiles(struct given given);
int move_to_rows(struct given given);
int state_colour(struct given given);

/* ---- corrections.c */

int show_line(struct given given);
int show_nearest(struct given given);
int set_index(struct given given);
int replace_line(struct given given);

/* ---- places.c */

/* What a pixel shows, in words. */
struct colour {
    char words[sizeof "255 255 255 255"];
};

/* Where a pixel of a block stands, and whether it is within the picture. */
struct place {
    uint32_t x, y;
    int is_shown;
};

struct colour seen(const uint8_t block[RINCHOVEK_BLOCK_BYTES], uint32_t pixel);
struct place place_of(const struct sheet *sheet, uint32_t block, uint32_t pixel);
/* Where they differ, it is said and the program ends with 1. */
void check_same_size(const struct sheet *old, const struct sheet *new);

int show_info(struct given given);
int show_counts(struct given given);
int show_place(struct given given);
int show_block(struct given given);
int show_difference(struct given given);

/* ---- pictures.c */

/* Draws a sheet into a file of this name; where another is given that it is compared with, what is the same in both fades away. */
void paint(const struct sheet *sheet, const struct sheet *before, const char *name, struct given given);

int draw_picture(struct given given);

/* ---- sha256.c */

struct sha256 {
    char hex[65];
};

struct sha256 sha256_of(struct bytes file);

/* ---- journal.c */

#define JOURNAL_START "rinchovek-journal "

/* A correction: of which line of which block, what it was and what it became. */
struct call {
    uint32_t block, line;
    uint8_t before[RINCHOVEK_LINE_BYTES], after[RINCHOVEK_LINE_BYTES];
    uint32_t order; /* in its journal, from 1 */
};

struct journal {
    const char *name;
    uint32_t width, height, form; /* of the sheet that it starts from, */
    struct sha256 base;           /* and its sum */
    struct call *calls;
    size_t count, length; /* of the calls, and of its whole lines in bytes */
};

/* A call of a journal, of one of two desks. */
struct called {
    const struct call *call;
    const struct journal *journal;
    uint32_t desk;
};

/* Where corrections are written down: a journal, or nowhere. */
struct record {
    int is_on, is_new, file;
    const char *by;
    struct journal journal;
};

/* Before the sheet is changed in memory: it has to be where the journal ends. */
struct record open_record(const struct given *given, const struct sheet *sheet, const struct output *to);
/* Writes the sheet, as it is in memory now, and what has changed in it. */
void commit(struct output *to, const struct sheet *sheet, const struct record *record, const struct call *calls, size_t count);

int apply_journal(struct given given);
int undo_corrections(struct given given);
int merge_journals(struct given given);
int audit_sheet(struct given given);

#endif
