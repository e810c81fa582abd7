/* damage CLIENT FOLDER RUNS SEED: gives the client input that a seeded generator has damaged, RUNS times: journals of ten thousand lines, sheets,
 * DDS files, lines in words and arguments. A command may end with 0, 1 or 2, and must not be ended by a signal or by a sanitizer; where it ends
 * with anything but 0, the sheet that it was to change has the bytes of before, and where it ends with 0, it opens. FOLDER has map.sheet, map.tiles
 * and map.dds and may be written. Exit status 0 where all of that is so. */
#define _XOPEN_SOURCE 700
#include <fcntl.h>
#include <stdint.h>
#include <stdio.h>
#include <stdlib.h>
#include <string.h>
#include <sys/stat.h>
#include <sys/wait.h>
#include <unistd.h>

enum { LINES = 10000, LONGEST = 4000000, NUMBERS = 26 };

static uint64_t state;
static unsigned commands, refused, lines;

static uint32_t below(uint32_t count) {
    state = state * 6364136223846793005u + 1442695040888963407u;
    return (uint32_t)(state >> 33) % count;
}

static void die(const char *what, const char *name) {
    fprintf(stderr, "damage: %s %s\n", what, name);
    exit(1);
}

static size_t read_whole(const char *name, uint8_t *bytes) {
    FILE *file = fopen(name, "rb");
    if (file == NULL) die("can't be read:", name);
    const size_t length = fread(bytes, 1, LONGEST, file);
    fclose(file);
    return length;
}

static void write_whole(const char *name, const uint8_t *bytes, size_t length) {
    FILE *file = fopen(name, "wb");
    if (file == NULL || fwrite(bytes, 1, length, file) != length || fclose(file) != 0) die("can't be written:", name);
}

/* Flips, exchanges, takes away and puts in, a few times; now and then at the start, where heads are. */
static size_t damaged(uint8_t *bytes, size_t length, int times) {
    for (; times > 0 && length > 1; times--) {
        const size_t at = below(3) == 0 ? below(length < 160 ? (uint32_t)length : 160) : below((uint32_t)length);
        switch (below(5)) {
        case 0: bytes[at] ^= (uint8_t)(1u << below(8)); break;
        case 1: bytes[at] = (uint8_t)below(256); break;
        case 2: memmove(bytes + at, bytes + at + 1, --length - at); break;
        case 3:
            if (length + 1 < LONGEST) memmove(bytes + at + 1, bytes + at, length++ - at);
            break;
        default: bytes[at] = (uint8_t)" 0129.\n-"[below(8)];
        }
    }
    return below(20) == 0 ? below((uint32_t)length) : length;
}

/* Starts the client with these words and `input`, and answers its status. */
static int run(char **words, const char *input) {
    int status = 0;
    commands++;
    const pid_t child = fork();
    if (child == 0) {
        dup2(open(input, O_RDONLY), 0);
        dup2(open("printed", O_WRONLY | O_CREAT | O_TRUNC, 0600), 1);
        dup2(open("said", O_WRONLY | O_CREAT | O_TRUNC, 0600), 2);
        execv(words[0], words);
        _exit(127);
    }
    if (child < 0 || waitpid(child, &status, 0) != child || !WIFEXITED(status) || WEXITSTATUS(status) > 2) {
        for (char **word = words; *word != NULL; word++) fprintf(stderr, "%s ", *word);
        die("is ended otherwise than with 0, 1 or 2, by input that is kept in", "said");
    }
    if (WEXITSTATUS(status) != 0) refused++;
    return WEXITSTATUS(status);
}

/* A command that changes `sheet`: refused, it has changed nothing, and done, what it left opens. */
static void run_on_sheet(char *client, char **words, const char *input) {
    static uint8_t before[LONGEST], after[LONGEST];
    char *info[] = {client, "info", "sheet", NULL};
    const size_t length = read_whole("sheet", before);
    const int status = run(words, input);
    const size_t now = read_whole("sheet", after);
    if (status != 0 && (now != length || memcmp(before, after, length) != 0)) die("a sheet was changed by a refused", words[1]);
    if (status == 0 && run(info, "/dev/null") != 0) die("a sheet does not open after", words[1]);
}

/* A journal whose lines are corrections of the map, more or less. */
static size_t journal(uint8_t *text, const char *start, int is_whole) {
    size_t length = (size_t)sprintf((char *)text, "%s", start);
    for (int line = 0; line < LINES; line++, lines++) {
        char one[512];
        int at = sprintf(one, "2026-11-16T15:%02u:%02uZ desk line %u %u before", below(60), below(60), below(is_whole ? 3952 : 70000), below(4));
        for (int i = 0; i < NUMBERS; i++) at += sprintf(one + at, " %u", below(10) == 0 ? below(300) : below(16));
        at += sprintf(one + at, " after");
        for (int i = 0; i < NUMBERS; i++) at += sprintf(one + at, " %u", below(16));
        at += sprintf(one + at, "\n");
        if (!is_whole || line % 3 == 0) at = (int)damaged((uint8_t *)one, (size_t)at, (int)below(3));
        memcpy(text + length, one, (size_t)at);
        length += (size_t)at;
    }
    return length;
}

int main(int count, char **words) {
    static uint8_t bytes[LONGEST];
    if (count != 5 || chdir(words[2]) != 0) die("damage CLIENT FOLDER RUNS SEED:", "these are wanted");
    char *const client = words[1];
    const int runs = atoi(words[3]);
    char start[200] = "", number[4][16];
    char *set[] = {client, "set", "sheet", "0", "0", "0", "0", "--journal", "first", NULL};
    size_t length = read_whole("map.sheet", bytes);
    write_whole("sheet", bytes, length);
    unlink("first");
    if (run(set, "/dev/null") != 0) die("the first correction fails:", "set");
    FILE *file = fopen("first", "r");
    if (file == NULL || fgets(start, sizeof start, file) == NULL) die("can't be read:", "first");
    fclose(file);
    for (int turn = 0; turn < runs; turn++) {
        state = (uint64_t)atoi(words[4]) * 1000 + (uint64_t)turn;
        /* the million lines: a journal each turn */
        length = read_whole("map.sheet", bytes);
        write_whole("sheet", bytes, length);
        length = journal(bytes, start, turn % 2);
        write_whole("journal", bytes, turn % 4 == 0 ? damaged(bytes, length, 5) : length);
        char *apply[] = {client, "apply", "sheet", "journal", NULL}, *merge[] = {client, "merge", "sheet", "first", "journal", "--later", "B", NULL};
        char *audit[] = {client, "audit", "map.sheet", "sheet", "journal", NULL}, *undo[] = {client, "undo", "sheet", "journal", "3", NULL};
        char **const on_journal[] = {apply, merge, audit, undo};
        run_on_sheet(client, on_journal[turn % 4], "/dev/null");
        /* a file that is damaged, in the place of a sheet or a DDS file */
        char *const names[] = {"map.sheet", "map.tiles", "map.dds"};
        length = read_whole(names[turn % 3], bytes);
        if (below(2) == 0) length = 5 + below(200); /* short, so that more of it is head */
        write_whole("damaged", bytes, damaged(bytes, length, 1 + (int)below(6)));
        char *at[] = {client, "at", "damaged", "5", "1", NULL}, *line[] = {client, "line", "damaged", "3", "0", NULL};
        char *import[] = {client, "import", "damaged", "made", "--tiles", NULL}, *export[] = {client, "export", "damaged", "made", "srgb", NULL};
        char *picture[] = {client, "picture", "damaged", "made.pam", "--region", "0", "0", "9", "9", NULL};
        char *tiles[] = {client, "tiles", "damaged", "made", NULL}, *rows[] = {client, "rows", "damaged", "made", NULL};
        char *diff[] = {client, "diff", "map.sheet", "damaged", NULL}, *info[] = {client, "info", "-", NULL};
        char **const on_file[] = {at, line, import, export, picture, tiles, rows, diff, info};
        run(on_file[below(9)], "damaged");
        run(turn % 3 == 2 ? import : on_file[below(2)], "damaged");
        /* a line in words, with numbers that may be anything */
        length = (size_t)sprintf((char *)bytes, "first 0 1 2 3 second 4 5 6 7 p 0 1 index 0 1 2 3 0 1 2 3 0 1 2 3 0 1 2 3 # and a remark\n");
        write_whole("words", bytes, damaged(bytes, length, (int)below(4)));
        for (int i = 0; i < 4; i++) snprintf(number[i], sizeof number[i], "%u", below(3) == 0 ? below(UINT32_MAX) : below(i == 0 ? 3952 : 3));
        char *replace[] = {client, "replace", "sheet", number[0], number[1], NULL};
        char *set_any[] = {client, "set", "sheet", number[0], number[1], number[2], number[3], "--journal", "other", NULL};
        length = read_whole("map.tiles", bytes);
        write_whole("sheet", bytes, length);
        unlink("other");
        run_on_sheet(client, replace, "words");
        run_on_sheet(client, set_any, "/dev/null");
    }
    printf("%u commands on damaged input, %u of them refused; %u lines of journals\n", commands, refused, lines);
    return 0;
}
