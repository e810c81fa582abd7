/* Numbers, and lines of blocks, as text. */
#include "client.h"

#include <stdio.h>
#include <string.h>

int is_number(const char *word, uint32_t most, uint32_t *number) {
    uint64_t value = 0;
    for (const char *digit = word; *digit != '\0'; digit++) {
        if (*digit < '0' || *digit > '9' || (*word == '0' && digit > word)) return 0;
        value = 10 * value + (uint64_t)(*digit - '0');
        if (value > most) return 0;
    }
    *number = (uint32_t)value;
    return *word != '\0';
}

/* The parts of a line in the order of its bytes, and how many bytes each has. */
static const struct part {
    const char *label;
    int count;
} parts[] = {{"first", 4}, {"second", 4}, {"p", 2}, {"index", RINCHOVEK_BLOCK_PIXELS}};

void print_line(const uint8_t held[RINCHOVEK_LINE_BYTES], const uint8_t widths[RINCHOVEK_LINE_BYTES]) {
    int at = 0;
    for (const struct part *part = parts; at < RINCHOVEK_LINE_BYTES; part++)
        for (int i = 0; i < part->count; i++, at++) {
            if (i % 4 == 0) printf("%-6s", i == 0 ? part->label : "");
            if (widths[at] != 0) printf(" %3u", held[at]);
            else printf("   .");
            if (i % 4 != 3 && i + 1 < part->count) continue;
            printf("%*s# bits", 4 * (3 - i % 4) + 2, "");
            for (int bits = at - i % 4; bits <= at; bits++) printf(" %u", widths[bits]);
            printf("\n");
        }
}

static unsigned long newlines; /* of standard input, so far */

static int is_between_words(int letter) { return letter == ' ' || letter == '\t' || letter == '\r' || letter == '\n' || letter == '#'; }

/* The next word of standard input, cut to what fits, and empty at the end. */
static void next_word(char *word, size_t size) {
    size_t length = 0;
    int letter = getchar();
    for (int remark = 0; letter != EOF && (remark || is_between_words(letter)); letter = getchar()) {
        remark = letter == '#' || (remark && letter != '\n');
        newlines += letter == '\n';
    }
    for (; letter != EOF && !is_between_words(letter); letter = getchar())
        if (length + 1 < size) word[length++] = (char)(letter != '\0' ? letter : '?'); /* so that no word ends early */
    if (letter != EOF) ungetc(letter, stdin);
    word[length] = '\0';
    if (ferror(stdin)) fail_by_system("standard input", "can't be read");
}

static void fail_by_text(unsigned long line, const char *wanted) {
    fprintf(stderr, "rinchovek: standard input:%lu: %s is wanted here\n", line, wanted);
    stop(FAILED);
}

static const char byte_wanted[] = "a number from 0 to 255";

struct line_in_words read_line(void) {
    struct line_in_words line;
    char word[16];
    int at = 0;
    memset(&line, 0, sizeof line);
    for (const struct part *part = parts; at < RINCHOVEK_LINE_BYTES; part++) {
        next_word(word, sizeof word);
        if (strcmp(word, part->label) != 0) fail_by_text(newlines + 1, part->label);
        for (int i = 0; i < part->count; i++, at++) {
            uint32_t value = 0;
            next_word(word, sizeof word);
            if (strcmp(word, ".") == 0) line.dots[at] = newlines + 1;
            else if (!is_number(word, UINT8_MAX, &value)) fail_by_text(newlines + 1, byte_wanted);
            line.numbers[at] = (uint8_t)value;
        }
    }
    next_word(word, sizeof word);
    if (*word != '\0') fail_by_text(newlines + 1, "the end");
    return line;
}

void check_dots(const struct line_in_words *line, const uint8_t widths[RINCHOVEK_LINE_BYTES]) {
    for (int at = 0; at < RINCHOVEK_LINE_BYTES; at++)
        if (line->dots[at] != 0 && widths[at] != 0) fail_by_text(line->dots[at], byte_wanted);
}
