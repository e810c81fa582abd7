/* Sheets of either form as a filter, for those that replay has no room for: one sheet on standard input; on standard output, by the word
 * that is given, the sheet moved to form 2 (tiles), moved back (rows), or its picture (show), row of blocks by row of blocks. Status 1
 * where a call refuses, 2 where the words are others, or reading or writing fails. The kit has no C headers: what is needed of them is
 * declared here. */
#include "rinchovek.h"

long read(int file, void *to, unsigned long count);
long write(int file, const void *from, unsigned long count);

#define MOST (1 << 22)

static uint8_t sheet[MOST];
static uint8_t out[MOST];

static int put(size_t count) {
    for (size_t done = 0; done < count;) {
        const long more = write(1, out + done, count - done);
        if (more < 0) return 2;
        done += (size_t)more;
    }
    return 0;
}

static int show(size_t length) {
    uint32_t numbers[8];
    if (rinchovek_sheet_open(sheet, length, numbers) != RINCHOVEK_ACCEPTED) return 1;
    for (uint32_t row = 0; row < numbers[6]; row++) {
        const uint32_t left = numbers[1] - 4 * row;
        const size_t count = (size_t)4 * numbers[0] * (left < 4 ? left : 4);
        if (rinchovek_sheet_show_row(sheet, length, row, out, count) != RINCHOVEK_ACCEPTED) return 1;
        if (put(count)) return 2;
    }
    return 0;
}

int main(int count, char **words) {
    size_t length = 0;
    for (;;) {
        const long got = read(0, sheet + length, MOST - length);
        if (got < 0) return 2;
        if (got == 0) break;
        length += (size_t)got;
    }
    if (count != 2) return 2;
    switch (words[1][0]) {
    case 't':
        return rinchovek_sheet_to_tiles(sheet, length, out, length + 1) == RINCHOVEK_ACCEPTED ? put(length + 1) : 1;
    case 'r':
        return rinchovek_sheet_to_rows(sheet, length, out, length - 1) == RINCHOVEK_ACCEPTED ? put(length - 1) : 1;
    case 's':
        return show(length);
    }
    return 2;
}
