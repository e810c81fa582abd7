/* two_writers CLIENT SHEET COUNT SEED KILLS [JOURNAL]: two writers make COUNT corrections of one sheet at the same time, each by its own command
 * `CLIENT set SHEET ..`, and a reader looks at it all the while. Of 100 commands KILLS are killed after a moment, and made again. With a journal
 * a kill may leave that ahead of the sheet, so that a correction is refused: then `CLIENT apply` makes it good. The sheet is written
 * here first, and a copy SHEET.base: a block for each correction, all of them the README's block C. Exit status 0 where every correction is
 * there at the end, nothing else has changed, and the reader was never refused; with a journal, where `CLIENT audit` finds nothing. */
#define _XOPEN_SOURCE 700
#include <fcntl.h>
#include <signal.h>
#include <stdint.h>
#include <stdio.h>
#include <stdlib.h>
#include <string.h>
#include <sys/wait.h>
#include <time.h>
#include <unistd.h>

enum { COLUMNS = 40, BLOCK = 16, HEAD = 5, CHANGED = 8 /* the byte of a block that has the index of pixel 1 in its high bits */ };
static const uint8_t block_c[BLOCK] = {0x40, 0xC0, 0x1F, 0, 0, 0, 0, 0, 0x0E};

static int index_of(int correction) { return 1 + correction % 15; }

static void die(const char *what) {
    fprintf(stderr, "two_writers: %s\n", what);
    exit(1);
}

/* Starts the words as a command that prints nothing, and answers its process. */
static pid_t started(char **words) {
    const pid_t child = fork();
    if (child != 0) return child;
    const int nothing = open("/dev/null", O_RDWR);
    dup2(nothing, 0);
    dup2(nothing, 1);
    execv(words[0], words);
    _exit(127);
}

static int ended(pid_t child) {
    int status = 0;
    if (waitpid(child, &status, 0) != child) die("a command got lost");
    return status;
}

static void write_corrections(int writer, int count, unsigned seed, int kills, char **words, char **apply) {
    char block[16], index[16];
    words[3] = block;
    words[6] = index;
    srand(seed + (unsigned)writer);
    for (int correction = writer; correction < count; correction += 2) {
        snprintf(block, sizeof block, "%d", correction);
        snprintf(index, sizeof index, "%d", index_of(correction));
        const pid_t child = started(words);
        if (rand() % 100 < kills) {
            const struct timespec moment = {0, rand() % (rand() % 2 == 0 ? 1000000 : 4000000)};
            nanosleep(&moment, NULL);
            kill(child, SIGKILL);
        }
        const int status = ended(child);
        const int is_refused = WIFEXITED(status) && WEXITSTATUS(status) == 1 && apply != NULL;
        if (is_refused && ended(started(apply)) != 0) die("a journal can't be applied");
        if (is_refused || (WIFSIGNALED(status) && WTERMSIG(status) == SIGKILL)) correction -= 2; /* once more */
        else if (!WIFEXITED(status) || WEXITSTATUS(status) != 0) die("a correction was refused");
    }
    exit(0);
}

static void write_whole(const char *name, const uint8_t *bytes, size_t length) {
    FILE *file = fopen(name, "wb");
    if (file == NULL || fwrite(bytes, 1, length, file) != length || fclose(file) != 0) die("the sheet can't be written");
}

int main(int count_of_words, char **words) {
    if (count_of_words < 6 || count_of_words > 7) die("CLIENT SHEET COUNT SEED KILLS [JOURNAL]");
    char *const client = words[1], *const sheet = words[2], *const journal = words[6]; /* or NULL */
    const int count = atoi(words[3]), kills = atoi(words[5]);
    const unsigned seed = (unsigned)atoi(words[4]);
    if (count % COLUMNS != 0 || count / COLUMNS > 31) die("the count is no multiple of 40 up to 1240");
    const int length = HEAD - 1 + BLOCK * count; /* form 1, a width of two groups, a height of one */
    uint8_t *wanted = calloc((size_t)length, 1);
    const int width = 4 * COLUMNS, height = 4 * (count / COLUMNS);
    const uint8_t head[] = {1, (uint8_t)(width % 128 + 128), (uint8_t)(width / 128), (uint8_t)height};
    memcpy(wanted, head, sizeof head);
    for (int i = 0; i < count; i++) memcpy(wanted + sizeof head + BLOCK * i, block_c, BLOCK);
    char base[4096];
    snprintf(base, sizeof base, "%s.base", sheet);
    write_whole(sheet, wanted, (size_t)length);
    write_whole(base, wanted, (size_t)length);
    for (int i = 0; i < count; i++) wanted[(int)sizeof head + BLOCK * i + CHANGED] |= (uint8_t)(index_of(i) << 4);

    char *set[] = {client, "set", sheet, NULL, "0", "1", NULL, journal != NULL ? "--journal" : NULL, journal, NULL};
    char *apply[] = {client, "apply", sheet, journal, NULL}, *audit[] = {client, "audit", base, sheet, journal, NULL};
    pid_t writers[2];
    for (int writer = 0; writer < 2; writer++)
        if ((writers[writer] = fork()) == 0) write_corrections(writer, count, seed, kills, set, journal != NULL ? apply : NULL);
    int running = 2, reads = 0, wrong = 0;
    char *look[] = {client, "line", sheet, "0", "0", NULL};
    while (running > 0) {
        const int status = ended(started(look));
        reads++;
        if (!WIFEXITED(status) || WEXITSTATUS(status) != 0) wrong = 1;
        for (int writer = 0; writer < 2; writer++) {
            int ending = 0;
            if (writers[writer] <= 0 || waitpid(writers[writer], &ending, WNOHANG) != writers[writer]) continue;
            writers[writer] = 0;
            running--;
            if (!WIFEXITED(ending) || WEXITSTATUS(ending) != 0) wrong = 1;
        }
    }
    uint8_t *found = calloc((size_t)length + 1, 1);
    FILE *file = fopen(sheet, "rb");
    if (file == NULL || fread(found, 1, (size_t)length + 1, file) != (size_t)length) die("the sheet has another length");
    int lost = 0;
    for (int i = 0; i < count; i++) lost += memcmp(wanted + sizeof head + BLOCK * i, found + sizeof head + BLOCK * i, BLOCK) != 0;
    if (lost > 0 || memcmp(wanted, found, sizeof head) != 0) wrong = 1;
    printf("%d corrections by two writers, %d lost; %d readings\n", count, lost, reads);
    if (journal != NULL && ended(started(audit)) != 0) wrong = 1;
    free(wanted);
    free(found);
    return wrong;
}
