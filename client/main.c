/* rinchovek: a link map brought in from a DDS file, looked at, corrected and brought out again. `rinchovek --help` says by which commands. */
#include "client.h"

#include <stdio.h>
#include <string.h>

const char *const colour_spaces[] = {"unspecified", "linear", "srgb"};

/* Of its arguments r is a file that is read, w one that is written, x one that is corrected, n any number, b a number from 0 to 255, u a colour
 * space or unspecified. Of what may be left out R is a file that is read, d any number, and c a colour space. Its options stand by their letters. */
static const struct command {
    const char *name, *arguments, *kinds, *options, *does;
    int (*run)(struct given);
} commands[] = {
    {"import", "DDS SHEET [--tiles]", "rw", "to", "makes a sheet of a DDS file, with --tiles one of form 2 that states the file's colour space; prints that",
     import_dds},
    {"export", "SHEET DDS [linear|srgb]", "rwc", "o", "makes a DDS file of a sheet; the colour space has to be said where the sheet states none", export_dds},
    {"tiles", "SHEET OUT", "rw", "o", "moves a sheet of form 1 to form 2: the same map, its blocks stored in tiles", move_to_tiles},
    {"rows", "SHEET OUT", "rw", "o", "moves a sheet of form 2 to form 1, its blocks row by row; refused where it states a colour space", move_to_rows},
    {"colour", "SHEET linear|srgb|unspecified", "xu", "o", "states the colour space of a sheet of form 2, or takes it back; prints it, and what it was",
     state_colour},
    {"picture", "SHEET FILE.png|FILE.pam [--mask GREY|none] [--grid] [--region X Y WIDTH HEIGHT] [--scale N]", "rw", "mgrso",
     "draws a sheet", draw_picture},
    {"info", "SHEET", "r", "", "prints size, form, colour space, how many blocks there are, and how many of each mode", show_info},
    {"counts", "SHEET", "r", "", "prints how many blocks have each mode, how many are reserved, and how many are opaque", show_counts},
    {"at", "SHEET X Y", "rnn", "", "prints what stands at a pixel: block, number in it, mode, the lines that draw it, colour", show_place},
    {"block", "SHEET BLOCK", "rn", "", "prints a block: where it stands, mode, lines, bytes, and what its pixels show", show_block},
    {"diff", "OLD NEW [--picture FILE.png|FILE.pam]", "rr", "pmgrso",
     "lists the blocks, lines and pixels in which two sheets differ; ends with 1 where they do", show_difference},
    {"line", "SHEET BLOCK LINE", "rnn", "", "prints a line of a block", show_line},
    {"nearest", "SHEET BLOCK LINE PIXEL RED GREEN BLUE ALPHA", "rnnnbbbb", "", "prints the index nearest to a colour, and what it draws",
     show_nearest},
    {"set", "SHEET BLOCK LINE PIXEL INDEX [--journal FILE [--by NAME]]", "xnnnb", "ojb",
     "puts an index to a pixel; prints whether the pair was turned, and the pixel", set_index},
    {"replace", "SHEET BLOCK LINE [--journal FILE [--by NAME]]", "xnn", "ojb", "replaces a line by the one on standard input, as `line` prints it",
     replace_line},
    {"apply", "SHEET JOURNAL", "xr", "ojb", "makes the corrections of a journal that the sheet hasn't yet", apply_journal},
    {"undo", "SHEET JOURNAL [N]", "xrd", "ob", "takes the last correction of a journal back, or the last N, as corrections of their own", undo_corrections},
    {"merge", "SHEET A B [--later A|B]", "xrr", "lojb", "makes the corrections of two journals from one sheet; where both name one line, --later decides",
     merge_journals},
    {"audit", "OLD NEW [JOURNAL]", "rrR", "", "lists each pixel of NEW that is neither OLD's nor what the journal says; ends with 1 where there is one",
     audit_sheet},
};
enum { COMMANDS = sizeof commands / sizeof commands[0] };

static void print_help(void) {
    for (int i = 0; i < COMMANDS; i++)
        printf("%s rinchovek %s %s\n%14s%s\n", i == 0 ? "usage:" : "      ", commands[i].name, commands[i].arguments, "", commands[i].does);
    printf("       rinchovek --help, --version\n"
           "\n"
           "Blocks count from 0, row by row; lines from 0; pixels from 0 to 15, row by row within their block. Numbers have digits alone.\n"
           "\n"
           "A sheet stores its blocks row by row (form 1) or in tiles of 8 by 8 (form 2), where neighbours stand closer together. A block has\n"
           "the same number in both, and every command takes either, but for three: `tiles` takes form 1, `rows` and `colour` form 2.\n"
           "\n"
           "A line in words:\n"
           "    first    0   0   0   0  # the first endpoint: red, green, blue, alpha as stored\n"
           "    second 127   0   0   0  # the second\n"
           "    p        0   0          # their p bits\n"
           "    index    7   0   0   0  # the indexes of the pixels 0 to 3\n"
           "             0   0   0   0  # 4 to 7\n"
           "             0   0   0   0  # 8 to 11\n"
           "             0   0   0   0  # 12 to 15\n"
           "A dot in place of a number is what the line hasn't got, as pixels of another line. Behind # stands a remark: `line` prints how many\n"
           "bits each number has. Spaces and newlines part the words, as many as you like.\n"
           "\n"
           "- is standard input where a file is read, and standard output where one is written; what is corrected has to be a file.\n"
           "\n"
           "A file is changed whole or not at all. Where two commands change one file at the same time, one waits for the other: beside the file\n"
           "stands NAME.lock, which is empty and may stay. What a kill leaves, NAME.unfinished, the next command takes away. The file keeps its\n"
           "owner, its group and its permissions; where its owner can't be kept the command fails, unless --own says that it may become yours.\n"
           "\n"
           "A journal is text: its first line names the sheet that it starts from, each other one is a correction, with time and --by. It is on the disk\n"
           "before the sheet is, so after a kill it may be ahead of it, and `apply` makes that good.\n"
           "\n"
           "A picture is red, green, blue and alpha as drawn in PAM; in PNG what is masked lies over a grey of 128. --mask GREY puts it over another\n"
           "in both, and --mask none leaves alpha there. --grid shows the edges of the blocks, --region a part, --scale each pixel N by N times.\n"
           "\n"
           "Exit status: 0 done; 1 refused, with the number of the refusal (docs/REFUSALS.md), or `diff`, `audit` or `merge` found what it\n"
           "lists; 2 a file can't be read or written, or the command is wrong.\n");
}

DOES_NOT_RETURN static void fail_by_usage(const struct command *command) {
    if (command != NULL) fprintf(stderr, "usage: rinchovek %s %s\n", command->name, command->arguments);
    else fputs("usage: rinchovek COMMAND .., where `rinchovek --help` says which there are\n", stderr);
    stop(FAILED);
}

static void take_number(const struct command *command, const char *word, uint32_t least, uint32_t most, uint32_t *number) {
    if (is_number(word, most, number) && *number >= least) return;
    fprintf(stderr, "rinchovek: \"%s\" is no number from %u to %u\n", word, least, most);
    fail_by_usage(command);
}

static void take_colour_space(const struct command *command, const char *word, uint32_t least, uint32_t *colour_space) {
    *colour_space = least;
    while (strcmp(word, colour_spaces[*colour_space]) != 0)
        if (++*colour_space > RINCHOVEK_SRGB) fail_by_usage(command);
}

/* The options, each by the letter that stands among a command's options where it takes it, and how many words follow. */
static const struct option {
    char letter;
    const char *word;
    int follow;
} options[] = {{'t', "--tiles", 0},  {'o', "--own", 0},   {'m', "--mask", 1},   {'g', "--grid", 0},
               {'r', "--region", 4}, {'s', "--scale", 1}, {'p', "--picture", 1}, {'j', "--journal", 1},
               {'b', "--by", 1},     {'l', "--later", 1}};
enum { OPTIONS = sizeof options / sizeof options[0], LARGEST_SCALE = 64 };

static void take_option(const struct command *command, char letter, char **words, struct given *given) {
    switch (letter) {
    case 't': given->to_tiles = 1; break;
    case 'o': given->may_own = 1; break;
    case 'm':
        given->has_mask = 1;
        if (strcmp(words[0], "none") == 0) given->mask = UINT32_MAX;
        else take_number(command, words[0], 0, UINT8_MAX, &given->mask);
        break;
    case 'g': given->has_grid = 1; break;
    case 'r':
        given->has_region = 1;
        for (int i = 0; i < 4; i++) take_number(command, words[i], 0, UINT32_MAX, &given->region[i]);
        break;
    case 's': take_number(command, words[0], 1, LARGEST_SCALE, &given->scale); break;
    case 'p': given->picture = words[0]; break;
    case 'j': given->journal = words[0]; break;
    case 'b': given->by = words[0]; break;
    case 'l':
        if (strcmp(words[0], "A") != 0 && strcmp(words[0], "B") != 0) fail_by_usage(command);
        given->later = words[0][0] == 'A' ? 0 : 1;
        break;
    }
}

/* How many words of these an option takes: none where the first isn't one. */
static int taken_by_option(const struct command *command, int count, char **words, struct given *given) {
    if (strncmp(words[0], "--", 2) != 0) return 0;
    const struct option *option = options;
    while (option < options + OPTIONS && strcmp(words[0], option->word) != 0) option++;
    if (option == options + OPTIONS || strchr(command->options, option->letter) == NULL) {
        fprintf(stderr, "rinchovek: %s has no option %s\n", command->name, words[0]);
        fail_by_usage(command);
    }
    if (count <= option->follow) fail_by_usage(command);
    take_option(command, option->letter, words + 1, given);
    return 1 + option->follow;
}

/* What is read must be another file than what is made of it. */
static void check_names(const struct command *command, const struct given *given) {
    const int reads = (int)strspn(command->kinds, "r");
    for (int i = 0; i < reads; i++) {
        if (command->kinds[reads] == 'w') refuse_same(given->file[i], given->file[reads]);
        if (given->picture != NULL) refuse_same(given->file[i], given->picture);
    }
}

/* Takes the words by the kinds that the command wants. */
static struct given take(const struct command *command, int count, char **words) {
    struct given given = {.scale = 1, .later = NO_DESK};
    const char *kind = command->kinds;
    int files = 0, numbers = 0;
    for (int taken = 0; taken < count;) {
        const int by_option = taken_by_option(command, count - taken, words + taken, &given);
        taken += by_option;
        if (by_option > 0) continue;
        const char *word = words[taken++];
        uint32_t *number = given.number + numbers;
        switch (*kind++) {
        case 'r':
        case 'R':
        case 'w':
        case 'x': given.file[files++] = word; continue;
        case 'n': take_number(command, word, 0, UINT32_MAX, number); break;
        case 'b': take_number(command, word, 0, UINT8_MAX, number); break;
        case 'd':
            take_number(command, word, 0, UINT32_MAX, number);
            given.has_number = 1;
            break;
        case 'u': take_colour_space(command, word, RINCHOVEK_UNSPECIFIED, number); break;
        case 'c':
            take_colour_space(command, word, RINCHOVEK_LINEAR, number);
            given.has_colour_space = 1;
            break;
        default: fail_by_usage(command);
        }
        numbers++;
    }
    if (strchr("Rdc", *kind) == NULL) fail_by_usage(command); /* which finds the end of the kinds too */
    if (given.by != NULL && given.journal == NULL && strchr(command->options, 'j') != NULL) fail_by_usage(command); /* nothing is written down */
    check_names(command, &given);
    return given;
}

int main(int count, char **words) {
    const uint32_t version = rinchovek_version();
    if (version / 10000 != RINCHOVEK_VERSION_MAJOR || version < RINCHOVEK_VERSION) fail("the archive", "is not of this program's version");
    const char *wanted = count > 1 ? words[1] : "";
    if (count == 2 && strcmp(wanted, "--help") == 0) {
        print_help();
        finish(DONE);
    }
    if (count == 2 && strcmp(wanted, "--version") == 0) {
        printf("rinchovek %u.%u.%u\n", version / 10000, version / 100 % 100, version % 100);
        finish(DONE);
    }
    const struct command *command = commands;
    while (command < commands + COMMANDS && strcmp(wanted, command->name) != 0) command++;
    if (command == commands + COMMANDS) fail_by_usage(NULL);
    finish(command->run(take(command, count - 2, words + 2)));
}
