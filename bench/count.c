/* Counts the instructions of the Rust's functions and of the archive's, and prints them as tables.
 *
 * The processor's trap flag makes it stop after every instruction, and the system answers each stop with SIGTRAP; the
 * handler counts. So the count is exact, needs no counter of the processor and no right to trace, and qemu's user mode
 * gives the same one. What the loop around the measured calls costs is counted with an empty function and taken off. */

typedef unsigned char u8;
typedef unsigned int u32;
typedef unsigned long u64;

typedef void decode_block(const u8 *block, u8 *pixels);
typedef u32 decode_row(u32 width, u32 height, u32 row, const u8 *blocks, u64 blocks_length, u8 *out, u64 out_length);

decode_block rust_decode_block, rinchovek_bc7_decode_block;
decode_row rust_decode_row, rinchovek_sheet_decode_row;

/* ---- what compilers may call, where there is no C library; byte by byte, so a side that leans on it shows */

void *memcpy(void *to, const void *from, u64 count) {
    u8 *t = to;
    const u8 *f = from;
    while (count--) *t++ = *f++;
    return to;
}

void *memmove(void *to, const void *from, u64 count) {
    u8 *t = to;
    const u8 *f = from;
    if (t < f) return memcpy(to, from, count);
    while (count--) t[count] = f[count];
    return to;
}

void *memset(void *to, int value, u64 count) {
    u8 *t = to;
    while (count--) *t++ = (u8)value;
    return to;
}

int memcmp(const void *left, const void *right, u64 count) {
    const u8 *l = left, *r = right;
    for (; count--; l++, r++)
        if (*l != *r) return *l < *r ? -1 : 1;
    return 0;
}

/* ---- the system */

enum { WRITE = 1, SET_SIGNAL_ACTION = 13, EXIT = 231 };
enum { SIGTRAP = 5, HAS_RETURN = 0x04000000 };

static long system_call(long number, long a, long b, long c, long d) {
    register long fourth __asm__("r10") = d;
    long answer;
    __asm__ volatile("syscall"
                     : "=a"(answer)
                     : "a"(number), "D"(a), "S"(b), "d"(c), "r"(fourth)
                     : "rcx", "r11", "memory");
    return answer;
}

static void say(const char *text) {
    u64 length = 0;
    while (text[length]) length++;
    system_call(WRITE, 1, (long)text, (long)length, 0);
}

static _Noreturn void leave(int status) {
    for (;;) system_call(EXIT, status, 0, 0, 0);
}

static char *digits(char *end, u64 number) {
    do *--end = (char)('0' + number % 10);
    while (number /= 10);
    return end;
}

/* right-aligned, as the columns of a table are */
static void say_right(const char *text, int width) {
    int length = 0;
    while (text[length]) length++;
    for (; length < width; length++) say(" ");
    say(text);
}

static void say_number(u64 number, int width) {
    char text[24];
    text[23] = 0;
    say_right(digits(text + 23, number), width);
}

static void say_left(const char *text, int width) {
    int length = 0;
    say(text);
    while (text[length]) length++;
    for (; length < width; length++) say(" ");
}

static void say_ratio(u64 part, u64 whole, int width) {
    u64 hundredths = (200 * part + whole) / (2 * whole);
    char text[24];
    char *end = text + 23;
    *end = 0;
    *--end = (char)('0' + hundredths % 10);
    *--end = (char)('0' + hundredths / 10 % 10);
    *--end = '.';
    say_right(digits(end, hundredths / 100), width);
}

/* ---- counting */

static volatile u64 steps;

static void count_step(int signal) {
    (void)signal;
    steps++;
}

/* the system's own form of an action: the C library's differs */
struct signal_action {
    void (*handler)(int);
    u64 flags;
    void (*return_from_signal)(void);
    u64 blocked;
};

void return_from_signal(void);
__asm__("return_from_signal: mov $15, %eax\n syscall\n");

static void prepare_counting(void) {
    struct signal_action action = {count_step, HAS_RETURN, return_from_signal, 0};
    if (system_call(SET_SIGNAL_ACTION, SIGTRAP, (long)&action, 0, 8)) {
        say("count: the system refuses a handler for SIGTRAP\n");
        leave(2);
    }
}

static inline __attribute__((always_inline)) void start_counting(void) {
    steps = 0;
    __asm__ volatile("pushf\n orq $0x100, (%%rsp)\n popf" ::: "memory", "cc");
}

static inline __attribute__((always_inline)) u64 stop_counting(void) {
    __asm__ volatile("pushf\n andq $~0x100, (%%rsp)\n popf" ::: "memory", "cc");
    return steps;
}

static __attribute__((noinline)) void no_block(const u8 *block, u8 *pixels) {
    __asm__ volatile("" ::"r"(block), "r"(pixels) : "memory");
}

static __attribute__((noinline)) u64 steps_of_blocks(decode_block *decode, u32 count, const u8 *blocks, u8 *out) {
    start_counting();
    for (u32 i = 0; i < count; i++) decode(blocks + 16 * i, out + 64 * i);
    return stop_counting();
}

static u64 block_cost(decode_block *decode, u32 count, const u8 *blocks, u8 *out) {
    return steps_of_blocks(decode, count, blocks, out) - steps_of_blocks(no_block, count, blocks, out);
}

/* ---- blocks: always the same ones */

enum { MODES = 9, MIXED = 9, COLUMNS = 10 };
static const char *const column_names[COLUMNS] = {"0", "1", "2", "3", "4", "5", "6", "7", "8", "mixed"};

/* Marsaglia's xorshift64* with the seed of his paper */
static const u64 seed = 88172645463325252;
static u64 random_state;

static u64 random_number(void) {
    random_state ^= random_state << 13;
    random_state ^= random_state >> 7;
    random_state ^= random_state << 17;
    return random_state * 0x2545F4914F6CDD1D;
}

/* random bits below the marker of the mode: as many zeros as its number, then a one */
static void make_block(u8 *block, int mode) {
    for (int half = 0; half < 2; half++) {
        u64 bits = random_number();
        for (int i = 0; i < 8; i++) block[8 * half + i] = (u8)(bits >> 8 * i);
    }
    block[0] = mode == 8 ? 0 : (u8)(block[0] << (mode + 1) | 1 << mode);
}

/* mixed: each of the modes 0 to 7 equally likely; encoders write no reserved blocks */
static void make_blocks(u8 *blocks, u32 count, int mode) {
    random_state = seed;
    for (u32 i = 0; i < count; i++) make_block(blocks + 16 * i, mode == MIXED ? (int)(random_number() % 8) : mode);
}

enum { MOST_BLOCKS = 1024, GUARD = 64 };
static u8 blocks[16 * MOST_BLOCKS], out[64 * MOST_BLOCKS + GUARD], expected[64 * MOST_BLOCKS + GUARD];

/* ---- blocks, compared and counted */

enum { COMPARED = 4000, COUNTED = 64 };

static void compare_blocks(void) {
    random_state = seed;
    for (int mode = 0; mode < MODES; mode++)
        for (int i = 0; i < COMPARED; i++) {
            make_block(blocks, mode);
            memset(out, 1, 64);
            memset(expected, 2, 64);
            rust_decode_block(blocks, expected);
            rinchovek_bc7_decode_block(blocks, out);
            if (memcmp(expected, out, 64)) {
                say("DIFFERENT pixels from a block of mode ");
                say_number((u64)mode, 0);
                say("\n");
                leave(1);
            }
        }
    say("equal to the Rust on ");
    say_number(COMPARED, 0);
    say(" blocks of each mode 0 to 8\n");
}

static void count_blocks(void) {
    static u64 rust[COLUMNS], here[COLUMNS];
    for (int mode = 0; mode < COLUMNS; mode++) {
        make_blocks(blocks, COUNTED, mode);
        rust[mode] = block_cost(rust_decode_block, COUNTED, blocks, out) / COUNTED;
        here[mode] = block_cost(rinchovek_bc7_decode_block, COUNTED, blocks, out) / COUNTED;
    }
    say("\nInstructions a block, over ");
    say_number(COUNTED, 0);
    say(" blocks\nmode ");
    for (int mode = 0; mode < COLUMNS; mode++) say_right(column_names[mode], 7);
    say("\nRust ");
    for (int mode = 0; mode < COLUMNS; mode++) say_number(rust[mode], 7);
    say("\nhere ");
    for (int mode = 0; mode < COLUMNS; mode++) say_number(here[mode], 7);
    say("\nratio");
    for (int mode = 0; mode < COLUMNS; mode++) say_ratio(here[mode], rust[mode], 7);
    say("\n");
}

/* ---- BC6H, compared and counted */

#ifdef BC6H

typedef unsigned short u16;
typedef void decode_halves(const u8 *block, u32 is_signed, u16 *halves);
decode_halves rust_decode_bc6h, rinchovek_bc6h_decode_block;

/* the modes with two subsets, those with one, and last a reserved one; mixed: each of the fourteen equally likely */
enum { HALVES = 48, FORMATS = 14, HALF_MIXED = 15, HALF_COLUMNS = 16 };
static const u8 half_modes[HALF_MIXED] = {0x00, 0x01, 0x02, 0x06, 0x0A, 0x0E, 0x12, 0x16, 0x1A, 0x1E, 0x03, 0x07, 0x0B, 0x0F, 0x13};
static const char *const half_names[HALF_COLUMNS] = {"00", "01", "02", "06", "0a", "0e", "12", "16",   "1a",
                                                     "1e", "03", "07", "0b", "0f", "reserved", "mixed"};
static u16 half_out[HALVES * COUNTED], half_expected[HALVES];

/* random bits above the mode's two or five */
static void make_half_block(u8 *block, int column) {
    make_block(block, 0);
    const u8 low = (u8)random_number(), mode = half_modes[column];
    block[0] = (u8)(mode < 2 ? (low & ~3) | mode : (low & ~31) | mode);
}

static void make_half_blocks(int column) {
    random_state = seed;
    for (u32 i = 0; i < COUNTED; i++) make_half_block(blocks + 16 * i, column == HALF_MIXED ? (int)(random_number() % FORMATS) : column);
}

static void compare_halves(void) {
    random_state = seed;
    for (int column = 0; column < HALF_MIXED; column++)
        for (int i = 0; i < COMPARED; i++)
            for (u32 is_signed = 0; is_signed < 2; is_signed++) {
                make_half_block(blocks, column);
                memset(half_out, 1, sizeof half_expected);
                memset(half_expected, 2, sizeof half_expected);
                rust_decode_bc6h(blocks, is_signed, half_expected);
                rinchovek_bc6h_decode_block(blocks, is_signed, half_out);
                if (memcmp(half_expected, half_out, sizeof half_expected)) {
                    say("DIFFERENT halves from a BC6H block of the mode ");
                    say(half_names[column]);
                    say(is_signed ? ", signed\n" : ", unsigned\n");
                    leave(1);
                }
            }
    say("\nequal to the Rust on ");
    say_number(COMPARED, 0);
    say(" BC6H blocks of each mode, in both signs\n");
}

static __attribute__((noinline)) void no_halves(const u8 *block, u32 is_signed, u16 *halves) {
    __asm__ volatile("" ::"r"(block), "r"(is_signed), "r"(halves) : "memory");
}

static __attribute__((noinline)) u64 steps_of_halves(decode_halves *decode, u32 is_signed) {
    start_counting();
    for (u32 i = 0; i < COUNTED; i++) decode(blocks + 16 * i, is_signed, half_out + HALVES * i);
    return stop_counting();
}

static u64 halves_cost(decode_halves *decode, u32 is_signed) {
    return (steps_of_halves(decode, is_signed) - steps_of_halves(no_halves, is_signed)) / COUNTED;
}

static void count_halves(void) {
    static u64 rust[2][HALF_COLUMNS], here[2][HALF_COLUMNS];
    for (int column = 0; column < HALF_COLUMNS; column++) {
        make_half_blocks(column);
        for (u32 is_signed = 0; is_signed < 2; is_signed++) {
            rust[is_signed][column] = halves_cost(rust_decode_bc6h, is_signed);
            here[is_signed][column] = halves_cost(rinchovek_bc6h_decode_block, is_signed);
        }
    }
    say("\nInstructions a BC6H block, over ");
    say_number(COUNTED, 0);
    say(" blocks of each mode, and of the fourteen mixed\n                     unsigned               signed\nmode        Rust  here  ratio   Rust  here  ratio\n");
    for (int column = 0; column < HALF_COLUMNS; column++) {
        say_left(half_names[column], 10);
        for (int is_signed = 0; is_signed < 2; is_signed++) {
            say_number(rust[is_signed][column], is_signed ? 7 : 6);
            say_number(here[is_signed][column], 6);
            say_ratio(here[is_signed][column], rust[is_signed][column], 7);
        }
        say("\n");
    }
}

#endif

/* ---- rows, compared and counted */

#ifdef ROWS

static u32 lines_of_row(u32 height, u32 row) { return height - 4 * row < 4 ? height - 4 * row : 4; }

static u32 blocks_of_row(u32 width) { return (width + 3) / 4; }

static void compare_row(u32 width, u32 height, u32 row) {
    u64 length = 4 * (u64)width * lines_of_row(height, row);
    memset(out, 7, length + GUARD);
    memset(expected, 7, length + GUARD);
    u32 refused = rust_decode_row(width, height, row, blocks, 16 * blocks_of_row(width), expected, length) |
                  rinchovek_sheet_decode_row(width, height, row, blocks, 16 * blocks_of_row(width), out, length);
    if (refused || memcmp(expected, out, length + GUARD)) {
        say(refused ? "REFUSED: row " : "DIFFERENT pixels: row ");
        say_number(row, 0);
        say(" of a picture of ");
        say_number(width, 0);
        say(" by ");
        say_number(height, 0);
        say("\n");
        leave(1);
    }
}

static void compare_rows(void) {
    make_blocks(blocks, MOST_BLOCKS, MIXED);
    for (u32 width = 1; width <= 68; width++)
        for (u32 height = 1; height <= 9; height++)
            for (u32 row = 0; 4 * row < height; row++) compare_row(width, height, row);
    for (u32 width = 4 * MOST_BLOCKS - 4; width <= 4 * MOST_BLOCKS; width++)
        for (u32 height = 4093; height <= 4096; height++) compare_row(width, height, 1023);
    say("\nequal to the Rust on every row of pictures of 1 to 68 by 1 to 9 and the last of 4092 to 4096 by 4093 to 4096\n");
}

static __attribute__((noinline)) u64 steps_of_row(decode_row *decode, u32 width, u32 height, u32 row) {
    u64 length = 4 * (u64)width * lines_of_row(height, row);
    start_counting();
    decode(width, height, row, blocks, 16 * blocks_of_row(width), out, length);
    return stop_counting();
}

static __attribute__((noinline)) u32 no_row(u32 width, u32 height, u32 row, const u8 *from, u64 from_length, u8 *to,
                                            u64 to_length) {
    __asm__ volatile("" ::"r"(from), "r"(to) : "memory");
    return width ^ height ^ row ^ (u32)from_length ^ (u32)to_length;
}

static u64 row_cost(decode_row *decode, u32 width, u32 height, u32 row) {
    return steps_of_row(decode, width, height, row) - steps_of_row(no_row, width, height, row);
}

static void say_row(const char *name, u32 width, u32 height, u32 row) {
    u32 count = blocks_of_row(width);
    u64 rust = row_cost(rust_decode_row, width, height, row);
    u64 here = row_cost(rinchovek_sheet_decode_row, width, height, row);
    u64 rust_alone = block_cost(rust_decode_block, count, blocks, out);
    u64 here_alone = block_cost(rinchovek_bc7_decode_block, count, blocks, out);
    say_left(name, 40);
    say_number(rust / count, 6);
    say_number(here / count, 6);
    say_ratio(here, rust, 7);
    say_number(rust_alone / count, 13);
    say_number(here_alone / count, 6);
    say_ratio(rust, rust_alone, 13);
    say_ratio(here, here_alone, 6);
    say("\n");
}

/* Rows of the same blocks over and over, so that the figures differ by what the row adds and by nothing else. */
static void count_growth(void) {
    enum { REPEATED = 16 };
    for (u32 i = REPEATED; i < MOST_BLOCKS; i++) memcpy(blocks + 16 * i, blocks + 16 * (i - REPEATED), 16);
    say("\nInstructions a block of rows that repeat 16 mixed blocks\n");
    say("blocks   Rust  here  ratio\n");
    for (u32 count = REPEATED; count <= MOST_BLOCKS; count *= 4) {
        u64 rust = row_cost(rust_decode_row, 4 * count, 4, 0);
        u64 here = row_cost(rinchovek_sheet_decode_row, 4 * count, 4, 0);
        say_number(count, 6);
        say_number(rust / count, 7);
        say_number(here / count, 6);
        say_ratio(here, rust, 7);
        say("\n");
    }
}

static void count_rows(void) {
    say("\nInstructions a block of a row of mixed blocks\n");
    say("                                                 the row       its blocks alone      row / blocks\n");
    say("                                          Rust  here  ratio         Rust  here         Rust  here\n");
    say_row("64 blocks, 256 by 4", 256, 4, 0);
    say_row("256 blocks, 1024 by 4", 1024, 4, 0);
    say_row("the last block cut, 254 by 4", 254, 4, 0);
    say_row("three lines left, 256 by 3", 256, 3, 0);
    say_row("one line left, 256 by 1", 256, 1, 0);
    say_row("the last row of 256 by 4096", 256, 4096, 1023);
}

#endif

/* ---- what takes apart, packs, reads and replaces, counted */

#ifdef WRITING

typedef u32 two_buffers(const u8 *from, u8 *to);
typedef u32 read_one(const u8 *block, u32 line, u8 *replacement, u8 *widths);
typedef u32 replace_one(u8 *block, u32 line, const u8 *replacement);
typedef u32 replace_in(u8 *sheet, u64 length, u32 block, u32 line, const u8 *replacement);
typedef u32 find_index(const u8 *block, u32 line, u32 pixel, const u8 *wanted, u32 *index);
typedef u32 tell_opaque(const u8 *block, u32 columns, u32 rows);
typedef u32 read_pixel(const u8 *block, u32 pixel, u8 *rgba);
typedef u32 read_head(const u8 *sheet, u64 length, u32 *head);
typedef u32 write_head(u32 width, u32 height, u8 *head, u32 *count);
typedef u32 version(void);
typedef u32 convert(const u8 *from, u64 length, u8 *to, u64 room);
typedef u32 convert_length(const u8 *from, u64 length, u32 *needed);
typedef u32 import_colour(const u8 *from, u64 length, u8 *to, u64 room, u32 *head);
typedef u32 export_colour(const u8 *from, u64 length, u32 colour_space, u8 *to, u64 room);
typedef u32 show_row(const u8 *all, u64 length, u32 row, u8 *to, u64 room);
typedef u32 block_of(const u8 *all, u64 length, u32 block, u8 *bytes);
typedef u32 state_colour(u8 *all, u64 length, u32 colour_space);
typedef u32 count_sheet(const u8 *sheet, u64 length, u32 *counts);
typedef u32 line_counted(u8 *sheet, u64 length, u32 *counts, u32 block, u32 line, const u8 *replacement);
typedef u32 block_counted(u8 *sheet, u64 length, u32 *counts, u32 block, const u8 *bytes);
typedef void pixel_floats(const u8 *pixel, float *floats);
typedef u32 float_channel(u32 bits, u32 *channel);
typedef u32 row_floats(const u8 *pixels, u64 length, float *floats, u64 count);

two_buffers rinchovek_bc7_unpack, rinchovek_bc7_pack;
read_one rinchovek_bc7_read_line;
replace_one rinchovek_bc7_replace_line;
/* weak: an older archive hasn't got them */
__attribute__((weak)) find_index rinchovek_bc7_nearest_index, rinchovek_bc7_exact_index;
__attribute__((weak)) tell_opaque rinchovek_bc7_is_opaque;
__attribute__((weak)) read_pixel rinchovek_bc7_pixel;
__attribute__((weak)) convert rinchovek_dds_import, rinchovek_dds_export;
__attribute__((weak)) convert_length rinchovek_dds_import_length, rinchovek_dds_export_length;
__attribute__((weak)) import_colour rinchovek_dds_import_colour;
__attribute__((weak)) export_colour rinchovek_dds_export_colour;
__attribute__((weak)) read_head rinchovek_sheet_read_colour_head;
__attribute__((weak)) convert rinchovek_sheet_to_tiles, rinchovek_sheet_to_rows;
__attribute__((weak)) show_row rinchovek_sheet_show_row;
__attribute__((weak)) block_of rinchovek_sheet_block;
__attribute__((weak)) state_colour rinchovek_sheet_state_colour;
__attribute__((weak)) read_head rinchovek_sheet_open;
__attribute__((weak)) count_sheet rinchovek_sheet_count;
__attribute__((weak)) line_counted rinchovek_sheet_replace_line_counted;
__attribute__((weak)) block_counted rinchovek_sheet_replace_block_counted;
__attribute__((weak)) pixel_floats rinchovek_pixel_floats;
__attribute__((weak)) float_channel rinchovek_float_channel;
__attribute__((weak)) row_floats rinchovek_row_floats;
replace_in rinchovek_sheet_replace_line;
read_head rinchovek_sheet_read_head;
write_head rinchovek_sheet_write_head;
version rinchovek_version;

enum { RECORD = 66, LINE = 26, VALUES = 8, FIRST_INDEX = 10, HEAD = 4 };

/* a sheet of COUNTED blocks in one row, 256 by 4, and beside it the calls that are measured on it */
static u8 sheet[HEAD + 16 * COUNTED], kept_sheet[sizeof sheet];
static u8 records[RECORD * COUNTED], lines[LINE * COUNTED], widths[LINE];
static u32 line_numbers[COUNTED], pixel_numbers[COUNTED], found_index;
static u8 wanted[4 * COUNTED];
static u8 *const sheet_blocks = sheet + HEAD;

/* what is measured, by its number; each goes through a pointer, so that the call of a function that does nothing costs the same */
static two_buffers *volatile two_buffers_call;
static read_one *volatile read_call;
static replace_one *volatile replace_call;
static replace_in *volatile replace_in_call;
static find_index *volatile nearest_call, *volatile exact_call;
static tell_opaque *volatile tell_call;
static read_pixel *volatile pixel_call;
static read_head *volatile read_head_call, *volatile read_colour_head_call;
static write_head *volatile write_head_call;
static version *volatile version_call;
static convert *volatile convert_call;
static convert_length *volatile convert_length_call;
static import_colour *volatile import_colour_call;
static export_colour *volatile export_colour_call;
static show_row *volatile show_row_call;
static block_of *volatile block_of_call;
static state_colour *volatile state_colour_call;
static read_head *volatile open_call;
static count_sheet *volatile count_call;
static line_counted *volatile line_counted_call;
static block_counted *volatile block_counted_call;
static pixel_floats *volatile pixel_floats_call;
static float_channel *volatile float_channel_call;
static row_floats *volatile row_floats_call;

static u32 no_two_buffers(const u8 *from, u8 *to) {
    __asm__ volatile("" ::"r"(from), "r"(to) : "memory");
    return 0;
}

static u32 no_read(const u8 *block, u32 line, u8 *replacement, u8 *width) {
    __asm__ volatile("" ::"r"(block), "r"(line), "r"(replacement), "r"(width) : "memory");
    return 0;
}

static u32 no_replace(u8 *block, u32 line, const u8 *replacement) {
    __asm__ volatile("" ::"r"(block), "r"(line), "r"(replacement) : "memory");
    return 0;
}

static u32 no_replace_in(u8 *all, u64 length, u32 block, u32 line, const u8 *replacement) {
    __asm__ volatile("" ::"r"(all), "r"(length), "r"(block), "r"(line), "r"(replacement) : "memory");
    return 0;
}

static u32 no_find(const u8 *block, u32 line, u32 pixel, const u8 *colour, u32 *index) {
    __asm__ volatile("" ::"r"(block), "r"(line), "r"(pixel), "r"(colour), "r"(index) : "memory");
    return 0;
}

static u32 no_pixel(const u8 *block, u32 pixel, u8 *rgba) {
    __asm__ volatile("" ::"r"(block), "r"(pixel), "r"(rgba) : "memory");
    return 0;
}

static u32 no_tell(const u8 *block, u32 columns, u32 rows) {
    __asm__ volatile("" ::"r"(block), "r"(columns), "r"(rows) : "memory");
    return 0;
}

static u32 no_read_head(const u8 *all, u64 length, u32 *numbers) {
    __asm__ volatile("" ::"r"(all), "r"(length), "r"(numbers) : "memory");
    return 0;
}

static u32 no_write_head(u32 width, u32 height, u8 *bytes, u32 *count) {
    __asm__ volatile("" ::"r"(width), "r"(height), "r"(bytes), "r"(count) : "memory");
    return 0;
}

static u32 no_version(void) { return 0; }

static void no_pixel_floats(const u8 *pixel, float *to) { __asm__ volatile("" ::"r"(pixel), "r"(to) : "memory"); }

static u32 no_float_channel(u32 bits, u32 *channel) {
    __asm__ volatile("" ::"r"(bits), "r"(channel) : "memory");
    return 0;
}

static u32 no_row_floats(const u8 *pixels, u64 length, float *to, u64 count) {
    __asm__ volatile("" ::"r"(pixels), "r"(length), "r"(to), "r"(count) : "memory");
    return 0;
}

static u32 no_convert(const u8 *from, u64 length, u8 *to, u64 room) {
    __asm__ volatile("" ::"r"(from), "r"(length), "r"(to), "r"(room) : "memory");
    return 0;
}

static u32 no_convert_length(const u8 *from, u64 length, u32 *needed) {
    __asm__ volatile("" ::"r"(from), "r"(length), "r"(needed) : "memory");
    return 0;
}

static u32 no_import_colour(const u8 *from, u64 length, u8 *to, u64 space, u32 *numbers) {
    __asm__ volatile("" ::"r"(from), "r"(length), "r"(to), "r"(space), "r"(numbers) : "memory");
    return 0;
}

static u32 no_export_colour(const u8 *from, u64 length, u32 colour_space, u8 *to, u64 space) {
    __asm__ volatile("" ::"r"(from), "r"(length), "r"(colour_space), "r"(to), "r"(space) : "memory");
    return 0;
}

static u32 no_show_row(const u8 *all, u64 length, u32 row, u8 *to, u64 space) {
    __asm__ volatile("" ::"r"(all), "r"(length), "r"(row), "r"(to), "r"(space) : "memory");
    return 0;
}

static u32 no_block_of(const u8 *all, u64 length, u32 block, u8 *bytes) {
    __asm__ volatile("" ::"r"(all), "r"(length), "r"(block), "r"(bytes) : "memory");
    return 0;
}

static u32 no_state_colour(u8 *all, u64 length, u32 colour_space) {
    __asm__ volatile("" ::"r"(all), "r"(length), "r"(colour_space) : "memory");
    return 0;
}

static u32 no_count(const u8 *all, u64 length, u32 *counts) {
    __asm__ volatile("" ::"r"(all), "r"(length), "r"(counts) : "memory");
    return 0;
}

static u32 no_line_counted(u8 *all, u64 length, u32 *counts, u32 block, u32 line, const u8 *replacement) {
    __asm__ volatile("" ::"r"(all), "r"(length), "r"(counts), "r"(block), "r"(line), "r"(replacement) : "memory");
    return 0;
}

static u32 no_block_counted(u8 *all, u64 length, u32 *counts, u32 block, const u8 *bytes) {
    __asm__ volatile("" ::"r"(all), "r"(length), "r"(counts), "r"(block), "r"(bytes) : "memory");
    return 0;
}

typedef u32 one_call(u32 i);

static u32 unpack_one(u32 i) { return two_buffers_call(sheet_blocks + 16 * i, records + RECORD * i); }
static u32 pack_one(u32 i) { return two_buffers_call(records + RECORD * i, out + 16 * i); }
static u32 read_a_line(u32 i) { return read_call(sheet_blocks + 16 * i, line_numbers[i], out + LINE * i, widths); }
static u32 replace_a_line(u32 i) { return replace_call(sheet_blocks + 16 * i, line_numbers[i], lines + LINE * i); }
static u32 replace_in_sheet(u32 i) {
    return replace_in_call(sheet, sizeof sheet, i, line_numbers[i], lines + LINE * i);
}
static u32 find_nearest(u32 i) {
    return nearest_call(sheet_blocks + 16 * i, line_numbers[i], pixel_numbers[i], wanted + 4 * i, &found_index);
}
static u32 find_exact(u32 i) {
    return exact_call(sheet_blocks + 16 * i, line_numbers[i], pixel_numbers[i], wanted + 4 * i, &found_index);
}


/* every pixel number comes equally often; the last stands farthest behind in the string and in the block */
static u32 read_each_pixel(u32 i) { return pixel_call(sheet_blocks + 16 * i, i % 16, wanted); }

static u32 read_last_pixel(u32 i) { return pixel_call(sheet_blocks + 16 * i, 15, wanted); }

static u32 read_no_pixel(u32 i) { return pixel_call(sheet_blocks + 16 * i, 16, wanted); }

static u32 tell_a_block(u32 i) {
    tell_call(sheet_blocks + 16 * i, 4, 4);
    return 0;
}

static u32 head_numbers[8];
static u32 read_a_head(u32 i) { return read_head_call(sheet, sizeof sheet - i % 2, head_numbers); }
static u32 read_a_colour_head(u32 i) { return read_colour_head_call(sheet, sizeof sheet - i % 2, head_numbers); }
static u32 write_a_head(u32 i) { return write_head_call(128 + i, 4, out, head_numbers); }

static u32 ask_version(u32 i) {
    (void)i;
    version_call();
    return 0;
}

/* what a file is made of, and what of a file: each call anew */
enum { DDS_HEADER = 148 };
static u8 file[DDS_HEADER + 16 * COUNTED], again[sizeof sheet];
static convert *measured_convert;
static convert_length *measured_length;
static const u8 *given;
static u64 given_length, room;

static u32 convert_one(u32 i) {
    (void)i;
    return convert_call(given, given_length, measured_convert == rinchovek_dds_import ? again : file, room);
}

static u32 ask_length(u32 i) {
    (void)i;
    return convert_length_call(given, given_length, head_numbers);
}

/* in sRGB, and under a number that is none: the head is looked at before that is refused */
enum { SRGB = 2 };
static u32 export_srgb(u32 i) { return (void)i, export_colour_call(given, given_length, SRGB, file, room); }
static u32 export_none(u32 i) { return (void)i, export_colour_call(given, given_length, SRGB + 1, file, room); }
static u32 import_with_head(u32 i) { return (void)i, import_colour_call(given, given_length, again, room, head_numbers); }

/* a sheet in both forms, and what one is moved to */
enum { MOST_OF_A_SHEET = 4096, LONGEST_SHEET = 8 + 16 * MOST_OF_A_SHEET };
static u8 in_rows[LONGEST_SHEET], in_tiles[LONGEST_SHEET], moved[LONGEST_SHEET], kept_in_rows[LONGEST_SHEET], kept_in_tiles[LONGEST_SHEET];
static u64 rows_length, tiles_length;
static u32 block_count, asked_row;
static int sheets_mode = MIXED;

static u32 move_it(u32 i) { return (void)i, convert_call(given, given_length, moved, room); }
static u32 show_it(u32 i) { return (void)i, show_row_call(given, given_length, asked_row, out, room); }
static u32 open_it(u32 i) { return (void)i, open_call(given, given_length, head_numbers); }
/* blocks from all over the sheet */
static u32 take_a_block(u32 i) { return block_of_call(given, given_length, block_count * i / COUNTED, out); }
static u32 take_no_block(u32 i) { return block_of_call(given, given_length, block_count + i, out); }
static u32 state_a_colour(u32 i) { return state_colour_call(in_tiles, tiles_length, i % (SRGB + 1)); }
static u32 state_no_colour(u32 i) { return (void)i, state_colour_call(in_tiles, tiles_length, SRGB + 1); }
static u32 state_in_rows(u32 i) { return (void)i, state_colour_call(in_rows, rows_length, SRGB); }
static u32 replace_in_rows(u32 i) { return replace_in_call(in_rows, rows_length, i, line_numbers[i], lines + LINE * i); }
/* with counts, which are handed on from call to call; a whole block becomes its neighbour */
static u32 counts[10], kept_counts[10];
static u32 count_it(u32 i) { return (void)i, count_call(given, given_length, counts); }
static u32 line_in_rows(u32 i) { return line_counted_call(in_rows, rows_length, counts, i, line_numbers[i], lines + LINE * i); }
static u32 line_in_tiles(u32 i) { return line_counted_call(in_tiles, tiles_length, counts, i, line_numbers[i], lines + LINE * i); }
static u32 block_in_rows(u32 i) { return block_counted_call(in_rows, rows_length, counts, i, sheet_blocks + 16 * ((i + 1) % COUNTED)); }
static u32 block_in_tiles(u32 i) { return block_counted_call(in_tiles, tiles_length, counts, i, sheet_blocks + 16 * ((i + 1) % COUNTED)); }
static u32 replace_in_tiles(u32 i) { return replace_in_call(in_tiles, tiles_length, i, line_numbers[i], lines + LINE * i); }

/* pixels as floats: any bytes are channels; the patterns are asked back for */
enum { LONGEST_ROW = 1024 };
static float floats[LONGEST_ROW + 1];
static u32 patterns[COUNTED], found_channel;
static u64 row_length;
static u32 float_a_pixel(u32 i) { return pixel_floats_call(sheet_blocks + 16 * i, floats), 0; }
static u32 find_a_channel(u32 i) { return float_channel_call(patterns[i], &found_channel); }
static u32 float_a_row(u32 i) { return (void)i, row_floats_call(sheet_blocks, row_length, floats, row_length); }
static u32 float_no_row(u32 i) { return (void)i, row_floats_call(sheet_blocks, row_length, floats, row_length + 1); }

static void point_at_calls(int at_none) {
    pixel_floats_call = at_none ? no_pixel_floats : rinchovek_pixel_floats;
    float_channel_call = at_none ? no_float_channel : rinchovek_float_channel;
    row_floats_call = at_none ? no_row_floats : rinchovek_row_floats;
    show_row_call = at_none ? no_show_row : rinchovek_sheet_show_row;
    block_of_call = at_none ? no_block_of : rinchovek_sheet_block;
    state_colour_call = at_none ? no_state_colour : rinchovek_sheet_state_colour;
    open_call = at_none ? no_read_head : rinchovek_sheet_open;
    count_call = at_none ? no_count : rinchovek_sheet_count;
    line_counted_call = at_none ? no_line_counted : rinchovek_sheet_replace_line_counted;
    block_counted_call = at_none ? no_block_counted : rinchovek_sheet_replace_block_counted;
    import_colour_call = at_none ? no_import_colour : rinchovek_dds_import_colour;
    export_colour_call = at_none ? no_export_colour : rinchovek_dds_export_colour;
    read_colour_head_call = at_none ? no_read_head : rinchovek_sheet_read_colour_head;
    convert_call = at_none ? no_convert : measured_convert;
    convert_length_call = at_none ? no_convert_length : measured_length;
    version_call = at_none ? no_version : rinchovek_version;
    read_head_call = at_none ? no_read_head : rinchovek_sheet_read_head;
    write_head_call = at_none ? no_write_head : rinchovek_sheet_write_head;
    read_call = at_none ? no_read : rinchovek_bc7_read_line;
    replace_call = at_none ? no_replace : rinchovek_bc7_replace_line;
    nearest_call = at_none ? no_find : rinchovek_bc7_nearest_index;
    exact_call = at_none ? no_find : rinchovek_bc7_exact_index;
    tell_call = at_none ? no_tell : rinchovek_bc7_is_opaque;
    pixel_call = at_none ? no_pixel : rinchovek_bc7_pixel;
    replace_in_call = at_none ? no_replace_in : rinchovek_sheet_replace_line;
}

static __attribute__((noinline)) u64 steps_of_calls(one_call *call, u32 count) {
    start_counting();
    for (u32 i = 0; i < count; i++) call(i);
    return stop_counting();
}

static void restore_sheets(void) {
    memcpy(sheet, kept_sheet, sizeof sheet);
    memcpy(in_rows, kept_in_rows, rows_length);
    memcpy(in_tiles, kept_in_tiles, tiles_length);
    memcpy(counts, kept_counts, sizeof counts);
}

/* The blocks stay as they are: each count starts from the same sheet. Every call must answer this refusal. */
static u64 cost_of_calls(one_call *call, u32 count, u32 refusal) {
    for (u32 i = 0; i < count; i++)
        if (call(i) != refusal) {
            say("ANOTHER refusal than ");
            say_number(refusal, 0);
            say("\n");
            leave(1);
        }
    restore_sheets();
    u64 steps_with = steps_of_calls(call, count);
    restore_sheets();
    two_buffers *kept = two_buffers_call;
    two_buffers_call = no_two_buffers;
    point_at_calls(1);
    u64 steps_without = steps_of_calls(call, count);
    two_buffers_call = kept;
    point_at_calls(0);
    return steps_with - steps_without;
}

static u64 call_cost(one_call *call, u32 refusal) { return cost_of_calls(call, COUNTED, refusal); }

static u64 decoded;

static void say_call(const char *name, one_call *call, u32 refusal) {
    u64 cost = call_cost(call, refusal);
    say_left(name, 58);
    say_number(cost / COUNTED, 8);
    say_ratio(cost, decoded, 9);
    say("\n");
}

static void make_sheet(int mode) {
    static const u8 head[HEAD] = {0x01, 0x80, 0x02, 0x04};
    memcpy(sheet, head, HEAD);
    make_blocks(sheet_blocks, COUNTED, mode);
    memcpy(kept_sheet, sheet, sizeof sheet);
}

/* Of each block one line as it stands, with other endpoints: the pair stays as it is given, for the anchor's top bit is clear. */
static void make_lines(void) {
    for (u32 i = 0; i < COUNTED; i++) {
        const u8 *block = sheet_blocks + 16 * i;
        u8 *line = lines + LINE * i;
        u32 count = 0;
        while (!rinchovek_bc7_read_line(block, count, line, widths)) count++;
        line_numbers[i] = count ? (u32)(random_number() % count) : 0;
        rinchovek_bc7_read_line(block, line_numbers[i], line, widths);
        for (int v = 0; v < VALUES; v++) line[v] = (u8)(random_number() % (1ul << widths[v]));
        /* a pixel of the line, and the colour that it shows */
        u32 pixel = 0;
        while (pixel < 15 && !widths[FIRST_INDEX + pixel]) pixel++;
        pixel_numbers[i] = pixel;
        rinchovek_bc7_decode_block(block, out);
        memcpy(wanted + 4 * i, out + 4 * pixel, 4);
    }
}

/* Each wanted colour moved: with blocks that are always the same, no index gives any of these. */
static void miss_colours(void) {
    for (u32 i = 0; i < 4 * COUNTED; i++) wanted[i] = (u8)(wanted[i] + 77);
}

/* Each index i as last - i: the anchor's top bit is set, and the pair has to be turned. */
static void turn_lines(void) {
    for (u32 i = 0; i < COUNTED; i++) {
        rinchovek_bc7_read_line(sheet_blocks + 16 * i, line_numbers[i], out, widths);
        for (int v = FIRST_INDEX; v < LINE; v++) lines[LINE * i + v] = (u8)((1u << widths[v]) - 1 - lines[LINE * i + v]);
    }
}

static void set_in_each(u8 *bytes, u32 size, u32 place, u8 value) {
    for (u32 i = 0; i < COUNTED; i++) bytes[size * i + place] = value;
}

static void count_finding(void) {
    say_call("rinchovek_bc7_exact_index", find_exact, 0);
    miss_colours();
    say_call("rinchovek_bc7_exact_index, refused with 14", find_exact, 14);
    say_call("rinchovek_bc7_nearest_index", find_nearest, 0);
    for (u32 i = 0; i < COUNTED; i++) pixel_numbers[i] = 16;
    say_call("rinchovek_bc7_nearest_index, refused with 13", find_nearest, 13);
}

/* Mode 6 with both alphas 127 and both p bits 1: every pixel has alpha 255, so all sixteen are looked at. */
static void make_opaque(void) {
    make_sheet(6);
    for (u32 i = 0; i < COUNTED; i++) {
        u8 *block = sheet_blocks + 16 * i;
        block[6] |= 0xFE, block[7] = 0xFF, block[8] |= 0x01;
    }
    memcpy(kept_sheet, sheet, sizeof sheet);
}

static void say_file(const char *name, convert *call, convert_length *length, const u8 *from, u64 from_length, u64 to_length, u32 refusal) {
    measured_convert = call, measured_length = length;
    given = from, given_length = from_length, room = to_length;
    point_at_calls(0);
    say_call(name, call ? convert_one : ask_length, refusal);
}

/* A sheet of one block and the one of all blocks, as files and back: what the blocks cost beyond the header is copying them. */
static void count_files(void) {
    static u8 one[3 + 16] = {0x01, 0x04, 0x04};
    enum { ONE = DDS_HEADER + 16, ALL = DDS_HEADER + 16 * COUNTED };
    say_file("rinchovek_dds_export, one block", rinchovek_dds_export, 0, one, sizeof one, ONE, 0);
    say_file("rinchovek_dds_import, one block", rinchovek_dds_import, 0, file, ONE, sizeof one, 0);
    say_file("rinchovek_dds_export, 64 blocks", rinchovek_dds_export, 0, sheet, sizeof sheet, ALL, 0);
    say_file("rinchovek_dds_import, 64 blocks", rinchovek_dds_import, 0, file, ALL, sizeof sheet, 0);
    say_file("rinchovek_dds_export, refused with 11", rinchovek_dds_export, 0, sheet, sizeof sheet, ALL - 1, 11);
    say_file("rinchovek_dds_import, refused with 15", rinchovek_dds_import, 0, sheet, sizeof sheet, sizeof sheet, 15);
    say_file("rinchovek_dds_import, refused with 11", rinchovek_dds_import, 0, file, ALL, sizeof sheet - 1, 11);
    say_file("rinchovek_dds_export_length", 0, rinchovek_dds_export_length, sheet, sizeof sheet, 0, 0);
    say_file("rinchovek_dds_import_length", 0, rinchovek_dds_import_length, file, ALL, 0, 0);
}

static void say_colour(const char *name, one_call *call, const u8 *from, u64 from_length, u64 to_length, u32 refusal) {
    given = from, given_length = from_length, room = to_length;
    point_at_calls(0);
    say_call(name, call, refusal);
}

/* The same with the colour space. */
static void count_colours(void) {
    static u8 one[3 + 16] = {0x01, 0x04, 0x04};
    enum { ONE = DDS_HEADER + 16, ALL = DDS_HEADER + 16 * COUNTED };
    say_call("rinchovek_sheet_read_colour_head, 256 by 4", read_a_colour_head, 0);
    say_colour("rinchovek_dds_export_colour, sRGB, one block", export_srgb, one, sizeof one, ONE, 0);
    say_colour("rinchovek_dds_import_colour, one block", import_with_head, file, ONE, sizeof one, 0);
    say_colour("rinchovek_dds_export_colour, sRGB, 64 blocks", export_srgb, sheet, sizeof sheet, ALL, 0);
    say_colour("rinchovek_dds_import_colour, 64 blocks", import_with_head, file, ALL, sizeof sheet, 0);
    say_colour("rinchovek_dds_export_colour, refused with 18", export_none, sheet, sizeof sheet, ALL, 18);
    say_colour("rinchovek_dds_import_colour, refused with 11", import_with_head, file, ALL, sizeof sheet - 1, 11);
}

#ifdef FORMS

static void fail_forms(const char *what, u32 width, u32 height) {
    say(what);
    say(" in a sheet of ");
    say_number(width, 0);
    say(" by ");
    say_number(height, 0);
    say("\n");
    leave(1);
}

/* Blocks of one mode, or mixed, as a sheet of this size in both forms; each block is the same by its number. */
static void make_forms(u32 width, u32 height) {
    u32 start = 0;
    rinchovek_sheet_write_head(width, height, in_rows, &start);
    block_count = blocks_of_row(width) * blocks_of_row(height);
    make_blocks(in_rows + start, block_count, sheets_mode);
    rows_length = start + 16 * block_count, tiles_length = rows_length + 1;
    if (rinchovek_sheet_to_tiles(in_rows, rows_length, in_tiles, tiles_length)) fail_forms("REFUSED: the move to tiles", width, height);
    if (rinchovek_sheet_to_rows(in_tiles, tiles_length, moved, rows_length)) fail_forms("REFUSED: the move to rows", width, height);
    if (memcmp(in_rows, moved, rows_length)) fail_forms("DIFFERENT bytes come back", width, height);
    for (u32 block = 0; block < block_count; block++)
        if (rinchovek_sheet_block(in_tiles, tiles_length, block, out) || memcmp(out, in_rows + start + 16 * block, 16))
            fail_forms("ANOTHER block", width, height);
    memcpy(kept_in_rows, in_rows, rows_length);
    memcpy(kept_in_tiles, in_tiles, tiles_length);
}

static void give(const u8 *from, u64 length, u64 space) { given = from, given_length = length, room = space; }

static void say_moves(const char *name, u32 width, u32 height) {
    make_forms(width, height);
    say_left(name, 40);
    say_number(block_count, 6);
    measured_convert = rinchovek_sheet_to_tiles;
    point_at_calls(0);
    give(in_rows, rows_length, tiles_length);
    u64 to_tiles = cost_of_calls(move_it, 1, 0);
    measured_convert = rinchovek_sheet_to_rows;
    point_at_calls(0);
    give(in_tiles, tiles_length, rows_length);
    u64 to_rows = cost_of_calls(move_it, 1, 0);
    say_number(to_tiles, 10);
    say_number(to_rows, 8);
    say_number(to_tiles / block_count, 10);
    say_number(to_rows / block_count, 8);
    say("\n");
}

static u64 row_shown(const u8 *from, u64 length) {
    give(from, length, room);
    return cost_of_calls(show_it, 1, 0);
}

static void say_shown(const char *name, u32 width, u32 height, u32 row) {
    make_forms(width, height);
    u32 count = blocks_of_row(width);
    asked_row = row;
    room = 4 * (u64)width * lines_of_row(height, row);
    memcpy(blocks, in_rows + rows_length - 16 * (u64)block_count + 16 * (u64)count * row, 16 * count);
    u64 alone = row_cost(rinchovek_sheet_decode_row, width, height, row);
    u64 rows = row_shown(in_rows, rows_length);
    memcpy(expected, out, room);
    u64 tiles = row_shown(in_tiles, tiles_length);
    if (memcmp(expected, out, room)) fail_forms("DIFFERENT pixels", width, height);
    say_left(name, 52);
    say_number(alone / count, 6);
    say_number(rows / count, 8);
    say_number(tiles / count, 8);
    say_ratio(tiles, rows, 8);
    say("\n");
}

/* The same call on a sheet in either form. */
static void say_both(const char *name, u64 rows, u64 tiles) {
    say_left(name, 52);
    say_number(rows / COUNTED, 6);
    say_number(tiles / COUNTED, 8);
    say_number((tiles - rows) / COUNTED, 8);
    say("\n");
}

static u64 cost_given(one_call *call, const u8 *from, u64 length) {
    give(from, length, 0);
    return call_cost(call, 0);
}

static void say_by_number(const char *name, u32 width, u32 height) {
    make_forms(width, height);
    u64 open_rows = cost_given(open_it, in_rows, rows_length), open_tiles = cost_given(open_it, in_tiles, tiles_length);
    u64 rows = cost_given(take_a_block, in_rows, rows_length), tiles = cost_given(take_a_block, in_tiles, tiles_length);
    say_left(name, 52);
    say("\n");
    say_both("  rinchovek_sheet_open", open_rows, open_tiles);
    say_both("  rinchovek_sheet_block", rows, tiles);
    say_left("  where the block stands: what is left of the two", 52);
    say_number((tiles - rows - (open_tiles - open_rows)) / COUNTED, 22);
    say("\n");
}

static void say_move_refused(const char *name, convert *call, const u8 *from, u64 length, u64 space, u32 refusal) {
    measured_convert = call;
    point_at_calls(0);
    give(from, length, space);
    say_call(name, move_it, refusal);
}

static void count_refused_forms(void) {
    enum { NUMBER = 3 }; /* of the colour space, behind the form and two sides of one byte each */
    make_forms(32, 32);
    say("\nInstructions a call, refused\n");
    say_move_refused("rinchovek_sheet_to_tiles, 8: form 2 given", rinchovek_sheet_to_tiles, in_tiles, tiles_length, tiles_length + 1, 8);
    say_move_refused("rinchovek_sheet_to_tiles, 10", rinchovek_sheet_to_tiles, in_rows, rows_length - 1, tiles_length, 10);
    say_move_refused("rinchovek_sheet_to_tiles, 11", rinchovek_sheet_to_tiles, in_rows, rows_length, rows_length, 11);
    say_move_refused("rinchovek_sheet_to_rows, 8: form 1 given", rinchovek_sheet_to_rows, in_rows, rows_length, rows_length - 1, 8);
    say_move_refused("rinchovek_sheet_to_rows, 11", rinchovek_sheet_to_rows, in_tiles, tiles_length, tiles_length, 11);
    kept_in_tiles[NUMBER] = in_tiles[NUMBER] = SRGB;
    say_move_refused("rinchovek_sheet_to_rows, 16: sRGB", rinchovek_sheet_to_rows, in_tiles, tiles_length, rows_length, 16);
    kept_in_tiles[NUMBER] = in_tiles[NUMBER] = SRGB + 1;
    give(in_tiles, tiles_length, 0);
    say_call("rinchovek_sheet_open, 18", open_it, 18);
    kept_in_tiles[NUMBER] = in_tiles[NUMBER] = 0;
    say_call("rinchovek_sheet_block, 12: form 2", take_no_block, 12);
    give(in_tiles, tiles_length - 1, 0);
    say_call("rinchovek_sheet_block, 10: form 2", take_a_block, 10);
    give(in_tiles, tiles_length, 0);
    asked_row = 0;
    say_call("rinchovek_sheet_show_row, 11: form 2", show_it, 11);
    asked_row = 8;
    say_call("rinchovek_sheet_show_row, 12: form 2", show_it, 12);
}

static void count_stating(void) {
    make_forms(32, 32);
    say_call("rinchovek_sheet_state_colour, 18", state_no_colour, 18);
    say_call("rinchovek_sheet_state_colour, 8: form 1 given", state_in_rows, 8);
    say("\nInstructions a call, accepted\n");
    say_call("rinchovek_sheet_state_colour, 32 by 32", state_a_colour, 0);
}

/* Of a sheet of mixed blocks, the first of them replaced: what counting takes a block, and a replacement with counts beside one without. */
static void say_counted(const char *name, u32 width, u32 height) {
    make_forms(width, height);
    const u32 replaced = block_count < COUNTED ? block_count : COUNTED;
    say_left(name, 36);
    give(in_rows, rows_length, 0);
    u64 rows = cost_of_calls(count_it, 1, 0);
    give(in_tiles, tiles_length, 0);
    u64 tiles = cost_of_calls(count_it, 1, 0);
    rinchovek_sheet_count(in_rows, rows_length, kept_counts);
    memcpy(counts, kept_counts, sizeof counts);
    say_number(rows / block_count, 6);
    say_number(tiles / block_count, 8);
    say_number(cost_of_calls(replace_in_rows, replaced, 0) / replaced, 8);
    say_number(cost_of_calls(line_in_rows, replaced, 0) / replaced, 8);
    say_number(cost_of_calls(line_in_tiles, replaced, 0) / replaced, 8);
    say_number(cost_of_calls(block_in_rows, replaced, 0) / replaced, 8);
    say_number(cost_of_calls(block_in_tiles, replaced, 0) / replaced, 8);
    say("\n");
}

static void count_counts(void) {
    say("\nInstructions with counts: a block counted, a line and a whole block replaced\n");
    say("                                    form 1  form 2   plain    line  form 2   block  form 2\n");
    say_counted("one block, 4 by 4", 4, 4);
    say_counted("one whole tile, 32 by 32", 32, 32);
    say_counted("a row, 256 by 4", 256, 4);
    say_counted("64 whole tiles, 256 by 256", 256, 256);
    say_counted("cut at both sides, 244 by 268", 244, 268);
    for (int mode = 0; mode < 8; mode++) {
        make_sheet(mode);
        make_lines();
        sheets_mode = mode;
        say_counted(column_names[mode], 32, 32);
    }
    sheets_mode = MIXED;
}

/* Sheets in rows beside the same in tiles: whole tiles, and tiles that are cut at the right, at the bottom and at both. */
static void count_forms(void) {
    make_sheet(MIXED);
    make_lines();
    say("\nInstructions of a move, of mixed blocks\n");
    say("                                                       a call            a block\n");
    say("                                        blocks  to tiles to rows  to tiles to rows\n");
    say_moves("one block, 4 by 4", 4, 4);
    say_moves("one whole tile, 32 by 32", 32, 32);
    say_moves("a row, 256 by 4", 256, 4);
    say_moves("64 whole tiles, 256 by 256", 256, 256);
    say_moves("cut at both sides, 244 by 268", 244, 268);
    say("\nInstructions a block of a row of a whole sheet of mixed blocks, beside the row's blocks alone (decode_row)\n");
    say("                                                     alone  form 1  form 2   ratio\n");
    say_shown("64 blocks, whole tiles, row 5 of 256 by 32", 256, 32, 5);
    say_shown("64 blocks, tiles cut at the bottom, 256 by 4", 256, 4, 0);
    say_shown("61 blocks, cut at both sides, row 5 of 244 by 268", 244, 268, 5);
    say_shown("61 blocks, cut at both sides, row 66 of 244 by 268", 244, 268, 66);
    say("\nInstructions a call over 64 blocks of a sheet\n");
    say("                                                    form 1  form 2    more\n");
    say_by_number("one whole tile, 32 by 32", 32, 32);
    say_by_number("64 whole tiles, 256 by 256", 256, 256);
    say_by_number("a row, 256 by 4", 256, 4);
    say_by_number("cut at both sides, 244 by 268", 244, 268);
    make_forms(32, 32);
    say_both("rinchovek_sheet_replace_line, 32 by 32, kept", call_cost(replace_in_rows, 0), call_cost(replace_in_tiles, 0));
    make_forms(28, 40);
    say_both("rinchovek_sheet_replace_line, 28 by 40, kept", call_cost(replace_in_rows, 0), call_cost(replace_in_tiles, 0));
    count_refused_forms();
    if (rinchovek_sheet_state_colour) count_stating();
    if (rinchovek_sheet_count) count_counts();
}

#endif

static void say_float_row(const char *name, u64 length) {
    row_length = length;
    const u64 cost = cost_of_calls(float_a_row, 1, 0);
    say_left(name, 58);
    say_number(cost, 8);
    say_ratio(cost, length, 9);
    say("\n");
}

static void count_floats(void) {
    say_call("rinchovek_pixel_floats", float_a_pixel, 0);
    for (u32 i = 0; i < COUNTED; i++) {
        rinchovek_pixel_floats(sheet_blocks + 16 * i, floats);
        memcpy(patterns + i, floats, sizeof *floats);
    }
    say_call("rinchovek_float_channel, of channels", find_a_channel, 0);
    for (u32 i = 0; i < COUNTED; i++) patterns[i]++;
    say_call("rinchovek_float_channel, refused with 23: beside a channel's", find_a_channel, 23);
    for (u32 i = 0; i < COUNTED; i++) patterns[i] = 0x7FC00000 + i;
    say_call("rinchovek_float_channel, refused with 23: a NaN", find_a_channel, 23);
    row_length = 64;
    say_call("rinchovek_row_floats, refused with 11", float_no_row, 11);
    say("\nInstructions of a row as floats, and a channel\n");
    say_float_row("3 bytes", 3);
    say_float_row("4 bytes", 4);
    say_float_row("64 bytes", 64);
    say_float_row("67 bytes", 67);
    say_float_row("1,024 bytes", LONGEST_ROW);
}

static void count_writing(void) {
    make_sheet(MIXED);
    make_lines();
    point_at_calls(0);
    decoded = block_cost(rinchovek_bc7_decode_block, COUNTED, sheet_blocks, out);
    say("\nInstructions a call, and in decoded blocks, over ");
    say_number(COUNTED, 0);
    say(" mixed blocks\n");

    two_buffers_call = rinchovek_bc7_unpack;
    say_call("rinchovek_bc7_unpack", unpack_one, 0);
    two_buffers_call = rinchovek_bc7_pack;
    say_call("rinchovek_bc7_pack", pack_one, 0);
    enum { MODE = 0, PIXEL_0 = 34 };
    set_in_each(records, RECORD, PIXEL_0 + 15, 16);
    say_call("rinchovek_bc7_pack, refused with 3: an index of 16", pack_one, 3);
    set_in_each(records, RECORD, MODE, 9);
    say_call("rinchovek_bc7_pack, refused with 5: mode 9", pack_one, 5);

    say_call("rinchovek_sheet_read_head, 256 by 4", read_a_head, 0);
    say_call("rinchovek_sheet_write_head, 128 to 191 by 4", write_a_head, 0);
    say_call("rinchovek_version", ask_version, 0);
    say_call("rinchovek_bc7_read_line", read_a_line, 0);
    if (rinchovek_bc7_nearest_index) count_finding();
    if (rinchovek_bc7_is_opaque) say_call("rinchovek_bc7_is_opaque", tell_a_block, 0);
    if (rinchovek_bc7_pixel) {
        say_call("rinchovek_bc7_pixel", read_each_pixel, 0);
        say_call("rinchovek_bc7_pixel, the last", read_last_pixel, 0);
        say_call("rinchovek_bc7_pixel, refused with 21", read_no_pixel, 21);
    }
    if (rinchovek_dds_import) count_files();
    if (rinchovek_dds_import_colour) count_colours();
    say_call("rinchovek_bc7_replace_line, kept", replace_a_line, 0);
    say_call("rinchovek_sheet_replace_line, kept", replace_in_sheet, 0);
    turn_lines();
    say_call("rinchovek_bc7_replace_line, turned", replace_a_line, 0);
    say_call("rinchovek_sheet_replace_line, turned", replace_in_sheet, 0);
    set_in_each(lines, LINE, LINE - 1, 16);
    say_call("rinchovek_bc7_replace_line, refused with 3: an index of 16", replace_a_line, 3);
    for (u32 i = 0; i < COUNTED; i++) line_numbers[i] = 3;
    say_call("rinchovek_bc7_read_line, refused with 2", read_a_line, 2);
    say_call("rinchovek_bc7_replace_line, refused with 2", replace_a_line, 2);
    make_sheet(8);
    two_buffers_call = rinchovek_bc7_unpack;
    say_call("rinchovek_bc7_unpack, refused with 1", unpack_one, 1);
    say_call("rinchovek_bc7_read_line, refused with 1", read_a_line, 1);
    say_call("rinchovek_bc7_replace_line, refused with 1", replace_a_line, 1);

    if (rinchovek_bc7_pixel) say_call("rinchovek_bc7_pixel, reserved", read_each_pixel, 0);
    if (rinchovek_bc7_is_opaque) {
        say_call("rinchovek_bc7_is_opaque, reserved", tell_a_block, 0);
        make_opaque();
        say_call("rinchovek_bc7_is_opaque, mode 6, opaque", tell_a_block, 0);
    }

    make_sheet(MIXED);
    if (rinchovek_pixel_floats) count_floats();

    say("\nThe same by mode\nmode                        ");
    for (int mode = 0; mode < 8; mode++) say_right(column_names[mode], 7);
    one_call *const calls[] = {unpack_one, pack_one, read_a_line, replace_a_line, find_nearest, tell_a_block, read_each_pixel, read_last_pixel};
    two_buffers *const functions[] = {rinchovek_bc7_unpack, rinchovek_bc7_pack, 0, 0, 0, 0, 0, 0};
    const char *const names[] = {"rinchovek_bc7_unpack", "rinchovek_bc7_pack", "rinchovek_bc7_read_line",
                                 "rinchovek_bc7_replace_line", "rinchovek_bc7_nearest_index", "rinchovek_bc7_is_opaque",
                                 "rinchovek_bc7_pixel", "rinchovek_bc7_pixel, last"};
    for (int k = 0; k < (rinchovek_bc7_pixel ? 8 : rinchovek_bc7_is_opaque ? 6 : rinchovek_bc7_nearest_index ? 5 : 4); k++) {
        say("\n");
        say_left(names[k], 28);
        for (int mode = 0; mode < 8; mode++) {
            make_sheet(mode);
            make_lines();
            two_buffers_call = functions[k];
            if (calls[k] == pack_one)
                for (u32 i = 0; i < COUNTED; i++) rinchovek_bc7_unpack(sheet_blocks + 16 * i, records + RECORD * i);
            say_number(call_cost(calls[k], 0) / COUNTED, 7);
        }
    }
    say("\n");
#ifdef FORMS
    count_forms();
#endif
}

#endif

void run(void) {
    compare_blocks();
    prepare_counting();
    count_blocks();
#ifdef BC6H
    compare_halves();
    count_halves();
#else
    say("\nno BC6H: the archive has no rinchovek_bc6h_decode_block, or the Rust isn't there\n");
#endif
#ifdef ROWS
    compare_rows();
    count_rows();
    count_growth();
#else
    say("\nno rows: the archive has no rinchovek_sheet_decode_row\n");
#endif
#ifdef WRITING
    count_writing();
#else
    say("\nnothing that writes: the archive has no rinchovek_bc7_read_line\n");
#endif
    leave(0);
}

__asm__(".globl _start\n_start: and $-16, %rsp\n call run\n");
