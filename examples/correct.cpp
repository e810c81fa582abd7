// Every call of include/rinchovek.h, from C++, through wrappers whose types have the lengths that C would only promise, and tell a
// block's number from a line's and a pixel's. It prints what correct.c prints.
#include "rinchovek.h"

#include <algorithm>
#include <array>
#include <cstdio>
#include <vector>

namespace rinchovek {

using Block = std::array<uint8_t, RINCHOVEK_BLOCK_BYTES>;
using Record = std::array<uint8_t, RINCHOVEK_RECORD_BYTES>;
using Replacement = std::array<uint8_t, RINCHOVEK_LINE_BYTES>;
using Pixel = std::array<uint8_t, RINCHOVEK_PIXEL_BYTES>;
using Pixels = std::array<Pixel, RINCHOVEK_BLOCK_PIXELS>;
using Halves = std::array<std::array<uint16_t, 3>, RINCHOVEK_BLOCK_PIXELS>;
static_assert(sizeof(Halves) == sizeof(uint16_t) * RINCHOVEK_HALVES, "three halves a pixel");
using FloatPixel = std::array<float, RINCHOVEK_PIXEL_FLOATS>;

// In C all are uint32_t, and two of them side by side in one call; here they can't be exchanged.
enum class BlockNumber : uint32_t {};
enum class LineNumber : uint32_t {};
enum class PixelNumber : uint32_t {};

// A number that is none of the three is refused with 18.
enum class ColourSpace : uint32_t { unspecified = RINCHOVEK_UNSPECIFIED, linear = RINCHOVEK_LINEAR, srgb = RINCHOVEK_SRGB };

struct Head {
    uint32_t width = 0, height = 0, start = 0;
    ColourSpace colour_space = ColourSpace::unspecified;
};

enum class Form : uint32_t { rows = RINCHOVEK_FORM_ROWS, tiles = RINCHOVEK_FORM_TILES };

// A sheet of either form.
struct Opened {
    Head head;
    Form form = Form::rows;
    uint32_t columns = 0, rows = 0, blocks = 0;
};

// How much of a block is shown.
struct Shown {
    uint32_t columns, rows;
};

Shown shown(uint32_t width, uint32_t height, BlockNumber block) {
    const uint32_t n = uint32_t(block), across = (width + 3) / 4;
    return {rinchovek_shown(width, n % across), rinchovek_shown(height, n / across)};
}

Pixels decode_block(const Block &block) {
    Pixels pixels;
    rinchovek_bc7_decode_block(block.data(), pixels[0].data());
    return pixels;
}

// A BC6H block, whose format says whether it is signed.
enum class Sign : uint32_t { without = 0, with = 1 };

Halves decode_bc6h_block(const Block &block, Sign sign) {
    Halves halves;
    rinchovek_bc6h_decode_block(block.data(), uint32_t(sign), halves[0].data());
    return halves;
}

FloatPixel pixel_floats(const Pixel &pixel) {
    FloatPixel floats;
    rinchovek_pixel_floats(pixel.data(), floats.data());
    return floats;
}

bool is_opaque(const Block &block, Shown shown) { return rinchovek_bc7_is_opaque(block.data(), shown.columns, shown.rows) != 0; }

// Each of these answers 0, or the number of the refusal, and then what was handed over is as it was.
uint32_t unpack(const Block &block, Record &record) { return rinchovek_bc7_unpack(block.data(), record.data()); }
uint32_t pack(const Record &record, Block &block) { return rinchovek_bc7_pack(record.data(), block.data()); }

uint32_t read_line(const Block &block, LineNumber line, Replacement &replacement, Replacement &widths) {
    return rinchovek_bc7_read_line(block.data(), uint32_t(line), replacement.data(), widths.data());
}

uint32_t row_floats(const std::vector<uint8_t> &pixels, std::vector<float> &floats) {
    return rinchovek_row_floats(pixels.data(), pixels.size(), floats.data(), floats.size());
}

uint32_t channel_of(float value, uint32_t &channel) { return rinchovek_channel_of(value, &channel); }
uint32_t channel_of_bits(uint32_t bits, uint32_t &channel) { return rinchovek_float_channel(bits, &channel); }

uint32_t one_pixel(const Block &block, PixelNumber pixel, Pixel &rgba) {
    return rinchovek_bc7_pixel(block.data(), uint32_t(pixel), rgba.data());
}

uint32_t nearest_index(const Block &block, LineNumber line, PixelNumber pixel, const Pixel &wanted, uint32_t &index) {
    return rinchovek_bc7_nearest_index(block.data(), uint32_t(line), uint32_t(pixel), wanted.data(), &index);
}

uint32_t exact_index(const Block &block, LineNumber line, PixelNumber pixel, const Pixel &wanted, uint32_t &index) {
    return rinchovek_bc7_exact_index(block.data(), uint32_t(line), uint32_t(pixel), wanted.data(), &index);
}

uint32_t replace_line(Block &block, LineNumber line, const Replacement &replacement) {
    return rinchovek_bc7_replace_line(block.data(), uint32_t(line), replacement.data());
}

uint32_t replace_line(std::vector<uint8_t> &sheet, BlockNumber block, LineNumber line, const Replacement &replacement) {
    return rinchovek_sheet_replace_line(sheet.data(), sheet.size(), uint32_t(block), uint32_t(line), replacement.data());
}

uint32_t read_head(const std::vector<uint8_t> &sheet, Head &head) {
    uint32_t numbers[RINCHOVEK_HEAD_NUMBERS] = {};
    uint32_t refusal = rinchovek_sheet_read_head(sheet.data(), sheet.size(), numbers);
    if (refusal == RINCHOVEK_ACCEPTED)
        head = {numbers[RINCHOVEK_HEAD_WIDTH], numbers[RINCHOVEK_HEAD_HEIGHT], numbers[RINCHOVEK_HEAD_START], ColourSpace::unspecified};
    return refusal;
}

Head colour_head(const uint32_t numbers[RINCHOVEK_COLOUR_HEAD_NUMBERS]) {
    return {numbers[RINCHOVEK_HEAD_WIDTH], numbers[RINCHOVEK_HEAD_HEIGHT], numbers[RINCHOVEK_HEAD_START],
            ColourSpace(numbers[RINCHOVEK_HEAD_COLOUR_SPACE])};
}

uint32_t read_colour_head(const std::vector<uint8_t> &sheet, Head &head) {
    uint32_t numbers[RINCHOVEK_COLOUR_HEAD_NUMBERS] = {};
    uint32_t refusal = rinchovek_sheet_read_colour_head(sheet.data(), sheet.size(), numbers);
    if (refusal == RINCHOVEK_ACCEPTED) head = colour_head(numbers);
    return refusal;
}

uint32_t open(const std::vector<uint8_t> &sheet, Opened &opened) {
    uint32_t numbers[RINCHOVEK_OPEN_NUMBERS] = {};
    uint32_t refusal = rinchovek_sheet_open(sheet.data(), sheet.size(), numbers);
    if (refusal == RINCHOVEK_ACCEPTED)
        opened = {{numbers[RINCHOVEK_OPEN_WIDTH], numbers[RINCHOVEK_OPEN_HEIGHT], numbers[RINCHOVEK_OPEN_START],
                   ColourSpace(numbers[RINCHOVEK_OPEN_COLOUR_SPACE])},
                  Form(numbers[RINCHOVEK_OPEN_FORM]),
                  numbers[RINCHOVEK_OPEN_COLUMNS],
                  numbers[RINCHOVEK_OPEN_ROWS],
                  numbers[RINCHOVEK_OPEN_BLOCKS]};
    return refusal;
}

uint32_t write_head(uint32_t width, uint32_t height, std::vector<uint8_t> &head) {
    uint8_t bytes[RINCHOVEK_HEAD_BYTES] = {};
    uint32_t count = 0;
    uint32_t refusal = rinchovek_sheet_write_head(width, height, bytes, &count);
    if (refusal == RINCHOVEK_ACCEPTED) head.assign(bytes, bytes + count);
    return refusal;
}

// A row of a sheet whose head was read. Where the sheet is too short for it, what there is of the row is handed over, and refused.
uint32_t decode_row(const Head &head, uint32_t row, const std::vector<uint8_t> &sheet, std::vector<uint8_t> &pixels) {
    const size_t length = rinchovek_row_blocks(head.width);
    const size_t from = std::min(head.start + row * length, sheet.size()), count = std::min(length, sheet.size() - from);
    pixels.resize(rinchovek_row_pixels(head.width, head.height, row));
    return rinchovek_sheet_decode_row(head.width, head.height, row, sheet.data() + from, count, pixels.data(), pixels.size());
}

// A row and a block of a whole sheet of either form, which was opened.
uint32_t decode_row(const Opened &opened, uint32_t row, const std::vector<uint8_t> &sheet, std::vector<uint8_t> &pixels) {
    pixels.resize(rinchovek_row_pixels(opened.head.width, opened.head.height, row));
    return rinchovek_sheet_show_row(sheet.data(), sheet.size(), row, pixels.data(), pixels.size());
}

uint32_t read_block(const std::vector<uint8_t> &sheet, BlockNumber block, Block &bytes) {
    return rinchovek_sheet_block(sheet.data(), sheet.size(), uint32_t(block), bytes.data());
}

// A sheet in the other form, which is a byte longer in tiles.
uint32_t to_tiles(const std::vector<uint8_t> &sheet, std::vector<uint8_t> &tiles) {
    tiles.resize(sheet.size() + 1);
    return rinchovek_sheet_to_tiles(sheet.data(), sheet.size(), tiles.data(), tiles.size());
}

uint32_t to_rows(const std::vector<uint8_t> &sheet, std::vector<uint8_t> &rows) {
    rows.resize(sheet.empty() ? 0 : sheet.size() - 1);
    return rinchovek_sheet_to_rows(sheet.data(), sheet.size(), rows.data(), rows.size());
}

// Counts kept beside a sheet of either form: modes 0 to 8, and the opaque blocks.
using Counts = std::array<uint32_t, RINCHOVEK_COUNTS>;

uint32_t count(const std::vector<uint8_t> &sheet, Counts &counts) { return rinchovek_sheet_count(sheet.data(), sheet.size(), counts.data()); }

uint32_t replace_line(std::vector<uint8_t> &sheet, Counts &counts, BlockNumber block, LineNumber line, const Replacement &replacement) {
    return rinchovek_sheet_replace_line_counted(sheet.data(), sheet.size(), counts.data(), uint32_t(block), uint32_t(line), replacement.data());
}

uint32_t replace_block(std::vector<uint8_t> &sheet, Counts &counts, BlockNumber block, const Block &bytes) {
    return rinchovek_sheet_replace_block_counted(sheet.data(), sheet.size(), counts.data(), uint32_t(block), bytes.data());
}

uint32_t state_colour(std::vector<uint8_t> &tiles, ColourSpace colour_space) {
    return rinchovek_sheet_state_colour(tiles.data(), tiles.size(), uint32_t(colour_space));
}

// A DDS file as a sheet, and a sheet as a DDS file; the output gets the length that it needs.
uint32_t import_dds(const std::vector<uint8_t> &file, std::vector<uint8_t> &sheet) {
    uint32_t needed = 0, refusal = rinchovek_dds_import_length(file.data(), file.size(), &needed);
    if (refusal != RINCHOVEK_ACCEPTED) return refusal;
    sheet.resize(needed);
    return rinchovek_dds_import(file.data(), file.size(), sheet.data(), sheet.size());
}

uint32_t export_dds(const std::vector<uint8_t> &sheet, std::vector<uint8_t> &file) {
    uint32_t needed = 0, refusal = rinchovek_dds_export_length(sheet.data(), sheet.size(), &needed);
    if (refusal != RINCHOVEK_ACCEPTED) return refusal;
    file.resize(needed);
    return rinchovek_dds_export(sheet.data(), sheet.size(), file.data(), file.size());
}

// The same with the colour space: import says it in the head, export takes it.
uint32_t import_dds(const std::vector<uint8_t> &file, std::vector<uint8_t> &sheet, Head &head) {
    uint32_t needed = 0, refusal = rinchovek_dds_import_length(file.data(), file.size(), &needed);
    if (refusal != RINCHOVEK_ACCEPTED) return refusal;
    sheet.resize(needed);
    uint32_t numbers[RINCHOVEK_COLOUR_HEAD_NUMBERS] = {};
    refusal = rinchovek_dds_import_colour(file.data(), file.size(), sheet.data(), sheet.size(), numbers);
    if (refusal == RINCHOVEK_ACCEPTED) head = colour_head(numbers);
    return refusal;
}

uint32_t export_dds(const std::vector<uint8_t> &sheet, ColourSpace colour_space, std::vector<uint8_t> &file) {
    uint32_t needed = 0, refusal = rinchovek_dds_export_length(sheet.data(), sheet.size(), &needed);
    if (refusal == RINCHOVEK_ACCEPTED) file.resize(needed);
    return rinchovek_dds_export_colour(sheet.data(), sheet.size(), uint32_t(colour_space), file.data(), file.size());
}

} // namespace rinchovek

using namespace rinchovek;

static void show_bytes(const char *what, const uint8_t *bytes, size_t count) {
    std::printf("%s", what);
    for (size_t i = 0; i < count; i++) std::printf(" %02X", bytes[i]);
    std::printf("\n");
}

static void show_refusal(const char *what, uint32_t refusal) {
    std::printf("%s: %u, %s\n", what, refusal, rinchovek_refusal_text(refusal));
}

static void show_row(const std::vector<uint8_t> &sheet) {
    Head head;
    std::vector<uint8_t> pixels(32);
    uint32_t refusal = read_head(sheet, head);
    if (refusal == RINCHOVEK_ACCEPTED) refusal = decode_row(head, 0, sheet, pixels);
    std::printf("row: %u, pixel 0: %u %u %u %u, pixel 4: %u %u %u %u\n", refusal, pixels[0], pixels[1], pixels[2], pixels[3],
                pixels[16], pixels[17], pixels[18], pixels[19]);
}

static void show_pixel(const Block &block) {
    auto pixel = decode_block(block)[0];
    std::printf("pixel 0: %u %u %u %u\n", pixel[RINCHOVEK_RED], pixel[RINCHOVEK_GREEN], pixel[RINCHOVEK_BLUE], pixel[RINCHOVEK_ALPHA]);
}

static void show_indexes(const Block &block, uint8_t red) {
    const Pixel wanted = {red, 0, 0, 0};
    uint32_t exact = 0, nearest = 0;
    const uint32_t refusal = exact_index(block, LineNumber(0), PixelNumber(0), wanted, exact);
    std::printf("red %u, exactly: %u, %s", red, refusal, rinchovek_refusal_text(refusal));
    if (refusal == RINCHOVEK_ACCEPTED) std::printf(", index %u", exact);
    if (nearest_index(block, LineNumber(0), PixelNumber(0), wanted, nearest) == RINCHOVEK_ACCEPTED)
        std::printf("; nearest: index %u", nearest);
    std::printf("\n");
}

static void show_opaque(const Block &block, uint32_t width, uint32_t height, BlockNumber n) {
    const Shown part = shown(width, height, n);
    std::printf("block %u of %u by %u shows %u by %u: %s\n", uint32_t(n), width, height, part.columns, part.rows,
                is_opaque(block, part) ? "opaque" : "not opaque");
}

static void show_one(const Block &block, PixelNumber pixel) {
    Pixel rgba = {};
    const uint32_t refusal = one_pixel(block, pixel, rgba);
    std::printf("pixel %u: %u, %s", uint32_t(pixel), refusal, rinchovek_refusal_text(refusal));
    if (refusal == RINCHOVEK_ACCEPTED)
        std::printf(", %u %u %u %u", rgba[RINCHOVEK_RED], rgba[RINCHOVEK_GREEN], rgba[RINCHOVEK_BLUE], rgba[RINCHOVEK_ALPHA]);
    std::printf("\n");
}

static void show_halves(const char *what, const Block &block) {
    const auto plain = decode_bc6h_block(block, Sign::without)[0], with_sign = decode_bc6h_block(block, Sign::with)[0];
    std::printf("%s: unsigned %04X %04X %04X, signed %04X %04X %04X\n", what, plain[0], plain[1], plain[2], with_sign[0], with_sign[1],
                with_sign[2]);
}

static void show_floats(const char *what, const float *floats, size_t count) {
    std::printf("%s", what);
    for (size_t i = 0; i < count; i++) std::printf(" %08X", rinchovek_float_bits(floats[i]));
    std::printf("\n");
}

static void show_channel(const char *what, float value) {
    uint32_t channel = 0;
    const uint32_t refusal = channel_of(value, channel);
    std::printf("%s: %u, %s", what, refusal, rinchovek_refusal_text(refusal));
    if (refusal == RINCHOVEK_ACCEPTED) std::printf(", channel %u", channel);
    std::printf("\n");
}

static void show_opened(const std::vector<uint8_t> &sheet) {
    Opened opened;
    const uint32_t refusal = open(sheet, opened);
    std::printf("opened: %u, %u by %u, blocks from %u, colour space %u, form %u, %u columns, %u rows, %u blocks\n", refusal,
                opened.head.width, opened.head.height, opened.head.start, uint32_t(opened.head.colour_space), uint32_t(opened.form),
                opened.columns, opened.rows, opened.blocks);
}

static void show_counts(const Counts &counts) {
    std::printf("counts");
    for (const uint32_t count : counts) std::printf(" %u", count);
    std::printf("\n");
}

int main() {
    const uint32_t version = rinchovek_version();
    if (version / 10000 != RINCHOVEK_VERSION_MAJOR || version < RINCHOVEK_VERSION) return 1;
    std::printf("version %u.%u.%u\n", version / 10000, version / 100 % 100, version % 100);

    Block alone = {0x40, 0xC0, 0x1F, 0, 0, 0, 0, 0, 0x0E};
    std::vector<uint8_t> sheet = {0x01, 0x08, 0x04};
    const size_t start = sheet.size();
    sheet.insert(sheet.end(), alone.begin(), alone.end());
    sheet.resize(start + 2 * RINCHOVEK_BLOCK_BYTES);

    Replacement replacement = {};
    replacement[RINCHOVEK_LINE_SECOND_ENDPOINT + RINCHOVEK_RED] = 127;
    replacement[RINCHOVEK_LINE_INDEXES + 0] = 8;
    show_row(sheet);
    show_refusal("replaced in the sheet", replace_line(sheet, BlockNumber(0), LineNumber(0), replacement));
    show_bytes("block", sheet.data() + start, RINCHOVEK_BLOCK_BYTES);
    show_row(sheet);

    show_pixel(alone);
    show_indexes(alone, 135);
    show_indexes(alone, 130);
    show_refusal("replaced", replace_line(alone, LineNumber(0), replacement));
    show_bytes("block", alone.data(), alone.size());
    show_pixel(alone);

    replacement[RINCHOVEK_LINE_SECOND_ENDPOINT + RINCHOVEK_RED] = 128;
    show_refusal("red 128", replace_line(sheet, BlockNumber(0), LineNumber(0), replacement));
    show_refusal("block 1", replace_line(sheet, BlockNumber(1), LineNumber(0), replacement));
    show_refusal("line 1", replace_line(alone, LineNumber(1), replacement));
    show_bytes("block", alone.data(), alone.size());

    Record record = {};
    Block packed = {};
    uint32_t refusal = unpack(alone, record);
    std::printf("unpacked: %u, mode %u, red %u and %u\n", refusal, record[RINCHOVEK_RECORD_MODE],
                record[RINCHOVEK_RECORD_ENDPOINTS + RINCHOVEK_RED], record[RINCHOVEK_RECORD_ENDPOINTS + 4 + RINCHOVEK_RED]);
    show_refusal("packed", pack(record, packed));
    show_bytes("block", packed.data(), packed.size());
    record[RINCHOVEK_RECORD_KIND] = RINCHOVEK_TWO_SUBSETS;
    show_refusal("two subsets", pack(record, packed));

    Replacement held = {}, widths = {};
    refusal = read_line(alone, LineNumber(0), held, widths);
    std::printf("line 0: %u, pixel 0 has index %u of %u bits\n", refusal, held[RINCHOVEK_LINE_INDEXES], widths[RINCHOVEK_LINE_INDEXES]);
    held[RINCHOVEK_LINE_INDEXES + 0] = 3;
    show_refusal("index 3", replace_line(alone, LineNumber(0), held));
    show_pixel(alone);

    std::vector<uint8_t> head;
    show_refusal("head", write_head(RINCHOVEK_LARGEST_SIDE, 5, head));
    show_bytes("head", head.data(), head.size());
    show_refusal("head", write_head(RINCHOVEK_LARGEST_SIDE + 1, 5, head));

    const Block corner = {0x40, 0, 0, 0, 0, 0, 0xFE, 0x80, 0, 0, 0, 0, 0, 0, 0, 0xF0}, reserved = {};
    show_opaque(corner, 7, 4, BlockNumber(0));
    show_opaque(corner, 7, 4, BlockNumber(1));
    show_opaque(reserved, 8, 4, BlockNumber(1));
    for (uint32_t pixel = 14; pixel <= 16; pixel++) show_one(corner, PixelNumber(pixel));

    show_halves("backdrop", {0x03, 0x40});
    show_halves("reserved", {0xF3, 0xFF});

    std::vector<uint8_t> file, again;
    refusal = export_dds(sheet, file);
    std::printf("exported: %u, %zu bytes\n", refusal, file.size());
    show_bytes("sides", file.data() + 12, 8);
    refusal = import_dds(file, again);
    std::printf("imported: %u, %zu bytes\n", refusal, again.size());
    show_bytes("sheet", again.data(), start + RINCHOVEK_BLOCK_BYTES);
    show_refusal("a sheet for a file", import_dds(sheet, again));

    Head said;
    refusal = export_dds(sheet, ColourSpace::srgb, file);
    std::printf("exported in sRGB: %u, format %u\n", refusal, file[128]);
    refusal = import_dds(file, again, said);
    std::printf("imported: %u, %u by %u, blocks from %u, colour space %u\n", refusal, said.width, said.height, said.start,
                uint32_t(said.colour_space));
    refusal = read_colour_head(again, said);
    std::printf("its head: %u, colour space %u\n", refusal, uint32_t(said.colour_space));
    show_refusal("colour space 3", export_dds(sheet, ColourSpace(3), file));

    std::vector<uint8_t> in_rows = {RINCHOVEK_FORM_ROWS, 12, 8}, in_tiles, back, scanlines;
    for (uint8_t n = 0; n < 6; n++) {
        const Block filled = {0x40, n};
        in_rows.insert(in_rows.end(), filled.begin(), filled.end());
    }
    show_opened(in_rows);
    show_refusal("to tiles", to_tiles(in_rows, in_tiles));
    show_opened(in_tiles);
    Opened opened;
    open(in_tiles, opened);
    std::printf("stored");
    for (uint32_t n = 0; n < opened.blocks; n++) std::printf(" %u", in_tiles[opened.head.start + n * RINCHOVEK_BLOCK_BYTES + 1]);
    std::printf("\n");
    Block one = {};
    show_refusal("block 2", read_block(in_tiles, BlockNumber(2), one));
    show_bytes("block", one.data(), 2);
    show_refusal("block 6", read_block(in_tiles, BlockNumber(6), one));
    refusal = decode_row(opened, 1, in_tiles, scanlines);
    std::printf("row 1: %u, red", refusal);
    for (uint32_t n = 0; n < opened.columns; n++) std::printf(" %u", scanlines[n * 4 * RINCHOVEK_PIXEL_BYTES + RINCHOVEK_RED]);
    std::printf("\n");
    show_refusal("tiles in three numbers", read_head(in_tiles, said));
    show_refusal("to rows", to_rows(in_tiles, back));
    std::printf("the same bytes: %s\n", back == in_rows ? "yes" : "no");
    show_refusal("sRGB stated", state_colour(in_tiles, ColourSpace::srgb));
    show_opened(in_tiles);
    show_refusal("3 stated", state_colour(in_tiles, ColourSpace(3)));
    show_refusal("sRGB to rows", to_rows(in_tiles, back));

    Counts counts = {};
    show_refusal("counted", count(in_tiles, counts));
    show_counts(counts);
    show_refusal("block 2 replaced", replace_block(in_tiles, counts, BlockNumber(2), Block()));
    show_counts(counts);
    read_block(in_tiles, BlockNumber(3), one);
    read_line(one, LineNumber(0), held, widths);
    show_refusal("line 0 of block 3 replaced", replace_line(in_tiles, counts, BlockNumber(3), LineNumber(0), held));
    show_counts(counts);
    counts[RINCHOVEK_COUNT_MODE_0 + 6]++;
    show_refusal("one too many", replace_line(in_tiles, counts, BlockNumber(3), LineNumber(0), held));

    const FloatPixel four = pixel_floats({135, 0, 51, 255});
    show_floats("floats", four.data(), four.size());
    const std::vector<uint8_t> two = {135, 0, 51, 255, 254, 1, 2, 3};
    std::vector<float> floats(7);
    show_refusal("room for 7", row_floats(two, floats));
    floats.resize(8);
    show_refusal("room for 8", row_floats(two, floats));
    show_floats("row", floats.data(), floats.size());
    show_channel("0.2", 0.2f);
    show_channel("-0.0", -0.0f);
    show_channel("0.5", 0.5f);
    uint32_t channel = 0;
    show_refusal("bits 7FC00000", channel_of_bits(0x7FC00000, channel));

    for (uint32_t number = RINCHOVEK_RESERVED_BLOCK; number <= RINCHOVEK_COLOUR_SPACE_STATED; number++)
        std::printf("%u: %s\n", number, rinchovek_refusal_text(number));
    std::printf("%u: %s\n", unsigned(RINCHOVEK_BAD_COLOUR_SPACE), rinchovek_refusal_text(RINCHOVEK_BAD_COLOUR_SPACE));
    std::printf("%u: %s\n", unsigned(RINCHOVEK_FALSE_COUNTS), rinchovek_refusal_text(RINCHOVEK_FALSE_COUNTS));
    std::printf("%u: %s\n", unsigned(RINCHOVEK_NO_SUCH_PIXEL), rinchovek_refusal_text(RINCHOVEK_NO_SUCH_PIXEL));
    std::printf("%u: %s\n", unsigned(RINCHOVEK_NOT_A_CHANNEL), rinchovek_refusal_text(RINCHOVEK_NOT_A_CHANNEL));
}
