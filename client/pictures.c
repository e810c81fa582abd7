/* What a sheet shows, as a picture: PAM always, PNG where the client was built with libpng. */
#include "client.h"

#include <stdio.h>
#include <stdlib.h>
#include <string.h>
#ifdef RINCHOVEK_PNG
#include <png.h>
#endif

enum { MASKED_IN_PNG = 128, FADED = 4 /* times nearer to white */ };

/* A picture that is being written, line by line. */
struct painter {
    struct output to;
    uint32_t width, height; /* of the picture */
    int channels;           /* 4 as drawn, or 3 over a ground */
    int is_png;
#ifdef RINCHOVEK_PNG
    png_structp png;
    png_infop info;
#endif
};

static int is_png_name(const char *name) {
    const char *dot = strrchr(name, '.');
    if (!is_stream(name) && (dot == NULL || (strcmp(dot, ".png") != 0 && strcmp(dot, ".pam") != 0)))
        fail(name, "can't be written: the name of a picture ends in .png or in .pam");
    return dot != NULL && strcmp(dot, ".png") == 0;
}

#ifdef RINCHOVEK_PNG

static void put_png(png_structp png, png_bytep bytes, size_t length) { put(png_get_io_ptr(png), bytes, length); }

static void flush_png(png_structp png) { (void)png; }

static void fail_png(png_structp png, png_const_charp what) { fail(((struct output *)png_get_error_ptr(png))->name, what); }

static void warn_png(png_structp png, png_const_charp what) { (void)png, (void)what; }

static void start_png(struct painter *painter) {
    painter->png = png_create_write_struct(PNG_LIBPNG_VER_STRING, &painter->to, fail_png, warn_png);
    painter->info = painter->png != NULL ? png_create_info_struct(painter->png) : NULL;
    if (painter->info == NULL) fail("the memory", "is too small");
    png_set_write_fn(painter->png, &painter->to, put_png, flush_png);
    png_set_user_limits(painter->png, painter->width, painter->height);
    png_set_IHDR(painter->png, painter->info, painter->width, painter->height, 8, painter->channels == 4 ? PNG_COLOR_TYPE_RGB_ALPHA : PNG_COLOR_TYPE_RGB,
                 PNG_INTERLACE_NONE, PNG_COMPRESSION_TYPE_DEFAULT, PNG_FILTER_TYPE_DEFAULT);
    png_write_info(painter->png, painter->info);
}

static void put_png_line(struct painter *painter, const uint8_t *line) { png_write_row(painter->png, line); }

static void finish_png(struct painter *painter) {
    png_write_end(painter->png, painter->info);
    png_destroy_write_struct(&painter->png, &painter->info);
}

#else

static void start_png(struct painter *painter) { fail(painter->to.name, "can't be written: this client was built without libpng, and writes .pam alone"); }

static void put_png_line(struct painter *painter, const uint8_t *line) { (void)painter, (void)line; }

static void finish_png(struct painter *painter) { (void)painter; }

#endif

static void start_pam(struct painter *painter) {
    char head[128];
    const int length = snprintf(head, sizeof head, "P7\nWIDTH %u\nHEIGHT %u\nDEPTH %d\nMAXVAL 255\nTUPLTYPE %s\nENDHDR\n", painter->width, painter->height,
                                painter->channels, painter->channels == 4 ? "RGB_ALPHA" : "RGB");
    put(&painter->to, head, (size_t)length);
}

static void start_picture(struct painter *painter, const char *name, int may_own) {
#ifndef RINCHOVEK_PNG
    if (painter->is_png) {
        painter->to.name = name;
        start_png(painter); /* which says why not, before there is a lock */
    }
#endif
    painter->to = aim(name, may_own);
    start_file(&painter->to);
    if (painter->is_png) start_png(painter);
    else start_pam(painter);
}

static void put_line(struct painter *painter, const uint8_t *line) {
    if (painter->is_png) put_png_line(painter, line);
    else put(&painter->to, line, (size_t)painter->width * (size_t)painter->channels);
}

static void finish_picture(struct painter *painter) {
    if (painter->is_png) finish_png(painter);
    settle_file(&painter->to);
    name_file(&painter->to);
}

/* ---- from the pixels of a sheet to those of the picture */

static uint8_t over(uint8_t channel, uint8_t alpha, uint32_t ground) { return (uint8_t)((channel * alpha + ground * (255u - alpha)) / 255); }

/* Black or white, whatever stands out more. */
static void make_contrast(uint8_t pixel[RINCHOVEK_PIXEL_BYTES]) {
    const int is_bright = 2 * pixel[RINCHOVEK_RED] + 5 * pixel[RINCHOVEK_GREEN] + pixel[RINCHOVEK_BLUE] >= 8 * 128;
    memset(pixel, is_bright ? 0 : 255, RINCHOVEK_PIXEL_BYTES);
    pixel[RINCHOVEK_ALPHA] = 255;
}

/* What a line of pixels of the sheet becomes, as the painter's line `part` of `scale`. `x` and `y` are where its first pixel stands. */
static void scale_line(const struct painter *painter, const struct given *given, const uint8_t *pixels, uint32_t x, uint32_t y, uint32_t part, uint8_t *line) {
    const uint32_t scale = given->scale;
    for (uint32_t across = 0; across < painter->width; across++) {
        uint8_t pixel[RINCHOVEK_PIXEL_BYTES];
        const uint8_t *drawn = pixels + (size_t)RINCHOVEK_PIXEL_BYTES * (across / scale);
        memcpy(pixel, drawn, sizeof pixel);
        if (painter->channels == 3)
            for (int channel = 0; channel < 3; channel++) pixel[channel] = over(drawn[channel], drawn[RINCHOVEK_ALPHA], given->mask);
        const int is_edge = (across % scale == 0 && (x + across / scale) % 4 == 0) || (part == 0 && y % 4 == 0);
        if (given->has_grid && is_edge) make_contrast(pixel);
        memcpy(line + (size_t)across * (size_t)painter->channels, pixel, (size_t)painter->channels);
    }
}

/* What is the same in both fades away, masked or not. */
static void fade_same(uint8_t *pixels, const uint8_t *before, size_t length) {
    for (size_t at = 0; at < length; at += RINCHOVEK_PIXEL_BYTES) {
        uint8_t *pixel = pixels + at;
        if (memcmp(pixel, before + at, RINCHOVEK_PIXEL_BYTES) != 0) continue;
        for (int channel = 0; channel < 3; channel++)
            pixel[channel] = (uint8_t)(255 - (255 - over(pixel[channel], pixel[RINCHOVEK_ALPHA], MASKED_IN_PNG)) / FADED);
        pixel[RINCHOVEK_ALPHA] = 255;
    }
}

static void show_row(const struct sheet *sheet, uint32_t row, uint8_t *pixels) {
    const size_t length = rinchovek_row_pixels(sheet->numbers[RINCHOVEK_OPEN_WIDTH], sheet->numbers[RINCHOVEK_OPEN_HEIGHT], row);
    check_sheet(sheet->name, sheet->file, rinchovek_sheet_show_row(sheet->file.at, sheet->file.length, row, pixels, length));
}

/* The part of the sheet that is drawn. */
struct region {
    uint32_t x, y, width, height;
};

static struct region region_of(const struct sheet *sheet, const struct given *given) {
    const uint32_t width = sheet->numbers[RINCHOVEK_OPEN_WIDTH], height = sheet->numbers[RINCHOVEK_OPEN_HEIGHT];
    struct region region = {0, 0, width, height};
    if (!given->has_region) return region;
    region.x = given->region[0], region.y = given->region[1], region.width = given->region[2], region.height = given->region[3];
    if (region.x >= width || region.y >= height || region.width == 0 || region.height == 0 || region.width > width - region.x ||
        region.height > height - region.y) {
        fprintf(stderr, "rinchovek: %s has %u by %u pixels, and the region isn't within them\n", sheet->name, width, height);
        stop(FAILED);
    }
    return region;
}

void paint(const struct sheet *sheet, const struct sheet *before, const char *name, struct given given) {
    const int is_png = is_png_name(name), has_ground = given.has_mask ? given.mask <= UINT8_MAX : is_png;
    const struct region region = region_of(sheet, &given);
    struct painter painter = {.width = region.width * given.scale, .height = region.height * given.scale, .channels = has_ground ? 3 : 4, .is_png = is_png};
    if (!given.has_mask) given.mask = MASKED_IN_PNG;
    const size_t row_length = rinchovek_row_pixels(sheet->numbers[RINCHOVEK_OPEN_WIDTH], 4, 0);
    const size_t line_length = row_length / 4;
    uint8_t *pixels = room_for(NULL, row_length), *pixels_before = room_for(NULL, row_length);
    uint8_t *line = room_for(NULL, (size_t)painter.width * (size_t)painter.channels);
    for (uint32_t y = region.y; y < region.y + region.height; y++) {
        if (y == region.y || y % 4 == 0) {
            show_row(sheet, y / 4, pixels);
            if (before != NULL) {
                show_row(before, y / 4, pixels_before);
                fade_same(pixels, pixels_before, rinchovek_row_pixels(sheet->numbers[RINCHOVEK_OPEN_WIDTH], sheet->numbers[RINCHOVEK_OPEN_HEIGHT], y / 4));
            }
        }
        if (y == region.y) start_picture(&painter, name, given.may_own); /* what is refused has been by now, so that no file is begun for it */
        for (uint32_t part = 0; part < given.scale; part++) {
            scale_line(&painter, &given, pixels + line_length * (y % 4) + (size_t)RINCHOVEK_PIXEL_BYTES * region.x, region.x, y, part, line);
            put_line(&painter, line);
        }
        show_progress("drawn", y - region.y + 1, region.height);
    }
    finish_picture(&painter);
    free(pixels);
    free(pixels_before);
    free(line);
}

int draw_picture(struct given given) {
    const struct sheet sheet = read_sheet(given.file[0]);
    paint(&sheet, NULL, given.file[1], given);
    release(sheet.file);
    return DONE;
}
