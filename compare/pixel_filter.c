/* The second decoder as a filter: blocks on standard input, sixteen bytes each, and of each the sixteen pixels on standard output, read one by one
 * by rinchovek_bc7_pixel. One process for all of them, so that millions can be read. Status 1 where a pixel is refused or a block is cut off,
 * 2 where reading or writing fails. The kit has no C headers: what is needed of them is declared here. */
#include "rinchovek.h"

long read(int file, void *to, unsigned long count);
long write(int file, const void *from, unsigned long count);

#define BLOCKS 1024

static uint8_t blocks[BLOCKS * RINCHOVEK_BLOCK_BYTES];
static uint8_t pixels[BLOCKS * RINCHOVEK_PIXELS_BYTES];

int main(void) {
    for (;;) {
        unsigned long have = 0;
        while (have < sizeof blocks) {
            const long got = read(0, blocks + have, sizeof blocks - have);
            if (got < 0) return 2;
            if (got == 0) break;
            have += (unsigned long)got;
        }
        if (have == 0) return 0;
        if (have % RINCHOVEK_BLOCK_BYTES != 0) return 1;
        const unsigned long count = have / RINCHOVEK_BLOCK_BYTES;
        for (unsigned long block = 0; block < count; block++) {
            for (uint32_t pixel = 0; pixel < RINCHOVEK_BLOCK_PIXELS; pixel++) {
                uint8_t *to = pixels + RINCHOVEK_PIXELS_BYTES * block + RINCHOVEK_PIXEL_BYTES * pixel;
                if (rinchovek_bc7_pixel(blocks + RINCHOVEK_BLOCK_BYTES * block, pixel, to) != RINCHOVEK_ACCEPTED) return 1;
            }
        }
        for (unsigned long done = 0; done < RINCHOVEK_PIXELS_BYTES * count;) {
            const long put = write(1, pixels + done, RINCHOVEK_PIXELS_BYTES * count - done);
            if (put < 0) return 2;
            done += (unsigned long)put;
        }
    }
}
