/* All 2^32 patterns of bits through rinchovek_float_channel, once, natively: a channel's own pattern gives the channel, and every other is
 * refused with 23 and writes nothing. What a channel's pattern is, this program finds by its compiler's own division.
 *
 *     cc -O2 -Iinclude compare/float_patterns.c librinchovek.a -o float_patterns && ./float_patterns
 *
 * Prints how many of each there were; exit status 1 where an answer is another. */
#include "rinchovek.h"

int printf(const char *format, ...);

enum { CHANNELS = 256, UNTOUCHED = 999 };

int main(void) {
    static uint32_t own[CHANNELS + 1];
    uint32_t next = 0, wrong = 0, accepted = 0, refused = 0, bits = 0;
    for (uint32_t c = 0; c < CHANNELS; c++) {
        own[c] = rinchovek_float_bits((float)c / 255.0f);
        if (c > 0 && own[c] <= own[c - 1]) wrong++; /* they rise, so that one pointer into them is enough */
    }
    do {
        uint32_t channel = UNTOUCHED;
        const uint32_t answer = rinchovek_float_channel(bits, &channel);
        const int mine = next < CHANNELS && bits == own[next];
        if (answer != (mine ? RINCHOVEK_ACCEPTED : RINCHOVEK_NOT_A_CHANNEL) || channel != (mine ? next : UNTOUCHED)) {
            if (wrong++ < 10) printf("bits %08X: %u, channel %u\n", bits, answer, channel);
        }
        next += (uint32_t)mine;
        if (answer == RINCHOVEK_ACCEPTED) accepted++;
        else refused++;
    } while (++bits != 0);
    printf("%u accepted, %u refused, %u wrong\n", accepted, refused, wrong);
    return wrong != 0 || accepted != CHANNELS;
}
