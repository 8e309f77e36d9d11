/* How much stack a decode takes, below the frame of its caller: the stack is painted, and the lowest byte that changed is looked for.
   The texts take every way of reading: short segments, few and many digits, the end of the text, a refusal. */
#include <stdint.h>
#include <stdio.h>
#include <string.h>

#include "peghayrick.h"

#define DEEP 8192
#define PAINT 0xA5

static unsigned char *lowest;
static uint32_t table[PGK_WIDTH * 64];

__attribute__((noinline)) static void paint(void) {
    volatile unsigned char painted[DEEP];
    for (int i = 0; i < DEEP; i++) painted[i] = PAINT;
    lowest = (unsigned char *)painted;
}

__attribute__((noinline)) static long taken(const unsigned char *top) {
    const volatile unsigned char *at = lowest;
    while (at < (const volatile unsigned char *)top && *at == PAINT) at++;
    return (long)(top - (const unsigned char *)at);
}

int main(void) {
    static const char *texts[] = {"", "AAAA,CAAAA;EAAA", "gBgggB+/BggB0B,ggggggA;fAbA,A", "ggggggggggggE", "AAAA,ggggggggggggggA", "D"};
    long most = 0;
    for (size_t i = 0; i < sizeof texts / sizeof *texts; i++) {
        for (int checked = 0; checked < 2; checked++) {
            unsigned char here;
            const uint8_t *text = (const uint8_t *)texts[i];
            size_t length = strlen(texts[i]);
            paint();
            if (checked) pgk_decode_checked(text, length, 4, 4, table, PGK_WIDTH * 64);
            else pgk_decode_lenient(text, length, 4, 4, table, PGK_WIDTH * 64);
            long now = taken(&here);
            if (now > most) most = now;
        }
    }
    printf("%ld bytes of stack, the caller's part of them included, in the deepest decode\n", most);
    return 0;
}
