/* Prints the word of each time of standard input, hh:mm:ss:ff, as 80 characters 0 and 1. */
#include <siengulot.h>
#include <stdio.h>

int main(void)
{
    size_t h, m, s, f, place, count;
    uint8_t bits[SIENGULOT_TIME_WORD_BITS];

    while (scanf("%zu:%zu:%zu:%zu", &h, &m, &s, &f) == 4) {
        if (siengulot_time_write(h, m, s, f, bits, sizeof bits, &place, &count) != 0) {
            return 1;
        }
        for (size_t i = 0; i < count; i++) {
            putchar('0' + bits[i]);
        }
        putchar('\n');
    }
    return 0;
}
