/*
 * shift: clocks the cells of a row out as a shifter does, sixteen half cells to a word, without the lead that its caller holds before them.
 *
 *     shift A BYTE..
 *
 * The bytes are the row's bits, the highest of each first, in hexadecimal. Prints a line for each word: the word, and its sixteen half cells as they
 * come out, each held for A cycles, 1 to 255. A row of more than 128 bytes is refused, with exit status 1; what is no such number has exit status 2.
 */
#include <siengulot.h>
#include <stdio.h>
#include <stdlib.h>

enum { HALF_CELLS = 16, BYTES = SIENGULOT_WORDS_MOST + 1 };

/* Stands for the port: the line is at this level for one cycle. */
static void cycle(unsigned level)
{
    putchar('0' + (int)level);
}

/* What the shifter does with a word: its highest bit comes out first. */
static void clock_out(uint16_t word, size_t a)
{
    for (int half = HALF_CELLS - 1; half >= 0; half--) {
        for (size_t i = 0; i < a; i++) {
            cycle(word >> half & 1u);
        }
    }
}

/* A number from `least` to `most`, or the end of the program. */
static size_t number(const char *text, int base, size_t least, size_t most)
{
    char *end;
    size_t value = (size_t)strtoull(text, &end, base);
    if (*text == '\0' || *text == '-' || *end != '\0' || value < least || value > most) {
        fprintf(stderr, "shift: '%s' is no number from %zu to %zu\n", text, least, most);
        exit(2);
    }
    return value;
}

int main(int argc, char **argv)
{
    uint8_t bytes[BYTES];
    uint16_t words[SIENGULOT_WORDS_MOST];
    size_t length = 0, place, count, refusal;

    if (argc < 2) {
        fprintf(stderr, "usage: shift A BYTE..\n");
        return 2;
    }
    size_t a = number(argv[1], 10, SIENGULOT_SUBCELL_LEAST, SIENGULOT_SUBCELL_MOST);
    for (int i = 2; i < argc && length < BYTES; i++) {
        bytes[length++] = (uint8_t)number(argv[i], 16, 0, 255);
    }
    refusal = siengulot_encode(bytes, length, words, SIENGULOT_WORDS_MOST, &place, &count);
    if (refusal != SIENGULOT_NO_REFUSAL) {
        printf("refused %zu at %zu\n", refusal, place);
        return 1;
    }
    for (size_t i = 0; i < count; i++) {
        printf("%04X ", (unsigned)words[i]);
        clock_out(words[i], a);
        putchar('\n');
    }
    return 0;
}
