/*
 * clock: takes the time from a station's master clock, whose line is read as a board's is, and prints each time as it comes.
 *
 *     clock A G W R < reads
 *
 * A is half a cell, in writer cycles: time code has a equal to b. G is the settling count of the cable, W and R are the lengths of a writer cycle and
 * of a read. Standard input stands for the port: a character for each read, 0 or 1, with line ends and spaces passed over. A clock never falls
 * quiet, so the program keeps only the reads and the bits that it has not yet done with.
 */
#include <siengulot.h>
#include <stdio.h>
#include <stdlib.h>
#include <string.h>

/* How many reads are held at a time, and how many are fetched. */
enum { HELD = 4000, PIECE = 1000 };

static uint8_t reads[HELD], bits[SIENGULOT_BITS_MOST], word[SIENGULOT_TIME_WORD_BITS];
static size_t reads_length, word_length;

/* Fetches up to PIECE reads after those that are held, and returns how many: 0 at the end. */
static size_t fetch(void)
{
    size_t fetched = 0;
    while (fetched < PIECE && reads_length < HELD) {
        int c = getchar();
        if (c == EOF) {
            break;
        }
        if (c != '\n' && c != ' ') {
            reads[reads_length++] = (uint8_t)(c - '0');
            fetched++;
        }
    }
    return fetched;
}

/* Takes one bit more. Where the last 80 are a word its time is printed, or that it is bad, and the next word begins after them; otherwise they
   move on by one. */
static void take(uint8_t bit)
{
    uint8_t time[SIENGULOT_TIME_BYTES];
    size_t place, count, refusal;

    word[word_length++] = bit;
    if (word_length < SIENGULOT_TIME_WORD_BITS) {
        return;
    }
    refusal = siengulot_time_read(word, word_length, time, sizeof time, &place, &count);
    if (refusal == 0 && count == 0) {
        memmove(word, word + 1, --word_length);
        return;
    }
    word_length = 0;
    if (refusal == 0) {
        printf("%02d:%02d:%02d:%02d\n", time[0], time[1], time[2], time[3]);
    } else {
        printf("refused %zu\n", refusal);
    }
}

/* A number that is too large to be told is as far out of range as the greatest. */
static size_t number(const char *text)
{
    char *end;
    size_t value = (size_t)strtoull(text, &end, 10);
    if (*text < '0' || *text > '9' || *end != '\0') {
        fprintf(stderr, "clock: '%s' is no number\n", text);
        exit(2);
    }
    return value;
}

int main(int argc, char **argv)
{
    size_t a, k, refusal, place, count, level = 1;

    if (argc != 5) {
        fprintf(stderr, "usage: clock A G W R < reads\n");
        return 2;
    }
    a = number(argv[1]);
    refusal = siengulot_pick(a, a, number(argv[2]), number(argv[3]), number(argv[4]), &k);
    if (refusal != 0) {
        printf("refused %zu\n", refusal);
        return 1;
    }
    while (fetch() > 0) {
        refusal = siengulot_counted(k, SIENGULOT_BITS_MOST, level, reads, reads_length, bits, sizeof bits, &place, &count);
        if (refusal != 0 && refusal != SIENGULOT_RAN_OUT) {
            /* The place is counted from the first read that is held. */
            printf("refused %zu at %zu\n", refusal, place);
            return 1;
        }
        for (size_t i = 0; i < count; i++) {
            take(bits[i]);
        }
        /* The receiver goes on from the current read, with its level in force; where no bit was found, both stay. */
        if (count > 0) {
            level = reads[place];
        }
        memmove(reads, reads + place, reads_length -= place);
        if (count == 0 && reads_length == HELD) {
            printf("no clock\n");
            return 1;
        }
    }
    return 0;
}
