/*
 * wander: a message over two clocks that wander. Sends the bits, takes their wave over the three passes of the line with a length of its own for each
 * writer cycle and each read, from W1 to W2 and from R1 to R2, and gives the reads to the counted receiver.
 *
 *     wander A B G K W1 W2 R1 R2 SEED BITS
 *
 * The lengths are drawn from SEED, and unknown reads fall low. Prints whether the judge accepts these ends, and the bits that were received; of accepted
 * ends these are always the bits that were sent. Its exit status is 0 where they are, 1 where they are not, and 2 for a refusal.
 */
#include <siengulot.h>
#include <stdio.h>
#include <stdlib.h>
#include <string.h>

enum { A, B, G, K, W1, W2, R1, R2, SEED, NUMBERS };

/* The most bits, the lead before them, and room for their cycles; a cell has at most 510 cycles. */
enum { BITS = 64, LEAD = 40, CYCLES = LEAD + BITS * 510, READS = 1048576, MARGINS = 3 };

static uint8_t bits[BITS], wave[CYCLES], smoothed[CYCLES], warped[READS], settled[READS], found[BITS];
static size_t cycle_lengths[CYCLES], read_lengths[READS];

static size_t place;   /* of a refusal */
static uint64_t state; /* of the draw */

static void succeed(size_t refusal)
{
    if (refusal != SIENGULOT_NO_REFUSAL) {
        printf("refused %zu at %zu\n", refusal, place);
        exit(2);
    }
}

/* A length from least to most. */
static size_t drawn(size_t least, size_t most)
{
    state = state * 6364136223846793005u + 1442695040888963407u;
    return least + (size_t)(state >> 33) % (most - least + 1);
}

int main(int argc, char **argv)
{
    size_t s[NUMBERS], accepted, cycles, reads, count, n, end = 0, begun = 0, lengths = 0;
    int64_t margins[MARGINS];

    if (argc != 2 + NUMBERS || strlen(argv[1 + NUMBERS]) > BITS || strspn(argv[1 + NUMBERS], "01") != strlen(argv[1 + NUMBERS])) {
        fprintf(stderr, "usage: wander A B G K W1 W2 R1 R2 SEED BITS, with at most %d bits\n", BITS);
        return 2;
    }
    for (int i = 0; i < NUMBERS; i++) {
        s[i] = (size_t)strtoull(argv[1 + i], NULL, 10);
    }
    n = strlen(argv[1 + NUMBERS]);
    for (size_t i = 0; i < n; i++) {
        bits[i] = (uint8_t)(argv[1 + NUMBERS][i] - '0');
    }

    succeed(siengulot_judge_ends(s[A], s[B], s[G], s[K], s[W1], s[W2], s[R1], s[R2], margins, &accepted));
    puts(accepted ? "yes" : "no");
    succeed(siengulot_send(s[A], s[B], LEAD, bits, n, wave, CYCLES, &place, &cycles));
    succeed(siengulot_smooth(s[G], wave, cycles, smoothed, CYCLES, &place, &cycles));

    /* A length for each cycle, and for reads as long as they start before the wave ends. */
    state = s[SEED];
    for (size_t i = 0; i < cycles; i++) {
        end += cycle_lengths[i] = drawn(s[W1], s[W2]);
    }
    while (begun < end && lengths < READS) {
        begun += read_lengths[lengths++] = drawn(s[R1], s[R2]);
    }
    succeed(siengulot_warp_by_lengths(s[W1], s[W2], s[R1], s[R2], 0, cycle_lengths, cycles, read_lengths, lengths, smoothed, cycles, warped, READS,
                                      &place, &reads));
    /* No choice is lent, so every unknown read falls low. */
    succeed(siengulot_settle(warped, reads, found, 0, settled, READS, &place, &reads));
    succeed(siengulot_counted(s[K], n, 1, settled, reads, found, BITS, &place, &count));
    for (size_t i = 0; i < count; i++) {
        putchar('0' + found[i]);
    }
    putchar('\n');
    return memcmp(found, bits, n) == 0 ? 0 : 1;
}
