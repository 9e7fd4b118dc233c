/*
 * way: one row on its way. Judges the settings, sends the row, takes its wave over the three passes of the line, and gives the reads one by one to
 * a receiver. Prints each stage as a name and numbers, and what the first two passes make of the same wave on a longer cable. The pictures of docs/pictures are drawn from what it prints.
 *
 *     way
 */
#include <siengulot.h>
#include <inttypes.h>
#include <stdio.h>
#include <stdlib.h>

/* The first board of docs/FITTER.md, with the least p1 that the judge accepts for it. */
enum { A = 5, B = 13, G = 1, K = 10, W = 100, R = 141, Q = 16, P1 = 25 };

/* A settling count as of a longer cable, to show what it does to the same wave. */
enum { SLOW = 3 };

/* The row, and how it happens to be read: the phase, and how unknown reads fall. */
enum { N = 3, P = 30, CHOICES = 7 };

static const uint8_t bits[N] = {1, 0, 1};
static const uint8_t choices[CHOICES] = {1, 0, 1, 0, 0, 1, 1};

enum { ROOM = 128, MARGINS = 5 };

static size_t place; /* of a refusal */

static void succeed(size_t refusal)
{
    if (refusal != SIENGULOT_NO_REFUSAL) {
        printf("refused %zu at %zu\n", refusal, place);
        exit(1);
    }
}

static void print_levels(const char *name, const uint8_t *levels, size_t count)
{
    printf("%s", name);
    for (size_t i = 0; i < count; i++) {
        printf(" %d", levels[i]);
    }
    putchar('\n');
}

/* What a read has made of a receiver that was in a mode before. */
static void print_change(size_t before, size_t after, size_t read)
{
    if (before == SIENGULOT_HUNTING && after == SIENGULOT_READY) {
        printf("ready %zu\n", read);
    }
    if (before != SIENGULOT_COUNTING && after == SIENGULOT_COUNTING) {
        printf("mark %zu\n", read);
    }
    if (before == SIENGULOT_COUNTING && after != SIENGULOT_COUNTING) {
        printf("sample %zu\n", read);
    }
}

static void print_event(const siengulot_heard *heard, size_t read)
{
    if (heard->event == SIENGULOT_ROW) {
        printf("row %zu", read);
        for (size_t i = 0; i < N; i++) {
            printf(" %u", siengulot_row_bit(heard->row, i));
        }
        putchar('\n');
    }
    if (heard->event == SIENGULOT_BROKEN) {
        printf("broken %zu %zu\n", read, heard->found);
    }
}

int main(void)
{
    static uint8_t wave[ROOM], smoothed[ROOM], warped[ROOM], settled[ROOM], slow_smoothed[ROOM], slow_warped[ROOM];
    int64_t margins[MARGINS];
    siengulot_receiver receiver;
    siengulot_heard heard;
    size_t accepted, cycles, reads, slow_reads;

    succeed(siengulot_judge_quiet(A, B, G, K, W, R, Q, P1, margins, &accepted));
    printf("settings %d %d %d %d %d %d %d %d %d\n", A, B, G, K, W, R, Q, P1, P);
    printf("margins");
    for (int i = 0; i < MARGINS; i++) {
        printf(" %" PRId64, margins[i]);
    }
    printf("\naccepted %zu\n", accepted);
    print_levels("bits", bits, N);

    succeed(siengulot_send(A, B, P1, bits, N, wave, ROOM, &place, &cycles));
    print_levels("wave", wave, cycles);
    succeed(siengulot_smooth(G, wave, cycles, smoothed, ROOM, &place, &cycles));
    print_levels("smoothed", smoothed, cycles);
    succeed(siengulot_warp(W, R, P, smoothed, cycles, warped, ROOM, &place, &reads));
    print_levels("warped", warped, reads);
    succeed(siengulot_settle(warped, reads, choices, CHOICES, settled, ROOM, &place, &reads));
    print_levels("settled", settled, reads);

    printf("slow %d\n", SLOW);
    succeed(siengulot_smooth(SLOW, wave, cycles, slow_smoothed, ROOM, &place, &cycles));
    print_levels("slow_smoothed", slow_smoothed, cycles);
    succeed(siengulot_warp(W, R, P, slow_smoothed, cycles, slow_warped, ROOM, &place, &slow_reads));
    print_levels("slow_warped", slow_warped, slow_reads);

    succeed(siengulot_receiver_fresh(&receiver, K, N, Q));
    for (size_t j = 0; j < reads; j++) {
        size_t before = receiver.numbers[SIENGULOT_MODE];
        succeed(siengulot_receiver_step(&receiver, settled[j], &heard));
        print_change(before, receiver.numbers[SIENGULOT_MODE], j);
        print_event(&heard, j);
    }
    return 0;
}
