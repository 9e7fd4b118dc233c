/*
 * stored: reads a stored plan, whose rows have a lead pad and a trail pad each, into the lead pads of a plan that can be sent.
 *
 *     stored LEAD TRAIL [LEAD TRAIL ...]
 *
 * Prints the lead pad of each row, and how many cycles of the last trail pad were dropped; or the refusal. Its exit status is 0, 1 for a refusal, and
 * 2 for a word that is no number.
 */
#include <siengulot.h>
#include <stdio.h>
#include <stdlib.h>

enum { ROOM = SIENGULOT_ROWS_MOST + 1 };

/* The word as a number. One that is too large to be told is as far out of range as the greatest. */
static size_t number(const char *text)
{
    char *end;
    size_t value = (size_t)strtoull(text, &end, 10);
    if (*text < '0' || *text > '9' || *end != '\0') {
        fprintf(stderr, "stored: '%s' is no number\n", text);
        exit(2);
    }
    return value;
}

int main(int argc, char **argv)
{
    static size_t leads[ROOM], trails[ROOM], joined[ROOM];
    size_t stored_leads = 0, stored_trails = 0, place, rows, dropped, refusal;

    /* Words after those of one row more than a plan may have change nothing: the rows are too many already. */
    for (int i = 1; i < argc && i <= 2 * ROOM; i++) {
        if (i % 2 == 1) {
            leads[stored_leads++] = number(argv[i]);
        } else {
            trails[stored_trails++] = number(argv[i]);
        }
    }
    refusal = siengulot_read_plan(leads, stored_leads, trails, stored_trails, joined, ROOM, &place, &rows, &dropped);
    if (refusal != SIENGULOT_NO_REFUSAL) {
        printf("refused %zu at %zu\n", refusal, place);
        return 1;
    }
    for (size_t i = 0; i < rows; i++) {
        printf("lead %zu\n", joined[i]);
    }
    printf("dropped %zu\n", dropped);
    return 0;
}
