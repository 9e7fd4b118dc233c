/*
 * pick: gives the best sampling count for these settings.
 *
 *     pick A B G W R
 *     pick A B G W1 W2 R1 R2
 *
 * The second takes the ends of two clocks, the least and the greatest length of a writer cycle and of a read. Prints k, which has the greatest least
 * margin of all from 1 to 511, and its margins M1, M2 and M3; or the refusal. Its exit status is 0 for a k, 1 where no k will do, and 2 for a setting
 * that is out of range or for a word that is no number.
 */
#include <siengulot.h>
#include <inttypes.h>
#include <stdio.h>
#include <stdlib.h>

enum { STEADY = 5, OVER_ENDS = 7, MARGINS = 3 };

int main(int argc, char **argv)
{
    size_t s[OVER_ENDS];
    int64_t margins[MARGINS];
    size_t k, accepted, refusal;

    if (argc != 1 + STEADY && argc != 1 + OVER_ENDS) {
        fprintf(stderr, "usage: pick A B G W R, or pick A B G W1 W2 R1 R2\n");
        return 2;
    }
    for (int i = 0; i < argc - 1; i++) {
        const char *text = argv[1 + i];
        char *end;
        /* A number that is too large to be told is as far out of range as the greatest. */
        s[i] = (size_t)strtoull(text, &end, 10);
        if (*text < '0' || *text > '9' || *end != '\0') {
            fprintf(stderr, "pick: '%s' is no number\n", text);
            return 2;
        }
    }
    if (argc == 1 + STEADY) {
        refusal = siengulot_pick(s[0], s[1], s[2], s[3], s[4], &k);
    } else {
        refusal = siengulot_pick_ends(s[0], s[1], s[2], s[3], s[4], s[5], s[6], &k);
    }
    switch (refusal) {
    case SIENGULOT_NO_REFUSAL:
        break;
    case SIENGULOT_NO_COUNT:
        puts("refused 9: no k from 1 to 511 has three margins of zero or more");
        return 1;
    default:
        puts("refused 1: a or b is out of 1 to 255, g out of 1 to 64, w or r out of 1 to 65535, or a least length above its greatest");
        return 2;
    }
    if (argc == 1 + STEADY) {
        siengulot_judge(s[0], s[1], s[2], k, s[3], s[4], margins, &accepted);
    } else {
        siengulot_judge_ends(s[0], s[1], s[2], k, s[3], s[4], s[5], s[6], margins, &accepted);
    }
    printf("k %zu\n", k);
    for (int i = 0; i < MARGINS; i++) {
        printf("M%d %" PRId64 "\n", i + 1, margins[i]);
    }
    return 0;
}
