/*
 * judge: tells whether a board can be fitted with these settings.
 *
 *     judge A B G K W R Q P1
 *     judge A B G K W1 W2 R1 R2 Q P1
 *
 * The second takes the ends of two clocks, the least and the greatest length of a writer cycle and of a read. Q and P1 are always given: eight numbers
 * are taken for the first. Prints the five margins, and "yes" if all of them are zero or more, else "no"; or the refusal of a setting that is out of
 * range, or of a least length above its greatest. Its exit status is 0 for yes, 1 for no, and 2 for a refusal or for a word that is no number.
 */
#include <siengulot.h>
#include <inttypes.h>
#include <stdio.h>
#include <stdlib.h>

enum { STEADY = 8, OVER_ENDS = 10, MARGINS = 5 };

int main(int argc, char **argv)
{
    size_t s[OVER_ENDS];
    int64_t margins[MARGINS];
    size_t accepted, refusal;

    if (argc != 1 + STEADY && argc != 1 + OVER_ENDS) {
        fprintf(stderr, "usage: judge A B G K W R Q P1, or judge A B G K W1 W2 R1 R2 Q P1\n");
        return 2;
    }
    for (int i = 0; i < argc - 1; i++) {
        const char *text = argv[1 + i];
        char *end;
        /* A number that is too large to be told is as far out of range as the greatest. */
        s[i] = (size_t)strtoull(text, &end, 10);
        if (*text < '0' || *text > '9' || *end != '\0') {
            fprintf(stderr, "judge: '%s' is no number\n", text);
            return 2;
        }
    }
    if (argc == 1 + STEADY) {
        refusal = siengulot_judge_quiet(s[0], s[1], s[2], s[3], s[4], s[5], s[6], s[7], margins, &accepted);
    } else {
        refusal = siengulot_judge_quiet_ends(s[0], s[1], s[2], s[3], s[4], s[5], s[6], s[7], s[8], s[9], margins, &accepted);
    }
    if (refusal != SIENGULOT_NO_REFUSAL) {
        printf("refused %zu\n", refusal);
        return 2;
    }
    for (int i = 0; i < MARGINS; i++) {
        printf("M%d %" PRId64 "\n", i + 1, margins[i]);
    }
    puts(accepted ? "yes" : "no");
    return accepted ? 0 : 1;
}
