/*
 * feed: gives reads to a receiver as they come, and prints what it reports, in the lines of the rows program.
 *
 *     feed K N Q < reads
 *
 * Standard input stands for the port: a character for each read, 0 or 1, with line ends and spaces passed over. Any other character is no level,
 * and ends the run with the receiver's refusal.
 */
#include <siengulot.h>
#include <stdio.h>
#include <stdlib.h>

/* How many reads are fetched at a time. Rows may lie across as many pieces as they like. */
enum { PIECE = 100 };

/* Fetches up to PIECE reads, and returns how many: 0 at the end. */
static size_t fetch(uint8_t reads[PIECE])
{
    size_t length = 0;
    while (length < PIECE) {
        int c = getchar();
        if (c == EOF) {
            break;
        }
        if (c != '\n' && c != ' ') {
            reads[length++] = (uint8_t)(c - '0');
        }
    }
    return length;
}

static void print_event(const siengulot_heard *heard, size_t place, size_t n)
{
    if (heard->event == SIENGULOT_ROW) {
        printf("%zu row ", place);
        for (size_t i = 0; i < n; i++) {
            putchar('0' + (int)siengulot_row_bit(heard->row, i));
        }
        putchar('\n');
    }
    if (heard->event == SIENGULOT_BROKEN) {
        printf("%zu broken %zu\n", place, heard->found);
    }
}

/* A number that is too large to be told is as far out of range as the greatest. */
static size_t number(const char *text)
{
    char *end;
    size_t value = (size_t)strtoull(text, &end, 10);
    if (*text < '0' || *text > '9' || *end != '\0') {
        fprintf(stderr, "feed: '%s' is no number\n", text);
        exit(2);
    }
    return value;
}

int main(int argc, char **argv)
{
    siengulot_receiver receiver;
    siengulot_heard heard;
    uint8_t reads[PIECE];
    size_t length, refusal;
    size_t place = 0; /* of the next read, counted from the first that was ever fetched */
    size_t rows = 0;

    if (argc != 4) {
        fprintf(stderr, "usage: feed K N Q < reads\n");
        return 2;
    }
    refusal = siengulot_receiver_fresh(&receiver, number(argv[1]), number(argv[2]), number(argv[3]));
    if (refusal != SIENGULOT_NO_REFUSAL) {
        printf("refused %zu at 0\n", refusal);
        return 1;
    }
    printf("read event bits\n");
    while ((length = fetch(reads)) > 0) {
        size_t taken = 0;
        while (taken < length) {
            refusal = siengulot_receiver_listen(&receiver, reads + taken, length - taken, &heard);
            if (refusal != SIENGULOT_NO_REFUSAL) {
                printf("refused %zu at %zu\n", refusal, place + heard.place);
                return 1;
            }
            taken += heard.used;
            place += heard.used;
            rows += heard.event == SIENGULOT_ROW;
            print_event(&heard, place - 1, receiver.numbers[SIENGULOT_N]);
        }
    }
    printf("end %zu rows %zu\n", place, rows);
    return 0;
}
