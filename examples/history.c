/*
 * history: gives reads to a receiver as they come, keeps a log of the last rows, clears the records at the places that it is told, and prints the log
 * at the end, the oldest row first.
 *
 *     history K N Q [PLACE..] < reads
 *
 * Standard input is that of feed.c: a character for each read, 0 or 1, with line ends and spaces passed over. Each line is that of the rows program,
 * and the last says how many records are in use, and how many of them are broken.
 */
#include <siengulot.h>
#include <stdio.h>
#include <stdlib.h>

/* How many reads are fetched at a time. Rows may lie across as many pieces as they like. */
enum { PIECE = 100 };

/* Fetches up to PIECE reads, and returns how many: 0 at the end. */
static size_t fetch(uint8_t reads[PIECE])
{
    size_t length = 0;
    while (length < PIECE) {
        int c = getchar();
        if (c == EOF) {
            break;
        }
        if (c != '\n' && c != ' ') {
            reads[length++] = (uint8_t)(c - '0');
        }
    }
    return length;
}

/* Logs what was heard, if it is a row of n bits or a broken one, with the place of its read for its read number. Returns the refusal. */
static size_t keep(siengulot_bay_log *log, const siengulot_heard *heard, uint64_t number, size_t n)
{
    size_t record; /* where it then stands */
    switch (heard->event) {
    case SIENGULOT_ROW:
        return siengulot_bay_log_event(log, number, heard->row, n, 0, &record);
    case SIENGULOT_BROKEN:
        return siengulot_bay_log_event(log, number, heard->row, heard->found, 1, &record);
    default:
        return SIENGULOT_NO_REFUSAL;
    }
}

/* Prints the records in use, in read order. Returns the refusal. */
static size_t print_log(const siengulot_bay_log *log)
{
    size_t records[SIENGULOT_LOG_RECORDS], count;
    size_t refusal = siengulot_bay_log_list(log, records, &count);
    for (size_t i = 0; i < count; i++) {
        size_t record = records[i];
        if (log->broken_marks[record] != 0) {
            printf("%llu broken %zu\n", (unsigned long long)log->numbers[record], log->counts[record]);
            continue;
        }
        printf("%llu row ", (unsigned long long)log->numbers[record]);
        for (size_t bit = 0; bit < log->counts[record]; bit++) {
            putchar('0' + (int)siengulot_row_bit(siengulot_bay_log_row(log, record), bit));
        }
        putchar('\n');
    }
    if (refusal == SIENGULOT_NO_REFUSAL) {
        printf("in use %zu broken %zu\n", count, log->broken_count);
    }
    return refusal;
}

/* A number that is too large to be told is as far out of range as the greatest. */
static size_t number(const char *text)
{
    char *end;
    size_t value = (size_t)strtoull(text, &end, 10);
    if (*text < '0' || *text > '9' || *end != '\0') {
        fprintf(stderr, "history: '%s' is no number\n", text);
        exit(2);
    }
    return value;
}

static int refused(size_t refusal)
{
    printf("refused %zu\n", refusal);
    return 1;
}

int main(int argc, char **argv)
{
    static siengulot_bay_log log;
    siengulot_receiver receiver;
    siengulot_heard heard;
    uint8_t reads[PIECE];
    size_t length, refusal;
    uint64_t place = 0; /* of the next read, counted from the first that was ever fetched */

    if (argc < 4) {
        fprintf(stderr, "usage: history K N Q [PLACE..] < reads\n");
        return 2;
    }
    siengulot_bay_log_empty(&log);
    refusal = siengulot_receiver_fresh(&receiver, number(argv[1]), number(argv[2]), number(argv[3]));
    if (refusal != SIENGULOT_NO_REFUSAL) {
        return refused(refusal);
    }
    while ((length = fetch(reads)) > 0) {
        size_t taken = 0;
        while (taken < length) {
            refusal = siengulot_receiver_listen(&receiver, reads + taken, length - taken, &heard);
            if (refusal != SIENGULOT_NO_REFUSAL) {
                return refused(refusal);
            }
            taken += heard.used;
            place += heard.used;
            refusal = keep(&log, &heard, place - 1, receiver.numbers[SIENGULOT_N]);
            if (refusal != SIENGULOT_NO_REFUSAL) {
                return refused(refusal);
            }
        }
    }
    for (int i = 4; i < argc; i++) {
        refusal = siengulot_bay_log_clear(&log, number(argv[i]));
        if (refusal != SIENGULOT_NO_REFUSAL) {
            return refused(refusal);
        }
    }
    refusal = print_log(&log);
    return refusal == SIENGULOT_NO_REFUSAL ? 0 : refused(refusal);
}
