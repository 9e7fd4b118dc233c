/*
 * survey: reports on a region of boards.
 *
 *     survey FILE
 *
 * The file has a line for each board: its a, b, g, k, w and r, with spaces or tabs between them. What follows a # is
 * left out, and so are empty lines. Prints the number of boards that the judge accepts, and for M1, M2 and M3 the
 * margin of the board that is worst off and that board's place, counted from 0; or the refusal, with the board's line
 * where one board is to blame. Its exit status is 0 for a report, 1 for a refusal, and 2 where the file cannot be read
 * or a line of it is no board.
 */
#include <siengulot.h>
#include <stdio.h>
#include <stdlib.h>

enum { SETTINGS = 6, LINE_OF = SETTINGS, LISTS };

/* What a line holds. */
enum line { BOARD, NOTHING, NO_BOARD, END };

/* A list for each setting, and one of the lines on which the boards stand. */
static size_t *lists[LISTS];

/* Reads a line, and the settings of the board that stands on it. */
static enum line read_line(FILE *file, size_t board[SETTINGS])
{
    int c = getc(file), found = 0, within = 0, wrong = 0;

    if (c == EOF) {
        return END;
    }
    for (; c != EOF && c != '\n' && c != '#'; c = getc(file)) {
        if (c == ' ' || c == '\t' || c == '\r') {
            within = 0;
        } else if (c < '0' || c > '9' || (!within && found == SETTINGS)) {
            wrong = 1;
        } else {
            if (!within) {
                board[found++] = 0;
                within = 1;
            }
            /* A number that has passed every range is left there, so that none is too long to be told. */
            if (board[found - 1] <= SIENGULOT_CYCLE_MOST) {
                board[found - 1] = 10 * board[found - 1] + (size_t)(c - '0');
            }
        }
    }
    while (c != EOF && c != '\n') {
        c = getc(file);
    }
    return wrong || (found != 0 && found != SETTINGS) ? NO_BOARD : found == 0 ? NOTHING : BOARD;
}

/* Makes room for so many boards. */
static void grow(size_t boards)
{
    for (int i = 0; i < LISTS; i++) {
        lists[i] = realloc(lists[i], boards * sizeof *lists[i]);
        if (lists[i] == NULL) {
            fprintf(stderr, "survey: there is no memory for %zu boards\n", boards);
            exit(2);
        }
    }
}

int main(int argc, char **argv)
{
    size_t board[SETTINGS], boards = 0, room = SIENGULOT_BOARDS_MOST, number = 1, place, count, refusal;
    uint8_t out[SIENGULOT_LINES_MOST];
    int unread = 1;
    enum line is = END;
    FILE *file;

    if (argc != 2) {
        fprintf(stderr, "usage: survey FILE\n");
        return 2;
    }
    grow(room);
    file = fopen(argv[1], "r");
    if (file != NULL) {
        /* Where there are too many boards all are read too, since one that is out of range has to be named first. */
        for (; (is = read_line(file, board)) == BOARD || is == NOTHING; number++) {
            if (is == NOTHING) {
                continue;
            }
            if (boards == room) {
                room *= 2;
                grow(room);
            }
            for (int i = 0; i < SETTINGS; i++) {
                lists[i][boards] = board[i];
            }
            lists[LINE_OF][boards++] = number;
        }
        unread = ferror(file);
        fclose(file);
    }
    if (unread) {
        fprintf(stderr, "survey: %s cannot be read\n", argv[1]);
        return 2;
    }
    if (is == NO_BOARD) {
        fprintf(stderr, "survey: line %zu is no board: a, b, g, k, w and r are wanted\n", number);
        return 2;
    }
    refusal = siengulot_survey_lines(lists[0], boards, lists[1], boards, lists[2], boards, lists[3], boards, lists[4],
                                     boards, lists[5], boards, out, sizeof out, &place, &count);
    switch (refusal) {
    case SIENGULOT_NO_REFUSAL:
        fwrite(out, 1, count, stdout);
        return 0;
    case SIENGULOT_LIMIT:
        printf("refused 3: more than %d boards\n", SIENGULOT_BOARDS_MOST);
        return 1;
    default:
        printf("refused %zu at board %zu, line %zu: a setting is out of range\n", refusal, place,
               lists[LINE_OF][place]);
        return 1;
    }
}
