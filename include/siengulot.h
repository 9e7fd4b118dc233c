/*
 * siengulot.h: the link software of a departure board, for C and C++.
 *
 * Link with libsiengulot.a, which `tools/archive` leaves in target/staticlib. The archive is for x86-64 Linux.
 *
 * What holds of every function here:
 *
 * - It returns the number of its refusal, and 0 where it refuses nothing (enum siengulot_refusal). siengulot_well_formed alone returns a yes or no,
 *   siengulot_row_bit a bit, and siengulot_bay_log_row where a row's bits stand.
 * - Faults are looked for in the order 1, 3, 2, 11, 4 and then 5 or 10, or 1 and then 9, or 1, 13 and 12, and the first that is there is returned. A capture has an order of its own, said with
 *   siengulot_capture_check.
 * - Each single number that is lent (k, place, count, dropped, accepted, event, found, used, taken) is written with every answer, a refusal included. `place`
 *   is 0 but for refusals 2, 5, 6, 7, 8, 10 and 11, for a row that siengulot_read_plan or a board that the survey refuses with 1, and for
 *   siengulot_counted without a refusal.
 *   A log's `broken_count` is part of the log, and a refusal leaves it.
 * - A result stands at the front of its lent output, and the rest of the output is untouched. With every refusal but 5 and 10 the whole output is untouched;
 *   siengulot_fresh alone writes zeros where it refuses.
 * - Levels and bits are bytes, 0 or 1. An unknown level is 2. Only words of half cells have a level in each bit.
 * - A pointer must be valid for its length, and not NULL even where that is 0. What a function writes must not overlap anything else that is lent
 *   to the same call.
 * - It uses no memory but what is lent to it and the stack, and keeps nothing from one call to the next.
 */
#ifndef SIENGULOT_H
#define SIENGULOT_H

#include <stddef.h>
#include <stdint.h>

#if SIZE_MAX != UINT64_MAX
#error "libsiengulot.a is for x86-64, where a size_t has 64 bits"
#endif

#ifdef __cplusplus
extern "C" {
#endif

/* The ranges of the settings, and the limits of the lists. */
enum {
    SIENGULOT_SUBCELL_LEAST = 1, /* a and b, in writer cycles */
    SIENGULOT_SUBCELL_MOST = 255,
    SIENGULOT_SETTLING_LEAST = 1, /* g, in writer cycles */
    SIENGULOT_SETTLING_MOST = 64,
    SIENGULOT_SAMPLING_LEAST = 1, /* k, in read cycles */
    SIENGULOT_SAMPLING_MOST = 511,
    SIENGULOT_CYCLE_LEAST = 1, /* w and r, their ends, and the length of a cycle or a read, in time units */
    SIENGULOT_CYCLE_MOST = 65535,
    SIENGULOT_PAD_MOST = 65535, /* a pad, in writer cycles */
    SIENGULOT_BITS_LEAST = 1,   /* n of a row; the counted receiver takes 0 too */
    SIENGULOT_BITS_MOST = 1024, /* n, and the bits of a message */
    SIENGULOT_QUIET_LEAST = 2,  /* Q, in reads */
    SIENGULOT_QUIET_MOST = 8191,
    SIENGULOT_ROWS_MOST = 1024,       /* rows of a plan */
    SIENGULOT_ENTRIES_MOST = 1048576, /* entries of a wave, of reads, of choices, of lengths, bits of time code */
    SIENGULOT_CAPTURE_MOST = 1048583, /* bytes of a capture */
    SIENGULOT_BOARDS_MOST = 4096,     /* boards of a region */
    SIENGULOT_LINES_MOST = 76,        /* bytes of the lines of a survey */
    SIENGULOT_WORDS_MOST = 128,       /* bytes of a message that goes out as words of half cells, and such words */
    SIENGULOT_LOG_RECORDS = 64        /* records of a log */
};

/* Levels. */
enum { SIENGULOT_LOW = 0, SIENGULOT_HIGH = 1, SIENGULOT_UNKNOWN = 2 };

/* The numbers of the refusals. */
enum siengulot_refusal {
    SIENGULOT_NO_REFUSAL = 0,
    SIENGULOT_SETTING = 1, /* a setting, a length, a level in force or a time to be written out of range, a least length above its greatest, a plan
                              whose lists do not fit, a row of a stored plan whose lead becomes too long, a region whose lists do not fit or a board
                              of it with a setting out of range, a receiver that is not well formed, a bit
                              count above 1,024 or a record's place above 63 */
    SIENGULOT_ENTRY = 2,   /* an entry that is not of the kind taken; `place` is where the first such entry stands */
    SIENGULOT_LIMIT = 3,   /* too long a list, lent or to be given */
    SIENGULOT_ROOM = 4,    /* too little room in a lent output */
    SIENGULOT_RAN_OUT = 5, /* the counted receiver came to the end of the reads */
    SIENGULOT_CUT = 6,     /* a capture stops in the middle of a number, or with fewer than four */
    SIENGULOT_FORM = 7,    /* a capture's number has more bytes than it needs, or more than three */
    SIENGULOT_RANGE = 8,   /* a capture's number is one that its place does not allow */
    SIENGULOT_NO_COUNT = 9, /* no sampling count has three margins of zero or more */
    SIENGULOT_BAD_WORD = 10, /* a word of time code with units above 9, or with a time out of range */
    SIENGULOT_NO_EDGE = 11,  /* a cell of words of half cells has no edge at its start; `place` is the first such cell */
    SIENGULOT_NOT_LATER = 12, /* a read number that is not above those of all records in use */
    SIENGULOT_MISCOUNTED = 13 /* a log's `broken_count` is not the number of its broken records */
};

/*
 * Judging settings
 *
 * A steady clock has cycles of one length: w for the writer's, r for the reads. A clock that is known by its tolerance, or that wanders, has two ends:
 * a writer cycle is w1 to w2 long, and a read r1 to r2. The functions whose names end with _ends take these, and their yes holds for all clocks that
 * keep to them.
 */

/*
 * The judge, for steady clocks. Gives the margins M1, M2 and M3, in time units, and in `accepted` 1 if all three are zero or more, else 0:
 *   M1 = (a - g) * w - 2 * r
 *   M2 = (k - 1) * r - (a + g) * w
 *   M3 = (a + b - g) * w - (k + 2) * r
 * The settling count g is how many writer cycles a change of level takes on the cable, its own cycle among them.
 * Refuses with
 *   1  a or b out of 1 to 255, g out of 1 to 64, k out of 1 to 511, or w or r out of 1 to 65,535.
 * Leaves with a refusal `margins` as they were, and 0 in `accepted`.
 */
size_t siengulot_judge(size_t a, size_t b, size_t g, size_t k, size_t w, size_t r, int64_t margins[3], size_t *accepted);

/*
 * The judge over ends. Gives the margins M1, M2 and M3, in time units, and in `accepted` 1 if all three are zero or more, else 0:
 *   M1 = (a - g) * w1 - 2 * r2
 *   M2 = (k - 1) * r1 - (a + g) * w2
 *   M3 = (a + b - g) * w1 - (k + 2) * r2
 * Refuses with
 *   1  a or b out of 1 to 255, g out of 1 to 64, k out of 1 to 511, w1, w2, r1 or r2 out of 1 to 65,535, w1 above w2, or r1 above r2.
 * Leaves with a refusal `margins` as they were, and 0 in `accepted`.
 */
size_t siengulot_judge_ends(size_t a, size_t b, size_t g, size_t k, size_t w1, size_t w2, size_t r1, size_t r2, int64_t margins[3],
                            size_t *accepted);

/*
 * The quiet judge, for steady clocks. Gives the margins M1 to M5, the first three as the judge does, and in `accepted` 1 if all five are zero or
 * more, else 0:
 *   M4 = (Q - 2) * r - (a + b + g) * w
 *   M5 = (p1 - g) * w - (Q + 1) * r
 * Refuses with
 *   1  what the judge refuses, Q out of 2 to 8,191, or p1 above 65,535.
 * Leaves with a refusal `margins` as they were, and 0 in `accepted`.
 */
size_t siengulot_judge_quiet(size_t a, size_t b, size_t g, size_t k, size_t w, size_t r, size_t q, size_t p1, int64_t margins[5],
                             size_t *accepted);

/*
 * The quiet judge over ends. Gives the margins M1 to M5, the first three as the judge over ends does, and in `accepted` 1 if all five are zero or more,
 * else 0:
 *   M4 = (Q - 2) * r1 - (a + b + g) * w2
 *   M5 = (p1 - g) * w1 - (Q + 1) * r2
 * Refuses with
 *   1  what the judge over ends refuses, Q out of 2 to 8,191, or p1 above 65,535.
 * Leaves with a refusal `margins` as they were, and 0 in `accepted`.
 */
size_t siengulot_judge_quiet_ends(size_t a, size_t b, size_t g, size_t k, size_t w1, size_t w2, size_t r1, size_t r2, size_t q, size_t p1,
                                  int64_t margins[5], size_t *accepted);

/*
 * The picker, for steady clocks. Gives in `k` the sampling count from 1 to 511 for which the least of M1, M2 and M3 is the greatest, and of equals
 * the smallest. With that k the judge says yes.
 * Refuses with
 *   1  a or b out of 1 to 255, g out of 1 to 64, or w or r out of 1 to 65,535;
 *   9  settings for which no k from 1 to 511 has three margins of zero or more.
 * Leaves with a refusal 0 in `k`.
 */
size_t siengulot_pick(size_t a, size_t b, size_t g, size_t w, size_t r, size_t *k);

/*
 * The picker over ends. Gives in `k` the sampling count from 1 to 511 for which the least of M1, M2 and M3, as the judge over ends gives them, is the
 * greatest, and of equals the smallest. With that k the judge over ends says yes.
 * Refuses with
 *   1  a or b out of 1 to 255, g out of 1 to 64, w1, w2, r1 or r2 out of 1 to 65,535, w1 above w2, or r1 above r2;
 *   9  settings for which no k from 1 to 511 has three margins of zero or more.
 * Leaves with a refusal 0 in `k`.
 */
size_t siengulot_pick_ends(size_t a, size_t b, size_t g, size_t w1, size_t w2, size_t r1, size_t r2, size_t *k);

/*
 * Sending
 */

/*
 * Sends a message. Gives its wave at the front of `out`, and in `count` how many cycles it has: p1 + bits_length * (a + b).
 * A message may have no bits.
 * Refuses with
 *   1  a or b out of 1 to 255, or p1 above 65,535;
 *   3  more than 1,024 bits;
 *   2  an entry of `bits` above 1, at `place`;
 *   4  `out` shorter than the wave.
 * Leaves with a refusal `out` as it was, and 0 in `count`.
 */
size_t siengulot_send(size_t a, size_t b, size_t p1, const uint8_t *bits, size_t bits_length, uint8_t *out, size_t out_length, size_t *place,
                      size_t *count);

/*
 * Sends a plan of rows. Row i has the lead pad leads[i], and the n entries of `bits` from i * n on.
 * Gives the wave of all rows at the front of `out`, and in `count` how many cycles it has.
 * Refuses with
 *   1  a or b out of 1 to 255, n out of 1 to 1,024, a pad above 65,535, no row, or another number of bits than n for each row;
 *   3  more than 1,024 rows, or a wave of more than 1,048,576 cycles;
 *   2  an entry of `bits` above 1, at `place`;
 *   4  `out` shorter than the wave.
 * Leaves with a refusal `out` as it was, and 0 in `count`.
 */
size_t siengulot_plan(size_t a, size_t b, size_t n, const size_t *leads, size_t leads_length, const uint8_t *bits, size_t bits_length,
                      uint8_t *out, size_t out_length, size_t *place, size_t *count);

/*
 * Reads a stored plan, whose row i has the lead pad leads[i] and the trail pad trails[i], for siengulot_plan, which sends no trail pads. Each trail
 * pad is added to the lead pad of the next row, and the last is dropped. Gives the lead pads at the front of `out`, in `count` how many rows there
 * are, and in `dropped` how many cycles were dropped. The plan's wave is the same but for these.
 * Refuses with
 *   1  no row, more or fewer trail pads than lead pads, or a pad above 65,535, at place 0; and then
 *   1  a row whose lead pad becomes longer than 65,535, at `place`, which is then 1 or more;
 *   3  more than 1,024 rows;
 *   4  `out` with fewer places than there are rows.
 * Leaves with a refusal `out` as it was, and 0 in `count` and `dropped`.
 */
size_t siengulot_read_plan(const size_t *leads, size_t leads_length, const size_t *trails, size_t trails_length, size_t *out, size_t out_length,
                           size_t *place, size_t *count, size_t *dropped);

/*
 * Words of half cells, for a shifter
 *
 * A word is sixteen half cells, the highest bit first on the line, a 1 for high. A byte is one word: for each of its bits, the highest first, a cell
 * of two half cells, its mark and its code. The line enters the first word high, and each next one at the level of the last half cell of the word
 * before it. Clocked out with a cycles for each half cell, the words are the wave that siengulot_send gives for the bits with b equal to a and no pads.
 */

/*
 * Encodes a message of bytes. Gives a word for each byte at the front of `out`, and in `count` how many they are, which is bytes_length.
 * A message may have no bytes.
 * Refuses with
 *   3  more than 128 bytes;
 *   4  `out` shorter than the words. Its length is counted in words.
 * Leaves with a refusal `out` as it was, and 0 in `count`. `place` is always 0.
 */
size_t siengulot_encode(const uint8_t *bytes, size_t bytes_length, uint16_t *out, size_t out_length, size_t *place, size_t *count);

/*
 * Decodes words, such as siengulot_encode gives. Gives a byte for each word at the front of `out`, and in `count` how many they are, which is
 * words_length, counted in words.
 * Refuses with
 *   3  more than 128 words;
 *   11 a cell with no edge at its start, at `place`: its first half cell is of the level before it. Cells are counted through all words, eight to a
 *      word, from 0;
 *   4  `out` shorter than the bytes.
 * Leaves with a refusal `out` as it was, and 0 in `count`.
 */
size_t siengulot_decode(const uint16_t *words, size_t words_length, uint8_t *out, size_t out_length, size_t *place, size_t *count);

/*
 * The model of the line
 */

/*
 * Pass 1, smooth. Gives `wave` at the front of `out`, in which a cycle is unknown if the level changes at it or at one of the g - 1 cycles before it
 * (high stands before the first cycle), and in `count` how many cycles it has, which is wave_length.
 * Refuses with
 *   1  g out of 1 to 64;
 *   3  more than 1,048,576 cycles;
 *   2  an entry of `wave` above 1, at `place`;
 *   4  `out` shorter than `wave`.
 * Leaves with a refusal `out` as it was, and 0 in `count`.
 */
size_t siengulot_smooth(size_t g, const uint8_t *wave, size_t wave_length, uint8_t *out, size_t out_length, size_t *place, size_t *count);

/*
 * Pass 2, warp. Gives the reads of `wave` at the front of `out`, and in `count` how many there are: (wave_length * w - p) / r rounded down,
 * and none of no cycle.
 * Refuses with
 *   1  w or r out of 1 to 65,535, or p not below w;
 *   3  more than 1,048,576 cycles, or more than 1,048,576 reads;
 *   2  an entry of `wave` above 2, at `place`;
 *   4  `out` shorter than the reads.
 * Leaves with a refusal `out` as it was, and 0 in `count`.
 */
size_t siengulot_warp(size_t w, size_t r, size_t p, const uint8_t *wave, size_t wave_length, uint8_t *out, size_t out_length, size_t *place,
                      size_t *count);

/*
 * Pass 2 by lengths, for clocks that wander: writer cycle i is cycles[i] time units long and read j reads[j], and the first read starts at p. Gives
 * the reads of `wave` at the front of `out`, and in `count` how many there are. The wave ends with the last cycle that has both a level and a
 * length; there is a read as long as there is a length for it and it ends by then, so there are never more than reads_length.
 * Refuses with
 *   1  w1, w2, r1 or r2 out of 1 to 65,535, w1 above w2, r1 above r2, an entry of `cycles` out of w1 to w2 or of `reads` out of r1 to r2, or p not
 *      below cycles[0] (where cycles_length is 0, p may be anything);
 *   3  more than 1,048,576 entries of `wave`, `cycles` or `reads`;
 *   2  an entry of `wave` above 2, at `place`;
 *   4  `out` shorter than the reads.
 * Leaves with a refusal `out` as it was, and 0 in `count`.
 */
size_t siengulot_warp_by_lengths(size_t w1, size_t w2, size_t r1, size_t r2, size_t p, const size_t *cycles, size_t cycles_length,
                                 const size_t *reads, size_t reads_length, const uint8_t *wave, size_t wave_length, uint8_t *out,
                                 size_t out_length, size_t *place, size_t *count);

/*
 * Pass 3, settle. Gives `reads` at the front of `out` with each unknown read made the next of `choices`, or low once these have run out, and in
 * `count` how many reads there are, which is reads_length.
 * Refuses with
 *   3  more than 1,048,576 reads, or more than 1,048,576 choices;
 *   2  an entry of `reads` above 2, at `place`, or else an entry of `choices` above 1, used or not, at `place` among the choices;
 *   4  `out` shorter than `reads`.
 * Leaves with a refusal `out` as it was, and 0 in `count`.
 */
size_t siengulot_settle(const uint8_t *reads, size_t reads_length, const uint8_t *choices, size_t choices_length, uint8_t *out,
                        size_t out_length, size_t *place, size_t *count);

/*
 * The counted receiver
 */

/*
 * Receives n bits, with `level` in force before the first read. Gives the bits at the front of `out`, a byte for each, and n in `count`.
 * Refuses with
 *   1  k out of 1 to 511, n above 1,024, or `level` above 1;
 *   3  more than 1,048,576 reads;
 *   2  an entry of `reads` above 1, at `place`;
 *   4  `out` shorter than n;
 *   5  a mark or a sample that is not there, since the reads have run out.
 * Leaves with refusals 1 to 4 `out` as it was, and 0 in `count`; with 5 the bits found at the front of `out`, the rest as it was, and in `count`
 * how many were found.
 * Without a refusal, and with 5, `place` is the current read: the last sample, or 0 where no bit was found. To go on, lend the reads from `place` on,
 * with `level` that sample, or the same `level` as before where `count` is 0: n bits and then m are the n + m bits that one call would find, also
 * where n + m is above 1,024. Reads that come later may stand after those that are left.
 */
size_t siengulot_counted(size_t k, size_t n, size_t level, const uint8_t *reads, size_t reads_length, uint8_t *out, size_t out_length,
                         size_t *place, size_t *count);

/*
 * Time code
 *
 * Words of 80 bits as a station's master clock puts them out (SMPTE 12M, linear, 25 frames a second), a byte for each bit. A word's last 16 bits are
 * 0 0 1 1 1 1 1 1 1 1 1 1 1 1 0 1, the sync word. A time is four bytes: hours, minutes, seconds, frames.
 */

enum {
    SIENGULOT_TIME_WORD_BITS = 80, /* the bits of a word */
    SIENGULOT_TIME_BYTES = 4       /* the bytes of a time */
};

/*
 * Reads time code, as siengulot_counted gives it. Gives the times of the words found at the front of `out`, and in `count` how many there are. Words
 * are looked for at each place from the first on, and after a word from its end on. User bits and flags are not looked at.
 * Refuses with
 *   3  more than 1,048,576 bits;
 *   2  an entry of `bits` above 1, at `place`;
 *   4  `out` shorter than four bytes for each word found, bad ones too;
 *   10 a bad word: units above 9, frames above 24, seconds or minutes above 59, or hours above 23; `place` is its first bit.
 * Leaves with refusals 2 to 4 `out` as it was, and 0 in `count`; with 10 the times before the bad word at the front of `out`, the rest as it was,
 * and in `count` how many these are.
 */
size_t siengulot_time_read(const uint8_t *bits, size_t bits_length, uint8_t *out, size_t out_length, size_t *place, size_t *count);

/*
 * Writes time code. Gives the 80 bits of the word of a time at the front of `out`, with user bits and flags 0, and 80 in `count`.
 * Refuses with
 *   1  hours above 23, minutes or seconds above 59, or frames above 24;
 *   4  `out` shorter than 80.
 * Leaves with a refusal `out` as it was, and 0 in `count`.
 */
size_t siengulot_time_write(size_t hours, size_t minutes, size_t seconds, size_t frames, uint8_t *out, size_t out_length, size_t *place,
                            size_t *count);

/*
 * The row receiver
 *
 * A receiver is the caller's memory: a siengulot_receiver, started once, and then given reads as they come. What a read brings is an event.
 *
 * A receiver is well formed if all of this holds of its numbers and bits, which are named below:
 * - k is 1 to 511, n 1 to 1,024 and Q 2 to 8,191, and the mode is one of the four;
 * - the run is Q in ready, and below Q in every other mode; in counting and waiting it is at least 1;
 * - the run's level is 0 or 1; where the run is 0 it is 1;
 * - left is 1 to k in counting, and 0 in every other mode;
 * - the level is 0 or 1; in hunting it is 1, and in ready it is the run's level;
 * - found is below n; in hunting and ready it is 0;
 * - every place of the bits from `found` on holds 0.
 * One that was started without a refusal, and is changed by these functions alone, always is.
 */

/* Where each number of a receiver stands in `numbers`. */
enum siengulot_number {
    SIENGULOT_K = 0,         /* the sampling count, in reads */
    SIENGULOT_N = 1,         /* the bits of a row */
    SIENGULOT_Q = 2,         /* the quiet count, in reads */
    SIENGULOT_MODE = 3,      /* a siengulot_mode; a greater number is no mode, and the receiver is then not well formed */
    SIENGULOT_RUN = 4,       /* how many of the latest reads were equal, counted up to Q */
    SIENGULOT_RUN_LEVEL = 5, /* the level of those reads */
    SIENGULOT_LEFT = 6,      /* in counting the reads up to the sample, otherwise 0 */
    SIENGULOT_LEVEL = 7,     /* in counting the level of the mark, in waiting that of the sample, in ready that of the quiet, in hunting 1 */
    SIENGULOT_FOUND = 8,     /* how many bits of a row in progress have been found */
    SIENGULOT_NUMBERS = 9
};

/* What a receiver is doing. */
enum siengulot_mode {
    SIENGULOT_HUNTING = 0,  /* until Q equal reads have come one after another, high or low */
    SIENGULOT_READY = 1,    /* they have, and the next read of the other level is the mark of a row's first bit */
    SIENGULOT_COUNTING = 2, /* in a row, from a mark to its sample */
    SIENGULOT_WAITING = 3   /* in a row, from a sample to the next mark */
};

/* What reads bring. */
enum siengulot_event {
    SIENGULOT_NOTHING = 0,
    SIENGULOT_ROW = 1,   /* a row is delivered */
    SIENGULOT_BROKEN = 2 /* a row in progress was broken off by Q equal reads, and is forgotten */
};

/* Bytes that hold the bits of a row. Bit i stands in byte i / 8, at weight 2 to the power i % 8; places beyond the row's last bit hold 0. */
enum { SIENGULOT_ROW_BYTES = 128 };

/* A receiver. */
typedef struct siengulot_receiver {
    size_t numbers[SIENGULOT_NUMBERS]; /* enum siengulot_number says which is which */
    uint8_t bits[SIENGULOT_ROW_BYTES]; /* the bits found of a row in progress */
} siengulot_receiver;

/* What a receiver has heard. */
typedef struct siengulot_heard {
    size_t event;                     /* a siengulot_event */
    size_t found;                     /* of a broken row how many of its bits had been found, otherwise 0 */
    size_t used;                      /* how many reads were taken, the event's own the last of them */
    size_t place;                     /* the place of a refusal */
    uint8_t row[SIENGULOT_ROW_BYTES]; /* the bits of the last row that was delivered into it */
} siengulot_heard;

/*
 * The entry points. They take a receiver as its numbers and its bits; the inline functions below them take a siengulot_receiver.
 */

/*
 * Starts a receiver. Gives in `numbers` and `bits` one that is hunting with run 0 and no bits.
 * Refuses with
 *   1  k out of 1 to 511, n out of 1 to 1,024, or Q out of 2 to 8,191.
 * Leaves with a refusal 0 in all of `numbers` and `bits`, which is not well formed.
 */
size_t siengulot_fresh(size_t k, size_t n, size_t q, size_t numbers[SIENGULOT_NUMBERS], uint8_t bits[SIENGULOT_ROW_BYTES]);

/*
 * Gives 1 if a receiver is well formed, as said above, else 0. Any numbers and bytes may be asked about.
 * Refuses nothing.
 * Leaves everything as it was.
 */
size_t siengulot_well_formed(const size_t numbers[SIENGULOT_NUMBERS], const uint8_t bits[SIENGULOT_ROW_BYTES]);

/*
 * Takes one read. Gives in `event` what it brings: nothing, a row, whose bits are then in `row`, or a broken row, of which `found` bits had been
 * found. `numbers` and `bits` are then the receiver after the read. `found` is 0 with any other event, and `row` as it was.
 * Refuses with
 *   1  a receiver that is not well formed;
 *   2  a read above 1, at place 0.
 * Leaves with a refusal `numbers`, `bits` and `row` as they were, and 0 in `event` and `found`.
 */
size_t siengulot_step(size_t numbers[SIENGULOT_NUMBERS], uint8_t bits[SIENGULOT_ROW_BYTES], uint8_t read, uint8_t row[SIENGULOT_ROW_BYTES],
                      size_t *event, size_t *found, size_t *place);

/*
 * Takes reads up to and with the first that brings an event, or all of them. Gives `event`, `row` and `found` as siengulot_step does, and in
 * `used` how many reads it took. Reads after the event's are not looked at.
 * Refuses with
 *   1  a receiver that is not well formed;
 *   3  more than 1,048,576 reads;
 *   2  a read above 1, at `place`, where no event comes before it.
 * Leaves with a refusal `numbers`, `bits` and `row` as they were, and 0 in `event`, `found` and `used`.
 */
size_t siengulot_listen(size_t numbers[SIENGULOT_NUMBERS], uint8_t bits[SIENGULOT_ROW_BYTES], const uint8_t *reads, size_t reads_length,
                        uint8_t row[SIENGULOT_ROW_BYTES], size_t *event, size_t *found, size_t *used, size_t *place);

/* Starts a receiver, as siengulot_fresh does. */
static inline size_t siengulot_receiver_fresh(siengulot_receiver *receiver, size_t k, size_t n, size_t q)
{
    return siengulot_fresh(k, n, q, receiver->numbers, receiver->bits);
}

/* Gives 1 if a receiver is well formed, else 0, as siengulot_well_formed does. */
static inline size_t siengulot_receiver_well_formed(const siengulot_receiver *receiver)
{
    return siengulot_well_formed(receiver->numbers, receiver->bits);
}

/* Takes one read, as siengulot_step does. `heard->used` is 1, or 0 with a refusal. */
static inline size_t siengulot_receiver_step(siengulot_receiver *receiver, uint8_t read, siengulot_heard *heard)
{
    size_t refusal = siengulot_step(receiver->numbers, receiver->bits, read, heard->row, &heard->event, &heard->found, &heard->place);
    heard->used = refusal == SIENGULOT_NO_REFUSAL ? 1 : 0;
    return refusal;
}

/* Takes reads up to and with the first that brings an event, or all of them, as siengulot_listen does. */
static inline size_t siengulot_receiver_listen(siengulot_receiver *receiver, const uint8_t *reads, size_t reads_length, siengulot_heard *heard)
{
    return siengulot_listen(receiver->numbers, receiver->bits, reads, reads_length, heard->row, &heard->event, &heard->found, &heard->used,
                            &heard->place);
}

/* Gives bit i of a row, 0 or 1. i must be below 1,024. */
static inline unsigned siengulot_row_bit(const uint8_t row[SIENGULOT_ROW_BYTES], size_t i)
{
    return (unsigned)(row[i / 8] >> (i % 8)) & 1u;
}

/*
 * The log of a bay
 *
 * The last 64 rows that were delivered or broken off. A log is the caller's memory: a siengulot_bay_log. Call siengulot_bay_log_empty once before
 * anything else: in memory that is all zeros, as static memory is, no free mark is set, and the log is 64 records in use. Record i has entry i of
 * each list, and of the bits the 128 bytes from 128 * i on. It is free if its free mark is not 0, and in use otherwise; of two records in use the
 * older is the one with the lower read number, or at the lower place where these are equal. What a free record holds besides is not looked at.
 * Beside the lists stands how many records in use have a broken mark that is not 0. Read it whenever you like, and leave writing it to the functions:
 * after refusal 13, to siengulot_bay_log_recount.
 * A place is good until the next event is logged, which may overwrite its record, or until it is cleared.
 */

/* The bytes of all records' bits. */
enum { SIENGULOT_LOG_BYTES = SIENGULOT_LOG_RECORDS * SIENGULOT_ROW_BYTES };

/* A log. */
typedef struct siengulot_bay_log {
    uint64_t numbers[SIENGULOT_LOG_RECORDS];     /* the read number of each row: that of the read that brought it */
    uint8_t bits[SIENGULOT_LOG_BYTES];           /* its bits, all 0 of a broken row */
    size_t counts[SIENGULOT_LOG_RECORDS];        /* how many bits it has, or had when it broke off */
    uint8_t broken_marks[SIENGULOT_LOG_RECORDS]; /* 1 for a broken row, else 0 */
    uint8_t free_marks[SIENGULOT_LOG_RECORDS];   /* 1 for a free record, in which all else is 0, and 0 for one in use */
    size_t broken_count;                         /* how many records are broken, free ones left out */
} siengulot_bay_log;

/*
 * The entry points. They take a log as its lists and its count; the inline functions below them take a siengulot_bay_log.
 */

/*
 * Logs an event: the read number, the bits in `row`, how many bits there are, and in `broken` 0 for a row, or 1 to 255 for a broken one. What stands in
 * the `row` of a broken one makes no difference, but it has to point to 128 bytes all the same, and never into `bits`: copy a row of this log first.
 * Takes the lowest free record, or the oldest where none is free. Gives in `taken` the record's place. No other record is touched. `broken_count` goes
 * down by one where a broken record is overwritten, and up by one for a broken row.
 * Refuses with
 *   1  a count above 1,024, of a broken row too;
 *   13 a `broken_count` that is not the number of broken records: something else wrote to the log, or a call was cut off by a reset;
 *   12 a read number that is not above those of all records in use. An empty log takes any: where a count of reads starts again, make the log empty, or
 *      count on from its greatest number.
 * Leaves with a refusal the log as it was, and 0 in `taken`.
 */
size_t siengulot_log_event(uint64_t number, const uint8_t row[SIENGULOT_ROW_BYTES], size_t count, uint8_t broken,
                           uint64_t numbers[SIENGULOT_LOG_RECORDS], uint8_t bits[SIENGULOT_LOG_BYTES], size_t counts[SIENGULOT_LOG_RECORDS],
                           uint8_t broken_marks[SIENGULOT_LOG_RECORDS], uint8_t free_marks[SIENGULOT_LOG_RECORDS], size_t *broken_count,
                           size_t *taken);

/*
 * Clears the record at a place, which is its place in the log and not where it stands in a listing: it is free then, and all else in it is 0. A free
 * record stays as it is. No other record is touched. `broken_count` goes down by one where the record was broken.
 * Refuses with
 *   1  a place above 63;
 *   13 a `broken_count` that is not the number of broken records, also where the record is free.
 * Leaves with a refusal the log as it was.
 */
size_t siengulot_log_clear(size_t place, uint64_t numbers[SIENGULOT_LOG_RECORDS], uint8_t bits[SIENGULOT_LOG_BYTES],
                           size_t counts[SIENGULOT_LOG_RECORDS], uint8_t broken_marks[SIENGULOT_LOG_RECORDS],
                           uint8_t free_marks[SIENGULOT_LOG_RECORDS], size_t *broken_count);

/*
 * Lists the records in use, the oldest first. Gives their places at the front of `places`, and in `count` how many they are, which is 64 at most.
 * Refuses with
 *   4  `places` shorter than that.
 * Leaves with a refusal `places` as it was, and 0 in `count`.
 */
size_t siengulot_log_list(const uint64_t numbers[SIENGULOT_LOG_RECORDS], const uint8_t free_marks[SIENGULOT_LOG_RECORDS], size_t *places,
                          size_t places_length, size_t *count);

/* Makes a log empty: every record is free, and all else is 0, the count too. To be called before a log is first used. */
static inline void siengulot_bay_log_empty(siengulot_bay_log *log)
{
    for (size_t i = 0; i < SIENGULOT_LOG_RECORDS; i++) {
        log->numbers[i] = 0;
        log->counts[i] = 0;
        log->broken_marks[i] = 0;
        log->free_marks[i] = 1;
    }
    for (size_t i = 0; i < SIENGULOT_LOG_BYTES; i++) {
        log->bits[i] = 0;
    }
    log->broken_count = 0;
}

/* Counts a log's broken records anew, after refusal 13 or where a log was kept from before there was a count. No record is touched. */
static inline void siengulot_bay_log_recount(siengulot_bay_log *log)
{
    log->broken_count = 0;
    for (size_t i = 0; i < SIENGULOT_LOG_RECORDS; i++) {
        log->broken_count += log->free_marks[i] == 0 && log->broken_marks[i] != 0;
    }
}

/* Logs a row or a broken row, as siengulot_log_event does. */
static inline size_t siengulot_bay_log_event(siengulot_bay_log *log, uint64_t number, const uint8_t row[SIENGULOT_ROW_BYTES], size_t count,
                                             uint8_t broken, size_t *taken)
{
    return siengulot_log_event(number, row, count, broken, log->numbers, log->bits, log->counts, log->broken_marks, log->free_marks, &log->broken_count,
                               taken);
}

/* Clears a record, as siengulot_log_clear does. */
static inline size_t siengulot_bay_log_clear(siengulot_bay_log *log, size_t place)
{
    return siengulot_log_clear(place, log->numbers, log->bits, log->counts, log->broken_marks, log->free_marks, &log->broken_count);
}

/* Lists the records in use into 64 places, as siengulot_log_list does. With this room it refuses nothing. */
static inline size_t siengulot_bay_log_list(const siengulot_bay_log *log, size_t places[SIENGULOT_LOG_RECORDS], size_t *count)
{
    return siengulot_log_list(log->numbers, log->free_marks, places, SIENGULOT_LOG_RECORDS, count);
}

/* Gives the 128 bytes of the bits at a place, which must be below 64. */
static inline const uint8_t *siengulot_bay_log_row(const siengulot_bay_log *log, size_t place)
{
    return log->bits + place * SIENGULOT_ROW_BYTES;
}

/*
 * Captures
 */

/* Where each number stands in a capture's summary. */
enum siengulot_summary {
    SIENGULOT_SUMMARY_K = 0,
    SIENGULOT_SUMMARY_N = 1,
    SIENGULOT_SUMMARY_Q = 2,
    SIENGULOT_SUMMARY_READS = 3, /* how many reads the capture has */
    SIENGULOT_SUMMARY_RUNS = 4,  /* and in how many runs of equal reads */
    SIENGULOT_SUMMARY_NUMBERS = 5
};

/*
 * Checks a capture. Gives in `summary` its k, n and Q, and how many reads and runs it has.
 * Refuses with
 *   3  more than 1,048,583 bytes;
 * then number by number from the left, each at the `place` of its first byte,
 *   6  bytes that stop in the middle of a number, or with fewer than four numbers (`place` is bytes_length where nothing of the number is there);
 *   7  a number with more bytes than it needs, or with more than three;
 *   8  k, n, Q or the first level out of range, a run of 0, a run with which the reads become more than 1,048,576, or a first level of 0 with no
 *      run after it (`place` is then the level's).
 * Leaves with a refusal `summary` as it was.
 */
size_t siengulot_capture_check(const uint8_t *bytes, size_t bytes_length, size_t summary[SIENGULOT_SUMMARY_NUMBERS], size_t *place);

/*
 * Reads a capture. Gives its summary, and its reads at the front of `out`.
 * Refuses with
 *   3, 6, 7, 8  what siengulot_capture_check refuses; and last
 *   4  `out` shorter than the reads.
 * Leaves with a refusal `out` and `summary` as they were.
 */
size_t siengulot_capture_read(const uint8_t *bytes, size_t bytes_length, uint8_t *out, size_t out_length,
                              size_t summary[SIENGULOT_SUMMARY_NUMBERS], size_t *place);

/*
 * Writes reads as a capture. Gives the capture at the front of `out`, and in `count` how many bytes it has.
 * Refuses with
 *   1  k out of 1 to 511, n out of 1 to 1,024, or Q out of 2 to 8,191;
 *   3  more than 1,048,576 reads;
 *   2  an entry of `reads` above 1, at `place`;
 *   4  `out` shorter than the capture.
 * Leaves with a refusal `out` as it was, and 0 in `count`.
 */
size_t siengulot_capture_write(size_t k, size_t n, size_t q, const uint8_t *reads, size_t reads_length, uint8_t *out, size_t out_length,
                               size_t *place, size_t *count);

/*
 * The survey of a region
 *
 * A region is any number of boards, or none, each with settings of its own. They come as six lists, of a, b, g, k, w and r, and entry i of each is
 * that of board i.
 */

/*
 * The survey, for steady clocks. Gives in `count` how many boards there are, in `accepted` how many of them siengulot_judge accepts, in margins[0] to
 * margins[2] the smallest M1, M2 and M3 of the region, in time units, and in `places` for each of the three the first board that has it, counted from
 * 0. With no boards nothing is smallest: `count` is 0, and `margins` and `places` are left as they were.
 * Refuses with
 *   1  lists of unequal length, at place 0; and then
 *   1  a board with a setting out of range, at `place`, the first of all boards, also of more than 4,096;
 *   3  more than 4,096 boards.
 * Leaves with a refusal `margins` and `places` as they were, and 0 in `count` and `accepted`.
 */
size_t siengulot_survey(const size_t *a, size_t a_length, const size_t *b, size_t b_length, const size_t *g, size_t g_length, const size_t *k,
                        size_t k_length, const size_t *w, size_t w_length, const size_t *r, size_t r_length, int64_t margins[3],
                        size_t places[3], size_t *accepted, size_t *place, size_t *count);

/*
 * The same as text. Gives at the front of `out` four lines, each with a line feed, and in `count` how many bytes they have, SIENGULOT_LINES_MOST at
 * most:
 *   accepted N
 *   M1 V at P
 *   M2 V at P
 *   M3 V at P
 * V is the smallest of the margin, with a minus sign where it is below 0, and P the first board that has it. With no boards N is 0, and V and P are -.
 * Refuses with
 *   1, 3  what siengulot_survey refuses; and last
 *   4  `out` shorter than the lines.
 * Leaves with a refusal `out` as it was, and 0 in `count`.
 */
size_t siengulot_survey_lines(const size_t *a, size_t a_length, const size_t *b, size_t b_length, const size_t *g, size_t g_length, const size_t *k,
                              size_t k_length, const size_t *w, size_t w_length, const size_t *r, size_t r_length, uint8_t *out, size_t out_length,
                              size_t *place, size_t *count);

#ifdef __cplusplus
}
#endif

#endif
