/*
 * Holds include/siengulot.h to the library: the sizes that cross, every entry point called as C calls it, with the worked numbers of the rules,
 * and each inline function beside the entry point that it wraps. Guards stand before and after what is lent.
 */
#include <siengulot.h>
#include <stdio.h>
#include <string.h>

/* What crosses has the size that the library takes it to have. */
#define HOLDS(name, fact) typedef char name[(fact) ? 1 : -1]
HOLDS(a_number_has_eight_bytes, sizeof(size_t) == 8);
HOLDS(a_margin_has_eight_bytes, sizeof(int64_t) == 8);
HOLDS(a_receiver_has_no_gaps, sizeof(siengulot_receiver) == SIENGULOT_NUMBERS * sizeof(size_t) + SIENGULOT_ROW_BYTES);
HOLDS(bits_stand_after_numbers, offsetof(siengulot_receiver, bits) == SIENGULOT_NUMBERS * sizeof(size_t));
HOLDS(a_row_has_room_for_the_most_bits, SIENGULOT_ROW_BYTES * 8 == SIENGULOT_BITS_MOST);
HOLDS(heard_row_is_a_row, sizeof(((siengulot_heard *)0)->row) == SIENGULOT_ROW_BYTES);

enum { GUARD = 0xA5, WIDTH = 16, ROOM = 128 };

static int faults;

static void expect(int fact, const char *what)
{
    if (!fact) {
        fprintf(stderr, "header: %s\n", what);
        faults++;
    }
}

/* A lent output between two guards. */
static uint8_t ground[WIDTH + ROOM + WIDTH];
static uint8_t *const out = ground + WIDTH;
static size_t place, count;

static void lend(void)
{
    memset(ground, GUARD, sizeof ground);
    place = count = 99;
}

/* The output has these entries at its front, and nothing else of it or around it was written. */
static void expect_out(const char *what, const char *entries)
{
    size_t length = strlen(entries), wrong = 0;
    for (size_t i = 0; i < sizeof ground; i++) {
        int inside = i >= WIDTH && i - WIDTH < length;
        int expected = inside ? entries[i - WIDTH] - '0' : GUARD;
        wrong += ground[i] != expected;
    }
    expect(wrong == 0, what);
}

static void expect_answer(const char *what, size_t refusal, size_t number, size_t at, size_t length)
{
    expect(refusal == number && place == at && count == length, what);
}

static void judging(void)
{
    int64_t three[3] = {7, 7, 7}, five[5] = {7, 7, 7, 7, 7};
    size_t accepted = 9;

    expect(siengulot_judge(5, 13, 1, 10, 100, 141, three, &accepted) == SIENGULOT_NO_REFUSAL, "judge refuses P8");
    expect(three[0] == 118 && three[1] == 669 && three[2] == 8 && accepted == 1, "judge of P8, r 141");
    siengulot_judge(5, 13, 1, 10, 100, 142, three, &accepted);
    expect(three[0] == 116 && three[1] == 678 && three[2] == -4 && accepted == 0, "judge of P8, r 142");
    accepted = 9;
    expect(siengulot_judge(SIENGULOT_SUBCELL_MOST + 1, 13, 1, 10, 100, 141, three, &accepted) == SIENGULOT_SETTING, "judge takes a 256");
    expect(siengulot_judge(5, 13, SIENGULOT_SETTLING_MOST + 1, 10, 100, 141, three, &accepted) == SIENGULOT_SETTING, "judge takes g 65");
    expect(three[2] == -4 && accepted == 0, "judge writes margins though it refuses");

    expect(siengulot_judge_quiet(5, 13, 1, 10, 100, 100, 21, 23, five, &accepted) == SIENGULOT_NO_REFUSAL, "quiet judge refuses P10");
    expect(five[0] == 200 && five[1] == 300 && five[2] == 500 && five[3] == 0 && five[4] == 0 && accepted == 1, "quiet judge of P10");
    siengulot_judge_quiet(5, 13, 1, 10, 100, 100, 21, 22, five, &accepted);
    expect(five[4] == -100 && accepted == 0, "quiet judge of P10, p1 22");
    siengulot_judge_quiet(80, 160, SIENGULOT_SETTLING_MOST, 160, 100, 100, 306, 371, five, &accepted);
    expect(five[0] == 1400 && five[1] == 1500 && five[2] == 1400 && five[3] == 0 && five[4] == 0 && accepted == 1, "quiet judge of P14");
    expect(siengulot_judge_quiet(5, 13, 1, 10, 100, 100, SIENGULOT_QUIET_LEAST - 1, 22, five, &accepted) == SIENGULOT_SETTING, "quiet judge takes Q 1");

    expect(siengulot_judge_ends(4, 7, 1, 5, 9999, 10001, 14098, 14102, three, &accepted) == SIENGULOT_NO_REFUSAL, "judge over ends refuses P16");
    expect(three[0] == 1793 && three[1] == 6387 && three[2] == 1276 && accepted == 1, "judge over ends of P16");
    expect(siengulot_judge_ends(4, 7, 1, 5, 10001, 9999, 14098, 14102, three, &accepted) == SIENGULOT_SETTING, "judge takes w1 above w2");
    expect(three[0] == 1793 && accepted == 0, "judge over ends writes margins though it refuses");
    expect(siengulot_judge_quiet_ends(4, 7, 1, 5, 9999, 10001, 14098, 14102, 11, 18, five, &accepted) == SIENGULOT_NO_REFUSAL,
           "quiet judge over ends refuses P16");
    expect(five[0] == 1793 && five[1] == 6387 && five[2] == 1276 && five[3] == 6870 && five[4] == 759 && accepted == 1,
           "quiet judge over ends of P16");
    expect(siengulot_judge_quiet_ends(4, 7, 1, 5, 9999, 10001, 14102, 14098, 11, 18, five, &accepted) == SIENGULOT_SETTING,
           "quiet judge takes r1 above r2");
}

static void picking(void)
{
    size_t k = 99;

    expect(siengulot_pick(5, 13, 1, 100, 142, &k) == SIENGULOT_NO_REFUSAL && k == 7, "pick for r 142");
    expect(siengulot_pick(2, 3, 1, 4, 1, &k) == SIENGULOT_NO_REFUSAL && k == 13, "pick of equals");
    expect(siengulot_pick(5, 13, 1, 65535, 1, &k) == SIENGULOT_NO_COUNT && k == 0, "pick where no k will do");
    k = 99;
    expect(siengulot_pick(SIENGULOT_SUBCELL_MOST + 1, 13, 1, 100, 142, &k) == SIENGULOT_SETTING && k == 0, "pick takes a 256");
    k = 7;
    expect(siengulot_pick_ends(4, 7, 1, 9999, 10001, 14098, 14102, &k) == SIENGULOT_NO_REFUSAL && k == 5, "pick over the ends of P16");
    expect(siengulot_pick_ends(4, 7, 1, 99, 100, 141, 142, &k) == SIENGULOT_NO_COUNT && k == 0, "pick over ends where no k will do");
    k = 7;
    expect(siengulot_pick_ends(4, 7, 1, 10001, 9999, 14098, 14102, &k) == SIENGULOT_SETTING && k == 0, "pick takes w1 above w2");
}

static void words_of_half_cells(void)
{
    uint16_t words[4] = {7, 7, 7, 7};
    const uint8_t bytes[2] = {0x80, 0x80};

    lend();
    expect_answer("encode 80 twice", siengulot_encode(bytes, 2, words + 1, 2, &place, &count), 0, 0, 2);
    expect(words[0] == 7 && words[1] == 0x4CCC && words[2] == 0xB333 && words[3] == 7, "the words of 80 twice");
    expect_answer("encode with too little room", siengulot_encode(bytes, 2, words + 1, 1, &place, &count), SIENGULOT_ROOM, 0, 0);
    expect_answer("decode them", siengulot_decode(words + 1, 2, out, ROOM, &place, &count), 0, 0, 2);
    expect(out[0] == 0x80 && out[1] == 0x80 && out[2] == GUARD, "the bytes of those words");
    lend();
    words[2] = 0x4CCC;
    expect_answer("decode a cell with no edge", siengulot_decode(words + 1, 2, out, ROOM, &place, &count), SIENGULOT_NO_EDGE, 8, 0);
    expect_answer("decode with too little room", siengulot_decode(words + 1, 1, out, 0, &place, &count), SIENGULOT_ROOM, 0, 0);
    expect_out("decode writes though it refuses", "");
}

/* A log by its entry points, and beside it one by the inline functions. */
static void logging(void)
{
    static siengulot_bay_log raw, wrapped;
    size_t places[SIENGULOT_LOG_RECORDS + 1], listed = 99, taken = 99, taken_too = 99;
    uint8_t row[SIENGULOT_ROW_BYTES];

    memset(row, 0xA5, sizeof row);
    memset(&raw, GUARD, sizeof raw);
    siengulot_bay_log_empty(&raw);
    siengulot_bay_log_empty(&wrapped);
    expect(memcmp(&raw, &wrapped, sizeof raw) == 0 && raw.free_marks[63] == 1 && raw.bits[8191] == 0, "two empty logs differ");
    expect(siengulot_bay_log_list(&wrapped, places, &listed) == 0 && listed == 0, "an empty log lists a record");
    for (uint64_t number = 5; number < 70; number++) {
        expect(siengulot_log_event(number, row, 1024, 0, raw.numbers, raw.bits, raw.counts, raw.broken_marks, raw.free_marks, &raw.broken_count, &taken) == 0, "a row is refused");
        expect(siengulot_bay_log_event(&wrapped, number, row, 1024, 0, &taken_too) == 0, "a row is refused, inline");
        expect(taken == (number - 5) % 64 && taken_too == taken, "the place taken");
    }
    expect(memcmp(&raw, &wrapped, sizeof raw) == 0, "the two logs differ");
    expect(siengulot_bay_log_list(&wrapped, places, &listed) == 0 && listed == 64, "the listing's length");
    expect(places[0] == 1 && places[62] == 63 && places[63] == 0, "the listing");
    expect(siengulot_bay_log_row(&wrapped, 3)[127] == 0xA5 && wrapped.counts[3] == 1024 && wrapped.numbers[0] == 69, "a record");

    expect(siengulot_log_event(69, row, 9, 0, raw.numbers, raw.bits, raw.counts, raw.broken_marks, raw.free_marks, &raw.broken_count, &taken) == SIENGULOT_NOT_LATER, "an equal read number is taken");
    expect(siengulot_bay_log_event(&wrapped, 70, row, SIENGULOT_BITS_MOST + 1, 0, &taken_too) == SIENGULOT_SETTING, "1,025 bits are taken");
    expect(taken == 0 && taken_too == 0, "a place though it refuses");
    expect(siengulot_bay_log_clear(&wrapped, 64) == SIENGULOT_SETTING, "place 64 is cleared");
    places[0] = 99;
    expect(siengulot_log_list(raw.numbers, raw.free_marks, places, 63, &taken) == SIENGULOT_ROOM && taken == 0 && places[0] == 99, "64 places in 63");
    expect(memcmp(&raw, &wrapped, sizeof raw) == 0, "a refusal changes a log");

    expect(siengulot_log_clear(7, raw.numbers, raw.bits, raw.counts, raw.broken_marks, raw.free_marks, &raw.broken_count) == 0, "clearing is refused");
    expect(siengulot_bay_log_clear(&wrapped, 7) == 0 && memcmp(&raw, &wrapped, sizeof raw) == 0, "the two logs differ once cleared");
    expect(raw.free_marks[7] == 1 && raw.numbers[7] == 0 && raw.counts[7] == 0 && raw.bits[7 * 128] == 0 && raw.bits[8 * 128] == 0xA5, "a cleared record");
    expect(siengulot_bay_log_event(&wrapped, 70, row, 3, 200, &taken) == 0 && taken == 7, "a cleared record is not taken");
    expect(wrapped.broken_marks[7] == 1 && wrapped.free_marks[7] == 0 && siengulot_bay_log_row(&wrapped, 7)[0] == 0, "a broken row");
    expect(raw.broken_count == 0 && wrapped.broken_count == 1, "the count of broken rows");
    expect(siengulot_bay_log_list(&wrapped, places, &listed) == 0 && listed == 64, "the listing's length after clearing");
    expect(places[63] == 7 && places[0] == 1, "the listing after clearing");

    wrapped.broken_count = 65;
    expect(siengulot_bay_log_event(&wrapped, 70, row, 3, 1, &taken) == SIENGULOT_MISCOUNTED && taken == 0, "a wrong count is taken");
    expect(siengulot_bay_log_clear(&wrapped, 7) == SIENGULOT_MISCOUNTED && wrapped.broken_count == 65, "a record is cleared with a wrong count");
    expect(siengulot_bay_log_list(&wrapped, places, &listed) == 0 && listed == 64, "listing asks for the count");
    wrapped.free_marks[9] = wrapped.broken_marks[9] = 1;
    siengulot_bay_log_recount(&wrapped);
    expect(wrapped.broken_count == 1, "the count of broken rows, counted anew");
    expect(siengulot_bay_log_clear(&wrapped, 7) == 0 && wrapped.broken_count == 0, "the count of broken rows after clearing");
}

static void sending(void)
{
    static const uint8_t bits[2] = {1, 0}, bad[2] = {1, 2};
    static const size_t leads[2] = {2, 1};
    static const uint8_t rows[2] = {1, 0};

    lend();
    expect_answer("send of P1", siengulot_send(2, 3, 2, bits, 2, out, ROOM, &place, &count), 0, 0, 12);
    expect_out("wave of P1", "110011100000");
    lend();
    expect_answer("send of no level", siengulot_send(2, 3, 2, bad, 2, out, ROOM, &place, &count), SIENGULOT_ENTRY, 1, 0);
    expect_out("send writes though it refuses", "");
    lend();
    expect_answer("send into no room", siengulot_send(2, 3, 2, bits, 2, out, 11, &place, &count), SIENGULOT_ROOM, 0, 0);
    expect_out("send writes into no room", "");
    lend();
    expect_answer("send of nothing", siengulot_send(2, 3, 0, bits, 0, out, 0, &place, &count), 0, 0, 0);
    expect_out("send of nothing writes", "");

    lend();
    expect_answer("plan", siengulot_plan(2, 3, 1, leads, 2, rows, 2, out, ROOM, &place, &count), 0, 0, 13);
    expect_out("wave of a plan", "1100111100000");
    lend();
    expect_answer("plan of lists that do not fit", siengulot_plan(2, 3, 1, leads, 2, rows, 1, out, ROOM, &place, &count), SIENGULOT_SETTING, 0, 0);
    expect_out("plan writes though it refuses", "");
}

static void stored_plans(void)
{
    static const size_t leads[3] = {2, 5, SIENGULOT_PAD_MOST}, trails[3] = {1, 4, 3};
    size_t joined[4] = {7, 7, 7, 7}, dropped = 99;

    lend();
    expect_answer("stored plan of P1", siengulot_read_plan(leads, 1, trails, 1, joined, 4, &place, &count, &dropped), 0, 0, 1);
    expect(joined[0] == 2 && joined[1] == 7 && dropped == 1, "lead and dropped cycles of P1");
    expect_answer("stored plan", siengulot_read_plan(leads, 2, trails, 2, joined, 4, &place, &count, &dropped), 0, 0, 2);
    expect(joined[0] == 2 && joined[1] == 6 && joined[2] == 7 && dropped == 4, "leads and dropped cycles of a stored plan");
    dropped = 99;
    expect_answer("stored plan of lists that do not fit", siengulot_read_plan(leads, 2, trails, 1, joined, 4, &place, &count, &dropped), SIENGULOT_SETTING, 0, 0);
    expect(dropped == 0, "cycles dropped though it refuses");
    dropped = 99;
    expect_answer("stored plan with too long a lead", siengulot_read_plan(leads, 3, trails, 3, joined, 4, &place, &count, &dropped), SIENGULOT_SETTING, 2, 0);
    expect_answer("stored plan into no room", siengulot_read_plan(leads, 2, trails, 2, joined, 1, &place, &count, &dropped), SIENGULOT_ROOM, 0, 0);
    expect(joined[0] == 2 && joined[1] == 6 && joined[2] == 7 && joined[3] == 7 && dropped == 0, "stored plan writes though it refuses");
}

static void line(void)
{
    static const uint8_t wave[13] = {1, 1, 0, 0, 1, 1, 1, 0, 0, 0, 0, 0, 1};
    static const uint8_t smoothed[13] = {1, 1, 2, 0, 2, 1, 1, 2, 0, 0, 0, 0, 2};
    static const uint8_t reads[12] = {1, 2, 2, 2, 2, 1, 2, 2, 0, 0, 0, 2};
    static const uint8_t choices[4] = {1, 0, 0, 1}, bad[4] = {1, 0, 0, 2};
    static const uint8_t levels[6] = {1, 1, 2, 0, 0, 1};
    static const size_t cycles[6] = {3, 2, 4, 2, 3, 4}, lengths[7] = {2, 5, 1, 4, 3, 1, 1};

    lend();
    expect_answer("smooth", siengulot_smooth(1, wave, 13, out, ROOM, &place, &count), 0, 0, 13);
    expect_out("P2", "1120211200002");
    lend();
    expect_answer("smooth with g 2", siengulot_smooth(2, wave, 13, out, ROOM, &place, &count), 0, 0, 13);
    expect_out("P12", "1122221220002");
    lend();
    expect_answer("smooth with g 0", siengulot_smooth(0, wave, 13, out, ROOM, &place, &count), SIENGULOT_SETTING, 0, 0);
    expect_answer("smooth of an unknown level", siengulot_smooth(1, smoothed, 13, out, ROOM, &place, &count), SIENGULOT_ENTRY, 2, 0);
    expect_out("smooth writes though it refuses", "");

    lend();
    expect_answer("warp", siengulot_warp(4, 4, 1, smoothed, 13, out, ROOM, &place, &count), 0, 0, 12);
    expect_out("P3", "122221220002");
    lend();
    expect_answer("warp from phase 0", siengulot_warp(4, 4, 0, smoothed, 13, out, 13, &place, &count), 0, 0, 13);
    expect_out("P3 with p 0", "1120211200002");
    lend();
    expect_answer("warp of p not below w", siengulot_warp(4, 4, 4, smoothed, 13, out, ROOM, &place, &count), SIENGULOT_SETTING, 0, 0);
    expect_answer("warp into no room", siengulot_warp(4, 4, 1, smoothed, 13, out, 11, &place, &count), SIENGULOT_ROOM, 0, 0);
    expect_out("warp writes though it refuses", "");

    lend();
    expect_answer("warp by lengths", siengulot_warp_by_lengths(2, 4, 1, 5, 1, cycles, 6, lengths, 7, levels, 6, out, ROOM, &place, &count), 0, 0, 7);
    expect_out("reads of lengths that wander", "1220211");
    lend();
    expect_answer("warp by four lengths", siengulot_warp_by_lengths(2, 4, 1, 5, 1, cycles, 4, lengths, 7, levels, 6, out, 3, &place, &count), 0, 0, 3);
    expect_out("reads of four lengths", "122");
    lend();
    expect_answer("warp by no length", siengulot_warp_by_lengths(2, 4, 1, 5, 99999, cycles, 0, lengths, 7, levels, 6, out, ROOM, &place, &count), 0, 0, 0);
    expect_answer("warp by a length above w2", siengulot_warp_by_lengths(2, 3, 1, 5, 1, cycles, 6, lengths, 7, levels, 6, out, ROOM, &place, &count),
                  SIENGULOT_SETTING, 0, 0);
    expect_answer("warp by lengths into no room", siengulot_warp_by_lengths(2, 4, 1, 5, 1, cycles, 6, lengths, 7, levels, 6, out, 6, &place, &count),
                  SIENGULOT_ROOM, 0, 0);
    expect_out("warp by lengths writes though it refuses", "");

    lend();
    expect_answer("settle", siengulot_settle(reads, 12, choices, 4, out, ROOM, &place, &count), 0, 0, 12);
    expect_out("P4", "110011000000");
    lend();
    expect_answer("settle by no choice", siengulot_settle(reads, 12, bad, 4, out, ROOM, &place, &count), SIENGULOT_ENTRY, 3, 0);
    expect_out("settle writes though it refuses", "");
}

static void counting(void)
{
    static const uint8_t wave[13] = {1, 1, 0, 0, 1, 1, 1, 0, 0, 0, 0, 0, 1};

    lend();
    expect_answer("counted", siengulot_counted(3, 2, 1, wave, 13, out, ROOM, &place, &count), 0, 10, 2);
    expect_out("P7", "10");
    lend();
    expect_answer("counted past the end", siengulot_counted(3, 3, 1, wave, 13, out, ROOM, &place, &count), SIENGULOT_RAN_OUT, 10, 2);
    expect_out("P7 with n 3", "10");
    lend();
    expect_answer("counted from level 257", siengulot_counted(3, 2, 257, wave, 13, out, ROOM, &place, &count), SIENGULOT_SETTING, 0, 0);
    expect_out("counted writes though it refuses", "");
}

/* The last time of a day, and a word with frames 25, which is bad. */
static void timing(void)
{
    static const char word[] = "00100000" "01000000" "10010000" "10100000" "10010000" "10100000" "11000000" "01000000" "0011111111111101";
    uint8_t bits[2 * SIENGULOT_TIME_WORD_BITS];

    lend();
    expect_answer("write a time", siengulot_time_write(23, 59, 59, 24, out, ROOM, &place, &count), 0, 0, SIENGULOT_TIME_WORD_BITS);
    expect_out("the word of a time", word);
    lend();
    expect_answer("write hour 256", siengulot_time_write(256, 59, 59, 24, out, ROOM, &place, &count), SIENGULOT_SETTING, 0, 0);
    expect_out("a time is written though it is refused", "");
    for (size_t i = 0; i < sizeof bits; i++) {
        bits[i] = (uint8_t)(word[i % SIENGULOT_TIME_WORD_BITS] - '0');
    }
    lend();
    expect_answer("read two times", siengulot_time_read(bits, sizeof bits, out, ROOM, &place, &count), 0, 0, 2);
    expect(memcmp(out, "\27\73\73\30\27\73\73\30", 8) == 0 && out[8] == GUARD, "two times");
    lend();
    bits[SIENGULOT_TIME_WORD_BITS] = 1;
    expect_answer("read a bad word", siengulot_time_read(bits, sizeof bits, out, ROOM, &place, &count), SIENGULOT_BAD_WORD, SIENGULOT_TIME_WORD_BITS, 1);
    expect(memcmp(out, "\27\73\73\30", 4) == 0 && out[4] == GUARD, "the time before a bad word");
}

/* The example of the rules: k 2, n 2, Q 6, and these 26 reads. */
static const uint8_t capture[11] = {0x02, 0x02, 0x06, 0x01, 0x06, 0x02, 0x01, 0x03, 0x06, 0x02, 0x06};
static const char reads_of_it[] = "11111100100011111100111111";

static void captures(void)
{
    size_t summary[SIENGULOT_SUMMARY_NUMBERS] = {7, 7, 7, 7, 7};
    uint8_t reads[26];

    lend();
    expect(siengulot_capture_check(capture, 11, summary, &place) == 0 && place == 0, "check refuses the example");
    expect(summary[SIENGULOT_SUMMARY_K] == 2 && summary[SIENGULOT_SUMMARY_N] == 2 && summary[SIENGULOT_SUMMARY_Q] == 6, "settings of the example");
    expect(summary[SIENGULOT_SUMMARY_READS] == 26 && summary[SIENGULOT_SUMMARY_RUNS] == 7, "reads and runs of the example");
    expect(siengulot_capture_check(capture, 3, summary, &place) == SIENGULOT_CUT && place == 3, "check takes three numbers");
    expect(summary[SIENGULOT_SUMMARY_READS] == 26, "check writes a summary though it refuses");

    lend();
    summary[SIENGULOT_SUMMARY_READS] = 7;
    expect(siengulot_capture_read(capture, 11, out, ROOM, summary, &place) == 0 && place == 0, "read refuses the example");
    expect(summary[SIENGULOT_SUMMARY_READS] == 26, "read gives no summary");
    expect_out("reads of the example", reads_of_it);
    lend();
    expect(siengulot_capture_read(capture, 11, out, 25, summary, &place) == SIENGULOT_ROOM && place == 0, "read into no room");
    expect_out("read writes though it refuses", "");

    for (size_t i = 0; i < sizeof reads; i++) {
        reads[i] = (uint8_t)(reads_of_it[i] - '0');
    }
    lend();
    expect_answer("write", siengulot_capture_write(2, 2, 6, reads, 26, out, ROOM, &place, &count), 0, 0, 11);
    expect(memcmp(out, capture, 11) == 0 && out[11] == GUARD, "capture of the example");
    lend();
    expect_answer("write into no room", siengulot_capture_write(2, 2, 6, reads, 26, out, 10, &place, &count), SIENGULOT_ROOM, 0, 0);
    expect_out("write writes though it refuses", "");
}

static void same(const siengulot_receiver *x, const siengulot_receiver *y, const char *what)
{
    expect(memcmp(x, y, sizeof *x) == 0, what);
}

/* A receiver by its entry points, and beside it one by the inline functions. */
static void receiving(void)
{
    siengulot_receiver raw, wrapped;
    siengulot_heard heard;
    uint8_t row[SIENGULOT_ROW_BYTES], reads[27];
    size_t event, found, used;

    memset(&raw, GUARD, sizeof raw);
    memset(&wrapped, 0x5A, sizeof wrapped);
    expect(siengulot_fresh(2, 2, 6, raw.numbers, raw.bits) == 0, "fresh refuses the example's settings");
    expect(siengulot_receiver_fresh(&wrapped, 2, 2, 6) == 0, "inline fresh refuses the example's settings");
    same(&raw, &wrapped, "the two fresh receivers differ");
    expect(raw.numbers[SIENGULOT_K] == 2 && raw.numbers[SIENGULOT_N] == 2 && raw.numbers[SIENGULOT_Q] == 6, "a fresh receiver's settings");
    expect(raw.numbers[SIENGULOT_MODE] == SIENGULOT_HUNTING && raw.numbers[SIENGULOT_RUN] == 0 && raw.numbers[SIENGULOT_LEFT] == 0, "a fresh receiver hunts");
    expect(raw.numbers[SIENGULOT_RUN_LEVEL] == 1 && raw.numbers[SIENGULOT_LEVEL] == 1 && raw.numbers[SIENGULOT_FOUND] == 0, "a fresh receiver has no bits");
    expect(siengulot_well_formed(raw.numbers, raw.bits) == 1 && siengulot_receiver_well_formed(&wrapped) == 1, "a fresh receiver is not well formed");

    /* The example's reads one by one. */
    memset(row, GUARD, sizeof row);
    memset(&heard, GUARD, sizeof heard);
    for (size_t i = 0; i < 26; i++) {
        uint8_t read = reads[i] = (uint8_t)(reads_of_it[i] - '0');
        size_t expected = i == 11 ? SIENGULOT_ROW : i == 25 ? SIENGULOT_BROKEN : SIENGULOT_NOTHING;
        expect(siengulot_step(raw.numbers, raw.bits, read, row, &event, &found, &place) == 0, "step refuses a read");
        expect(siengulot_receiver_step(&wrapped, read, &heard) == 0, "inline step refuses a read");
        same(&raw, &wrapped, "the two receivers differ after a read");
        expect(event == expected && found == (i == 25) && place == 0, "a read's event");
        expect(heard.event == event && heard.found == found && heard.place == place && heard.used == 1, "a read's event, inline");
        expect(memcmp(row, heard.row, sizeof row) == 0, "the two rows differ");
        expect(i < 11 ? row[0] == GUARD : row[0] == 1 && row[1] == 0 && row[127] == 0, "the row's bytes");
    }
    expect(siengulot_row_bit(heard.row, 0) == 1 && siengulot_row_bit(heard.row, 1) == 0, "the row's bits");
    expect(raw.numbers[SIENGULOT_MODE] == SIENGULOT_READY && raw.numbers[SIENGULOT_RUN] == 6, "a broken row leaves a ready receiver");
    expect(raw.numbers[SIENGULOT_RUN_LEVEL] == 1 && raw.numbers[SIENGULOT_LEVEL] == 1, "the level of the quiet");
    expect(siengulot_receiver_step(&wrapped, 2, &heard) == SIENGULOT_ENTRY && heard.place == 0 && heard.used == 0, "inline step takes a 2");
    same(&raw, &wrapped, "a refused read changes the receiver");

    /* The same reads at once, up to each event. */
    reads[26] = 2;
    siengulot_fresh(2, 2, 6, raw.numbers, raw.bits);
    siengulot_receiver_fresh(&wrapped, 2, 2, 6);
    expect(siengulot_listen(raw.numbers, raw.bits, reads, 27, row, &event, &found, &used, &place) == 0, "listen refuses the reads");
    expect(siengulot_receiver_listen(&wrapped, reads, 27, &heard) == 0, "inline listen refuses the reads");
    expect(event == SIENGULOT_ROW && found == 0 && used == 12 && place == 0, "listen stops with the row");
    expect(heard.event == event && heard.found == found && heard.used == used && heard.place == place, "listen stops with the row, inline");
    expect(memcmp(row, heard.row, sizeof row) == 0, "the two rows differ after listening");
    same(&raw, &wrapped, "the two receivers differ after listening");
    expect(siengulot_receiver_listen(&wrapped, reads + 12, 15, &heard) == 0, "inline listen looks past the event");
    expect(heard.event == SIENGULOT_BROKEN && heard.found == 1 && heard.used == 14, "listen stops with the broken row");
    raw = wrapped;
    expect(siengulot_receiver_listen(&wrapped, reads + 25, 2, &heard) == SIENGULOT_ENTRY, "inline listen takes a 2");
    expect(heard.event == SIENGULOT_NOTHING && heard.found == 0 && heard.used == 0 && heard.place == 1, "where the 2 stands");
    same(&raw, &wrapped, "refused reads change the receiver");

    /* The same reads over a crossed pair: each turned over. */
    siengulot_receiver_fresh(&wrapped, 2, 2, 6);
    for (size_t i = 0; i < 26; i++) {
        size_t expected = i == 11 ? SIENGULOT_ROW : i == 25 ? SIENGULOT_BROKEN : SIENGULOT_NOTHING;
        expect(siengulot_receiver_step(&wrapped, (uint8_t)(1 - reads[i]), &heard) == 0, "step refuses a read turned over");
        expect(heard.event == expected && heard.found == (i == 25), "the event of a read turned over");
    }
    expect(siengulot_row_bit(heard.row, 0) == 1 && siengulot_row_bit(heard.row, 1) == 0, "the row's bits over a crossed pair");
    expect(wrapped.numbers[SIENGULOT_MODE] == SIENGULOT_READY && wrapped.numbers[SIENGULOT_LEVEL] == 0, "quiet over a crossed pair is low");

    /* A run's level that no byte can say, and a number that names no mode. */
    wrapped.numbers[SIENGULOT_RUN_LEVEL] = 256;
    expect(siengulot_receiver_well_formed(&wrapped) == 0, "a run's level of 256 is well formed");
    expect(siengulot_receiver_step(&wrapped, 1, &heard) == SIENGULOT_SETTING, "step takes a run's level of 256");
    wrapped = raw;
    wrapped.numbers[SIENGULOT_MODE] = SIENGULOT_WAITING + 1;
    raw = wrapped;
    expect(siengulot_receiver_well_formed(&wrapped) == 0, "mode 4 is well formed");
    expect(siengulot_receiver_step(&wrapped, 1, &heard) == SIENGULOT_SETTING, "step takes mode 4");
    expect(siengulot_receiver_listen(&wrapped, reads, 26, &heard) == SIENGULOT_SETTING && heard.used == 0, "listen takes mode 4");
    same(&raw, &wrapped, "a refused receiver is changed");

    expect(siengulot_receiver_fresh(&wrapped, 0, 2, 6) == SIENGULOT_SETTING, "fresh takes k 0");
    memset(&raw, 0, sizeof raw);
    same(&raw, &wrapped, "a refused fresh receiver is not all 0");
}

/* The example of the rules: four boards of P8. */
static void surveying(void)
{
    static const size_t a[] = {5, 5, 5, 5}, b[] = {13, 13, 13, 13}, g[] = {1, 1, 1, 1}, k[] = {10, 10, 10, 10};
    static const size_t w[] = {100, 100, 100, 100}, r[] = {141, 142, 67, 142}, bad[] = {10, 0, 512, 10};
    static const char lines[] = "accepted 2\nM1 116 at 1\nM2 3 at 2\nM3 -4 at 1\n", dashes[] = "accepted 0\nM1 - at -\nM2 - at -\nM3 - at -\n";
    int64_t margins[3] = {7, 7, 7};
    size_t places[3] = {7, 7, 7}, accepted = 9;

    lend();
    expect_answer("a survey of no boards", siengulot_survey(a, 0, b, 0, g, 0, k, 0, w, 0, r, 0, margins, places, &accepted, &place, &count), 0, 0, 0);
    expect(accepted == 0, "of no boards some are accepted");
    accepted = 9;
    lend();
    expect_answer("a survey of unequal lists", siengulot_survey(a, 4, b, 4, g, 4, k, 4, w, 4, r, 3, margins, places, &accepted, &place, &count),
                  SIENGULOT_SETTING, 0, 0);
    lend();
    expect_answer("a survey of a bad board", siengulot_survey(a, 4, b, 4, g, 4, bad, 4, w, 4, r, 4, margins, places, &accepted, &place, &count),
                  SIENGULOT_SETTING, 1, 0);
    expect(margins[0] == 7 && margins[2] == 7 && places[0] == 7 && places[2] == 7 && accepted == 0, "a survey writes margins though it gives none");
    lend();
    expect_answer("a survey", siengulot_survey(a, 4, b, 4, g, 4, k, 4, w, 4, r, 4, margins, places, &accepted, &place, &count), 0, 0, 4);
    expect(margins[0] == 116 && margins[1] == 3 && margins[2] == -4 && accepted == 2, "the smallest margins");
    expect(places[0] == 1 && places[1] == 2 && places[2] == 1, "the boards that have them");
    lend();
    expect_answer("a survey's lines", siengulot_survey_lines(a, 4, b, 4, g, 4, k, 4, w, 4, r, 4, out, ROOM, &place, &count), 0, 0, sizeof lines - 1);
    expect(memcmp(out, lines, sizeof lines - 1) == 0 && out[sizeof lines - 1] == GUARD, "the lines");
    lend();
    expect_answer("the lines of no boards", siengulot_survey_lines(a, 0, b, 0, g, 0, k, 0, w, 0, r, 0, out, ROOM, &place, &count), 0, 0,
                  sizeof dashes - 1);
    expect(memcmp(out, dashes, sizeof dashes - 1) == 0 && out[sizeof dashes - 1] == GUARD, "the lines of no boards");
    lend();
    expect_answer("lines with too little room", siengulot_survey_lines(a, 4, b, 4, g, 4, k, 4, w, 4, r, 4, out, sizeof lines - 2, &place, &count),
                  SIENGULOT_ROOM, 0, 0);
    expect_out("lines are written though they are refused", "");
}

int main(void)
{
    judging();
    picking();
    words_of_half_cells();
    logging();
    sending();
    stored_plans();
    line();
    counting();
    timing();
    captures();
    receiving();
    surveying();
    return faults > 0;
}
