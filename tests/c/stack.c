/*
 * How much stack each entry point takes, as measured: the stack of a thread of 2 MiB is painted, the thread makes one call, and the deepest byte that
 * is then no longer paint tells. Counted from the frame of the function that calls, so that what the call itself pushes is in it. Each call is the
 * first of a process, in which nothing has yet called the C library's memcpy or memset: where these are bound when they are first called, that is
 * seen. Prints for each entry point the most that any of its calls here took, in bytes.
 */
#define _GNU_SOURCE
#include <siengulot.h>
#include <pthread.h>
#include <stdio.h>
#include <stdlib.h>
#include <sys/mman.h>
#include <sys/wait.h>
#include <unistd.h>

enum { STACK = 2 * 1024 * 1024, PAGE = 65536, LIST = SIENGULOT_ENTRIES_MOST, ROWS = SIENGULOT_ROWS_MOST };

static uint8_t high[LIST + 1], turns[LIST], unknown[LIST], mixed[LIST], bad[LIST], time_words[LIST], bad_word[SIENGULOT_TIME_WORD_BITS], out[SIENGULOT_CAPTURE_MOST], bytes[SIENGULOT_CAPTURE_MOST];
static uint16_t words[SIENGULOT_WORDS_MOST + 1], flat[SIENGULOT_WORDS_MOST], shorts[SIENGULOT_WORDS_MOST];
static size_t pads[ROWS + 1], long_pads[ROWS + 1], joined[ROWS], dropped, shortest[LIST + 1], longest[LIST], summary[SIENGULOT_SUMMARY_NUMBERS], k, place, count, accepted, event, found, used;
static int64_t margins[5];
static siengulot_receiver receiver;
/* A receiver by its numbers; those that are not named are 0, and so are all bits. */
#define RECEIVER(k, n, q, mode, ...) {{[SIENGULOT_K] = k, [SIENGULOT_N] = n, [SIENGULOT_Q] = q, [SIENGULOT_MODE] = mode, __VA_ARGS__}, {0}}
static const siengulot_receiver hunting = RECEIVER(511, 1024, 8191, SIENGULOT_HUNTING, [SIENGULOT_RUN_LEVEL] = 1, [SIENGULOT_LEVEL] = 1);
/* These bring an event with a high read: the row of one bit is in, or its second high read breaks a row off. */
static const siengulot_receiver delivering = RECEIVER(1, 1, 3, SIENGULOT_COUNTING, [SIENGULOT_RUN] = 1, [SIENGULOT_LEFT] = 1);
static const siengulot_receiver breaking =
    RECEIVER(511, 1024, 2, SIENGULOT_COUNTING, [SIENGULOT_RUN] = 1, [SIENGULOT_RUN_LEVEL] = 1, [SIENGULOT_LEFT] = 510);
static uint8_t row[SIENGULOT_ROW_BYTES];

static char *volatile frame; /* of the function that made the call */
static volatile size_t answer;
static volatile size_t expected;

#define CALL(name, refusal, call)                                                                                                                     \
    static void name(void)                                                                                                                            \
    {                                                                                                                                                 \
        frame = (char *)__builtin_frame_address(0);                                                                                                   \
        answer = (call);                                                                                                                              \
        expected = (refusal);                                                                                                                         \
    }

CALL(judge_yes, 0, siengulot_judge(5, 13, 1, 10, 100, 141, margins, &accepted))
CALL(judge_no, 0, siengulot_judge(5, 13, 1, 10, 100, 142, margins, &accepted))
CALL(judge_refused, 1, siengulot_judge(0, 13, 1, 10, 100, 142, margins, &accepted))
CALL(quiet_yes, 0, siengulot_judge_quiet(5, 13, 1, 10, 100, 141, 16, 26, margins, &accepted))
CALL(quiet_no, 0, siengulot_judge_quiet(5, 13, 1, 10, 100, 142, 16, 26, margins, &accepted))
CALL(quiet_refused, 1, siengulot_judge_quiet(5, 13, 1, 10, 100, 142, 1, 26, margins, &accepted))
CALL(judge_ends_yes, 0, siengulot_judge_ends(5, 13, 1, 10, 100, 101, 140, 141, margins, &accepted))
CALL(judge_ends_no, 0, siengulot_judge_ends(5, 13, 1, 10, 100, 101, 140, 142, margins, &accepted))
CALL(judge_ends_refused, 1, siengulot_judge_ends(5, 13, 1, 10, 101, 100, 140, 141, margins, &accepted))
CALL(quiet_ends_yes, 0, siengulot_judge_quiet_ends(5, 13, 1, 10, 100, 101, 140, 141, 16, 26, margins, &accepted))
CALL(quiet_ends_no, 0, siengulot_judge_quiet_ends(5, 13, 1, 10, 100, 101, 140, 142, 16, 26, margins, &accepted))
CALL(quiet_ends_refused, 1, siengulot_judge_quiet_ends(5, 13, 1, 10, 100, 101, 142, 140, 16, 26, margins, &accepted))
CALL(pick_given, 0, siengulot_pick(255, 255, 1, 7, 5, &k))
CALL(pick_equals, 0, siengulot_pick(2, 3, 1, 4, 1, &k))
CALL(pick_setting, 1, siengulot_pick(5, 13, 1, 100, 65536, &k))
CALL(pick_none, 9, siengulot_pick(255, 255, 1, 65535, 1, &k))
CALL(pick_ends_given, 0, siengulot_pick_ends(255, 255, 1, 7, 8, 5, 6, &k))
CALL(pick_ends_setting, 1, siengulot_pick_ends(5, 13, 1, 100, 99, 141, 141, &k))
CALL(pick_ends_none, 9, siengulot_pick_ends(255, 255, 1, 1, 65535, 1, 65535, &k))

CALL(send_most, 0, siengulot_send(255, 255, 65535, turns, 1024, out, sizeof out, &place, &count))
CALL(send_least, 0, siengulot_send(1, 1, 0, turns, 0, out, 0, &place, &count))
CALL(send_setting, 1, siengulot_send(0, 1, 0, turns, 1, out, sizeof out, &place, &count))
CALL(send_entry, 2, siengulot_send(1, 1, 0, unknown, 1024, out, sizeof out, &place, &count))
CALL(send_limit, 3, siengulot_send(1, 1, 0, turns, 1025, out, sizeof out, &place, &count))
CALL(send_room, 4, siengulot_send(255, 255, 65535, turns, 1024, out, 9, &place, &count))

CALL(plan_most, 0, siengulot_plan(1, 1, 512, pads, ROWS, turns, 512 * ROWS, out, sizeof out, &place, &count))
CALL(plan_setting, 1, siengulot_plan(1, 1, 512, pads, 9, turns, 512 * ROWS, out, sizeof out, &place, &count))
CALL(plan_entry, 2, siengulot_plan(1, 1, 512, pads, ROWS, unknown, 512 * ROWS, out, sizeof out, &place, &count))
CALL(plan_limit, 3, siengulot_plan(1, 1, 1024, pads, ROWS, turns, 1024 * ROWS, out, sizeof out, &place, &count))
CALL(plan_room, 4, siengulot_plan(1, 1, 512, pads, ROWS, turns, 512 * ROWS, out, 9, &place, &count))

CALL(stored_most, 0, siengulot_read_plan(pads, ROWS, pads, ROWS, joined, ROWS, &place, &count, &dropped))
CALL(stored_setting, 1, siengulot_read_plan(pads, ROWS, pads, 9, joined, ROWS, &place, &count, &dropped))
CALL(stored_row, 1, siengulot_read_plan(long_pads, ROWS + 1, long_pads, ROWS + 1, joined, ROWS, &place, &count, &dropped))
CALL(stored_limit, 3, siengulot_read_plan(pads, ROWS + 1, pads, ROWS + 1, joined, ROWS, &place, &count, &dropped))
CALL(stored_room, 4, siengulot_read_plan(pads, ROWS, pads, ROWS, joined, 9, &place, &count, &dropped))

/* The words of bytes that are 0, made below; words of which the last cell alone has no edge. */
CALL(encode_most, 0, siengulot_encode(turns, 128, shorts, 128, &place, &count))
CALL(encode_none, 0, siengulot_encode(turns, 0, shorts, 0, &place, &count))
CALL(encode_limit, 3, siengulot_encode(turns, 129, shorts, 128, &place, &count))
CALL(encode_room, 4, siengulot_encode(turns, 128, shorts, 127, &place, &count))
CALL(decode_most, 0, siengulot_decode(words, 128, out, sizeof out, &place, &count))
CALL(decode_none, 0, siengulot_decode(words, 0, out, 0, &place, &count))
CALL(decode_no_edge, 11, siengulot_decode(flat, 128, out, sizeof out, &place, &count))
CALL(decode_limit, 3, siengulot_decode(words, 129, out, sizeof out, &place, &count))
CALL(decode_room, 4, siengulot_decode(words, 128, out, 127, &place, &count))

/* A log with two free records, and one with none, each call with a later read number or another place. */
static siengulot_bay_log two_free = {{0}, {0}, {0}, {0}, {1, 1}, 0}, none_free;
static uint64_t turned[SIENGULOT_LOG_RECORDS], later = 7;
static size_t places[SIENGULOT_LOG_RECORDS], taken, next, wrong = 65;
#define LISTS(log) log.numbers, log.bits, log.counts, log.broken_marks, log.free_marks
#define LOG(log) LISTS(log), &log.broken_count
CALL(log_free, 0, siengulot_log_event(later++, high, 1024, 0, LOG(two_free), &taken))
CALL(log_oldest, 0, siengulot_log_event(later++, high, 1024, 0, LOG(none_free), &taken))
CALL(log_broken, 0, siengulot_log_event(later++, high, 1024, 1, LOG(none_free), &taken))
CALL(log_not_later, 12, siengulot_log_event(0, high, 1024, 0, LOG(none_free), &taken))
CALL(log_count, 1, siengulot_log_event(7, high, 1025, 0, LOG(none_free), &taken))
CALL(log_miscounted, 13, siengulot_log_event(later++, high, 1024, 1, LISTS(none_free), &wrong, &taken))
CALL(clear_used, 0, siengulot_log_clear(next++, LOG(none_free)))
CALL(clear_free, 0, siengulot_log_clear(0, LOG(two_free)))
CALL(clear_place, 1, siengulot_log_clear(64, LOG(none_free)))
CALL(clear_miscounted, 13, siengulot_log_clear(0, LISTS(none_free), &wrong))
CALL(list_equal, 0, siengulot_log_list(none_free.numbers, none_free.free_marks, places, 64, &count))
CALL(list_turned, 0, siengulot_log_list(turned, none_free.free_marks, places, 64, &count))
CALL(list_room, 4, siengulot_log_list(turned, none_free.free_marks, places, 63, &count))

CALL(smooth_most, 0, siengulot_smooth(1, mixed, LIST, out, sizeof out, &place, &count))
CALL(smooth_slow, 0, siengulot_smooth(64, mixed, LIST, out, sizeof out, &place, &count))
CALL(smooth_setting, 1, siengulot_smooth(65, mixed, LIST, out, sizeof out, &place, &count))
CALL(smooth_entry, 2, siengulot_smooth(1, unknown, LIST, out, sizeof out, &place, &count))
CALL(smooth_limit, 3, siengulot_smooth(1, high, LIST + 1, out, sizeof out, &place, &count))
CALL(smooth_room, 4, siengulot_smooth(1, mixed, LIST, out, 9, &place, &count))

/* One read over as many cycles as it can take, all of them alike, is as deep as the recursion goes. */
CALL(warp_deepest, 0, siengulot_warp(1, 65535, 0, high, LIST, out, sizeof out, &place, &count))
CALL(warp_mixed, 0, siengulot_warp(1, 65535, 0, mixed, LIST, out, sizeof out, &place, &count))
CALL(warp_unknown, 0, siengulot_warp(1, 65535, 0, unknown, LIST, out, sizeof out, &place, &count))
CALL(warp_even, 0, siengulot_warp(100, 141, 84, mixed, LIST, out, sizeof out, &place, &count))
CALL(warp_short, 0, siengulot_warp(65535, 1, 3, mixed, 16, out, sizeof out, &place, &count))
CALL(warp_setting, 1, siengulot_warp(4, 4, 4, high, LIST, out, sizeof out, &place, &count))
CALL(warp_entry, 2, siengulot_warp(4, 4, 1, bad, LIST, out, sizeof out, &place, &count))
CALL(warp_limit, 3, siengulot_warp(4, 1, 1, high, LIST, out, sizeof out, &place, &count))
CALL(warp_room, 4, siengulot_warp(4, 4, 1, high, LIST, out, 9, &place, &count))

/* The same by lengths: reads of 65,535 time units over cycles of one, w1 1 and r2 65,535. */
#define LENGTHS(cycles, cycles_length, reads, reads_length, wave, room)                                                                               \
    siengulot_warp_by_lengths(1, 65535, 1, 65535, 0, cycles, cycles_length, reads, reads_length, wave, LIST, out, room, &place, &count)
CALL(lengths_deepest, 0, LENGTHS(shortest, LIST, longest, LIST, high, sizeof out))
CALL(lengths_mixed, 0, LENGTHS(shortest, LIST, longest, LIST, mixed, sizeof out))
CALL(lengths_even, 0, LENGTHS(longest, LIST, longest, LIST, mixed, sizeof out))
CALL(lengths_short, 0, LENGTHS(longest, LIST, shortest, LIST, mixed, sizeof out))
CALL(lengths_none, 0, LENGTHS(shortest, 0, longest, LIST, mixed, sizeof out))
CALL(lengths_setting, 1, siengulot_warp_by_lengths(2, 65535, 1, 65535, 0, shortest, LIST, longest, LIST, high, LIST, out, sizeof out, &place, &count))
CALL(lengths_entry, 2, LENGTHS(shortest, LIST, longest, LIST, bad, sizeof out))
CALL(lengths_limit, 3, LENGTHS(shortest, LIST + 1, longest, LIST, high, sizeof out))
CALL(lengths_room, 4, LENGTHS(shortest, LIST, longest, LIST, high, 9))

CALL(settle_most, 0, siengulot_settle(unknown, LIST, turns, LIST, out, sizeof out, &place, &count))
CALL(settle_mixed, 0, siengulot_settle(mixed, LIST, turns, 9, out, sizeof out, &place, &count))
CALL(settle_entry, 2, siengulot_settle(mixed, LIST, unknown, 9, out, sizeof out, &place, &count))
CALL(settle_limit, 3, siengulot_settle(high, LIST + 1, turns, 9, out, sizeof out, &place, &count))
CALL(settle_room, 4, siengulot_settle(mixed, LIST, turns, 9, out, 9, &place, &count))

CALL(counted_most, 0, siengulot_counted(511, 1024, 1, turns, LIST, out, sizeof out, &place, &count))
CALL(counted_mixed, 0, siengulot_counted(3, 1024, 1, mixed, LIST, out, sizeof out, &place, &count))
CALL(counted_setting, 1, siengulot_counted(0, 1024, 1, turns, LIST, out, sizeof out, &place, &count))
CALL(counted_entry, 2, siengulot_counted(3, 1024, 1, unknown, LIST, out, sizeof out, &place, &count))
CALL(counted_limit, 3, siengulot_counted(3, 1024, 1, high, LIST + 1, out, sizeof out, &place, &count))
CALL(counted_room, 4, siengulot_counted(3, 1024, 1, turns, LIST, out, 9, &place, &count))
CALL(counted_ran_out, 5, siengulot_counted(3, 1024, 1, high, LIST, out, sizeof out, &place, &count))

CALL(time_read_most, 0, siengulot_time_read(high, LIST, out, sizeof out, &place, &count))
CALL(time_read_mixed, 0, siengulot_time_read(mixed, LIST, out, sizeof out, &place, &count))
CALL(time_read_entry, 2, siengulot_time_read(unknown, LIST, out, sizeof out, &place, &count))
CALL(time_read_limit, 3, siengulot_time_read(high, LIST + 1, out, sizeof out, &place, &count))
CALL(time_read_words, 0, siengulot_time_read(time_words, LIST, out, sizeof out, &place, &count))
CALL(time_read_room, 4, siengulot_time_read(time_words, LIST, out, 9, &place, &count))
CALL(time_read_bad, 10, siengulot_time_read(bad_word, sizeof bad_word, out, sizeof out, &place, &count))
CALL(time_write_most, 0, siengulot_time_write(23, 59, 59, 24, out, sizeof out, &place, &count))
CALL(time_write_setting, 1, siengulot_time_write(24, 59, 59, 24, out, sizeof out, &place, &count))
CALL(time_write_room, 4, siengulot_time_write(23, 59, 59, 24, out, 9, &place, &count))

CALL(fresh_most, 0, siengulot_fresh(511, 1024, 8191, receiver.numbers, receiver.bits))
CALL(fresh_refused, 1, siengulot_fresh(0, 1024, 8191, receiver.numbers, receiver.bits))
CALL(well_formed_yes, 1, siengulot_well_formed(breaking.numbers, breaking.bits))
CALL(well_formed_no, 0, siengulot_well_formed(breaking.numbers, high))
CALL(step_high, 0, (receiver = hunting, siengulot_step(receiver.numbers, receiver.bits, 1, row, &event, &found, &place)))
CALL(step_low, 0, (receiver = hunting, siengulot_step(receiver.numbers, receiver.bits, 0, row, &event, &found, &place)))
CALL(step_row, 0, (receiver = delivering, siengulot_step(receiver.numbers, receiver.bits, 1, row, &event, &found, &place)))
CALL(step_broken, 0, (receiver = breaking, siengulot_step(receiver.numbers, receiver.bits, 1, row, &event, &found, &place)))
CALL(step_setting, 1, (receiver = breaking, siengulot_step(receiver.numbers, high, 1, row, &event, &found, &place)))
CALL(step_entry, 2, (receiver = breaking, siengulot_step(receiver.numbers, receiver.bits, 2, row, &event, &found, &place)))
#define LISTEN(from, bits, reads, length) (receiver = from, siengulot_listen(receiver.numbers, bits, reads, length, row, &event, &found, &used, &place))
CALL(listen_high, 0, LISTEN(hunting, receiver.bits, high, LIST))
CALL(listen_turns, 0, LISTEN(hunting, receiver.bits, turns, LIST))
CALL(listen_row, 0, LISTEN(delivering, receiver.bits, mixed, LIST))
CALL(listen_broken, 0, LISTEN(breaking, receiver.bits, high, LIST))
CALL(listen_mixed, 0, LISTEN(breaking, receiver.bits, mixed, LIST))
CALL(listen_setting, 1, LISTEN(hunting, high, high, LIST))
CALL(listen_entry, 2, LISTEN(hunting, receiver.bits, unknown, LIST))
CALL(listen_limit, 3, LISTEN(hunting, receiver.bits, high, LIST + 1))

/* The longest capture there is, and its parts. */
CALL(write_most, 0, siengulot_capture_write(511, 1024, 8191, turns, LIST, out, sizeof out, &place, &count))
CALL(write_high, 0, siengulot_capture_write(511, 1024, 8191, high, LIST, out, sizeof out, &place, &count))
CALL(write_setting, 1, siengulot_capture_write(0, 1024, 8191, turns, LIST, out, sizeof out, &place, &count))
CALL(write_entry, 2, siengulot_capture_write(511, 1024, 8191, unknown, LIST, out, sizeof out, &place, &count))
CALL(write_limit, 3, siengulot_capture_write(511, 1024, 8191, high, LIST + 1, out, sizeof out, &place, &count))
CALL(write_room, 4, siengulot_capture_write(511, 1024, 8191, turns, LIST, out, 9, &place, &count))
CALL(check_most, 0, siengulot_capture_check(bytes, sizeof bytes, summary, &place))
CALL(check_cut, 6, siengulot_capture_check(bytes, 1, summary, &place))
CALL(check_form, 7, siengulot_capture_check((const uint8_t *)"\x80", 2, summary, &place))
CALL(check_range, 8, siengulot_capture_check(turns, 9, summary, &place))
CALL(read_most, 0, siengulot_capture_read(bytes, sizeof bytes, out, sizeof out, summary, &place))
CALL(read_room, 4, siengulot_capture_read(bytes, sizeof bytes, out, 9, summary, &place))
CALL(read_cut, 6, siengulot_capture_read(bytes, 1, out, sizeof out, summary, &place))

/* Boards whose settings are all 1, and one whose a is out of range. */
#define BOARDS(n) shortest, n, shortest, n, shortest, n, shortest, n, shortest, n, shortest, n
#define BAD_BOARDS longest, 9, shortest, 9, shortest, 9, shortest, 9, shortest, 9, shortest, 9
#define UNEQUAL shortest, 9, shortest, 9, shortest, 9, shortest, 9, shortest, 9, shortest, 8
#define SURVEY(lists) siengulot_survey(lists, margins, places, &accepted, &place, &count)
#define SURVEY_LINES(lists, room) siengulot_survey_lines(lists, out, room, &place, &count)
CALL(survey_most, 0, SURVEY(BOARDS(SIENGULOT_BOARDS_MOST)))
CALL(survey_none, 0, SURVEY(BOARDS(0)))
CALL(survey_unequal, 1, SURVEY(UNEQUAL))
CALL(survey_setting, 1, SURVEY(BAD_BOARDS))
CALL(survey_limit, 3, SURVEY(BOARDS(SIENGULOT_BOARDS_MOST + 1)))
CALL(lines_most, 0, SURVEY_LINES(BOARDS(SIENGULOT_BOARDS_MOST), sizeof out))
CALL(lines_none, 0, SURVEY_LINES(BOARDS(0), sizeof out))
CALL(lines_unequal, 1, SURVEY_LINES(UNEQUAL, sizeof out))
CALL(lines_setting, 1, SURVEY_LINES(BAD_BOARDS, sizeof out))
CALL(lines_limit, 3, SURVEY_LINES(BOARDS(SIENGULOT_BOARDS_MOST + 1), sizeof out))
CALL(lines_room, 4, SURVEY_LINES(BOARDS(9), 9))

/* The calls of an entry point, in order. */
typedef void called(void);
static const struct {
    const char *name;
    called *calls[12];
} points[] = {
    {"siengulot_judge", {judge_yes, judge_no, judge_refused}},
    {"siengulot_judge_quiet", {quiet_yes, quiet_no, quiet_refused}},
    {"siengulot_judge_ends", {judge_ends_yes, judge_ends_no, judge_ends_refused}},
    {"siengulot_judge_quiet_ends", {quiet_ends_yes, quiet_ends_no, quiet_ends_refused}},
    {"siengulot_pick", {pick_given, pick_equals, pick_setting, pick_none}},
    {"siengulot_pick_ends", {pick_ends_given, pick_ends_setting, pick_ends_none}},
    {"siengulot_send", {send_most, send_least, send_setting, send_entry, send_limit, send_room}},
    {"siengulot_plan", {plan_most, plan_setting, plan_entry, plan_limit, plan_room}},
    {"siengulot_read_plan", {stored_most, stored_setting, stored_row, stored_limit, stored_room}},
    {"siengulot_encode", {encode_most, encode_none, encode_limit, encode_room}},
    {"siengulot_decode", {decode_most, decode_none, decode_no_edge, decode_limit, decode_room}},
    {"siengulot_smooth", {smooth_most, smooth_slow, smooth_setting, smooth_entry, smooth_limit, smooth_room}},
    {"siengulot_warp",
     {warp_deepest, warp_mixed, warp_unknown, warp_even, warp_short, warp_setting, warp_entry, warp_limit,
      warp_room}},
    {"siengulot_warp_by_lengths",
     {lengths_deepest, lengths_mixed, lengths_even, lengths_short, lengths_none, lengths_setting, lengths_entry, lengths_limit,
      lengths_room}},
    {"siengulot_settle", {settle_most, settle_mixed, settle_entry, settle_limit, settle_room}},
    {"siengulot_counted",
     {counted_most, counted_mixed, counted_setting, counted_entry, counted_limit, counted_room, counted_ran_out}},
    {"siengulot_time_read",
     {time_read_most, time_read_mixed, time_read_entry, time_read_limit, time_read_words, time_read_room, time_read_bad}},
    {"siengulot_time_write", {time_write_most, time_write_setting, time_write_room}},
    {"siengulot_fresh", {fresh_refused, fresh_most}},
    {"siengulot_well_formed", {well_formed_no, well_formed_yes}},
    {"siengulot_step", {step_high, step_low, step_row, step_broken, step_setting, step_entry}},
    {"siengulot_listen",
     {listen_high, listen_turns, listen_row, listen_broken, listen_mixed, listen_setting, listen_entry, listen_limit}},
    {"siengulot_log_event", {log_free, log_oldest, log_broken, log_not_later, log_count, log_miscounted}},
    {"siengulot_log_clear", {clear_used, clear_free, clear_place, clear_miscounted}},
    {"siengulot_log_list", {list_equal, list_turned, list_room}},
    {"siengulot_capture_write", {write_most, write_high, write_setting, write_entry, write_limit, write_room}},
    {"siengulot_capture_check", {check_most, check_cut, check_form, check_range}},
    {"siengulot_capture_read", {read_most, read_room, read_cut}},
    {"siengulot_survey", {survey_most, survey_none, survey_unequal, survey_setting, survey_limit}},
    {"siengulot_survey_lines", {lines_most, lines_none, lines_unequal, lines_setting, lines_limit, lines_room}},
};

static void stop(const char *why)
{
    fprintf(stderr, "stack: %s\n", why);
    exit(1);
}

static void *in_thread(void *call)
{
    (*(called **)call)();
    return NULL;
}

/* Byte by byte, so that no compiler makes a call of memset of it. */
static void fill(volatile uint8_t *at, uint8_t with, size_t length)
{
    while (length > 0) {
        at[--length] = with;
    }
}

/* How deep a call goes on a stack of this paint. */
static size_t depth(char *stack, called *call, uint8_t paint)
{
    pthread_attr_t attributes;
    pthread_t thread;
    size_t clean = 0;

    fill((uint8_t *)stack, paint, STACK);
    if (pthread_attr_init(&attributes) || pthread_attr_setstack(&attributes, stack, STACK) ||
        pthread_create(&thread, &attributes, in_thread, &call) || pthread_join(thread, NULL)) {
        stop("no thread could be run");
    }
    while (clean < STACK && stack[clean] == (char)paint) {
        clean++;
    }
    return (size_t)(frame - (stack + clean));
}

/* How deep a call goes, at most, in a process of its own. */
static size_t deepest(char *stack, called *call, const char *name, size_t *most)
{
    int status;
    pid_t child = fork();
    if (child == 0) {
        /* Two paints, since what a call writes may look like one of them. */
        size_t first = depth(stack, call, 0xA5), second = depth(stack, call, 0x5A);
        *most = first > second ? first : second;
        _exit(answer != expected);
    }
    if (child < 0 || waitpid(child, &status, 0) != child || status != 0) {
        stop(name);
    }
    return *most;
}

int main(void)
{
    /* Below the stack lies memory that may not be touched. */
    char *ground = mmap(NULL, PAGE + STACK, PROT_READ | PROT_WRITE, MAP_PRIVATE | MAP_ANONYMOUS, -1, 0);
    if (ground == MAP_FAILED || mprotect(ground, PAGE, PROT_NONE)) {
        stop("no stack could be had");
    }
    size_t *told = mmap(NULL, sizeof *told, PROT_READ | PROT_WRITE, MAP_SHARED | MAP_ANONYMOUS, -1, 0);
    if (told == MAP_FAILED) {
        stop("no memory could be shared");
    }
    fill(high, 1, sizeof high);
    fill(unknown, 2, sizeof unknown);
    fill(bad, 3, sizeof bad);
    fill(bytes, 1, sizeof bytes); /* runs of 1, after k 511, n 1,024, Q 8,191 and a first level of 0 */
    for (size_t i = 0; i < 7; i++) {
        bytes[i] = ((const uint8_t[]){0xFF, 0x03, 0x80, 0x08, 0xFF, 0x3F, 0x00})[i];
    }
    long_pads[ROWS - 1] = long_pads[ROWS] = SIENGULOT_PAD_MOST; /* the last row's lead becomes too long */
    shortest[LIST] = 1;
    for (size_t i = 0; i < LIST; i++) {
        shortest[i] = 1;
        longest[i] = 65535;
        turns[i] = i % 2;
        mixed[i] = (i * i / 7 + i / 5) % 3 % 2;
        time_words[i] = i % 80 > 65 && i % 80 != 78; /* words of the first time of a day */
    }
    for (size_t i = 0; i < sizeof bad_word; i++) {
        bad_word[i] = i < 4 || time_words[i]; /* frames 15 */
    }
    for (size_t i = 0; i < 128; i++) {
        words[i] = 0x3333;
        flat[i] = i < 127 ? 0x3333 : 0x3331;
    }
    for (size_t i = 0; i < SIENGULOT_LOG_RECORDS; i++) {
        turned[i] = (i + 24) % SIENGULOT_LOG_RECORDS;
    }
    for (size_t i = 0; i < sizeof points / sizeof points[0]; i++) {
        size_t most = 0;
        for (size_t j = 0; points[i].calls[j] != NULL; j++) {
            size_t call = deepest(ground + PAGE, points[i].calls[j], points[i].name, told);
            most = call > most ? call : most;
        }
        printf("%s %zu\n", points[i].name, most);
    }
    return 0;
}
