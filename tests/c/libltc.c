/*
 * Debian's libltc, to compare with.
 *
 *     libltc encode N TIMES > reads    encodes N frames of 25 a second with any user bits and flags, writes the time of each to the file TIMES, and
 *                                      the line's levels, 24 reads a bit, as characters 0 and 1
 *     libltc decode < words            takes a word of 80 bits a line, makes the line's levels of it, and prints what it decodes: time and bits
 */
#include <ltc.h>
#include <stdio.h>
#include <stdlib.h>
#include <string.h>

enum { RATE = 48000, FRAMES = 25, WORD = 80, SAMPLES = RATE / FRAMES / WORD };

/* The same numbers each time. */
static unsigned below(unsigned bound)
{
    static unsigned long long state = 20261115;
    state = state * 6364136223846793005ULL + 1442695040888963407ULL;
    return (unsigned)(state >> 33) % bound;
}

static int encode(int frames, const char *path)
{
    LTCEncoder *encoder = ltc_encoder_create(RATE, FRAMES, LTC_TV_625_50, 0);
    FILE *times = fopen(path, "w");
    int turned = -1;

    if (encoder == NULL || times == NULL) {
        return 1;
    }
    ltc_encoder_set_filter(encoder, 0);
    for (int i = 0; i < frames; i++) {
        SMPTETimecode time;
        LTCFrame frame;
        ltcsnd_sample_t *samples;
        int length;

        memset(&time, 0, sizeof time);
        time.hours = (unsigned char)below(24);
        time.mins = (unsigned char)below(60);
        time.secs = (unsigned char)below(60);
        time.frame = (unsigned char)below(25);
        ltc_encoder_set_timecode(encoder, &time);
        ltc_encoder_get_frame(encoder, &frame);
        frame.user1 = below(16);
        frame.user2 = below(16);
        frame.user3 = below(16);
        frame.user4 = below(16);
        frame.user5 = below(16);
        frame.user6 = below(16);
        frame.user7 = below(16);
        frame.user8 = below(16);
        frame.dfbit = below(2);
        frame.col_frame = below(2);
        frame.biphase_mark_phase_correction = below(2);
        frame.binary_group_flag_bit0 = below(2);
        frame.binary_group_flag_bit1 = below(2);
        frame.binary_group_flag_bit2 = below(2);
        ltc_encoder_set_frame(encoder, &frame);
        ltc_encoder_encode_frame(encoder);
        length = ltc_encoder_get_bufferptr(encoder, &samples, 1);
        fprintf(times, "%02d:%02d:%02d:%02d\n", time.hours, time.mins, time.secs, time.frame);
        for (int j = 0; j < length; j++) {
            int level = samples[j] > 128;
            if (turned < 0) {
                /* The line is high before the first cell, whose mark is low. */
                turned = level;
                fputs("11111\n", stdout);
            }
            putchar('0' + (level ^ turned));
        }
        putchar('\n');
    }
    /* The first half of one cell more, in which the last sample stands. */
    for (int j = 0; j < 5 * SAMPLES; j++) {
        putchar('0' + (j / SAMPLES) % 2);
    }
    putchar('\n');
    return fclose(times) != 0;
}

static void print_frames(LTCDecoder *decoder)
{
    LTCFrameExt found;

    while (ltc_decoder_read(decoder, &found)) {
        const unsigned char *bytes = (const unsigned char *)&found.ltc;
        SMPTETimecode time;
        ltc_frame_to_time(&time, &found.ltc, 0);
        printf("%02d:%02d:%02d:%02d ", time.hours, time.mins, time.secs, time.frame);
        for (int i = 0; i < WORD; i++) {
            putchar('0' + (bytes[i / 8] >> (i % 8) & 1));
        }
        putchar('\n');
    }
}

static int decode(void)
{
    LTCDecoder *decoder = ltc_decoder_create(RATE / FRAMES, 32);
    char line[200];
    ltc_off_t at = 0;
    int level = 0;

    if (decoder == NULL) {
        return 1;
    }
    while (fgets(line, sizeof line, stdin) != NULL) {
        ltcsnd_sample_t samples[WORD * SAMPLES];
        for (int i = 0; i < WORD * SAMPLES; i++) {
            if (i % SAMPLES == 0 || (i % SAMPLES == SAMPLES / 2 && line[i / SAMPLES] == '1')) {
                level = !level;
            }
            samples[i] = level ? 218 : 38;
        }
        ltc_decoder_write(decoder, samples, WORD * SAMPLES, at);
        at += WORD * SAMPLES;
        print_frames(decoder);
    }
    return 0;
}

int main(int argc, char **argv)
{
    if (argc == 4 && strcmp(argv[1], "encode") == 0) {
        return encode(atoi(argv[2]), argv[3]);
    }
    if (argc == 2 && strcmp(argv[1], "decode") == 0) {
        return decode();
    }
    return 2;
}
