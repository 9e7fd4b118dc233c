//! The entry points of the static library, as `include/siengulot.h` declares them. A list crosses as a pointer and a length.

extern "C" {
    pub fn siengulot_judge(
        a: usize,
        b: usize,
        g: usize,
        k: usize,
        w: usize,
        r: usize,
        margins: *mut usize,
        accepted: *mut usize,
    ) -> usize;

    pub fn siengulot_judge_quiet(
        a: usize,
        b: usize,
        g: usize,
        k: usize,
        w: usize,
        r: usize,
        q: usize,
        p1: usize,
        margins: *mut usize,
        accepted: *mut usize,
    ) -> usize;

    pub fn siengulot_judge_ends(
        a: usize,
        b: usize,
        g: usize,
        k: usize,
        w1: usize,
        w2: usize,
        r1: usize,
        r2: usize,
        margins: *mut usize,
        accepted: *mut usize,
    ) -> usize;

    pub fn siengulot_judge_quiet_ends(
        a: usize,
        b: usize,
        g: usize,
        k: usize,
        w1: usize,
        w2: usize,
        r1: usize,
        r2: usize,
        q: usize,
        p1: usize,
        margins: *mut usize,
        accepted: *mut usize,
    ) -> usize;

    pub fn siengulot_pick(a: usize, b: usize, g: usize, w: usize, r: usize, k: *mut usize)
        -> usize;

    pub fn siengulot_pick_ends(
        a: usize,
        b: usize,
        g: usize,
        w1: usize,
        w2: usize,
        r1: usize,
        r2: usize,
        k: *mut usize,
    ) -> usize;

    pub fn siengulot_send(
        a: usize,
        b: usize,
        p1: usize,
        bits: *const u8,
        bits_length: usize,
        out: *mut u8,
        out_length: usize,
        place: *mut usize,
        count: *mut usize,
    ) -> usize;

    pub fn siengulot_plan(
        a: usize,
        b: usize,
        n: usize,
        leads: *const usize,
        leads_length: usize,
        bits: *const u8,
        bits_length: usize,
        out: *mut u8,
        out_length: usize,
        place: *mut usize,
        count: *mut usize,
    ) -> usize;

    pub fn siengulot_read_plan(
        leads: *const usize,
        leads_length: usize,
        trails: *const usize,
        trails_length: usize,
        out: *mut usize,
        out_length: usize,
        place: *mut usize,
        count: *mut usize,
        dropped: *mut usize,
    ) -> usize;

    pub fn siengulot_encode(
        bytes: *const u8,
        bytes_length: usize,
        out: *mut u16,
        out_length: usize,
        place: *mut usize,
        count: *mut usize,
    ) -> usize;

    pub fn siengulot_decode(
        words: *const u16,
        words_length: usize,
        out: *mut u8,
        out_length: usize,
        place: *mut usize,
        count: *mut usize,
    ) -> usize;

    pub fn siengulot_log_event(
        number: u64,
        row: *const u8,
        count: usize,
        broken: u8,
        numbers: *mut u64,
        bits: *mut u8,
        counts: *mut usize,
        broken_marks: *mut u8,
        free_marks: *mut u8,
        broken_count: *mut usize,
        taken: *mut usize,
    ) -> usize;

    pub fn siengulot_log_clear(
        place: usize,
        numbers: *mut u64,
        bits: *mut u8,
        counts: *mut usize,
        broken_marks: *mut u8,
        free_marks: *mut u8,
        broken_count: *mut usize,
    ) -> usize;

    pub fn siengulot_log_list(
        numbers: *const u64,
        free_marks: *const u8,
        places: *mut usize,
        places_length: usize,
        count: *mut usize,
    ) -> usize;

    pub fn siengulot_smooth(
        g: usize,
        wave: *const u8,
        wave_length: usize,
        out: *mut u8,
        out_length: usize,
        place: *mut usize,
        count: *mut usize,
    ) -> usize;

    pub fn siengulot_warp(
        w: usize,
        r: usize,
        p: usize,
        wave: *const u8,
        wave_length: usize,
        out: *mut u8,
        out_length: usize,
        place: *mut usize,
        count: *mut usize,
    ) -> usize;

    pub fn siengulot_warp_by_lengths(
        w1: usize,
        w2: usize,
        r1: usize,
        r2: usize,
        p: usize,
        cycles: *const usize,
        cycles_length: usize,
        reads: *const usize,
        reads_length: usize,
        wave: *const u8,
        wave_length: usize,
        out: *mut u8,
        out_length: usize,
        place: *mut usize,
        count: *mut usize,
    ) -> usize;

    pub fn siengulot_settle(
        reads: *const u8,
        reads_length: usize,
        choices: *const u8,
        choices_length: usize,
        out: *mut u8,
        out_length: usize,
        place: *mut usize,
        count: *mut usize,
    ) -> usize;

    pub fn siengulot_counted(
        k: usize,
        n: usize,
        level: usize,
        reads: *const u8,
        reads_length: usize,
        out: *mut u8,
        out_length: usize,
        place: *mut usize,
        count: *mut usize,
    ) -> usize;

    pub fn siengulot_fresh(
        k: usize,
        n: usize,
        q: usize,
        numbers: *mut usize,
        bits: *mut u8,
    ) -> usize;

    pub fn siengulot_well_formed(numbers: *const usize, bits: *const u8) -> usize;

    pub fn siengulot_step(
        numbers: *mut usize,
        bits: *mut u8,
        read: u8,
        row: *mut u8,
        event: *mut usize,
        found: *mut usize,
        place: *mut usize,
    ) -> usize;

    pub fn siengulot_listen(
        numbers: *mut usize,
        bits: *mut u8,
        reads: *const u8,
        reads_length: usize,
        row: *mut u8,
        event: *mut usize,
        found: *mut usize,
        used: *mut usize,
        place: *mut usize,
    ) -> usize;

    pub fn siengulot_capture_check(
        bytes: *const u8,
        bytes_length: usize,
        summary: *mut usize,
        place: *mut usize,
    ) -> usize;

    pub fn siengulot_capture_read(
        bytes: *const u8,
        bytes_length: usize,
        out: *mut u8,
        out_length: usize,
        summary: *mut usize,
        place: *mut usize,
    ) -> usize;

    pub fn siengulot_capture_write(
        k: usize,
        n: usize,
        q: usize,
        reads: *const u8,
        reads_length: usize,
        out: *mut u8,
        out_length: usize,
        place: *mut usize,
        count: *mut usize,
    ) -> usize;

    pub fn siengulot_time_read(
        bits: *const u8,
        bits_length: usize,
        out: *mut u8,
        out_length: usize,
        place: *mut usize,
        count: *mut usize,
    ) -> usize;

    pub fn siengulot_time_write(
        hours: usize,
        minutes: usize,
        seconds: usize,
        frames: usize,
        out: *mut u8,
        out_length: usize,
        place: *mut usize,
        count: *mut usize,
    ) -> usize;

    pub fn siengulot_survey(
        a: *const usize,
        a_length: usize,
        b: *const usize,
        b_length: usize,
        g: *const usize,
        g_length: usize,
        k: *const usize,
        k_length: usize,
        w: *const usize,
        w_length: usize,
        r: *const usize,
        r_length: usize,
        margins: *mut usize,
        places: *mut usize,
        accepted: *mut usize,
        place: *mut usize,
        count: *mut usize,
    ) -> usize;

    pub fn siengulot_survey_lines(
        a: *const usize,
        a_length: usize,
        b: *const usize,
        b_length: usize,
        g: *const usize,
        g_length: usize,
        k: *const usize,
        k_length: usize,
        w: *const usize,
        w_length: usize,
        r: *const usize,
        r_length: usize,
        out: *mut u8,
        out_length: usize,
        place: *mut usize,
        count: *mut usize,
    ) -> usize;
}
