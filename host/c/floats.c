/* Frames as floats, as a C and a C++ program use them. */
#include "check.h"

enum { FRAMES = 960, SAMPLE = 8, LOUD = 100, NUMBER = 2 * 64 * LOUD, OLD_TICK = 77 };

/* A NaN that signals: what is kept keeps its bits. */
static const uint32_t NAN_BITS = 0x7FA12345;
static const uint8_t ONE_NOTE[] = {0, 0, 0, 0x0E, 3, 4, 0, 0, 0, 1, 1, 0x7D, 1, 0x40, 1, 0xAC, 1, 0};

static uint8_t file[SMALLEST + SAMPLE];
static float out[3 * 2 * FRAMES], pair[2];
static uint32_t pair_tick;
static lampthistle_state state;
static uint64_t answer[LAMPTHISTLE_ANSWER_CELLS];

static uint32_t bits_of(float number) {
    uint32_t bits;
    memcpy(&bits, &number, sizeof bits);
    return bits;
}

/* Whether all floats from one on to the end are as they were. */
static int kept(size_t from) {
    size_t k;
    for (k = from; k < sizeof out / sizeof out[0]; k++)
        if (bits_of(out[k]) != NAN_BITS) return 0;
    return 1;
}

static int record_kept(void) {
    return bits_of(pair[0]) == NAN_BITS && bits_of(pair[1]) == NAN_BITS && pair_tick == OLD_TICK;
}

/* A fresh state, and NaNs everywhere. */
static void begin(void) {
    size_t k;
    for (k = 0; k < sizeof out / sizeof out[0]; k++) memcpy(out + k, &NAN_BITS, sizeof NAN_BITS);
    memcpy(pair, out, sizeof pair);
    pair_tick = OLD_TICK;
    lampthistle_fresh(state.cell);
}

/* Sample 1: loud bytes, looped, volume 64; its note on channel 1, so that left alone sounds. */
static void add_note(void) {
    file[20 + 23] = SAMPLE / 2;
    file[20 + 25] = 64;
    file[20 + 29] = SAMPLE / 2;
    memset(file + SMALLEST, LOUD, SAMPLE);
    memcpy(file + 1084, "\x01\xAC\x10\x00", 4);
}

/* One tick for so many sides: its frames are exactly the 16-bit numbers', divided. */
static void check_tick(uint32_t sides, float divisor) {
    static int16_t numbers[2 * FRAMES];
    lampthistle_state whole, before;
    int k, exact = 1;
    begin();
    before = whole = state;
    lampthistle_play(file, sizeof file, whole.cell, 1, numbers, 2 * FRAMES, answer);
    lampthistle_play_floats(file, sizeof file, state.cell, 9, sides, out, 2 * sides * FRAMES - 1, pair, &pair_tick, answer);
    CHECK_ANSWER(answer, LAMPTHISTLE_ACCEPTED, 0, 1);
    CHECK(memcmp(&state, &whole, sizeof state) == 0);
    CHECK(lampthistle_tick_floats(before.cell, state.cell, sides) == sides * FRAMES);
    for (k = 0; k < FRAMES; k++) {
        exact &= bits_of(out[sides * (size_t)k]) == bits_of((float)numbers[2 * k] / divisor);
        if (sides == LAMPTHISTLE_STEREO) exact &= bits_of(out[2 * k + 1]) == 0;
    }
    CHECK(exact);
    CHECK(kept(sides * FRAMES));
    CHECK(out[sides * (FRAMES - 1)] == (float)NUMBER / divisor);
    CHECK(bits_of(out[0]) == 0); /* a silence: the sample's first two bytes read 0 */
    CHECK(pair[0] == (float)NUMBER / 32768 && bits_of(pair[1]) == 0 && pair_tick == 0);
}

/* The record's tick counts in the call. */
static void check_record(void) {
    begin();
    lampthistle_play_floats(file, sizeof file, state.cell, 9, LAMPTHISTLE_MONO, out, 3 * FRAMES, pair, &pair_tick, answer);
    CHECK_ANSWER(answer, LAMPTHISTLE_ACCEPTED, 0, 3);
    CHECK(pair_tick == 2);
    lampthistle_play_floats(file, sizeof file, state.cell, 1, LAMPTHISTLE_MONO, out, FRAMES, pair, &pair_tick, answer);
    CHECK(pair_tick == 0);
    begin();
    lampthistle_play_floats(file, sizeof file, state.cell, 9, LAMPTHISTLE_MONO, out, FRAMES - 1, pair, &pair_tick, answer);
    CHECK_ANSWER(answer, LAMPTHISTLE_ACCEPTED, 0, 0);
    CHECK(record_kept() && kept(0));
    lampthistle_play_floats(file, sizeof file, state.cell, 0, LAMPTHISTLE_STEREO, NULL, 0, pair, &pair_tick, answer);
    CHECK_ANSWER(answer, LAMPTHISTLE_ACCEPTED, 0, 0);
    CHECK(record_kept());
}

static void check_board(void) {
    static float player[2 * FRAMES];
    float last[2];
    uint32_t sides;
    for (sides = LAMPTHISTLE_MONO; sides <= LAMPTHISTLE_STEREO; sides++) {
        begin();
        lampthistle_play_floats(file, sizeof file, state.cell, 1, sides, player, sides * FRAMES, last, &pair_tick, answer);
        pair_tick = OLD_TICK;
        lampthistle_play_stream_floats(ONE_NOTE, sizeof ONE_NOTE, file, sizeof file, sides, out, sides * FRAMES, pair, &pair_tick, answer);
        CHECK_ANSWER(answer, LAMPTHISTLE_ACCEPTED, 0, 1);
        CHECK(memcmp(out, player, sides * FRAMES * sizeof(float)) == 0);
        CHECK(memcmp(pair, last, sizeof pair) == 0 && pair_tick == 0);
        CHECK(kept(sides * FRAMES));
    }
}

/* A note that is held through three ticks: from each of them on, floats and record are the whole's, and the record's tick counts in the
   call. Without a frame both stay. */
static void check_from(void) {
    static const uint8_t HELD[] = {0, 0, 0, 18, 3, 4, 0, 0, 0, 3, 1, 0x7D, 1, 0x40, 1, 0xAC, 1, 0, 0, 0x7D, 0, 0x7D};
    static float whole[3 * 2 * FRAMES];
    float last[2];
    uint32_t sides, from;
    for (sides = LAMPTHISTLE_MONO; sides <= LAMPTHISTLE_STEREO; sides++) {
        const size_t tick = sides * FRAMES;
        lampthistle_play_stream_floats(HELD, sizeof HELD, file, sizeof file, sides, whole, 3 * tick, last, &pair_tick, answer);
        for (from = 0; from < 3; from++) {
            begin();
            lampthistle_play_stream_floats_from(HELD, sizeof HELD, file, sizeof file, from, sides, out, tick - 1, pair, &pair_tick, answer);
            CHECK_ANSWER(answer, LAMPTHISTLE_ACCEPTED, 0, 0);
            CHECK(record_kept() && kept(0));
            lampthistle_play_stream_floats_from(HELD, sizeof HELD, file, sizeof file, from, sides, out, 3 * tick, pair, &pair_tick, answer);
            CHECK_ANSWER(answer, LAMPTHISTLE_ACCEPTED, 0, 3 - from);
            CHECK(memcmp(out, whole + from * tick, (3 - from) * tick * sizeof(float)) == 0);
            CHECK(memcmp(pair, last, sizeof pair) == 0 && pair_tick == 2 - from);
            CHECK(kept((3 - from) * tick));
        }
        begin();
        lampthistle_play_stream_floats_from(HELD, sizeof HELD, file, sizeof file, 3, sides, out, tick, pair, &pair_tick, answer);
        CHECK_ANSWER(answer, LAMPTHISTLE_ACCEPTED, 0, 0);
        lampthistle_play_stream_floats_from(HELD, sizeof HELD, file, sizeof file, UINT32_MAX, sides, NULL, 0, pair, &pair_tick, answer);
        CHECK_ANSWER(answer, LAMPTHISTLE_ACCEPTED, 0, 0);
        CHECK(record_kept() && kept(0));
    }
}

/* Refusals write the answer alone; 24 comes after 14, and on the board after 9 and before 21. */
static void check_refusals(void) {
    static const uint32_t OTHERS[] = {0, 3, 258, UINT32_MAX};
    lampthistle_state before;
    size_t k;
    begin();
    for (k = 0; k < sizeof OTHERS / sizeof OTHERS[0]; k++) {
        before = state;
        lampthistle_play_floats(file, sizeof file, state.cell, 1, OTHERS[k], out, 2 * FRAMES, pair, &pair_tick, answer);
        CHECK_ANSWER(answer, LAMPTHISTLE_REFUSED_SIDES, 0, 0);
        CHECK(memcmp(&state, &before, sizeof state) == 0);
        lampthistle_play_stream_floats(NULL, 0, file, sizeof file, OTHERS[k], out, 2 * FRAMES, pair, &pair_tick, answer);
        CHECK_ANSWER(answer, LAMPTHISTLE_REFUSED_SIDES, 0, 0);
        lampthistle_play_stream_floats(NULL, 0, file, 1, OTHERS[k], out, 2 * FRAMES, pair, &pair_tick, answer);
        CHECK_ANSWER(answer, LAMPTHISTLE_REFUSED_SHORT_FILE, 1, 0);
        lampthistle_play_stream_floats_from(NULL, 0, file, sizeof file, 5, OTHERS[k], out, 2 * FRAMES, pair, &pair_tick, answer);
        CHECK_ANSWER(answer, LAMPTHISTLE_REFUSED_SIDES, 0, 0);
    }
    lampthistle_play_stream_floats(NULL, 0, file, sizeof file, LAMPTHISTLE_MONO, NULL, 0, pair, &pair_tick, answer);
    CHECK_ANSWER(answer, LAMPTHISTLE_REFUSED_STREAM_LENGTH, 0, 0);
    lampthistle_play_stream_floats_from(NULL, 0, file, sizeof file, 5, LAMPTHISTLE_MONO, NULL, 0, pair, &pair_tick, answer);
    CHECK_ANSWER(answer, LAMPTHISTLE_REFUSED_STREAM_LENGTH, 0, 0);
    state.cell[LAMPTHISTLE_TEMPO] = 31;
    before = state;
    lampthistle_play_floats(file, sizeof file, state.cell, 1, 3, out, 2 * FRAMES, pair, &pair_tick, answer);
    CHECK_ANSWER(answer, LAMPTHISTLE_REFUSED_STATE, 0, 0);
    CHECK(memcmp(&state, &before, sizeof state) == 0);
    CHECK(record_kept() && kept(0));
}

int main(void) {
    make_smallest(file);
    add_note();
    check_tick(LAMPTHISTLE_STEREO, 32768);
    check_tick(LAMPTHISTLE_MONO, 65536);
    check_record();
    check_board();
    check_from();
    check_refusals();
    return checked("floats");
}
