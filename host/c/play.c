/* The calls that play, as a C and a C++ program use them. */
#include "check.h"

enum { TICK = 2 * 960, FILLED = 0x101 };

static uint8_t file[SMALLEST];
static lampthistle_state state;
static uint64_t answer[LAMPTHISTLE_ANSWER_CELLS];

static void check_fresh(void) {
    lampthistle_fresh(state.cell);
    CHECK(state.cell[LAMPTHISTLE_SPEED] == 6);
    CHECK(state.cell[LAMPTHISTLE_TEMPO] == 125);
    CHECK(state.cell[LAMPTHISTLE_REMAINDER] == 0);
    CHECK(state.cell[LAMPTHISTLE_CHANNEL_CELL(LAMPTHISTLE_CHANNELS - 1, LAMPTHISTLE_VOICE_STOPPED)] == 1);
}

/* A tick a call at tempo 255: its numbers follow from the states around it, and 255 of them have 120,000 frames. */
static void check_lengths(void) {
    static int16_t out[LAMPTHISTLE_TICK_NUMBERS];
    lampthistle_state at = state, before;
    size_t numbers = 0, written;
    int k, exact = 1;
    at.cell[LAMPTHISTLE_TEMPO] = 255;
    for (k = 0; k < 255; k++) {
        before = at;
        memset(out, 1, sizeof out);
        lampthistle_play(file, sizeof file, at.cell, 1, out, LAMPTHISTLE_TICK_NUMBERS, answer);
        written = lampthistle_tick_numbers(before.cell, at.cell);
        exact &= out[written - 1] == 0 && out[written] == FILLED;
        numbers += written;
        if (k == 0) CHECK(written == 2 * 470 && at.cell[LAMPTHISTLE_REMAINDER] == 150);
    }
    CHECK_ANSWER(answer, LAMPTHISTLE_ACCEPTED, 0, 1);
    CHECK(exact);
    CHECK(numbers == 2 * 120000);
    CHECK(at.cell[LAMPTHISTLE_REMAINDER] == 0);
}

/* A tempo of the tick's own row: the remainder before it does not count. */
static void check_another_tempo(void) {
    static int16_t out[LAMPTHISTLE_TICK_NUMBERS];
    lampthistle_state at = state, before;
    at.cell[LAMPTHISTLE_REMAINDER] = 124;
    before = at;
    memcpy(file + 1084, "\0\0\x0F\xFF", 4);
    lampthistle_play(file, sizeof file, at.cell, 1, out, LAMPTHISTLE_TICK_NUMBERS, answer);
    CHECK_ANSWER(answer, LAMPTHISTLE_ACCEPTED, 0, 1);
    CHECK(at.cell[LAMPTHISTLE_REMAINDER] == 150);
    CHECK(lampthistle_tick_numbers(before.cell, at.cell) == 2 * 470);
    memset(file + 1084, 0, 4);
}

/* Two whole ticks fit; the rest of the buffer stays. */
static void check_play(void) {
    static int16_t out[3 * TICK];
    int k, silent = 1, kept = 1;
    memset(out, 1, sizeof out);
    lampthistle_play(file, sizeof file, state.cell, 9, out, 3 * TICK - 1, answer);
    CHECK_ANSWER(answer, LAMPTHISTLE_ACCEPTED, 0, 2);
    CHECK(state.cell[LAMPTHISTLE_CLOCK] == 2);
    for (k = 0; k < 2 * TICK; k++) silent &= out[k] == 0;
    for (; k < 3 * TICK; k++) kept &= out[k] == FILLED;
    CHECK(silent);
    CHECK(kept);
}

static void check_touch(void) {
    lampthistle_touch(file, sizeof file, state.cell, 0, 2, 0, answer);
    CHECK_ANSWER(answer, LAMPTHISTLE_ACCEPTED, 0, 0);
    CHECK(state.cell[LAMPTHISTLE_TICK] == 0);
    lampthistle_change_page(file, sizeof file, state.cell, answer);
    CHECK_ANSWER(answer, LAMPTHISTLE_ACCEPTED, 0, 0);
    CHECK(state.cell[LAMPTHISTLE_PAGE] == 1);
}

static void check_refusals(void) {
    lampthistle_state before = state;
    lampthistle_touch(file, sizeof file, state.cell, 0, 2, 0, answer);
    CHECK_ANSWER(answer, LAMPTHISTLE_REFUSED_PAGE, 0, 0);
    lampthistle_touch(file, sizeof file, state.cell, 1, 3, 0, answer);
    CHECK_ANSWER(answer, LAMPTHISTLE_REFUSED_AGE, 0, 0);
    lampthistle_touch(file, sizeof file, state.cell, 1, 2, 1, answer);
    CHECK_ANSWER(answer, LAMPTHISTLE_REFUSED_POSITION, 0, 0);
    CHECK(memcmp(&state, &before, sizeof state) == 0);
    state.cell[LAMPTHISTLE_REMAINDER] = state.cell[LAMPTHISTLE_TEMPO];
    before = state;
    lampthistle_play(file, sizeof file, state.cell, 0, NULL, 0, answer);
    CHECK_ANSWER(answer, LAMPTHISTLE_REFUSED_STATE, 0, 0);
    CHECK(memcmp(&state, &before, sizeof state) == 0);
    state.cell[LAMPTHISTLE_REMAINDER] = 0;
    state.cell[LAMPTHISTLE_TEMPO] = 31;
    before = state;
    lampthistle_play(file, sizeof file, state.cell, 0, NULL, 0, answer);
    CHECK_ANSWER(answer, LAMPTHISTLE_REFUSED_STATE, 0, 0);
    lampthistle_change_page(file, sizeof file, state.cell, answer);
    CHECK_ANSWER(answer, LAMPTHISTLE_REFUSED_STATE, 0, 0);
    CHECK(memcmp(&state, &before, sizeof state) == 0);
}

int main(void) {
    make_smallest(file);
    check_fresh();
    check_lengths();
    check_another_tempo();
    check_play();
    check_touch();
    check_refusals();
    return checked("play");
}
