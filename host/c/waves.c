/* Vibrato and tremolo, as a C and a C++ program meet them: in the cells of a state. */
#include "check.h"

enum { CELLS = 1084, NOTE = 428 };

static uint8_t file[SMALLEST];
static lampthistle_state state;
static uint64_t answer[LAMPTHISTLE_ANSWER_CELLS];

/* A cell of the first channel, and of the second. */
static uint32_t *first(int which) { return state.cell + LAMPTHISTLE_CHANNEL_CELL(0, which); }
static uint32_t *second(int which) { return state.cell + LAMPTHISTLE_CHANNEL_CELL(1, which); }

static void tick(void) {
    static int16_t out[LAMPTHISTLE_TICK_NUMBERS];
    lampthistle_play(file, sizeof file, state.cell, 1, out, LAMPTHISTLE_TICK_NUMBERS, answer);
    CHECK_ANSWER(answer, LAMPTHISTLE_ACCEPTED, 0, 1);
}

/* Period 428 with 4F8, and beside it volume 40 with a tremolo of 9 from memory, at the sine's second place. */
static void check_waves(void) {
    memcpy(file + CELLS, "\x01\xAC\x04\xF8\x00\x00\x07\xB0", 8);
    lampthistle_fresh(state.cell);
    *first(LAMPTHISTLE_VIBRATO_FORM) = LAMPTHISTLE_FORM_RAMP;
    *first(LAMPTHISTLE_VIBRATO_PLACE) = 63;
    *second(LAMPTHISTLE_VOLUME) = 40;
    *second(LAMPTHISTLE_TREMOLO_Y) = 9;
    *second(LAMPTHISTLE_TREMOLO_PLACE) = 1;
    tick();
    CHECK(*first(LAMPTHISTLE_VIBRATO_X) == 15);
    CHECK(*first(LAMPTHISTLE_VIBRATO_Y) == 8);
    CHECK(*first(LAMPTHISTLE_VIBRATO_PLACE) == 0);
    CHECK(*first(LAMPTHISTLE_VOICE_PERIOD) == NOTE);
    CHECK(*second(LAMPTHISTLE_TREMOLO_X) == 11);
    CHECK(*second(LAMPTHISTLE_TREMOLO_Y) == 9);
    CHECK(*second(LAMPTHISTLE_VOICE_VOLUME) == 40);
    tick();
    CHECK(*first(LAMPTHISTLE_VIBRATO_PLACE) == 15);
    CHECK(*first(LAMPTHISTLE_VOICE_PERIOD) == NOTE);
    CHECK(*second(LAMPTHISTLE_TREMOLO_PLACE) == 12);
    CHECK(*second(LAMPTHISTLE_VOICE_VOLUME) == 40 + 24 * 9 / 64);
    tick();
    CHECK(*first(LAMPTHISTLE_VIBRATO_PLACE) == 30);
    CHECK(*first(LAMPTHISTLE_VOICE_PERIOD) == NOTE + 8 * 15 * 8 / 128);
    CHECK(*first(LAMPTHISTLE_PERIOD) == NOTE);
    CHECK(*second(LAMPTHISTLE_VOICE_VOLUME) == 64);
    CHECK(*second(LAMPTHISTLE_VOLUME) == 40);
}

/* A number of a wave that no legal state has: refused, and left as it is. */
static void check_illegal(int which, uint32_t number) {
    lampthistle_state before;
    *first(which) = number;
    before = state;
    lampthistle_change_page(file, sizeof file, state.cell, answer);
    CHECK_ANSWER(answer, LAMPTHISTLE_REFUSED_STATE, 0, 0);
    CHECK(memcmp(&state, &before, sizeof state) == 0);
}

/* A number of a wave, at its largest, one above, and where its low bits alone would be legal. */
static void check_limit(int which, uint32_t largest) {
    lampthistle_fresh(state.cell);
    *first(which) = largest;
    lampthistle_change_page(file, sizeof file, state.cell, answer);
    CHECK_ANSWER(answer, LAMPTHISTLE_ACCEPTED, 0, 0);
    CHECK(*first(which) == largest);
    check_illegal(which, largest + 1);
    check_illegal(which, 255);
    check_illegal(which, 256);
    check_illegal(which, 256 + largest);
    check_illegal(which, 65536);
    check_illegal(which, UINT32_MAX - 255);
    check_illegal(which, UINT32_MAX);
}

int main(void) {
    make_smallest(file);
    check_waves();
    check_limit(LAMPTHISTLE_VIBRATO_X, 15);
    check_limit(LAMPTHISTLE_VIBRATO_Y, 15);
    check_limit(LAMPTHISTLE_VIBRATO_PLACE, 63);
    check_limit(LAMPTHISTLE_VIBRATO_FORM, LAMPTHISTLE_FORM_SQUARE);
    check_limit(LAMPTHISTLE_TREMOLO_X, 15);
    check_limit(LAMPTHISTLE_TREMOLO_Y, 15);
    check_limit(LAMPTHISTLE_TREMOLO_PLACE, 63);
    check_limit(LAMPTHISTLE_TREMOLO_FORM, LAMPTHISTLE_FORM_SQUARE);
    return checked("waves");
}
