/* Finetunes, as a C and a C++ program meet them: in the cells of a state, in the notes of a module, and in the periods of a stream. */
#include "check.h"

enum { HEADER = 20, CELLS = 1084, SAMPLE = 8, TICK = 2 * 960, NOTE = 428, LEAST = 108, GREATEST = 907 };
/* A stream of one record with one channel: where the record and its period are. */
enum { RECORD = 10, PERIOD = 14, STREAM = 18 };

static uint8_t file[SMALLEST + SAMPLE];
static lampthistle_state state;
static uint64_t answer[LAMPTHISTLE_ANSWER_CELLS];

/* A cell of the first channel. */
static uint32_t *first(int which) { return state.cell + LAMPTHISTLE_CHANNEL_CELL(0, which); }

/* The smallest module with sample 1, loud and looped, of this byte for a finetune, and its first cell. */
static void make_module(uint8_t finetune, uint32_t period, unsigned effect) {
    memset(file, 0, sizeof file);
    make_smallest(file);
    file[HEADER + 23] = SAMPLE / 2;
    file[HEADER + 24] = finetune;
    file[HEADER + 25] = 64;
    file[HEADER + 29] = SAMPLE / 2;
    file[CELLS] = (uint8_t)(period / 256);
    file[CELLS + 1] = (uint8_t)(period % 256);
    file[CELLS + 2] = (uint8_t)(0x10 + effect / 256);
    file[CELLS + 3] = (uint8_t)(effect % 256);
    memset(file + SMALLEST, 100, SAMPLE);
}

static void tick(void) {
    static int16_t out[TICK];
    lampthistle_play(file, sizeof file, state.cell, 1, out, TICK, answer);
    CHECK_ANSWER(answer, LAMPTHISTLE_ACCEPTED, 0, 1);
}

/* The note after one tick: the channel's finetune, its period, and the period that sounds. */
static void check_note(int32_t finetune, uint32_t period) {
    lampthistle_fresh(state.cell);
    tick();
    CHECK(*first(LAMPTHISTLE_LATCHED_SAMPLE) == 1);
    CHECK((int32_t)*first(LAMPTHISTLE_FINETUNE) == finetune);
    CHECK(*first(LAMPTHISTLE_PERIOD) == period);
    CHECK(*first(LAMPTHISTLE_VOICE_PERIOD) == period);
}

static void check_notes(void) {
    make_module(0, NOTE, 0);
    check_note(0, NOTE);
    make_module(7, NOTE, 0);
    check_note(7, 407);
    make_module(8, NOTE, 0);
    check_note(-8, 453);
    make_module(0xF7, NOTE, 0);
    check_note(7, 407);
    make_module(7, 113, 0);
    check_note(7, LEAST);
    make_module(8, 856, 0);
    check_note(-8, GREATEST);
    make_module(0, NOTE + 1, 0);
    check_note(0, NOTE + 1);
    make_module(7, NOTE + 1, 0);
    check_note(7, 407);
}

/* E5 comes after the header and before the note; without a note it is set all the same. */
static void check_e5(void) {
    make_module(7, NOTE, 0xE5F);
    check_note(-1, 431);
    make_module(7, NOTE, 0xE50);
    check_note(0, NOTE);
    make_module(0, 0, 0xE58);
    check_note(-8, 0);
}

/* A slide by 0 takes a period from outside the row to its nearer end; the next tick leaves it there. */
static void check_slide(void) {
    make_module(7, 0, 0x200);
    lampthistle_fresh(state.cell);
    *first(LAMPTHISTLE_PERIOD) = GREATEST;
    tick();
    CHECK(*first(LAMPTHISTLE_PERIOD) == GREATEST);
    tick();
    CHECK(*first(LAMPTHISTLE_PERIOD) == 814);
    tick();
    CHECK(*first(LAMPTHISTLE_PERIOD) == 814);
}

/* A cell with this number: accepted, or refused and left as it is. */
static void check_cell(int which, uint32_t number, uint64_t expected) {
    lampthistle_state before;
    lampthistle_fresh(state.cell);
    *first(which) = number;
    before = state;
    lampthistle_play(file, sizeof file, state.cell, 0, NULL, 0, answer);
    CHECK_ANSWER(answer, expected, 0, 0);
    CHECK(memcmp(&state, &before, sizeof state) == 0);
}

static void check_finetunes(void) {
    static const uint32_t OTHERS[] = {8, 15, 16, 255, 256, 65536, 4294967280u, 4294967287u};
    int32_t finetune;
    size_t k;
    CHECK(LAMPTHISTLE_FINETUNE == LAMPTHISTLE_LATCHED_SAMPLE + 1);
    CHECK(LAMPTHISTLE_CHANNEL_CELL(1, LAMPTHISTLE_FINETUNE) == LAMPTHISTLE_FIRST_CHANNEL + 20 + 1);
    CHECK((uint32_t)-8 == 4294967288u);
    for (finetune = -8; finetune <= 7; finetune++) check_cell(LAMPTHISTLE_FINETUNE, (uint32_t)finetune, LAMPTHISTLE_ACCEPTED);
    check_cell(LAMPTHISTLE_FINETUNE, (uint32_t)-9, LAMPTHISTLE_REFUSED_STATE);
    for (k = 0; k < sizeof OTHERS / sizeof OTHERS[0]; k++) check_cell(LAMPTHISTLE_FINETUNE, OTHERS[k], LAMPTHISTLE_REFUSED_STATE);
}

static void check_periods(void) {
    static const int WHICH[] = {LAMPTHISTLE_PERIOD, LAMPTHISTLE_TARGET, LAMPTHISTLE_VOICE_PERIOD};
    size_t k;
    for (k = 0; k < sizeof WHICH / sizeof WHICH[0]; k++) {
        check_cell(WHICH[k], 0, LAMPTHISTLE_ACCEPTED);
        check_cell(WHICH[k], LEAST - 1, LAMPTHISTLE_REFUSED_STATE);
        check_cell(WHICH[k], LEAST, LAMPTHISTLE_ACCEPTED);
        check_cell(WHICH[k], GREATEST, LAMPTHISTLE_ACCEPTED);
        check_cell(WHICH[k], GREATEST + 1, LAMPTHISTLE_REFUSED_STATE);
    }
    /* Those of a file's cells stay. */
    make_module(8, 112, 0);
    lampthistle_judge(file, sizeof file, answer);
    CHECK_ANSWER(answer, LAMPTHISTLE_REFUSED_PERIOD, CELLS, 0);
    make_module(8, 857, 0);
    lampthistle_judge(file, sizeof file, answer);
    CHECK_ANSWER(answer, LAMPTHISTLE_REFUSED_PERIOD, CELLS, 0);
}

/* A stream of one tick with another period. */
static void check_period(uint8_t *stream, uint32_t period, uint64_t expected) {
    stream[PERIOD] = (uint8_t)(period / 256);
    stream[PERIOD + 1] = (uint8_t)(period % 256);
    lampthistle_play_stream(stream, STREAM, file, sizeof file, NULL, 0, answer);
    CHECK_ANSWER(answer, expected, expected == LAMPTHISTLE_ACCEPTED ? 0 : RECORD, 0);
}

/* The lowest note there is: its stream has period 907, and the board plays what the player plays. */
static void check_stream(void) {
    static const uint8_t LOWEST[STREAM] = {0, 0, 0, 14, 3, 4, 0, 0, 0, 1, 1, 125, 1, 64, 0x03, 0x8B, 1, 0};
    static int16_t board[TICK], player[TICK];
    uint8_t stream[STREAM];
    make_module(8, 856, 0);
    lampthistle_translate(file, sizeof file, 1, stream, STREAM, answer);
    CHECK_ANSWER(answer, LAMPTHISTLE_ACCEPTED, 0, STREAM);
    CHECK(memcmp(stream, LOWEST, STREAM) == 0);
    lampthistle_play_stream(stream, STREAM, file, sizeof file, board, TICK, answer);
    CHECK_ANSWER(answer, LAMPTHISTLE_ACCEPTED, 0, 1);
    lampthistle_fresh(state.cell);
    lampthistle_play(file, sizeof file, state.cell, 1, player, TICK, answer);
    CHECK(memcmp(board, player, sizeof board) == 0);
    CHECK(board[TICK - 2] == 2 * 64 * 100);
    check_period(stream, LEAST - 1, LAMPTHISTLE_REFUSED_RECORD);
    check_period(stream, LEAST, LAMPTHISTLE_ACCEPTED);
    check_period(stream, GREATEST + 1, LAMPTHISTLE_REFUSED_RECORD);
}

int main(void) {
    check_notes();
    check_e5();
    check_slide();
    check_finetunes();
    check_periods();
    check_stream();
    return checked("finetune");
}
