/* Why a channel is quiet, as a C and a C++ program ask. */
#include "check.h"

enum { SAMPLE = 8, NOTE = 428, CHANNELS = 4 };

static uint8_t file[SMALLEST + SAMPLE];
static lampthistle_state state;
static uint64_t answer[LAMPTHISTLE_ANSWER_CELLS];

/* Sample 1: loud bytes but for the fourth, not looped. */
static void add_sample(void) {
    file[20 + 23] = SAMPLE / 2;
    memset(file + SMALLEST, 100, SAMPLE);
    file[SMALLEST + 3] = 0;
}

/* A voice of channel 2: sample, period, volume, index and whether it is stopped. */
static void set_voice(uint32_t sample, uint32_t period, uint32_t volume, uint32_t index, uint32_t stopped) {
    uint32_t *voice = state.cell + LAMPTHISTLE_CHANNEL_CELL(1, LAMPTHISTLE_VOICE_SAMPLE);
    const uint32_t cells[] = {sample, period, volume, index, 0, stopped};
    memcpy(voice, cells, sizeof cells);
}

static void ask(uint32_t channel, uint64_t number, uint64_t count, int line) {
    lampthistle_state before = state;
    memset(answer, 77, sizeof answer);
    lampthistle_why_quiet(file, sizeof file, state.cell, channel, answer);
    check_answer(answer, number, 0, count, line);
    check(memcmp(&state, &before, sizeof state) == 0, "the state stays", line);
}

#define CHECK_CAUSE(channel, cause) ask(channel, LAMPTHISTLE_ACCEPTED, cause, __LINE__)
#define CHECK_REFUSED(channel, number) ask(channel, number, 0, __LINE__)

/* A fresh state has no sample anywhere. */
static void check_fresh(void) {
    uint32_t channel;
    lampthistle_fresh(state.cell);
    for (channel = 1; channel <= CHANNELS; channel++) CHECK_CAUSE(channel, LAMPTHISTLE_CAUSE_NO_SAMPLE);
}

/* Each cause with all that come after it. */
static void check_causes(void) {
    set_voice(0, 0, 0, 0, 1);
    CHECK_CAUSE(2, LAMPTHISTLE_CAUSE_NO_SAMPLE);
    set_voice(1, 0, 0, 0, 1);
    CHECK_CAUSE(2, LAMPTHISTLE_CAUSE_NO_PERIOD);
    set_voice(1, NOTE, 0, 0, 1);
    CHECK_CAUSE(2, LAMPTHISTLE_CAUSE_STOPPED);
    set_voice(1, NOTE, 0, 0, 0);
    CHECK_CAUSE(2, LAMPTHISTLE_CAUSE_NO_VOLUME);
    set_voice(1, NOTE, 1, 0, 0);
    CHECK_CAUSE(2, LAMPTHISTLE_CAUSE_ZERO_BYTE);
    set_voice(1, NOTE, 1, 1, 0);
    CHECK_CAUSE(2, LAMPTHISTLE_CAUSE_ZERO_BYTE);
    set_voice(1, NOTE, 1, 3, 0);
    CHECK_CAUSE(2, LAMPTHISTLE_CAUSE_ZERO_BYTE);
    set_voice(1, NOTE, 1, 2, 0);
    CHECK_CAUSE(2, LAMPTHISTLE_CAUSE_SOUNDS);
    CHECK_CAUSE(1, LAMPTHISTLE_CAUSE_NO_SAMPLE);
    CHECK_CAUSE(3, LAMPTHISTLE_CAUSE_NO_SAMPLE);
}

static void check_refusals(void) {
    CHECK_REFUSED(0, LAMPTHISTLE_REFUSED_CHANNEL);
    CHECK_REFUSED(CHANNELS + 1, LAMPTHISTLE_REFUSED_CHANNEL);
    CHECK_REFUSED(UINT32_MAX, LAMPTHISTLE_REFUSED_CHANNEL);
    set_voice(1, NOTE, 1, SAMPLE, 0);
    CHECK_REFUSED(2, LAMPTHISTLE_REFUSED_STATE);
    CHECK_REFUSED(5, LAMPTHISTLE_REFUSED_STATE);
    lampthistle_why_quiet(NULL, 0, state.cell, 5, answer);
    CHECK_ANSWER(answer, LAMPTHISTLE_REFUSED_SHORT_FILE, 0, 0);
}

int main(void) {
    make_smallest(file);
    add_sample();
    check_fresh();
    check_causes();
    check_refusals();
    CHECK(strcmp(lampthistle_cause_text(LAMPTHISTLE_CAUSE_STOPPED), "its sample has ended") == 0);
    CHECK(strcmp(lampthistle_cause_text(0), "an unknown cause") == 0);
    return checked("quiet");
}
