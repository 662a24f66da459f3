/* Bursts of touches, as a C and a C++ program hand them over. */
#include "check.h"

enum { MOST = LAMPTHISTLE_MOST_TOUCHES, SONG = 3, CLOCK = 30, PAGE = 4, KEPT = 99 };

static uint8_t file[SMALLEST];
static lampthistle_state state;
static uint32_t pages[MOST + 1], mades[MOST + 1], positions[MOST + 1], answers[MOST + 2];
static uint64_t answer[LAMPTHISTLE_ANSWER_CELLS];

/* A state of which a touch changes something, and good touches. */
static void begin(void) {
    int k;
    lampthistle_fresh(state.cell);
    state.cell[LAMPTHISTLE_ROW] = 9;
    state.cell[LAMPTHISTLE_CLOCK] = CLOCK;
    state.cell[LAMPTHISTLE_PAGE] = PAGE;
    for (k = 0; k <= MOST; k++) pages[k] = PAGE, mades[k] = CLOCK, positions[k] = (uint32_t)k % SONG;
    for (k = 0; k < MOST + 2; k++) answers[k] = KEPT;
}

static void hand_over(size_t touches, size_t room) {
    lampthistle_touch_burst(file, sizeof file, state.cell, pages, touches, mades, touches, positions, touches, answers, room, answer);
}

/* Touches that are accepted and refused: state and answers are those of single calls. */
static void check_singles(void) {
    static const uint32_t TOUCHES[][3] = {{4, 5, 1}, {3, 5, 2}, {4, 4, 2}, {4, 30, 2}, {4, 31, 0}, {4, 6, SONG}};
    enum { COUNT = sizeof TOUCHES / sizeof TOUCHES[0] };
    lampthistle_state single;
    size_t k;
    begin();
    single = state;
    for (k = 0; k < COUNT; k++) pages[k] = TOUCHES[k][0], mades[k] = TOUCHES[k][1], positions[k] = TOUCHES[k][2];
    hand_over(COUNT, MOST);
    CHECK_ANSWER(answer, LAMPTHISTLE_ACCEPTED, 0, COUNT);
    for (k = 0; k < COUNT; k++) {
        lampthistle_touch(file, sizeof file, single.cell, pages[k], mades[k], positions[k], answer);
        CHECK(answers[k] == answer[LAMPTHISTLE_NUMBER]);
    }
    CHECK(memcmp(&state, &single, sizeof state) == 0);
    CHECK(answers[1] == LAMPTHISTLE_REFUSED_PAGE && answers[2] == LAMPTHISTLE_REFUSED_AGE && answers[5] == LAMPTHISTLE_REFUSED_POSITION);
    CHECK(state.cell[LAMPTHISTLE_POSITION] == 2 && state.cell[LAMPTHISTLE_ROW] == 0);
    CHECK(answers[COUNT] == KEPT);
}

/* None, one, and as many as one burst takes. */
static void check_counts(void) {
    static const size_t COUNTS[] = {0, 1, MOST - 1, MOST};
    size_t k;
    for (k = 0; k < sizeof COUNTS / sizeof COUNTS[0]; k++) {
        begin();
        hand_over(COUNTS[k], COUNTS[k]);
        CHECK_ANSWER(answer, LAMPTHISTLE_ACCEPTED, 0, COUNTS[k]);
        CHECK(COUNTS[k] == 0 || answers[COUNTS[k] - 1] == 0);
        CHECK(answers[COUNTS[k]] == KEPT);
        CHECK(state.cell[LAMPTHISTLE_ROW] == (COUNTS[k] == 0 ? 9 : 0));
    }
    begin();
    lampthistle_touch_burst(file, sizeof file, state.cell, NULL, 0, NULL, 0, NULL, 0, NULL, 0, answer);
    CHECK_ANSWER(answer, LAMPTHISTLE_ACCEPTED, 0, 0);
}

/* Lists of these lengths are refused, and nothing is written. */
static void refuse(size_t p, size_t m, size_t n, size_t room, uint64_t number, int line) {
    lampthistle_state before;
    int k, kept = 1;
    begin();
    before = state;
    lampthistle_touch_burst(file, sizeof file, state.cell, pages, p, mades, m, positions, n, answers, room, answer);
    check_answer(answer, number, 0, 0, line);
    check(memcmp(&state, &before, sizeof state) == 0, "the state stays", line);
    for (k = 0; k < MOST + 2; k++) kept &= answers[k] == KEPT;
    check(kept, "the answers stay", line);
}

#define CHECK_REFUSED(p, m, n, room, number) refuse(p, m, n, room, number, __LINE__)

static void check_refusals(void) {
    CHECK_REFUSED(MOST + 1, MOST + 1, MOST + 1, MOST + 1, LAMPTHISTLE_REFUSED_TOUCHES);
    CHECK_REFUSED(0, 0, MOST + 1, 0, LAMPTHISTLE_REFUSED_TOUCHES);
    CHECK_REFUSED(MOST, MOST, MOST, MOST - 1, LAMPTHISTLE_REFUSED_ANSWERS);
    CHECK_REFUSED(1, 2, 1, 1, LAMPTHISTLE_REFUSED_ANSWERS);
    CHECK_REFUSED(1, 1, 1, 0, LAMPTHISTLE_REFUSED_ANSWERS);
    CHECK_REFUSED(1, 2, 2, 2, LAMPTHISTLE_REFUSED_LISTS);
    CHECK_REFUSED(2, 1, 2, 2, LAMPTHISTLE_REFUSED_LISTS);
    CHECK_REFUSED(2, 2, 1, MOST, LAMPTHISTLE_REFUSED_LISTS);
    file[950] = 0;
    lampthistle_touch_burst(file, sizeof file, state.cell, pages, MOST + 1, NULL, 0, NULL, 0, NULL, 0, answer);
    CHECK_ANSWER(answer, LAMPTHISTLE_REFUSED_SONG_LENGTH, 950, 0);
    file[950] = SONG;
    state.cell[LAMPTHISTLE_ROW] = 64;
    lampthistle_touch_burst(file, sizeof file, state.cell, pages, MOST + 1, NULL, 0, NULL, 0, NULL, 0, answer);
    CHECK_ANSWER(answer, LAMPTHISTLE_REFUSED_STATE, 0, 0);
}

int main(void) {
    make_smallest(file);
    file[950] = SONG;
    check_singles();
    check_counts();
    check_refusals();
    return checked("burst");
}
