/* Judging, and the header's numbers and words, as a C and a C++ program use them. */
#include "check.h"

static void judge(const uint8_t *file, size_t length, uint64_t number, uint64_t place, int line) {
    uint64_t answer[LAMPTHISTLE_ANSWER_CELLS] = {77, 77, 77};
    lampthistle_judge(file, length, answer);
    check_answer(answer, number, place, 0, line);
}

#define CHECK_JUDGE(file, length, number, place) judge(file, length, number, place, __LINE__)

int main(void) {
    static uint8_t file[SMALLEST];
    make_smallest(file);
    CHECK_JUDGE(file, 0, LAMPTHISTLE_REFUSED_SHORT_FILE, 0);
    CHECK_JUDGE(NULL, 0, LAMPTHISTLE_REFUSED_SHORT_FILE, 0);
    CHECK_JUDGE(file, 1083, LAMPTHISTLE_REFUSED_SHORT_FILE, 1083);
    CHECK_JUDGE(file, SMALLEST - 1, LAMPTHISTLE_REFUSED_CUT_FILE, SMALLEST - 1);
    CHECK_JUDGE(file, SMALLEST, LAMPTHISTLE_ACCEPTED, 0);
    file[950] = 129;
    CHECK_JUDGE(file, SMALLEST, LAMPTHISTLE_REFUSED_SONG_LENGTH, 950);

    CHECK(strcmp(lampthistle_refusal_text(0), "accepted") == 0);
    CHECK(strcmp(lampthistle_refusal_text(9), "a cell's period is neither 0 nor 113 to 856") == 0);
    CHECK(strcmp(lampthistle_refusal_text(UINT64_MAX), "an unknown refusal") == 0);
    CHECK(LAMPTHISTLE_CHANNEL_CELL(LAMPTHISTLE_CHANNELS, 0) == LAMPTHISTLE_STATE_CELLS);
    CHECK(lampthistle_version() == LAMPTHISTLE_VERSION);
    CHECK(LAMPTHISTLE_SAME_CELLS(LAMPTHISTLE_VERSION + 1));
    CHECK(!LAMPTHISTLE_SAME_CELLS(LAMPTHISTLE_VERSION + 1000));
    return checked("judge");
}
