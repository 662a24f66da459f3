/* Boards that are not legal, as C and C++ programs may pass them: each kind is refused and left as it is. */
#include "arriving.h"

/* The open last record's bytes that are in. */
enum { OPEN = 5 };

/* Both calls refuse the board with one cell made another. */
static void check_cell(size_t cell, uint32_t number) {
    const uint32_t good = board.cell[cell];
    board.cell[cell] = number;
    CHECK_REFUSED(LAMPTHISTLE_REFUSED_STATE, 0);
    board.cell[cell] = good;
}

static void check_voice(size_t channel, size_t which, uint32_t number) {
    check_cell(LAMPTHISTLE_BOARD_VOICE_CELL(channel, which), number);
}

/* Voices outside what the module has, and past its channels any that is not as fresh. */
static void check_voices(size_t channels) {
    static const struct {
        size_t which;
        uint32_t number;
    } BAD[] = {{LAMPTHISTLE_VOICE_SAMPLE, 32}, {LAMPTHISTLE_VOICE_SAMPLE, 0}, {LAMPTHISTLE_VOICE_PERIOD, 107},
               {LAMPTHISTLE_VOICE_PERIOD, 908}, {LAMPTHISTLE_VOICE_VOLUME, 65}, {LAMPTHISTLE_VOICE_INDEX, SAMPLE},
               {LAMPTHISTLE_VOICE_FRACTION, 65536}, {LAMPTHISTLE_VOICE_STOPPED, 2}, {LAMPTHISTLE_VOICE_STOPPED, UINT32_MAX}};
    size_t k, channel;
    for (k = 0; k < sizeof BAD / sizeof BAD[0]; k++) {
        check_voice(0, BAD[k].which, BAD[k].number);
        check_voice(channels - 1, BAD[k].which, BAD[k].number);
    }
    for (channel = channels; channel < LAMPTHISTLE_CHANNELS; channel++)
        for (k = LAMPTHISTLE_VOICE_SAMPLE; k <= LAMPTHISTLE_VOICE_STOPPED; k++)
            check_voice(channel, k, k != LAMPTHISTLE_VOICE_STOPPED);
}

/* What was taken, declared and played: counts that do not fit together. */
static void check_counts(uint8_t version) {
    const uint32_t taken = (uint32_t)(header + LAST + OPEN);
    check_cell(LAMPTHISTLE_BOARD_KEPT, 8); /* the whole record */
    check_cell(LAMPTHISTLE_BOARD_KEPT, 52);
    check_cell(LAMPTHISTLE_BOARD_KEPT, 53);
    check_cell(LAMPTHISTLE_BOARD_KEPT, UINT32_MAX);
    check_cell(LAMPTHISTLE_BOARD_RECORDS, TICKS + 1);
    check_cell(LAMPTHISTLE_BOARD_TICKS, TICKS - 2);
    check_cell(LAMPTHISTLE_BOARD_FOLLOW, taken - VERSION - 1);
    check_cell(LAMPTHISTLE_BOARD_FOLLOW, taken - VERSION); /* a record is missing at the end, and no fault is kept */
    check_cell(LAMPTHISTLE_BOARD_PLACE_HIGH, 1);
    check_cell(LAMPTHISTLE_BOARD_VERSION, 0);
    check_cell(LAMPTHISTLE_BOARD_VERSION, 4);
    if (version >= COUNTED_VERSION) check_cell(LAMPTHISTLE_BOARD_STREAM_CHANNELS, 5);
}

/* A remainder is 0 or below the tempo. */
static void check_remainders(void) {
    const lampthistle_board good = board;
    board.cell[LAMPTHISTLE_BOARD_TEMPO] = 255;
    check_cell(LAMPTHISTLE_BOARD_REMAINDER, 255);
    check_cell(LAMPTHISTLE_BOARD_REMAINDER, UINT32_MAX);
    board.cell[LAMPTHISTLE_BOARD_REMAINDER] = 1;
    check_cell(LAMPTHISTLE_BOARD_TEMPO, 0);
    check_cell(LAMPTHISTLE_BOARD_TEMPO, 1);
    board = good;
}

/* A kept fault is one of a stream; with one in the kept bytes it is that one, and without any it is repeated. */
static void check_kept_faults(void) {
    static const uint32_t OTHERS[] = {1, 9, 14, 20, 24, 25, 27, 29, 256 + 21, UINT32_MAX};
    static const uint32_t FAULTS[] = {21, 22, 23, 28};
    const lampthistle_board good = board;
    size_t k;
    for (k = 0; k < sizeof OTHERS / sizeof OTHERS[0]; k++) check_cell(LAMPTHISTLE_BOARD_FAULT_NUMBER, OTHERS[k]);
    for (k = 0; k < sizeof FAULTS / sizeof FAULTS[0]; k++) {
        board.cell[LAMPTHISTLE_BOARD_FAULT_NUMBER] = FAULTS[k];
        board.cell[LAMPTHISTLE_BOARD_FAULT_LOW] = 7;
        board.cell[LAMPTHISTLE_BOARD_FAULT_HIGH] = 1;
        CHECK_REFUSED(FAULTS[k], UINT64_C(0x100000007));
    }
    board = good;
    check_cell(LAMPTHISTLE_BOARD_FIRST_BYTES, 1 | 31 << 8); /* a tempo of 31 */
    board.cell[LAMPTHISTLE_BOARD_FIRST_BYTES] = 1 | 31 << 8;
    board.cell[LAMPTHISTLE_BOARD_KEPT] = 2;
    board.cell[LAMPTHISTLE_BOARD_FAULT_NUMBER] = LAMPTHISTLE_REFUSED_RECORD;
    board.cell[LAMPTHISTLE_BOARD_FAULT_LOW] = (uint32_t)(header + LAST);
    CHECK_REFUSED(LAMPTHISTLE_REFUSED_RECORD, header + LAST);
    check_cell(LAMPTHISTLE_BOARD_FAULT_LOW, 7);
    check_cell(LAMPTHISTLE_BOARD_FAULT_NUMBER, 21);
    check_cell(LAMPTHISTLE_BOARD_FAULT_NUMBER, 0);
    board = good;
}

/* Any numbers at all; with an open header any record; and a refused module comes before the board. */
static void check_others(void) {
    lampthistle_board_fresh(board.cell);
    check_cell(LAMPTHISTLE_BOARD_RECORDS, 1);
    memset(&board, 0xFF, sizeof board);
    CHECK_REFUSED(LAMPTHISTLE_REFUSED_STATE, 0);
    file[950] = 0;
    CHECK_REFUSED(LAMPTHISTLE_REFUSED_SONG_LENGTH, 950);
    lampthistle_board_feed(NULL, 0, board.cell, stream, bytes, out, NUMBERS, answer);
    CHECK_ANSWER(answer, LAMPTHISTLE_REFUSED_SHORT_FILE, 0, 0);
    lampthistle_board_close(NULL, 0, board.cell, answer);
    CHECK_ANSWER(answer, LAMPTHISTLE_REFUSED_SHORT_FILE, 0, 0);
}

/* With the last record open; each change is taken back, and the board plays on. */
static void check_boards(uint8_t version, uint8_t channels) {
    begin_with(header + LAST + OPEN);
    check_voices(channels);
    check_counts(version);
    check_remainders();
    check_kept_faults();
    feed(stream + header + LAST + OPEN, RECORDS_END - LAST - OPEN, out, NUMBERS);
    CHECK_ANSWER(answer, LAMPTHISTLE_ACCEPTED, 0, 1);
    check_others();
}

int main(void) {
    check_streams(check_boards);
    return checked("boards");
}
