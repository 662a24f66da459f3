/* The calls for tick streams, as a C and a C++ program use them: the two whole streams of the description, by versions 1, 2 and 3. */
#include "check.h"

static const uint8_t EMPTY_ROW[] = {0, 0, 0, 8, 3, 4, 0, 0, 0, 1, 0, 0x7D};
static const uint8_t ONE_NOTE[] = {0, 0, 0, 0x0E, 3, 4, 0, 0, 0, 1, 1, 0x7D, 1, 0x40, 1, 0xAC, 1, 0};
/* The second by an older version, which has no channel count. */
static uint8_t old_note[] = {0, 0, 0, 0x0D, 1, 0, 0, 0, 1, 1, 0x7D, 1, 0x40, 1, 0xAC, 1, 0};

enum { TICK = 2 * 960, SAMPLE = 8, LOUD = 100, FILLED = 0x55, VERSION = 4 };

static uint8_t file[SMALLEST + SAMPLE];
static uint64_t answer[LAMPTHISTLE_ANSWER_CELLS];

/* One tick of the module is this stream, in a room one byte longer; a byte less, or none, is refused. */
static void check_translate(size_t length, const uint8_t *stream, size_t bytes) {
    uint8_t room[32];
    memset(room, FILLED, sizeof room);
    lampthistle_translate(file, length, 1, NULL, 0, answer);
    CHECK_ANSWER(answer, LAMPTHISTLE_REFUSED_ROOM, bytes, 0);
    lampthistle_translate(file, length, 1, room, bytes - 1, answer);
    CHECK_ANSWER(answer, LAMPTHISTLE_REFUSED_ROOM, bytes, 0);
    CHECK(room[0] == FILLED);
    lampthistle_translate(file, length, 1, room, bytes + 1, answer);
    CHECK_ANSWER(answer, LAMPTHISTLE_ACCEPTED, 0, bytes);
    CHECK(memcmp(room, stream, bytes) == 0);
    CHECK(room[bytes] == FILLED);
}

/* Sample 1: loud bytes, looped, volume 64; its note on channel 1. */
static void add_note(void) {
    file[20 + 23] = SAMPLE / 2;
    file[20 + 25] = 64;
    file[20 + 29] = SAMPLE / 2;
    memset(file + SMALLEST, LOUD, SAMPLE);
    memcpy(file + 1084, "\x01\xAC\x10\x00", 4);
}

static void check_board(void) {
    static int16_t board[TICK], player[TICK];
    lampthistle_state state;
    uint8_t version;
    lampthistle_fresh(state.cell);
    lampthistle_play(file, sizeof file, state.cell, 1, player, TICK, answer);
    CHECK_ANSWER(answer, LAMPTHISTLE_ACCEPTED, 0, 1);
    lampthistle_play_stream(ONE_NOTE, sizeof ONE_NOTE, file, sizeof file, board, TICK, answer);
    CHECK_ANSWER(answer, LAMPTHISTLE_ACCEPTED, 0, 1);
    CHECK(memcmp(board, player, sizeof board) == 0);
    CHECK(board[TICK - 2] == 2 * 64 * LOUD);
    CHECK(board[TICK - 1] == 0);
    for (version = 1; version <= 2; version++) {
        old_note[VERSION] = version;
        memset(board, 0, sizeof board);
        lampthistle_play_stream(old_note, sizeof old_note, file, sizeof file, board, TICK, answer);
        CHECK_ANSWER(answer, LAMPTHISTLE_ACCEPTED, 0, 1);
        CHECK(memcmp(board, player, sizeof board) == 0);
    }
}

/* Three ticks at tempo 255 have 1,411 frames, by version 1 three times 470; there are no other versions. */
static void check_versions(void) {
    static int16_t out[2 * 1411];
    uint8_t stream[] = {0, 0, 0, 11, 2, 0, 0, 0, 3, 0, 255, 0, 255, 0, 255};
    static const uint8_t OTHERS[] = {0, 4, 255};
    size_t k;
    lampthistle_play_stream(stream, sizeof stream, file, sizeof file, out, 2 * 1411, answer);
    CHECK_ANSWER(answer, LAMPTHISTLE_ACCEPTED, 0, 3);
    lampthistle_play_stream(stream, sizeof stream, file, sizeof file, out, 2 * 1410, answer);
    CHECK_ANSWER(answer, LAMPTHISTLE_ACCEPTED, 0, 2);
    stream[VERSION] = 1;
    lampthistle_play_stream(stream, sizeof stream, file, sizeof file, out, 2 * 1410, answer);
    CHECK_ANSWER(answer, LAMPTHISTLE_ACCEPTED, 0, 3);
    for (k = 0; k < sizeof OTHERS; k++) {
        stream[VERSION] = OTHERS[k];
        lampthistle_play_stream(stream, sizeof stream, file, sizeof file, NULL, 0, answer);
        CHECK_ANSWER(answer, LAMPTHISTLE_REFUSED_STREAM_VERSION, VERSION, 0);
    }
}

/* A note that is held through four ticks at tempo 255, of 470, 471, 470 and 471 frames: whatever tick a play begins with, its frames are
   those of the whole, and a buffer one number short of a tick takes none. */
static void check_from(void) {
    static const uint8_t HELD[] = {0, 0, 0, 20, 3, 4, 0, 0, 0, 4, 1, 255, 1, 0x40, 1, 0xAC, 1, 0, 0, 255, 0, 255, 0, 255};
    static const size_t BEGIN[] = {0, 940, 1882, 2822, 3764};
    static int16_t whole[3764], part[3764];
    uint32_t from;
    lampthistle_play_stream(HELD, sizeof HELD, file, sizeof file, whole, 3764, answer);
    CHECK_ANSWER(answer, LAMPTHISTLE_ACCEPTED, 0, 4);
    for (from = 0; from < 4; from++) {
        const size_t all = BEGIN[4] - BEGIN[from], tick = BEGIN[from + 1] - BEGIN[from];
        memset(part, FILLED, sizeof part);
        lampthistle_play_stream_from(HELD, sizeof HELD, file, sizeof file, from, part, tick - 1, answer);
        CHECK_ANSWER(answer, LAMPTHISTLE_ACCEPTED, 0, 0);
        CHECK(((const uint8_t *)part)[0] == FILLED);
        lampthistle_play_stream_from(HELD, sizeof HELD, file, sizeof file, from, part, tick + 1, answer);
        CHECK_ANSWER(answer, LAMPTHISTLE_ACCEPTED, 0, 1);
        CHECK(memcmp(part, whole + BEGIN[from], tick * sizeof *part) == 0);
        CHECK(((const uint8_t *)(part + tick))[0] == FILLED);
        lampthistle_play_stream_from(HELD, sizeof HELD, file, sizeof file, from, part, all, answer);
        CHECK_ANSWER(answer, LAMPTHISTLE_ACCEPTED, 0, 4 - from);
        CHECK(memcmp(part, whole + BEGIN[from], all * sizeof *part) == 0);
    }
}

/* No tick of this number, no buffer, and refusals, which are those of the whole from any tick. */
static void check_from_nowhere(void) {
    static const uint32_t PAST[] = {1, 2, UINT32_MAX};
    static int16_t out[TICK], before[TICK];
    size_t k;
    memset(out, FILLED, sizeof out);
    memcpy(before, out, sizeof out);
    lampthistle_play_stream_from(ONE_NOTE, sizeof ONE_NOTE, file, sizeof file, 0, NULL, 0, answer);
    CHECK_ANSWER(answer, LAMPTHISTLE_ACCEPTED, 0, 0);
    for (k = 0; k < sizeof PAST / sizeof PAST[0]; k++) {
        lampthistle_play_stream_from(ONE_NOTE, sizeof ONE_NOTE, file, sizeof file, PAST[k], out, TICK, answer);
        CHECK_ANSWER(answer, LAMPTHISTLE_ACCEPTED, 0, 0);
        lampthistle_play_stream_from(ONE_NOTE, sizeof ONE_NOTE - 1, file, sizeof file, PAST[k], out, TICK, answer);
        CHECK_ANSWER(answer, LAMPTHISTLE_REFUSED_STREAM_LENGTH, sizeof ONE_NOTE - 1, 0);
        lampthistle_play_stream_from(NULL, 0, NULL, 0, PAST[k], NULL, 0, answer);
        CHECK_ANSWER(answer, LAMPTHISTLE_REFUSED_SHORT_FILE, 0, 0);
    }
    CHECK(memcmp(out, before, sizeof out) == 0);
}

static void check_refusals(void) {
    lampthistle_play_stream(ONE_NOTE, sizeof ONE_NOTE - 1, file, sizeof file, NULL, 0, answer);
    CHECK_ANSWER(answer, LAMPTHISTLE_REFUSED_STREAM_LENGTH, sizeof ONE_NOTE - 1, 0);
    lampthistle_play_stream(NULL, 0, file, sizeof file, NULL, 0, answer);
    CHECK_ANSWER(answer, LAMPTHISTLE_REFUSED_STREAM_LENGTH, 0, 0);
    lampthistle_play_stream(NULL, 0, NULL, 0, NULL, 0, answer);
    CHECK_ANSWER(answer, LAMPTHISTLE_REFUSED_SHORT_FILE, 0, 0);
    lampthistle_translate(file, sizeof file, LAMPTHISTLE_MOST_TICKS + 1, NULL, 0, answer);
    CHECK_ANSWER(answer, LAMPTHISTLE_REFUSED_TICKS, 0, 0);
}

int main(void) {
    make_smallest(file);
    check_translate(SMALLEST, EMPTY_ROW, sizeof EMPTY_ROW);
    add_note();
    check_translate(sizeof file, ONE_NOTE, sizeof ONE_NOTE);
    check_board();
    check_versions();
    check_from();
    check_from_nowhere();
    check_refusals();
    return checked("stream");
}
