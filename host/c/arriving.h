/* What the tests of the board that is fed share: a module of any channel count, a stream for it, and the calls. */
#ifndef ARRIVING_H
#define ARRIVING_H

#include "check.h"

enum { PATTERNS = 1084, CHANNEL_BYTES = 256, SAMPLE = 8, LOUD = 100, FILLED = 0x55 };
enum { TICKS = 4, NUMBERS = TICKS * LAMPTHISTLE_TICK_NUMBERS, MOST_BYTES = 64 };
/* Where a stream's version is, and the first version that has a channel count. */
enum { VERSION = 4, COUNTED_VERSION = 3 };
/* Where the records begin, counted from the end of the header: a note on two channels, two that hold it, and a note on one. */
enum { SECOND = 14, THIRD = 16, LAST = 18, RECORDS_END = 26 };

static uint8_t file[PATTERNS + CHANNEL_BYTES * LAMPTHISTLE_CHANNELS + SAMPLE];
static size_t length;
static uint8_t stream[MOST_BYTES];
static size_t bytes, header; /* of the stream, and of its header */
static int16_t out[NUMBERS], filled[NUMBERS];
static lampthistle_board board;
static uint64_t answer[LAMPTHISTLE_FEED_CELLS];

/* A module of so many channels with sample 1: loud bytes, looped. */
static void make_module(size_t channels) {
    memset(file, 0, sizeof file);
    length = PATTERNS + CHANNEL_BYTES * channels + SAMPLE;
    file[20 + 23] = SAMPLE / 2;
    file[20 + 25] = 64;
    file[20 + 29] = SAMPLE / 2;
    make_smallest(file);
    file[1080] = (uint8_t)('0' + channels);
    memcpy(file + 1081, "CHN", 3);
    memset(file + length - SAMPLE, LOUD, SAMPLE);
}

static void put(const uint8_t *more, size_t count) {
    memcpy(stream + bytes, more, count);
    bytes += count;
}

/* A note on the first and the last channel at tempo 255, two ticks that hold it, and one at tempo 125 that starts the first again. */
static void make_stream(uint8_t version, uint8_t channels) {
    static const uint8_t NOTE[] = {1, 0x40, 1, 0xAC, 1, 0}, HELD[] = {0, 255}, AGAIN[] = {1, 125}, COUNT[] = {0, 0, 0, TICKS};
    const uint8_t both[] = {(uint8_t)(1 | 1 << (channels - 1)), 255};
    bytes = VERSION;
    put(&version, 1);
    if (version >= COUNTED_VERSION) put(&channels, 1);
    put(COUNT, sizeof COUNT);
    header = bytes;
    put(both, sizeof both), put(NOTE, sizeof NOTE), put(NOTE, sizeof NOTE);
    put(HELD, sizeof HELD), put(HELD, sizeof HELD);
    put(AGAIN, sizeof AGAIN), put(NOTE, sizeof NOTE);
    memset(stream, 0, VERSION);
    stream[VERSION - 1] = (uint8_t)(bytes - VERSION);
    CHECK(bytes == header + RECORDS_END);
}

static void feed(const uint8_t *from, size_t count, int16_t *to, size_t numbers) {
    lampthistle_board_feed(file, length, board.cell, from, count, to, numbers, answer);
}

/* The board after the first bytes of the stream. */
static void begin_with(size_t count) {
    lampthistle_board_fresh(board.cell);
    feed(stream, count, out, NUMBERS);
    CHECK(answer[LAMPTHISTLE_NUMBER] == LAMPTHISTLE_ACCEPTED);
    CHECK(answer[LAMPTHISTLE_TAKEN] == count);
}

/* Both calls answer this, and neither changes board or output. */
static void check_refused(uint64_t number, uint64_t place, int line) {
    const lampthistle_board before = board;
    memcpy(out, filled, sizeof out);
    feed(stream, bytes, out, NUMBERS);
    check_answer(answer, number, place, 0, line);
    check(answer[LAMPTHISTLE_TAKEN] == 0, "no byte is taken", line);
    feed(NULL, 0, NULL, 0);
    check_answer(answer, number, place, 0, line);
    lampthistle_board_close(file, length, board.cell, answer);
    check_answer(answer, number, place, 0, line);
    check(memcmp(&board, &before, sizeof board) == 0, "the board stays", line);
    check(memcmp(out, filled, sizeof out) == 0, "the output stays", line);
}

#define CHECK_REFUSED(number, place) check_refused(number, place, __LINE__)

/* Runs the checks for every version and channel count; version 3 alone has other counts than four. */
static void check_streams(void (*checks_of)(uint8_t version, uint8_t channels)) {
    static const uint8_t STREAMS[][2] = {{1, 4}, {2, 4}, {3, 4}, {3, 6}, {3, 8}};
    size_t k;
    memset(filled, FILLED, sizeof filled);
    for (k = 0; k < sizeof STREAMS / sizeof STREAMS[0]; k++) {
        make_module(STREAMS[k][1]);
        make_stream(STREAMS[k][0], STREAMS[k][1]);
        checks_of(STREAMS[k][0], STREAMS[k][1]);
    }
}

#endif
