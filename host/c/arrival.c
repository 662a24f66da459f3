/* The board that is fed, as a C and a C++ program use it: streams of each version and channel count cut in many ways, outputs of every
   kind of length, faults, and closing. */
#include "arriving.h"

/* The whole play, and where each tick begins in it. */
static int16_t whole[NUMBERS];
static size_t begin[TICKS + 1];

/* The ticks have 470, 471, 470 and 960 frames, by version 1 the second 470. */
static void play_whole(uint8_t version) {
    const size_t carried = version > 1 ? 2 : 0;
    begin[1] = 2 * 470, begin[2] = 4 * 470 + carried, begin[3] = 6 * 470 + carried, begin[4] = begin[3] + 2 * 960;
    lampthistle_play_stream(stream, bytes, file, length, whole, NUMBERS, answer);
    CHECK_ANSWER(answer, LAMPTHISTLE_ACCEPTED, 0, TICKS);
    CHECK(whole[begin[TICKS] - 2] != 0);
}

static int is_board(const lampthistle_board *other) {
    return memcmp(&board, other, sizeof board) == 0;
}

/* ---- a stream that is accepted */
static void check_fresh(void) {
    size_t k, channel;
    memset(&board, FILLED, sizeof board);
    lampthistle_board_fresh(board.cell);
    for (k = 0; k < LAMPTHISTLE_BOARD_FIRST_VOICE; k++) CHECK(board.cell[k] == 0);
    for (channel = 0; channel < LAMPTHISTLE_CHANNELS; channel++)
        for (k = LAMPTHISTLE_VOICE_SAMPLE; k <= LAMPTHISTLE_VOICE_STOPPED; k++)
            CHECK(board.cell[LAMPTHISTLE_BOARD_VOICE_CELL(channel, k)] == (k == LAMPTHISTLE_VOICE_STOPPED));
    CHECK(LAMPTHISTLE_BOARD_VOICE_CELL(LAMPTHISTLE_CHANNELS, LAMPTHISTLE_VOICE_SAMPLE) == LAMPTHISTLE_BOARD_CELLS);
}

/* In pieces of so many bytes, with room for all: the frames are those of the whole, and the board that of one call. */
static void check_pieces(size_t piece) {
    lampthistle_board at_once;
    size_t at, tick = 0;
    begin_with(bytes);
    CHECK_ANSWER(answer, LAMPTHISTLE_ACCEPTED, 0, TICKS);
    CHECK(memcmp(out, whole, begin[TICKS] * sizeof *out) == 0);
    at_once = board;
    memcpy(out, filled, sizeof out);
    lampthistle_board_fresh(board.cell);
    for (at = 0; at < bytes; at += (size_t)answer[LAMPTHISTLE_TAKEN]) {
        const size_t part = bytes - at < piece ? bytes - at : piece;
        const lampthistle_board before = board;
        feed(stream + at, part, out + begin[tick], NUMBERS - begin[tick]);
        CHECK(answer[LAMPTHISTLE_NUMBER] == LAMPTHISTLE_ACCEPTED);
        CHECK(answer[LAMPTHISTLE_TAKEN] == part);
        if (answer[LAMPTHISTLE_COUNT] == 1 && board.cell[LAMPTHISTLE_BOARD_KEPT] < 2)
            CHECK(lampthistle_board_numbers(before.cell, board.cell) == begin[tick + 1] - begin[tick]);
        tick += (size_t)answer[LAMPTHISTLE_COUNT];
    }
    CHECK(tick == TICKS);
    CHECK(memcmp(out, whole, begin[TICKS] * sizeof *out) == 0);
    CHECK(memcmp(out + begin[TICKS], filled, (NUMBERS - begin[TICKS]) * sizeof *out) == 0);
    CHECK(is_board(&at_once));
}

/* Closing after the end changes nothing; a byte over it is a fault that counts itself in the place and is not taken. */
static void check_end(void) {
    const lampthistle_board over = board;
    lampthistle_board_close(file, length, board.cell, answer);
    CHECK_ANSWER(answer, LAMPTHISTLE_ACCEPTED, 0, 0);
    feed(NULL, 0, NULL, 0);
    CHECK_ANSWER(answer, LAMPTHISTLE_ACCEPTED, 0, 0);
    CHECK(is_board(&over));
    feed(stream, 1, out, NUMBERS);
    CHECK_ANSWER(answer, LAMPTHISTLE_REFUSED_STREAM_LENGTH, bytes + 1, 0);
    CHECK(answer[LAMPTHISTLE_TAKEN] == 0);
    CHECK_REFUSED(LAMPTHISTLE_REFUSED_STREAM_LENGTH, bytes + 1);
}

/* Without room, with one number and with one too few a tick's last byte is not taken; with its exact length the tick is played. */
static void check_rooms(void) {
    size_t at = 0, tick, k;
    lampthistle_board_fresh(board.cell);
    for (tick = 0; tick < TICKS; tick++) {
        const size_t numbers = begin[tick + 1] - begin[tick];
        const size_t small[] = {0, 1, numbers - 1};
        lampthistle_board waiting;
        memcpy(out, filled, sizeof out);
        for (k = 0; k < sizeof small / sizeof small[0]; k++) {
            feed(stream + at, bytes - at, small[k] == 0 ? NULL : out, small[k]);
            CHECK_ANSWER(answer, LAMPTHISTLE_ACCEPTED, 0, 0);
            CHECK(k == 0 || answer[LAMPTHISTLE_TAKEN] == 0);
            at += (size_t)answer[LAMPTHISTLE_TAKEN];
        }
        CHECK(memcmp(out, filled, sizeof out) == 0);
        waiting = board;
        feed(stream + at, 1, out, numbers);
        CHECK_ANSWER(answer, LAMPTHISTLE_ACCEPTED, 0, 1);
        CHECK(answer[LAMPTHISTLE_TAKEN] == 1);
        at++;
        CHECK(lampthistle_board_numbers(waiting.cell, board.cell) == numbers);
        CHECK(memcmp(out, whole + begin[tick], numbers * sizeof *out) == 0);
        CHECK(memcmp(out + numbers, filled, (NUMBERS - numbers) * sizeof *out) == 0);
    }
    CHECK(at == bytes);
}

/* ---- faults and closing */
/* Closed at every byte before the end: 21 there, kept. A last byte that waits for room has not been taken. */
static void check_closed_short(void) {
    size_t at;
    for (at = 0; at < bytes; at++) {
        begin_with(at);
        lampthistle_board_close(file, length, board.cell, answer);
        CHECK_ANSWER(answer, LAMPTHISTLE_REFUSED_STREAM_LENGTH, at, 0);
        CHECK(board.cell[LAMPTHISTLE_BOARD_FAULT_NUMBER] == LAMPTHISTLE_REFUSED_STREAM_LENGTH);
        CHECK_REFUSED(LAMPTHISTLE_REFUSED_STREAM_LENGTH, at);
    }
    lampthistle_board_fresh(board.cell);
    feed(stream, bytes, out, begin[TICKS] - 1);
    CHECK_ANSWER(answer, LAMPTHISTLE_ACCEPTED, 0, TICKS - 1);
    CHECK(answer[LAMPTHISTLE_TAKEN] == bytes - 1);
    lampthistle_board_close(file, length, board.cell, answer);
    CHECK_ANSWER(answer, LAMPTHISTLE_REFUSED_STREAM_LENGTH, bytes - 1, 0);
    CHECK_REFUSED(LAMPTHISTLE_REFUSED_STREAM_LENGTH, bytes - 1);
}

/* A byte of the stream is made another: the fault, after so many ticks, whose frames stand; then it is repeated. */
static void check_fault(size_t at, uint8_t byte, uint64_t number, uint64_t place, uint64_t ticks, uint64_t taken) {
    const uint8_t good = stream[at];
    stream[at] = byte;
    memcpy(out, filled, sizeof out);
    lampthistle_board_fresh(board.cell);
    feed(stream, bytes, out, NUMBERS);
    CHECK_ANSWER(answer, number, place, ticks);
    CHECK(answer[LAMPTHISTLE_TAKEN] == taken);
    CHECK(memcmp(out, whole, begin[ticks] * sizeof *out) == 0);
    CHECK(memcmp(out + begin[ticks], filled, (NUMBERS - begin[ticks]) * sizeof *out) == 0);
    CHECK_REFUSED(number, place);
    stream[at] = good;
}

/* One of each kind, by the byte that shows it. */
static void check_faults(uint8_t version, uint8_t channels) {
    const size_t last = header + LAST;
    check_fault(3, 0, LAMPTHISTLE_REFUSED_STREAM_LENGTH, 4, 0, 4);
    check_fault(VERSION, 9, LAMPTHISTLE_REFUSED_STREAM_VERSION, VERSION, 0, 5);
    if (version >= COUNTED_VERSION) check_fault(5, 5, LAMPTHISTLE_REFUSED_CHANNEL_COUNT, VERSION, 0, 6);
    check_fault(header + 1, 31, LAMPTHISTLE_REFUSED_RECORD, header, 0, header + 2);  /* tempo */
    check_fault(header + 2, 32, LAMPTHISTLE_REFUSED_RECORD, header, 0, header + 3);  /* sample */
    check_fault(header + 3, 65, LAMPTHISTLE_REFUSED_RECORD, header, 0, header + 4);  /* volume */
    check_fault(header + 4, 255, LAMPTHISTLE_REFUSED_RECORD, header, 0, header + 6); /* period, by its second byte */
    check_fault(header + 6, 2, LAMPTHISTLE_REFUSED_RECORD, header, 0, header + 7);   /* start */
    if (channels < LAMPTHISTLE_CHANNELS)
        check_fault(header + SECOND, 1 << 7, LAMPTHISTLE_REFUSED_RECORD, header + SECOND, 1, header + SECOND + 1); /* channels */
    check_fault(last + 1, 0, LAMPTHISTLE_REFUSED_RECORD, last, TICKS - 1, last + 2);
    /* A tick too few leaves a byte over, one too many shows at the end, after the last; a byte too few leaves the last record open. */
    check_fault(header - 1, TICKS - 1, LAMPTHISTLE_REFUSED_RECORD, last, TICKS - 1, last + 1);
    check_fault(header - 1, TICKS + 1, LAMPTHISTLE_REFUSED_RECORD, bytes, TICKS, bytes);
    check_fault(3, (uint8_t)(bytes - 5), LAMPTHISTLE_REFUSED_RECORD, last, TICKS - 1, bytes - 1);
}

static void check_stream(uint8_t version, uint8_t channels) {
    static const size_t PIECES[] = {1, 2, 3, 5, 7, 13, 31, MOST_BYTES};
    size_t k;
    play_whole(version);
    check_fresh();
    for (k = 0; k < sizeof PIECES / sizeof PIECES[0]; k++) check_pieces(PIECES[k]);
    check_end();
    check_rooms();
    check_closed_short();
    check_faults(version, channels);
}

int main(void) {
    check_streams(check_stream);
    return checked("arrival");
}
