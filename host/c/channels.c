/* Modules of four, six and eight channels, as a C and a C++ program meet them. */
#include "check.h"

enum { PATTERNS = 1084, CHANNEL_BYTES = 256, SAMPLE = 8, LOUD = 100, TICK = 2 * 960, NOTE = 428 };
/* A stream's version and channel count, its header's bytes, and those of a record with one channel. */
enum { VERSION = 4, COUNT = 5, HEADER = 10, RECORD = 8 };

static const struct {
    const char *tag;
    size_t channels;
} TAGS[] = {{"M.K.", 4}, {"4CHN", 4}, {"6CHN", 6}, {"8CHN", 8}};
enum { TAG_COUNT = sizeof TAGS / sizeof TAGS[0] };

static uint8_t file[PATTERNS + CHANNEL_BYTES * LAMPTHISTLE_CHANNELS + SAMPLE];
static size_t length;
static uint64_t answer[LAMPTHISTLE_ANSWER_CELLS];

/* A module of so many channels with one empty pattern and sample 1: loud bytes, looped, volume 64. */
static void make_module(const char *tag, size_t channels) {
    memset(file, 0, sizeof file);
    length = PATTERNS + CHANNEL_BYTES * channels + SAMPLE;
    file[20 + 23] = SAMPLE / 2;
    file[20 + 25] = 64;
    file[20 + 29] = SAMPLE / 2;
    make_smallest(file);
    memcpy(file + 1080, tag, 4);
    memset(file + length - SAMPLE, LOUD, SAMPLE);
}

/* The sample's note in the first row of a channel, from 0. */
static void put_note(size_t channel) {
    memcpy(file + PATTERNS + 4 * channel, "\x01\xAC\x10\x00", 4);
}

/* The tag alone says the count; a byte less of the file is judged, too. */
static void check_count(size_t channels) {
    CHECK(lampthistle_channels(file, length) == channels);
    CHECK(lampthistle_channels(file, PATTERNS) == channels);
    CHECK(lampthistle_channels(file, PATTERNS - 1) == 0);
    lampthistle_judge(file, length, answer);
    CHECK_ANSWER(answer, LAMPTHISTLE_ACCEPTED, 0, 0);
    lampthistle_judge(file, length - 1, answer);
    CHECK_ANSWER(answer, LAMPTHISTLE_REFUSED_CUT_FILE, length - 1, 0);
}

/* Tags that are none of ours. */
static void check_others(void) {
    static const char *const OTHERS[] = {"M!K!", "FLT4", "FLT8", "2CHN", "6CHM", "8chn", "10CH", "CD81"};
    size_t k;
    for (k = 0; k < sizeof OTHERS / sizeof OTHERS[0]; k++) {
        make_module(OTHERS[k], LAMPTHISTLE_CHANNELS);
        CHECK(lampthistle_channels(file, length) == 0);
        lampthistle_judge(file, length, answer);
        CHECK_ANSWER(answer, LAMPTHISTLE_REFUSED_TAG, 1080, 0);
    }
    CHECK(lampthistle_channels(NULL, 0) == 0);
}

/* A note on each channel alone: 1, 4, 5 and 8 are left, 2, 3, 6 and 7 right; four channels are doubled. */
static void check_sides(const char *tag, size_t channels) {
    static const int RIGHT[LAMPTHISTLE_CHANNELS] = {0, 1, 1, 0, 0, 1, 1, 0};
    static int16_t out[TICK];
    const int16_t loud = (int16_t)(64 * LOUD * (channels == 4 ? 2 : 1));
    lampthistle_state state;
    size_t channel;
    for (channel = 0; channel < channels; channel++) {
        make_module(tag, channels);
        put_note(channel);
        lampthistle_fresh(state.cell);
        lampthistle_play(file, length, state.cell, 1, out, TICK, answer);
        CHECK_ANSWER(answer, LAMPTHISTLE_ACCEPTED, 0, 1);
        CHECK(out[TICK - 2 + RIGHT[channel]] == loud);
        CHECK(out[TICK - 1 - RIGHT[channel]] == 0);
    }
}

/* All channels at their loudest: no side leaves 16 bits. */
static void check_loudest(size_t channels) {
    static int16_t out[TICK];
    lampthistle_state state;
    size_t channel;
    for (channel = 0; channel < channels; channel++) put_note(channel);
    memset(file + length - SAMPLE, 128, SAMPLE);
    lampthistle_fresh(state.cell);
    lampthistle_play(file, length, state.cell, 1, out, TICK, answer);
    CHECK_ANSWER(answer, LAMPTHISTLE_ACCEPTED, 0, 1);
    CHECK(out[TICK - 1] == (channels == 6 ? -3 * 64 * 128 : INT16_MIN));
    CHECK(out[TICK - 2] == out[TICK - 1]);
}

/* Any cell of a channel, changed to a number that a channel in use may have: past the module's count it is refused, and stays. */
static void check_states(size_t channels) {
    lampthistle_state state, before;
    size_t channel;
    int which;
    for (channel = 0; channel < LAMPTHISTLE_CHANNELS; channel++) {
        for (which = 0; which <= LAMPTHISTLE_VOICE_VOLUME; which++) {
            const int period = which == LAMPTHISTLE_PERIOD || which == LAMPTHISTLE_TARGET || which == LAMPTHISTLE_VOICE_PERIOD;
            lampthistle_fresh(state.cell);
            state.cell[LAMPTHISTLE_CHANNEL_CELL(channel, which)] = period ? NOTE : 1;
            before = state;
            lampthistle_play(file, length, state.cell, 0, NULL, 0, answer);
            CHECK_ANSWER(answer, channel < channels ? LAMPTHISTLE_ACCEPTED : LAMPTHISTLE_REFUSED_STATE, 0, 0);
            CHECK(memcmp(&state, &before, sizeof state) == 0);
        }
    }
    /* A voice that runs. */
    for (channel = 0; channel < LAMPTHISTLE_CHANNELS; channel++) {
        lampthistle_fresh(state.cell);
        state.cell[LAMPTHISTLE_CHANNEL_CELL(channel, LAMPTHISTLE_VOICE_SAMPLE)] = 1;
        state.cell[LAMPTHISTLE_CHANNEL_CELL(channel, LAMPTHISTLE_VOICE_STOPPED)] = 0;
        lampthistle_change_page(file, length, state.cell, answer);
        CHECK_ANSWER(answer, channel < channels ? LAMPTHISTLE_ACCEPTED : LAMPTHISTLE_REFUSED_STATE, 0, 0);
    }
}

static void check_quiet(size_t channels) {
    lampthistle_state state;
    uint32_t channel;
    lampthistle_fresh(state.cell);
    for (channel = 0; channel <= LAMPTHISTLE_CHANNELS + 1; channel++) {
        const int there = channel >= 1 && channel <= channels;
        lampthistle_why_quiet(file, length, state.cell, channel, answer);
        CHECK_ANSWER(answer, there ? LAMPTHISTLE_ACCEPTED : LAMPTHISTLE_REFUSED_CHANNEL, 0, there ? LAMPTHISTLE_CAUSE_NO_SAMPLE : 0);
    }
}

/* One tick with a note on the last channel: its stream, byte by byte, and the board's sound. */
static void check_stream(const char *tag, size_t channels) {
    static int16_t board[TICK], player[TICK];
    uint8_t stream[HEADER + RECORD + 1] = {0}, expected[] = {0, 0, 0, 14, 3, 0, 0, 0, 0, 1, 0, 125, 1, 64, 1, 0xAC, 1, 0};
    lampthistle_state state;
    make_module(tag, channels);
    put_note(channels - 1);
    expected[COUNT] = (uint8_t)channels;
    expected[HEADER] = (uint8_t)(1 << (channels - 1));
    lampthistle_translate(file, length, 1, stream, sizeof stream, answer);
    CHECK_ANSWER(answer, LAMPTHISTLE_ACCEPTED, 0, sizeof expected);
    CHECK(memcmp(stream, expected, sizeof expected) == 0);
    lampthistle_fresh(state.cell);
    lampthistle_play(file, length, state.cell, 1, player, TICK, answer);
    lampthistle_play_stream(stream, sizeof expected, file, length, board, TICK, answer);
    CHECK_ANSWER(answer, LAMPTHISTLE_ACCEPTED, 0, 1);
    CHECK(memcmp(board, player, sizeof board) == 0);
}

/* Streams of every count and version, without a tick, for one module: 22 before 28, 28 before 23. */
static void check_refusals(size_t channels) {
    uint8_t counted[] = {0, 0, 0, 6, 3, 0, 0, 0, 0, 0}, old[] = {0, 0, 0, 5, 0, 0, 0, 0, 0}, bad[] = {0, 0, 0, 7, 3, 0, 0, 0, 0, 0, 0};
    unsigned count, version;
    for (count = 0; count <= UINT8_MAX; count++) {
        const int own = count == channels;
        counted[COUNT] = bad[COUNT] = (uint8_t)count;
        lampthistle_play_stream(counted, sizeof counted, file, length, NULL, 0, answer);
        CHECK_ANSWER(answer, own ? LAMPTHISTLE_ACCEPTED : LAMPTHISTLE_REFUSED_CHANNEL_COUNT, own ? 0 : VERSION, 0);
        lampthistle_play_stream(bad, sizeof bad, file, length, NULL, 0, answer);
        CHECK_ANSWER(answer, own ? LAMPTHISTLE_REFUSED_RECORD : LAMPTHISTLE_REFUSED_CHANNEL_COUNT, own ? HEADER : VERSION, 0);
    }
    for (version = 1; version <= 3; version++) {
        const int good = version < 3 && channels == 4;
        old[VERSION] = (uint8_t)version;
        lampthistle_play_stream(old, sizeof old, file, length, NULL, 0, answer);
        CHECK_ANSWER(answer, good ? LAMPTHISTLE_ACCEPTED : LAMPTHISTLE_REFUSED_CHANNEL_COUNT, good ? 0 : VERSION, 0);
    }
    counted[VERSION] = 4;
    lampthistle_play_stream(counted, sizeof counted, file, length, NULL, 0, answer);
    CHECK_ANSWER(answer, LAMPTHISTLE_REFUSED_STREAM_VERSION, VERSION, 0);
    lampthistle_play_stream(counted, sizeof counted - 1, file, length, NULL, 0, answer);
    CHECK_ANSWER(answer, LAMPTHISTLE_REFUSED_STREAM_LENGTH, sizeof counted - 1, 0);
}

int main(void) {
    size_t k;
    for (k = 0; k < TAG_COUNT; k++) {
        const size_t channels = TAGS[k].channels;
        make_module(TAGS[k].tag, channels);
        check_count(channels);
        check_states(channels);
        check_quiet(channels);
        check_refusals(channels);
        check_loudest(channels);
        check_sides(TAGS[k].tag, channels);
        check_stream(TAGS[k].tag, channels);
    }
    check_others();
    CHECK(strcmp(lampthistle_refusal_text(28), "the stream's channel count is not the module's, or version 3 is shorter than 10 bytes") == 0);
    return checked("channels");
}
