/* stack MODULE: how much stack each call takes, which must not be more than the header says of it. Each call is made on a thread whose stack
   was filled with a pattern; what it took is what is no longer the pattern, less what a call that does nothing takes. The paths are
   those of a module that plays, from its first tick to its last, of its stream, and of each call's refusal. */
#define _POSIX_C_SOURCE 200809L
#include "lampthistle.h"
#include <pthread.h>
#include <stdio.h>
#include <stdlib.h>
#include <string.h>

enum { STACK = 1 << 20, PATTERN = 0xA5, MODULE = 1 << 20, TICKS = 1500, NUMBERS = 1 << 22, ROOM = 1 << 20 };
enum { TOUCHES = LAMPTHISTLE_MOST_TOUCHES, FROM = TICKS / 2 };

static uint8_t stack[STACK] __attribute__((aligned(4096)));
static uint8_t module[MODULE], room[ROOM];
static size_t module_length, stream_length;
static int16_t out[NUMBERS];
static float floats[NUMBERS], pair[2];
static uint32_t pair_tick;
static uint32_t zeros[TOUCHES], clocks[TOUCHES], answers[TOUCHES];
static lampthistle_state state;
static lampthistle_board board;
static uint64_t answer[LAMPTHISTLE_FEED_CELLS];

static void *nothing(void *none) {
    return none;
}

static void *judge(void *none) {
    lampthistle_judge(module, module_length, answer);
    return none;
}

static void *channels(void *none) {
    lampthistle_channels(module, module_length);
    return none;
}

static void *fresh(void *none) {
    lampthistle_fresh(state.cell);
    return none;
}

static void *play(void *none) {
    lampthistle_play(module, module_length, state.cell, TICKS, out, NUMBERS, answer);
    return none;
}

static void *play_floats(void *none) {
    lampthistle_play_floats(module, module_length, state.cell, TICKS, LAMPTHISTLE_STEREO, floats, NUMBERS, pair, &pair_tick, answer);
    return none;
}

static void *touch(void *none) {
    lampthistle_touch(module, module_length, state.cell, 0, state.cell[LAMPTHISTLE_CLOCK], 0, answer);
    return none;
}

static void *touch_burst(void *none) {
    size_t k;
    for (k = 0; k < TOUCHES; k++) clocks[k] = state.cell[LAMPTHISTLE_CLOCK];
    lampthistle_touch_burst(module, module_length, state.cell, zeros, TOUCHES, clocks, TOUCHES, zeros, TOUCHES, answers, TOUCHES, answer);
    return none;
}

static void *change_page(void *none) {
    lampthistle_change_page(module, module_length, state.cell, answer);
    return none;
}

static void *why_quiet(void *none) {
    lampthistle_why_quiet(module, module_length, state.cell, 1, answer);
    return none;
}

static void *translate(void *none) {
    lampthistle_translate(module, module_length, TICKS, room, ROOM, answer);
    if (answer[LAMPTHISTLE_NUMBER] == LAMPTHISTLE_ACCEPTED) stream_length = (size_t)answer[LAMPTHISTLE_COUNT];
    return none;
}

static void *play_stream(void *none) {
    lampthistle_play_stream(room, stream_length, module, module_length, out, NUMBERS, answer);
    return none;
}

static void *play_stream_floats(void *none) {
    lampthistle_play_stream_floats(room, stream_length, module, module_length, LAMPTHISTLE_MONO, floats, NUMBERS, pair, &pair_tick, answer);
    return none;
}

static void *play_stream_from(void *none) {
    lampthistle_play_stream_from(room, stream_length, module, module_length, FROM, out, NUMBERS, answer);
    return none;
}

static void *play_stream_floats_from(void *none) {
    lampthistle_play_stream_floats_from(room, stream_length, module, module_length, FROM, LAMPTHISTLE_STEREO, floats, NUMBERS, pair,
                                        &pair_tick, answer);
    return none;
}

static void *board_fresh(void *none) {
    lampthistle_board_fresh(board.cell);
    return none;
}

static void *board_feed(void *none) {
    lampthistle_board_feed(module, module_length, board.cell, room, stream_length, out, NUMBERS, answer);
    return none;
}

static void *board_close(void *none) {
    lampthistle_board_close(module, module_length, board.cell, answer);
    return none;
}

/* The bytes of a stack that grows down which are no longer the pattern. */
static size_t taken(void *(*call)(void *)) {
    pthread_attr_t about;
    pthread_t thread;
    size_t kept = 0;
    memset(stack, PATTERN, sizeof stack);
    if (pthread_attr_init(&about) || pthread_attr_setstack(&about, stack, sizeof stack) || pthread_create(&thread, &about, call, NULL) ||
        pthread_join(thread, NULL))
        exit(2);
    pthread_attr_destroy(&about);
    while (kept < sizeof stack && stack[kept] == PATTERN) kept++;
    return sizeof stack - kept;
}

static size_t measure(const char *name, void *(*call)(void *)) {
    size_t bytes = taken(call) - taken(nothing);
    printf("  %-23s %6lu bytes, answer %lu\n", name, (unsigned long)bytes, (unsigned long)answer[LAMPTHISTLE_NUMBER]);
    return bytes;
}

/* All calls; whether each takes what it may. */
static int measure_all(void) {
    static const struct {
        const char *name;
        void *(*call)(void *);
    } CALLS[] = {{"fresh", fresh}, {"judge", judge}, {"channels", channels}, {"play", play}, {"why_quiet", why_quiet}, {"touch", touch},
                 {"touch_burst", touch_burst}, {"change_page", change_page}, {"translate", translate}, {"play_stream", play_stream},
                 {"play_stream_from", play_stream_from}, {"board_fresh", board_fresh}, {"board_feed", board_feed},
                 {"board_close", board_close}, {"board_feed over the end", board_feed}},
      FLOATS[] = {{"play_floats", play_floats}, {"play_stream_floats", play_stream_floats},
                  {"play_stream_floats_from", play_stream_floats_from}};
    size_t most = 0, most_floats = 0, bytes, k;
    for (k = 0; k < sizeof CALLS / sizeof CALLS[0]; k++) {
        bytes = measure(CALLS[k].name, CALLS[k].call);
        if (bytes > most) most = bytes;
    }
    for (k = 0; k < sizeof FLOATS / sizeof FLOATS[0]; k++) {
        bytes = measure(FLOATS[k].name, FLOATS[k].call);
        if (bytes > most_floats) most_floats = bytes;
    }
    printf("stack: %lu bytes at most, %d allowed; of floats %lu, %d allowed\n", (unsigned long)most, LAMPTHISTLE_STACK_BYTES,
           (unsigned long)most_floats, LAMPTHISTLE_FLOAT_STACK_BYTES);
    return most <= LAMPTHISTLE_STACK_BYTES && most_floats <= LAMPTHISTLE_FLOAT_STACK_BYTES;
}

int main(int words, char **word) {
    FILE *in = words == 2 ? fopen(word[1], "rb") : NULL;
    int played, refused;
    if (!in) return fprintf(stderr, "usage: stack MODULE\n"), 2;
    module_length = fread(module, 1, sizeof module, in);
    fclose(in);
    /* The loader finds memcpy and memset at their first call, on the stack of that call: once before anything is measured. */
    lampthistle_fresh(state.cell);
    play(NULL);
    play_floats(NULL);
    translate(NULL);
    play_stream(NULL);
    play_stream_floats(NULL);
    play_stream_from(NULL);
    play_stream_floats_from(NULL);
    board_fresh(NULL);
    board_feed(NULL);
    played = measure_all();
    module[1080] = 0;
    refused = measure_all();
    return !played || !refused;
}
