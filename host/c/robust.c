/* robust FOLDER: every call on the inputs 0.mod, 0.state, 0.stream, 1.mod, .. of a folder, to be run under a memory checker. Each input
   and each lent buffer is a block of exactly its length; a second run lends parts of larger blocks with guard cells on both sides.
   Where a length is 0 the pointer is null. Buffers are filled with a pattern. Refused calls must change nothing, but for a fault that
   feeding a board meets, and no call may change its inputs or a guard cell. */
#include "blocks.h"

enum { GUARD = 32 };

typedef struct input {
    block module, state, stream;
} input;

/* The ticks from which streams are played. */
static const uint32_t FROM[] = {0, 1, 2, 29, UINT32_MAX};

/* The bytes that a board is fed in one call. */
static const size_t PIECES[] = {1, 2, 7, 50, 100000};

static int load(const char *folder, int k, const char *kind, block *to) {
    char name[4096];
    long bytes;
    FILE *in;
    snprintf(name, sizeof name, "%s/%d.%s", folder, k, kind);
    in = fopen(name, "rb");
    if (!in) return 0;
    fseek(in, 0, SEEK_END);
    bytes = ftell(in);
    rewind(in);
    *to = new_block((size_t)bytes);
    if (to->at && fread(to->at, 1, to->bytes, in) != to->bytes) exit(2);
    return fclose(in) == 0;
}

static uint32_t from_of(int k) {
    return FROM[(size_t)k % (sizeof FROM / sizeof FROM[0])];
}

/* The calls that write a buffer, on a part of a block. */
static void buffers(const input *in, int k, size_t numbers, size_t guard) {
    uint64_t answer[LAMPTHISTLE_ANSWER_CELLS];
    uint32_t state[LAMPTHISTLE_STATE_CELLS];
    size_t bytes = numbers * sizeof(int16_t);
    block out = new_block(bytes + 2 * guard), board = new_block(bytes + 2 * guard), room = new_block(numbers + 2 * guard);

    memcpy(state, in->state.at, sizeof state);
    lampthistle_play(in->module.at, in->module.bytes, state, 3, (int16_t *)(void *)within(out, guard), numbers, answer);
    count(answer, k);
    check(kept(out, guard, answer[LAMPTHISTLE_NUMBER] == 0 ? bytes : 0), "play wrote outside", k);
    check(answer[LAMPTHISTLE_NUMBER] == 0 || memcmp(state, in->state.at, sizeof state) == 0, "a refused play changed the state", k);

    lampthistle_play_stream(in->stream.at, in->stream.bytes, in->module.at, in->module.bytes, (int16_t *)(void *)within(board, guard),
                            numbers, answer);
    count(answer, k);
    check(kept(board, guard, answer[LAMPTHISTLE_NUMBER] == 0 ? bytes : 0), "play_stream wrote outside", k);

    refill(board);
    lampthistle_play_stream_from(in->stream.at, in->stream.bytes, in->module.at, in->module.bytes, from_of(k),
                                 (int16_t *)(void *)within(board, guard), numbers, answer);
    count(answer, k);
    check(kept(board, guard, answer[LAMPTHISTLE_COUNT] == 0 ? 0 : bytes), "play_stream_from wrote outside", k);

    lampthistle_translate(in->module.at, in->module.bytes, 5, within(room, guard), numbers, answer);
    count(answer, k);
    check(kept(room, guard, answer[LAMPTHISTLE_COUNT]), "translate wrote outside", k);
    free(out.at), free(board.at), free(room.at);
}

/* Feeds a board, which is a block of its own, so many bytes in a block of theirs with an output; how many were taken. */
static size_t feed(const input *in, int k, uint32_t *board, size_t from, size_t bytes, size_t numbers, size_t guard) {
    uint64_t answer[LAMPTHISTLE_FEED_CELLS];
    block piece = new_block(bytes), out = new_block(numbers * sizeof(int16_t) + 2 * guard);
    if (bytes > 0) memcpy(piece.at, in->stream.at + from, bytes);
    lampthistle_board_feed(in->module.at, in->module.bytes, board, piece.at, bytes, (int16_t *)(void *)within(out, guard), numbers, answer);
    count_fed(answer, k);
    check(answer[LAMPTHISTLE_TAKEN] <= bytes, "board_feed took more than there was", k);
    check(kept(out, guard, answer[LAMPTHISTLE_COUNT] == 0 ? 0 : numbers * sizeof(int16_t)), "board_feed wrote outside", k);
    check(piece.at == NULL || memcmp(piece.at, in->stream.at + from, bytes) == 0, "board_feed changed its bytes", k);
    free(piece.at), free(out.at);
    return (size_t)answer[LAMPTHISTLE_TAKEN];
}

/* A board that is fed the stream in pieces of one length, until it takes no more, and closed; then one of a state's numbers. */
static void boards(const input *in, int k, size_t numbers, size_t guard) {
    uint64_t answer[LAMPTHISTLE_ANSWER_CELLS];
    block board = new_block(sizeof(lampthistle_board)), before = new_block(sizeof(lampthistle_board));
    uint32_t *cells = (uint32_t *)(void *)board.at;
    size_t at = 0, took = 1, piece = PIECES[(size_t)k % (sizeof PIECES / sizeof PIECES[0])];
    lampthistle_board_fresh(cells);
    for (; at < in->stream.bytes && took > 0; at += took)
        took = feed(in, k, cells, at, in->stream.bytes - at < piece ? in->stream.bytes - at : piece, numbers, guard);
    lampthistle_board_close(in->module.at, in->module.bytes, cells, answer);
    count(answer, k);
    memcpy(before.at, board.at, board.bytes);
    if (answer[LAMPTHISTLE_NUMBER] != 0) {
        check(feed(in, k, cells, 0, in->stream.bytes, numbers, guard) == 0, "a closed board took bytes", k);
        check(memcmp(board.at, before.at, board.bytes) == 0, "a refused call changed the board", k);
    }
    memcpy(cells, in->state.at, board.bytes);
    feed(in, k, cells, 0, in->stream.bytes, numbers, guard);
    free(board.at), free(before.at);
}

/* The calls that write floats, on a part of a block, with the record in blocks of their own: left and right, and its tick. */
static void floats(const input *in, int k, size_t numbers, size_t guard) {
    uint64_t answer[LAMPTHISTLE_ANSWER_CELLS];
    uint32_t state[LAMPTHISTLE_STATE_CELLS], sides = (uint32_t)(k % 4);
    size_t bytes = numbers * sizeof(float);
    block out = new_block(bytes + 2 * guard), board = new_block(bytes + 2 * guard);
    block pair = new_block(2 * sizeof(float)), tick = new_block(sizeof(uint32_t));
    float *left = (float *)(void *)pair.at;
    uint32_t *pair_tick = (uint32_t *)(void *)tick.at;

    memcpy(state, in->state.at, sizeof state);
    lampthistle_play_floats(in->module.at, in->module.bytes, state, 3, sides, (float *)(void *)within(out, guard), numbers, left, pair_tick,
                            answer);
    count(answer, k);
    check(kept(out, guard, answer[LAMPTHISTLE_NUMBER] == 0 ? bytes : 0), "play_floats wrote outside", k);
    check(answer[LAMPTHISTLE_NUMBER] == 0 || memcmp(state, in->state.at, sizeof state) == 0, "a refused play_floats changed the state", k);
    check((answer[LAMPTHISTLE_COUNT] == 0) == (kept(pair, 0, 0) && kept(tick, 0, 0)), "play_floats and the record", k);
    refill(pair), refill(tick);

    lampthistle_play_stream_floats(in->stream.at, in->stream.bytes, in->module.at, in->module.bytes, sides,
                                   (float *)(void *)within(board, guard), numbers, left, pair_tick, answer);
    count(answer, k);
    check(kept(board, guard, answer[LAMPTHISTLE_NUMBER] == 0 ? bytes : 0), "play_stream_floats wrote outside", k);
    check((answer[LAMPTHISTLE_COUNT] == 0) == (kept(pair, 0, 0) && kept(tick, 0, 0)), "play_stream_floats and the record", k);
    refill(board), refill(pair), refill(tick);

    lampthistle_play_stream_floats_from(in->stream.at, in->stream.bytes, in->module.at, in->module.bytes, from_of(k), sides,
                                        (float *)(void *)within(board, guard), numbers, left, pair_tick, answer);
    count(answer, k);
    check(kept(board, guard, answer[LAMPTHISTLE_COUNT] == 0 ? 0 : bytes), "play_stream_floats_from wrote outside", k);
    check((answer[LAMPTHISTLE_COUNT] == 0) == (kept(pair, 0, 0) && kept(tick, 0, 0)), "play_stream_floats_from and the record", k);
    free(out.at), free(board.at), free(pair.at), free(tick.at);
}

/* A list of numbers, of which each is n, in a block with guard cells. */
static block new_list(size_t numbers, size_t guard, uint32_t n) {
    block list = new_block(numbers * sizeof n + 2 * guard);
    uint32_t *at = (uint32_t *)(void *)within(list, guard);
    for (size_t i = 0; i < numbers; i++) at[i] = n;
    return list;
}

/* n, one more, one less if there is one, or none. */
static size_t about(size_t n, int which) {
    return which == 0 ? n : which == 1 ? n + 1 : which == 2 && n > 0 ? n - 1 : 0;
}

/* A burst of so many touches, of which one list and the answers are as long, longer or shorter. */
static void burst(const input *in, int k, size_t touches, size_t guard) {
    uint64_t answer[LAMPTHISTLE_ANSWER_CELLS];
    uint32_t state[LAMPTHISTLE_STATE_CELLS];
    size_t made = about(touches, k / 24 % 3), room = about(touches, k / 6 % 4);
    block pages, mades, positions, answers;
    memcpy(state, in->state.at, sizeof state);
    pages = new_list(touches, guard, state[LAMPTHISTLE_PAGE]);
    mades = new_list(made, guard, state[LAMPTHISTLE_CLOCK]);
    positions = new_list(touches, guard, (uint32_t)k % 2);
    answers = new_block(room * sizeof(uint32_t) + 2 * guard);

    lampthistle_touch_burst(in->module.at, in->module.bytes, state, (uint32_t *)(void *)within(pages, guard), touches,
                            (uint32_t *)(void *)within(mades, guard), made, (uint32_t *)(void *)within(positions, guard), touches,
                            (uint32_t *)(void *)within(answers, guard), room, answer);
    count(answer, k);
    check(kept(answers, guard, answer[LAMPTHISTLE_COUNT] * sizeof(uint32_t)), "touch_burst wrote outside", k);
    check(answer[LAMPTHISTLE_NUMBER] == 0 || memcmp(state, in->state.at, sizeof state) == 0, "a refused burst changed the state", k);
    free(pages.at), free(mades.at), free(positions.at), free(answers.at);
}

/* The calls that are given a state, which is a block of its own. */
static void states(const input *in, int k) {
    uint64_t answer[LAMPTHISTLE_ANSWER_CELLS];
    block state = new_block(sizeof(lampthistle_state));
    uint32_t *cells = (uint32_t *)(void *)state.at;
    memcpy(cells, in->state.at, state.bytes);
    lampthistle_judge(in->module.at, in->module.bytes, answer);
    count(answer, k);
    check((lampthistle_channels(in->module.at, in->module.bytes) == 0) ==
              (answer[LAMPTHISTLE_NUMBER] == LAMPTHISTLE_REFUSED_SHORT_FILE || answer[LAMPTHISTLE_NUMBER] == LAMPTHISTLE_REFUSED_TAG),
          "channels and judge", k);
    for (uint32_t channel = 0; channel <= LAMPTHISTLE_CHANNELS + 1; channel++) {
        lampthistle_why_quiet(in->module.at, in->module.bytes, cells, channel, answer);
        count(answer, k);
        check(answer[LAMPTHISTLE_COUNT] <= LAMPTHISTLE_CAUSE_SOUNDS, "an unknown cause", k);
    }
    check(memcmp(cells, in->state.at, state.bytes) == 0, "why_quiet changed the state", k);
    lampthistle_touch(in->module.at, in->module.bytes, cells, cells[LAMPTHISTLE_PAGE], cells[LAMPTHISTLE_CLOCK], 0, answer);
    count(answer, k);
    check(answer[LAMPTHISTLE_NUMBER] == 0 || memcmp(cells, in->state.at, state.bytes) == 0, "a refused touch changed the state", k);
    memcpy(cells, in->state.at, state.bytes);
    lampthistle_change_page(in->module.at, in->module.bytes, cells, answer);
    count(answer, k);
    check(answer[LAMPTHISTLE_NUMBER] == 0 || memcmp(cells, in->state.at, state.bytes) == 0, "a refused page change changed the state", k);
    lampthistle_fresh(cells);
    check(cells[LAMPTHISTLE_SPEED] == 6, "fresh", k);
    free(state.at);
}

int main(int words, char **word) {
    static const size_t LENGTHS[] = {0, 1, 939, 1920, 3001, 7500}, TOUCHES[] = {0, 1, 2, 63, 64, 65};
    int k = 0;
    input in;
    if (words != 2) return fprintf(stderr, "usage: robust FOLDER\n"), 2;
    for (; load(word[1], k, "mod", &in.module) && load(word[1], k, "state", &in.state) && load(word[1], k, "stream", &in.stream); k++) {
        uint32_t before = sum(in.module) ^ sum(in.stream) ^ sum(in.state);
        size_t numbers = LENGTHS[k % (sizeof LENGTHS / sizeof LENGTHS[0])], touches = TOUCHES[k % (sizeof TOUCHES / sizeof TOUCHES[0])];
        states(&in, k);
        burst(&in, k, touches, 0);
        burst(&in, k, touches, GUARD);
        buffers(&in, k, numbers, 0);
        buffers(&in, k, numbers, GUARD);
        boards(&in, k, numbers, 0);
        boards(&in, k, numbers, GUARD);
        floats(&in, k, numbers, 0);
        floats(&in, k, numbers, GUARD);
        check(before == (sum(in.module) ^ sum(in.stream) ^ sum(in.state)), "an input was changed", k);
        free(in.module.at), free(in.state.at), free(in.stream.at);
    }
    printf("robust: %d inputs, %d faults; answers by number:", k, faults);
    for (int number = 0; number < KINDS; number++)
        if (answers[number]) printf(" %d: %lu", number, answers[number]);
    puts("");
    return k == 0 || faults != 0;
}
