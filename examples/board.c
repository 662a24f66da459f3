/* board STREAM MODULE OUT: a sound board in small. It plays a tick stream with the module's samples, piece by piece in one small buffer, and
   writes the frames to OUT as 16-bit numbers. It ends with 1 where stream or module is refused, and with 2 where a file cannot be read or
   written. */
#include "files.h"

/* Where a stream's version is, and its records without a channel count, which version 3 has. */
enum { STREAM_VERSION = 4, STREAM_START = 9, COUNTED_VERSION = 3, COMMAND_BYTES = 6, MODULE_REFUSALS = 10 };
/* The numbers of a piece: 32 ticks or more. Each piece runs the ticks before it once more, so a larger one takes less time. */
enum { PIECE = 32 * LAMPTHISTLE_TICK_NUMBERS };

typedef struct board {
    uint8_t *stream, *module;
    size_t stream_length, module_length;
    /* The next tick: its number and its record's place; the tempo of the tick before, and what it left over. */
    uint32_t tick;
    size_t at;
    unsigned tempo, remainder;
} board;

/* Goes on by so many ticks of an accepted stream, and gives their numbers, which follow from the tempos: what a tick leaves over goes to
   the next one at its tempo; by version 1 it is lost. */
static size_t pass(board *b, uint64_t ticks) {
    size_t numbers = 0;
    for (; ticks > 0; ticks--, b->tick++) {
        unsigned mask = b->stream[b->at], tempo = b->stream[b->at + 1];
        if (tempo != b->tempo || b->stream[STREAM_VERSION] == 1) b->remainder = 0;
        numbers += 2 * ((120000 + b->remainder) / tempo);
        b->remainder = (120000 + b->remainder) % tempo;
        b->tempo = tempo;
        for (b->at += 2; mask != 0; mask >>= 1) b->at += mask & 1 ? COMMAND_BYTES : 0;
    }
    return numbers;
}

/* Plays an accepted stream to its end; whether all of it could be written. */
static int play(board *b, FILE *out) {
    static int16_t piece[PIECE];
    uint64_t answer[LAMPTHISTLE_ANSWER_CELLS], frames = 0;
    for (b->at = STREAM_START + (b->stream[STREAM_VERSION] >= COUNTED_VERSION);;) {
        size_t numbers;
        lampthistle_play_stream_from(b->stream, b->stream_length, b->module, b->module_length, b->tick, piece, PIECE, answer);
        if (answer[LAMPTHISTLE_COUNT] == 0) break;
        numbers = pass(b, answer[LAMPTHISTLE_COUNT]);
        frames += numbers / 2;
        if (fwrite(piece, sizeof *piece, numbers, out) != numbers) return 0;
    }
    printf("%" PRIu32 " ticks, %" PRIu64 " frames\n", b->tick, frames);
    return 1;
}

static int run(board *b, char **word) {
    uint64_t answer[LAMPTHISTLE_ANSWER_CELLS];
    FILE *out;
    int written;
    b->stream = read_file(word[1], &b->stream_length);
    b->module = read_file(word[2], &b->module_length);
    if (!b->stream || !b->module) return CANNOT;

    /* A buffer of length 0 asks whether stream and module are accepted. */
    lampthistle_play_stream(b->stream, b->stream_length, b->module, b->module_length, NULL, 0, answer);
    if (answer[LAMPTHISTLE_NUMBER] != LAMPTHISTLE_ACCEPTED)
        return refused(answer[LAMPTHISTLE_NUMBER] < MODULE_REFUSALS ? word[2] : word[1], answer);
    out = fopen(word[3], "wb");
    if (!out) return cannot(word[3]);
    written = play(b, out);
    if (fclose(out) != 0 || !written) return cannot(word[3]);
    return DONE;
}

int main(int words, char **word) {
    static board b;
    int status;
    if (words != 4) return fprintf(stderr, "usage: board STREAM MODULE OUT\n"), CANNOT;
    status = run(&b, word);
    free(b.stream), free(b.module);
    return status;
}
