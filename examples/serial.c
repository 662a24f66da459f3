/* serial MODULE LINE OUT [WAIT]: a sound board's firmware in small, which plays a tick stream while it arrives over a serial line. LINE is
   a device, a pty or a FIFO, OUT takes the frames as 16-bit numbers; `-` is standard input and output. Where no tick is there for WAIT
   milliseconds, one block's time unless said otherwise, the block is filled up with silence, and the song goes on in the next. It ends
   with 1 where the module is refused or the stream has a fault, and with 2 where a file cannot be read or written, or the line not opened. */
#define _POSIX_C_SOURCE 200809L
#include "files.h"
#include <fcntl.h>
#include <poll.h>
#include <termios.h>
#include <unistd.h>

/* A block is what the sound driver takes at once: 512 frames, 10.67 ms. No stream needs more than 5,100 bytes a second (eight channels, 50
   bytes a tick, 102 ticks at tempo 255), so the ring holds 200 ms of the densest one. */
enum { BLOCK_NUMBERS = 2 * 512, BLOCK_MS = 11, RING_BYTES = 1024 };

/* The receive buffer. `received` is moved by the interrupt alone and `fed` by the main loop alone, so that neither waits for the other;
   on a board both are volatile. They count on without end: their difference is what waits. */
typedef struct ring {
    uint8_t byte[RING_BYTES];
    size_t received, fed;
} ring;

typedef struct serial {
    uint8_t *module;
    size_t length;
    int line, ended; /* the line's descriptor, and whether it has ended */
    int wait;
    ring arrived;
    lampthistle_board board;
    uint64_t answer[LAMPTHISTLE_FEED_CELLS]; /* the last one */
    int16_t tick[LAMPTHISTLE_TICK_NUMBERS];
    size_t taken, filled; /* numbers of `tick` that the driver has, and that there are */
    uint64_t stall_at, stall; /* since the line stalled: at which frame, and the frames of silence */
    uint64_t ticks, numbers, silence, stalls; /* so far; silence is in frames */
    FILE *out;
} serial;

/* ---- the line */
/* What the receive interrupt does: the bytes that are there go into the ring, as far as it has room; the rest waits in the line, as with
   a line that has flow control. Waits so many milliseconds for the first. Whether there was one. */
static int receive(serial *s, int wait) {
    ring *r = &s->arrived;
    const size_t at = r->received % RING_BYTES, free_bytes = RING_BYTES - (r->received - r->fed);
    const size_t part = free_bytes < RING_BYTES - at ? free_bytes : RING_BYTES - at;
    struct pollfd ready = {s->line, POLLIN, 0};
    ssize_t got;
    if (s->ended || part == 0 || poll(&ready, 1, wait) <= 0) return 0;
    got = read(s->line, r->byte + at, part);
    if (got > 0) r->received += (size_t)got;
    s->ended = got <= 0; /* an error, too: a pty gives one where its other side is closed */
    return got > 0;
}

/* A terminal's line hands on every byte as it is. Its speed is left to stty: 57,600 baud carry every stream. */
static void make_raw(int line) {
    struct termios about;
    if (tcgetattr(line, &about) != 0) return; /* no terminal */
    about.c_iflag = 0;
    about.c_oflag = 0;
    about.c_lflag = 0;
    about.c_cflag |= CS8 | CREAD | CLOCAL;
    about.c_cc[VMIN] = 1;
    about.c_cc[VTIME] = 0;
    tcsetattr(line, TCSANOW, &about);
}

/* ---- the board */
/* Feeds the next bytes of the ring, and lends so many numbers of `tick`. */
static void feed(serial *s, size_t bytes, size_t numbers) {
    ring *r = &s->arrived;
    const lampthistle_board before = s->board;
    lampthistle_board_feed(s->module, s->length, s->board.cell, r->byte + r->fed % RING_BYTES, bytes, s->tick, numbers, s->answer);
    r->fed += (size_t)s->answer[LAMPTHISTLE_TAKEN];
    if (s->answer[LAMPTHISTLE_COUNT] == 0) return;
    s->ticks++;
    s->taken = 0;
    s->filled = lampthistle_board_numbers(before.cell, s->board.cell);
}

static int has_fault(const serial *s) {
    return s->answer[LAMPTHISTLE_NUMBER] != LAMPTHISTLE_ACCEPTED;
}

/* Feeds until a tick is played, the ring is empty or a byte shows a fault; whether a tick was played. Without room the board takes a
   record up to its last byte. That byte alone is lent with room for any tick, so that a call never plays two, and the board before it
   and after it tells the tick's length. A fault can come with the tick: where it was the last that the stream's length allows. */
static int play_tick(serial *s) {
    const uint64_t ticks = s->ticks;
    while (s->arrived.received != s->arrived.fed && s->ticks == ticks && !has_fault(s)) {
        const size_t waits = s->arrived.received - s->arrived.fed, to_end = RING_BYTES - s->arrived.fed % RING_BYTES;
        const size_t part = waits < to_end ? waits : to_end;
        feed(s, part, 0);
        if (!has_fault(s) && s->answer[LAMPTHISTLE_TAKEN] < part) feed(s, 1, LAMPTHISTLE_TICK_NUMBERS);
    }
    return s->ticks != ticks;
}

/* Whether the board has taken all that the stream's first number declares. */
static int is_over(const lampthistle_board *b) {
    const uint64_t place = b->cell[LAMPTHISTLE_BOARD_PLACE_LOW] + ((uint64_t)b->cell[LAMPTHISTLE_BOARD_PLACE_HIGH] << 32);
    return place == UINT64_C(4) + b->cell[LAMPTHISTLE_BOARD_FOLLOW];
}

/* ---- the sound driver */
/* Moves numbers of the tick into a block; how many. */
static size_t take(serial *s, int16_t *block, size_t numbers) {
    size_t part = s->filled - s->taken;
    if (part > numbers) part = numbers;
    memcpy(block, s->tick + s->taken, part * sizeof *block);
    s->taken += part;
    return part;
}

/* Silence for the rest of a block, from this number of the whole sound on. The board is not told: its clock is the ticks, which wait for
   their bytes. */
static size_t be_silent(serial *s, int16_t *block, size_t numbers, uint64_t from) {
    if (s->stall == 0) s->stall_at = from / 2;
    memset(block, 0, numbers * sizeof *block);
    s->stall += numbers / 2;
    return numbers;
}

/* Says how long the line stalled, if it did, when it sounds again or ends. */
static void end_stall(serial *s) {
    if (s->stall == 0) return;
    fprintf(stderr, "stalled at frame %" PRIu64 ": %" PRIu64 " frames of silence\n", s->stall_at, s->stall);
    s->silence += s->stall;
    s->stalls++;
    s->stall = 0;
}

/* The driver's call: fills a block, tick by tick; less than a block at the end of the song or the line, or before a fault. Silence is put
   out between ticks alone, not before the first or after the last. */
static size_t pull(serial *s, int16_t *block) {
    size_t filled = 0;
    receive(s, 0);
    while (filled < BLOCK_NUMBERS) {
        filled += take(s, block + filled, BLOCK_NUMBERS - filled);
        if (filled == BLOCK_NUMBERS || has_fault(s)) break;
        if (play_tick(s)) {
            end_stall(s);
            continue;
        }
        if (has_fault(s) || receive(s, is_over(&s->board) ? BLOCK_MS : s->wait)) continue;
        if (s->ended || is_over(&s->board)) break;
        if (s->ticks > 0) filled += be_silent(s, block + filled, BLOCK_NUMBERS - filled, s->numbers + filled);
    }
    return filled;
}

/* Plays until the line ends, or is quiet after the song; whether all could be written. */
static int play_blocks(serial *s) {
    int16_t block[BLOCK_NUMBERS];
    size_t filled;
    do {
        filled = pull(s, block);
        s->numbers += filled;
        if (fwrite(block, sizeof *block, filled, s->out) != filled) return 0;
    } while (filled == BLOCK_NUMBERS);
    end_stall(s);
    fprintf(stderr, "%" PRIu64 " ticks, %" PRIu64 " frames, %" PRIu64 " of them silence; stalls: %" PRIu64 "\n", s->ticks, s->numbers / 2,
            s->silence, s->stalls);
    return fflush(s->out) == 0;
}

static int run(serial *s, char **word) {
    const char *name = word[2], *out = word[3];
    s->module = read_file(word[1], &s->length);
    if (!s->module) return CANNOT;
    lampthistle_judge(s->module, s->length, s->answer);
    if (has_fault(s)) return refused(word[1], s->answer);
    s->line = strcmp(name, "-") == 0 ? STDIN_FILENO : open(name, O_RDONLY | O_NOCTTY);
    if (s->line < 0) return cannot(name);
    make_raw(s->line);
    s->out = strcmp(out, "-") == 0 ? stdout : fopen(out, "wb");
    if (!s->out) return cannot(out);
    lampthistle_board_fresh(s->board.cell);
    if (!play_blocks(s)) return cannot(out);
    /* Short of the declared end closing is a fault, too; a fault that is kept is repeated. */
    lampthistle_board_close(s->module, s->length, s->board.cell, s->answer);
    return has_fault(s) ? refused(name, s->answer) : DONE;
}

int main(int words, char **word) {
    static serial s;
    int status;
    if (words != 4 && words != 5) return fprintf(stderr, "usage: serial MODULE LINE OUT [WAIT]\n"), CANNOT;
    s.line = -1;
    s.wait = words == 5 ? atoi(word[4]) : BLOCK_MS;
    status = run(&s, word);
    if (s.out) fclose(s.out);
    if (s.line >= 0) close(s.line);
    free(s.module);
    return status;
}
